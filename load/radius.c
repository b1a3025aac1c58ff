#include "radius.h"

#include <string.h>

const uint8_t no_authenticator[MD5_SIZE];

void secret_set(struct secret *secret, const char *text)
{
    secret->length = strnlen(text, sizeof secret->octets);
    memcpy(secret->octets, text, secret->length);
    hmac_prepare(&secret->key, secret->octets, secret->length);
}

void packet_start(struct packet *packet, uint8_t *octets, size_t room, enum code code,
                  uint8_t identifier)
{
    packet->octets = octets;
    packet->room = room;
    packet->length = HEADER_SIZE;
    octets[0] = (uint8_t)code;
    octets[1] = identifier;
}

size_t packet_add(struct packet *packet, enum type type, const void *value, size_t length)
{
    uint8_t *next = packet->octets + packet->length;

    if (length > 253 || packet->length + 2 + length > packet->room)
        return 0;
    next[0] = (uint8_t)type;
    next[1] = (uint8_t)(2 + length);
    memcpy(next + 2, value, length);
    packet->length += 2 + length;
    return packet->length - length;
}

void packet_end(struct packet *packet)
{
    packet->octets[2] = (uint8_t)(packet->length >> 8);
    packet->octets[3] = (uint8_t)packet->length;
}

size_t packet_length(const uint8_t *octets, size_t size)
{
    size_t length, at = HEADER_SIZE;

    if (size < HEADER_SIZE)
        return 0;
    length = (size_t)octets[2] << 8 | octets[3];
    if (length < HEADER_SIZE || length > LARGEST_PACKET || length > size)
        return 0;
    while (at < length) {
        if (length - at < 2 || octets[at + 1] < 2 || octets[at + 1] > length - at)
            return 0;
        at += octets[at + 1];
    }
    return length;
}

bool packet_next(const uint8_t *octets, size_t length, size_t *at, struct attribute *attribute)
{
    if (*at >= length)
        return false;
    attribute->type = octets[*at];
    attribute->length = (uint8_t)(octets[*at + 1] - 2);
    attribute->value = octets + *at + 2;
    *at += octets[*at + 1];
    return true;
}

bool packet_first(const uint8_t *octets, size_t length, enum type type,
                  struct attribute *attribute)
{
    size_t at = HEADER_SIZE;

    while (packet_next(octets, length, &at, attribute))
        if (attribute->type == type)
            return true;
    return false;
}

void packet_digest(const uint8_t *octets, size_t length, const uint8_t *authenticator,
                   const struct secret *secret, uint8_t result[MD5_SIZE])
{
    struct md5 digest;

    md5_start(&digest);
    md5_add(&digest, octets, AUTHENTICATOR_AT);
    md5_add(&digest, authenticator, MD5_SIZE);
    md5_add(&digest, octets + HEADER_SIZE, length - HEADER_SIZE);
    md5_add(&digest, secret->octets, secret->length);
    md5_finish(&digest, result);
}

void packet_seal(const uint8_t *octets, size_t length, size_t seal_at,
                 const uint8_t *authenticator, const struct hmac_key *key,
                 uint8_t result[MD5_SIZE])
{
    struct md5 digest;
    size_t after = seal_at + MD5_SIZE;

    hmac_start(&digest, key);
    md5_add(&digest, octets, AUTHENTICATOR_AT);
    md5_add(&digest, authenticator, MD5_SIZE);
    md5_add(&digest, octets + HEADER_SIZE, seal_at - HEADER_SIZE);
    md5_add(&digest, no_authenticator, MD5_SIZE);
    md5_add(&digest, octets + after, length - after);
    hmac_finish(&digest, key, result);
}

void hide_password(uint8_t password[PASSWORD_SIZE], const uint8_t *authenticator,
                   const struct secret *secret)
{
    struct md5 digest;
    uint8_t mask[MD5_SIZE];

    md5_start(&digest);
    md5_add(&digest, secret->octets, secret->length);
    md5_add(&digest, authenticator, MD5_SIZE);
    md5_finish(&digest, mask);
    for (size_t at = 0; at < PASSWORD_SIZE; at++)
        password[at] ^= mask[at];
}

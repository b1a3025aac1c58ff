#include "exchange.h"

const char *const finding_names[FINDINGS] = {"answered", "malformed",   "unsigned",
                                             "unsealed", "other_realm", "other_password"};

/* Decimal digits at `*at`, before `length`; false where there are none or too many. */
static bool read_digits(const uint8_t *octets, size_t length, size_t *at, unsigned *value)
{
    size_t begin = *at;

    *value = 0;
    while (*at < length && *at < begin + 8 && octets[*at] >= '0' && octets[*at] <= '9')
        *value = *value * 10 + (octets[(*at)++] - '0');
    return *at > begin;
}

/* Reads `u<user>@r<realm>.example`. */
static bool read_name(const struct attribute *name, unsigned *user, unsigned *realm)
{
    static const char suffix[] = ".example";
    const uint8_t *octets = name->value;
    size_t at = 1, length = name->length;

    if (length < 1 || octets[0] != 'u' || !read_digits(octets, length, &at, user))
        return false;
    if (length - at < 2 || octets[at] != '@' || octets[at + 1] != 'r')
        return false;
    at += 2;
    return read_digits(octets, length, &at, realm) && length - at == sizeof suffix - 1
        && memcmp(octets + at, suffix, sizeof suffix - 1) == 0;
}

/* HMAC from the secret itself for each packet, as a server from the RFC's text does. */
static void seal_with(const uint8_t *octets, size_t length, size_t seal_at,
                      const uint8_t *authenticator, const struct secret *secret,
                      uint8_t result[MD5_SIZE])
{
    struct hmac_key key;

    hmac_prepare(&key, secret->octets, secret->length);
    packet_seal(octets, length, seal_at, authenticator, &key, result);
}

static bool sealed_request(const uint8_t *octets, size_t length, const struct secret *secret)
{
    struct attribute attribute;
    size_t at = HEADER_SIZE;
    uint8_t seal[MD5_SIZE];

    while (packet_next(octets, length, &at, &attribute)) {
        if (attribute.type != MESSAGE_AUTHENTICATOR)
            continue;
        if (attribute.length != MD5_SIZE)
            return false;
        seal_with(octets, length, at - MD5_SIZE, octets + AUTHENTICATOR_AT, secret, seal);
        return memcmp(seal, attribute.value, MD5_SIZE) == 0;
    }
    return false;
}

static bool password_is_right(const uint8_t *octets, size_t length, unsigned realm,
                              unsigned user, const struct secret *secret)
{
    uint8_t password[PASSWORD_SIZE], wanted[PASSWORD_SIZE];
    struct attribute attribute;

    if (!packet_first(octets, length, USER_PASSWORD, &attribute)
        || attribute.length != PASSWORD_SIZE)
        return false;
    memcpy(password, attribute.value, PASSWORD_SIZE);
    hide_password(password, octets + AUTHENTICATOR_AT, secret);
    password_of(wanted, realm, user);
    return memcmp(password, wanted, PASSWORD_SIZE) == 0;
}

static void add_states(struct packet *answer, const uint8_t *octets, size_t length)
{
    struct attribute attribute;
    size_t at = HEADER_SIZE;

    while (packet_next(octets, length, &at, &attribute))
        if (attribute.type == PROXY_STATE)
            packet_add(answer, PROXY_STATE, attribute.value, attribute.length);
}

/* Message-Authenticator first (not in an Accounting-Response), Class, the Proxy-States. */
static void build_answer(const uint8_t *octets, size_t length, enum code code,
                         const struct attribute *name, const struct secret *secret,
                         struct packet *answer)
{
    const uint8_t *authenticator = octets + AUTHENTICATOR_AT;
    size_t seal_at = 0;

    packet_start(answer, answer->octets, answer->room, code, octets[1]);
    if (code != ACCOUNTING_RESPONSE)
        seal_at = packet_add(answer, MESSAGE_AUTHENTICATOR, no_authenticator, MD5_SIZE);
    packet_add(answer, CLASS, name->value, name->length);
    add_states(answer, octets, length);
    packet_end(answer);
    if (seal_at > 0)
        seal_with(answer->octets, answer->length, seal_at, authenticator, secret,
                  answer->octets + seal_at);
    packet_digest(answer->octets, answer->length, authenticator, secret,
                  answer->octets + AUTHENTICATOR_AT);
}

static enum finding request_check(const uint8_t *octets, size_t length,
                                  const struct secret *secret)
{
    uint8_t digest[MD5_SIZE];

    if (octets[0] == ACCESS_REQUEST)
        return sealed_request(octets, length, secret) ? ANSWERED : UNSEALED;
    if (octets[0] != ACCOUNTING_REQUEST)
        return MALFORMED;
    packet_digest(octets, length, no_authenticator, secret, digest);
    return memcmp(digest, octets + AUTHENTICATOR_AT, MD5_SIZE) == 0 ? ANSWERED : UNSIGNED;
}

enum finding request_answer(const uint8_t *octets, size_t size, unsigned realm,
                            const struct secret *secret, struct packet *answer)
{
    size_t length = packet_length(octets, size);
    struct attribute name;
    enum finding finding;
    unsigned user, named;

    answer->length = 0;
    if (length == 0)
        return MALFORMED;
    finding = request_check(octets, length, secret);
    if (finding != ANSWERED)
        return finding;
    if (!packet_first(octets, length, USER_NAME, &name) || !read_name(&name, &user, &named)
        || named != realm)
        return OTHER_REALM;
    if (octets[0] == ACCOUNTING_REQUEST) {
        build_answer(octets, length, ACCOUNTING_RESPONSE, &name, secret, answer);
        return ANSWERED;
    }
    if (!password_is_right(octets, length, realm, user, secret)) {
        build_answer(octets, length, ACCESS_REJECT, &name, secret, answer);
        return OTHER_PASSWORD;
    }
    build_answer(octets, length, ACCESS_ACCEPT, &name, secret, answer);
    return ANSWERED;
}

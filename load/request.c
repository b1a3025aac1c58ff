#include "exchange.h"

#include <stdio.h>

const char *const verdict_names[VERDICTS] = {
    "good",     "unreadable", "other_code",         "rejected",   "bad_authenticator",
    "bad_seal", "no_seal",    "other_proxy_states", "other_class"};

enum { STATE_SIZE = 8, NAME_ROOM = 40, REALM_DIGITS = 4, USER_DIGITS = 6 };

static void put_digits(uint8_t *octets, unsigned value, unsigned count)
{
    while (count-- > 0) {
        octets[count] = (uint8_t)('0' + value % 10);
        value /= 10;
    }
}

void password_of(uint8_t password[PASSWORD_SIZE], unsigned realm, unsigned user)
{
    memcpy(password, "u000000-of-r0000", PASSWORD_SIZE);
    put_digits(password + 1, user, USER_DIGITS);
    put_digits(password + PASSWORD_SIZE - REALM_DIGITS, realm, REALM_DIGITS);
}

static void add_name(struct packet *packet, struct request *request, unsigned realm,
                     unsigned user)
{
    char name[NAME_ROOM];
    int length = snprintf(name, sizeof name, "u%u@r%u.example", user, realm);

    request->name_at = (uint16_t)packet_add(packet, USER_NAME, name, (size_t)length);
}

static void add_session(struct packet *packet, unsigned user)
{
    char session[NAME_ROOM];
    int length = snprintf(session, sizeof session, "session-%u", user);

    packet_add(packet, ACCT_SESSION_ID, session, (size_t)length);
}

void request_make(struct request *request, enum code code, unsigned realm, unsigned user)
{
    const uint8_t address[4] = {127, 0, 0, 1}, status[4] = {0, 0, 0, 1};
    struct packet packet;

    memset(request, 0, sizeof *request);
    packet_start(&packet, request->octets, REQUEST_ROOM, code, 0);
    if (code == ACCESS_REQUEST)
        request->seal_at = (uint16_t)packet_add(&packet, MESSAGE_AUTHENTICATOR,
                                                no_authenticator, MD5_SIZE);
    add_name(&packet, request, realm, user);
    if (code == ACCESS_REQUEST) {
        password_of(request->password, realm, user);
        request->password_at = (uint16_t)packet_add(&packet, USER_PASSWORD, request->password,
                                                    PASSWORD_SIZE);
    } else {
        add_session(&packet, user);
    }
    if (code == ACCOUNTING_REQUEST)
        request->status_at =
            (uint16_t)packet_add(&packet, ACCT_STATUS_TYPE, status, sizeof status);
    packet_add(&packet, NAS_IP_ADDRESS, address, sizeof address);
    request->state_at =
        (uint16_t)packet_add(&packet, PROXY_STATE, no_authenticator, STATE_SIZE);
    packet_end(&packet);
    request->length = (uint16_t)packet.length;
}

static void renew_access(struct request *request, const struct secret *secret,
                         struct random *random)
{
    uint8_t *octets = request->octets, *authenticator = octets + AUTHENTICATOR_AT;
    uint8_t *password = octets + request->password_at;

    random_fill(random, authenticator, MD5_SIZE);
    memcpy(password, request->password, PASSWORD_SIZE);
    hide_password(password, authenticator, secret);
    packet_seal(octets, request->length, request->seal_at, authenticator, &secret->key,
                octets + request->seal_at);
}

/* Start, Interim-Update and Stop in turn. */
static void next_status(uint8_t *status)
{
    *status = *status == 1 ? 3 : *status == 3 ? 2 : 1;
}

static void renew_signed(struct request *request, const struct secret *secret)
{
    if (request->status_at > 0)
        next_status(request->octets + request->status_at + 3);
    packet_digest(request->octets, request->length, no_authenticator, secret,
                  request->octets + AUTHENTICATOR_AT);
}

void request_renew(struct request *request, uint8_t identifier, const struct secret *secret,
                   struct random *random)
{
    request->octets[1] = identifier;
    random_fill(random, request->octets + request->state_at, STATE_SIZE);
    if (request->octets[0] == ACCESS_REQUEST)
        renew_access(request, secret, random);
    else
        renew_signed(request, secret);
}

/* The answer's Proxy-States are the request's one, unchanged. */
static bool states_are_those_sent(const struct request *request, const uint8_t *octets,
                                  size_t length)
{
    struct attribute attribute;
    size_t at = HEADER_SIZE;
    unsigned states = 0;

    while (packet_next(octets, length, &at, &attribute)) {
        if (attribute.type != PROXY_STATE)
            continue;
        states++;
        if (attribute.length != STATE_SIZE
            || memcmp(attribute.value, request->octets + request->state_at, STATE_SIZE) != 0)
            return false;
    }
    return states == 1;
}

/* One Message-Authenticator, and a right one; none is needed in an Accounting-Response. */
static enum verdict seal_check(const struct request *request, const uint8_t *octets,
                               size_t length, const struct secret *secret)
{
    struct attribute attribute;
    size_t at = HEADER_SIZE;
    unsigned seals = 0;
    uint8_t seal[MD5_SIZE];

    while (packet_next(octets, length, &at, &attribute)) {
        if (attribute.type != MESSAGE_AUTHENTICATOR)
            continue;
        seals++;
        if (attribute.length != MD5_SIZE)
            return BAD_SEAL;
        packet_seal(octets, length, at - MD5_SIZE, request->octets + AUTHENTICATOR_AT,
                    &secret->key, seal);
        if (memcmp(seal, attribute.value, MD5_SIZE) != 0)
            return BAD_SEAL;
    }
    if (seals > 1)
        return BAD_SEAL;
    return seals == 1 || request->seal_at == 0 ? GOOD : NO_SEAL;
}

/* The home server gives the User-Name back as Class. */
static bool class_is_the_name(const struct request *request, const uint8_t *octets,
                              size_t length)
{
    const uint8_t *name = request->octets + request->name_at;
    size_t name_length = name[-1] - 2u;
    struct attribute class;

    return packet_first(octets, length, CLASS, &class) && class.length == name_length
        && memcmp(class.value, name, name_length) == 0;
}

static enum verdict code_check(const struct request *request, const uint8_t *octets)
{
    if (request->octets[0] == ACCESS_REQUEST && octets[0] == ACCESS_REJECT)
        return REJECTED;
    return octets[0] == request->octets[0] + 1 ? GOOD : OTHER_CODE;
}

bool is_signed_for(const uint8_t *octets, size_t size, const uint8_t *authenticator,
                   const struct secret *secret)
{
    size_t length = packet_length(octets, size);
    uint8_t digest[MD5_SIZE];

    if (length == 0)
        return false;
    packet_digest(octets, length, authenticator, secret, digest);
    return memcmp(digest, octets + AUTHENTICATOR_AT, MD5_SIZE) == 0;
}

enum verdict answer_check(const struct request *request, const uint8_t *octets, size_t size,
                          const struct secret *secret)
{
    size_t length = packet_length(octets, size);
    enum verdict verdict;

    if (length == 0 || length != size || octets[1] != request->octets[1])
        return UNREADABLE;
    if (!is_signed_for(octets, size, request->octets + AUTHENTICATOR_AT, secret))
        return BAD_AUTHENTICATOR;
    verdict = seal_check(request, octets, length, secret);
    if (verdict == GOOD)
        verdict = code_check(request, octets);
    if (verdict != GOOD)
        return verdict;
    if (!states_are_those_sent(request, octets, length))
        return OTHER_PROXY_STATES;
    return class_is_the_name(request, octets, length) ? GOOD : OTHER_CLASS;
}

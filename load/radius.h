/* RADIUS packets (RFC 2865, RFC 2866, RFC 3579): built, read, sealed, signed. */
#ifndef RADIUS_H
#define RADIUS_H

#include <stdbool.h>

#include "md5.h"

enum code {
    ACCESS_REQUEST = 1,
    ACCESS_ACCEPT = 2,
    ACCESS_REJECT = 3,
    ACCOUNTING_REQUEST = 4,
    ACCOUNTING_RESPONSE = 5,
    DISCONNECT_REQUEST = 40,
    COA_REQUEST = 43
};

enum type {
    USER_NAME = 1,
    USER_PASSWORD = 2,
    NAS_IP_ADDRESS = 4,
    CLASS = 25,
    PROXY_STATE = 33,
    ACCT_STATUS_TYPE = 40,
    ACCT_SESSION_ID = 44,
    MESSAGE_AUTHENTICATOR = 80
};

enum { HEADER_SIZE = 20, AUTHENTICATOR_AT = 4, LARGEST_PACKET = 4096, PASSWORD_SIZE = 16 };

struct secret {
    uint8_t octets[64];
    size_t length;
    struct hmac_key key;
};

/* The text has at most 64 octets. */
void secret_set(struct secret *secret, const char *text);

/* A packet that is being built in `room` octets at `octets`. */
struct packet {
    uint8_t *octets;
    size_t room;
    size_t length;
};

/* The Authenticator is left as it stands in the buffer. */
void packet_start(struct packet *packet, uint8_t *octets, size_t room, enum code code,
                  uint8_t identifier);
/* The place of the value in the packet, or 0 where there is no room for it. */
size_t packet_add(struct packet *packet, enum type type, const void *value, size_t length);
/* Writes Length. */
void packet_end(struct packet *packet);

struct attribute {
    uint8_t type;
    uint8_t length; /* of the value */
    const uint8_t *value;
};

/* Length where the datagram reads as a packet, attributes and all; else 0. */
size_t packet_length(const uint8_t *octets, size_t size);
/* The attribute at `*at` of a packet that reads, and `*at` past it; false at the end. */
bool packet_next(const uint8_t *octets, size_t length, size_t *at, struct attribute *attribute);
/* The first attribute of a type; false where there is none. */
bool packet_first(const uint8_t *octets, size_t length, enum type type,
                  struct attribute *attribute);

/* MD5 over the packet with `authenticator` in its place, and the secret behind it. */
void packet_digest(const uint8_t *octets, size_t length, const uint8_t *authenticator,
                   const struct secret *secret, uint8_t result[MD5_SIZE]);
/* HMAC-MD5 over the packet with `authenticator` in its place and zeros at `seal_at`. */
void packet_seal(const uint8_t *octets, size_t length, size_t seal_at,
                 const uint8_t *authenticator, const struct hmac_key *key,
                 uint8_t result[MD5_SIZE]);

/* Sixteen zero octets: the Authenticator that an Accounting-Request is signed with. */
extern const uint8_t no_authenticator[MD5_SIZE];

/* Hides a password of 16 octets, or shows a hidden one (RFC 2865 section 5.2). */
void hide_password(uint8_t password[PASSWORD_SIZE], const uint8_t *authenticator,
                   const struct secret *secret);

#endif

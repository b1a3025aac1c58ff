/* The requests that the generator sends, the answers that home servers give, and their checks. */
#ifndef EXCHANGE_H
#define EXCHANGE_H

#include "radius.h"
#include "random.h"

enum { REQUEST_ROOM = 192 };

/* The password of a user, 16 octets: `u000007-of-r0012`. */
void password_of(uint8_t password[PASSWORD_SIZE], unsigned realm, unsigned user);

/* A request of one user, made once and renewed for each exchange. */
struct request {
    uint16_t length;
    uint16_t name_at;     /* the value of User-Name */
    uint16_t password_at; /* the value of User-Password; 0 where there is none */
    uint16_t state_at;    /* the value of Proxy-State, 8 octets */
    uint16_t seal_at;     /* the value of Message-Authenticator; 0 where there is none */
    uint16_t status_at;   /* the value of Acct-Status-Type; 0 where there is none */
    uint8_t password[PASSWORD_SIZE];
    uint8_t octets[REQUEST_ROOM];
};

/* A request of user `u<user>@r<realm>.example`: Access, Accounting, Disconnect or CoA. */
void request_make(struct request *request, enum code code, unsigned realm, unsigned user);
/* A new Authenticator and Proxy-State; hidden, sealed and signed with the secret. */
void request_renew(struct request *request, uint8_t identifier, const struct secret *secret,
                   struct random *random);

/* What an answer is, in the order in which it is looked at. */
enum verdict {
    GOOD,
    UNREADABLE,
    OTHER_CODE,
    REJECTED,
    BAD_AUTHENTICATOR,
    BAD_SEAL,
    NO_SEAL,
    OTHER_PROXY_STATES,
    OTHER_CLASS,
    VERDICTS
};

extern const char *const verdict_names[VERDICTS];

/* Judges an answer with the request's Identifier. */
enum verdict answer_check(const struct request *request, const uint8_t *octets, size_t size,
                          const struct secret *secret);

/* Whether a reply reads and is signed for a request with this Authenticator. */
bool is_signed_for(const uint8_t *octets, size_t size, const uint8_t *authenticator,
                   const struct secret *secret);

/* What a home server finds in a request, in the order in which it looks. */
enum finding { ANSWERED, MALFORMED, UNSIGNED, UNSEALED, OTHER_REALM, OTHER_PASSWORD, FINDINGS };

extern const char *const finding_names[FINDINGS];

/* Judges a request and builds the answer, if any (`answer->length` is 0 where there is none):
   an Access-Accept or an Access-Reject where only the password is another one, or an
   Accounting-Response. */
enum finding request_answer(const uint8_t *octets, size_t size, unsigned realm,
                            const struct secret *secret, struct packet *answer);

#endif

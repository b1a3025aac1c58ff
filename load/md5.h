/* MD5 (RFC 1321) and HMAC-MD5 (RFC 2104), for RADIUS packets. */
#ifndef MD5_H
#define MD5_H

#include <stddef.h>
#include <stdint.h>

enum { MD5_SIZE = 16, MD5_BLOCK = 64 };

struct md5 {
    uint32_t state[4];
    uint64_t length;
    uint8_t block[MD5_BLOCK];
};

void md5_start(struct md5 *digest);
void md5_add(struct md5 *digest, const void *octets, size_t length);
void md5_finish(struct md5 *digest, uint8_t result[MD5_SIZE]);

/* The states of both digests after the padded key, so that a kept key costs two blocks less. */
struct hmac_key {
    struct md5 inner;
    struct md5 outer;
};

/* The key has at most 64 octets. */
void hmac_prepare(struct hmac_key *key, const void *octets, size_t length);
void hmac_start(struct md5 *digest, const struct hmac_key *key);
void hmac_finish(struct md5 *digest, const struct hmac_key *key, uint8_t result[MD5_SIZE]);

#endif

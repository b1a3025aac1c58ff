#include "md5.h"

#include <string.h>

#define ROTATE(word, count) ((word) << (count) | (word) >> (32 - (count)))
#define F(x, y, z) ((z) ^ ((x) & ((y) ^ (z))))
#define G(x, y, z) ((y) ^ ((z) & ((x) ^ (y))))
#define H(x, y, z) ((x) ^ (y) ^ (z))
#define I(x, y, z) ((y) ^ ((x) | ~(z)))
#define STEP(function, a, b, c, d, word, count, constant) \
    a += function(b, c, d) + (word) + (constant); \
    a = ROTATE(a, count) + b;
/* Four steps of a round: the words stand `stride` apart, counted modulo 16. */
#define FOUR(function, at, stride, s1, s2, s3, s4, k1, k2, k3, k4) \
    STEP(function, a, b, c, d, words[(at) & 15], s1, k1) \
    STEP(function, d, a, b, c, words[((at) + (stride)) & 15], s2, k2) \
    STEP(function, c, d, a, b, words[((at) + 2 * (stride)) & 15], s3, k3) \
    STEP(function, b, c, d, a, words[((at) + 3 * (stride)) & 15], s4, k4)

static void md5_block(uint32_t state[4], const uint8_t *octets)
{
    uint32_t words[16], a = state[0], b = state[1], c = state[2], d = state[3];

    memcpy(words, octets, MD5_BLOCK); /* the machine is little-endian, as MD5 is */

    FOUR(F, 0, 1, 7, 12, 17, 22, 0xd76aa478, 0xe8c7b756, 0x242070db, 0xc1bdceee)
    FOUR(F, 4, 1, 7, 12, 17, 22, 0xf57c0faf, 0x4787c62a, 0xa8304613, 0xfd469501)
    FOUR(F, 8, 1, 7, 12, 17, 22, 0x698098d8, 0x8b44f7af, 0xffff5bb1, 0x895cd7be)
    FOUR(F, 12, 1, 7, 12, 17, 22, 0x6b901122, 0xfd987193, 0xa679438e, 0x49b40821)

    FOUR(G, 1, 5, 5, 9, 14, 20, 0xf61e2562, 0xc040b340, 0x265e5a51, 0xe9b6c7aa)
    FOUR(G, 5, 5, 5, 9, 14, 20, 0xd62f105d, 0x02441453, 0xd8a1e681, 0xe7d3fbc8)
    FOUR(G, 9, 5, 5, 9, 14, 20, 0x21e1cde6, 0xc33707d6, 0xf4d50d87, 0x455a14ed)
    FOUR(G, 13, 5, 5, 9, 14, 20, 0xa9e3e905, 0xfcefa3f8, 0x676f02d9, 0x8d2a4c8a)

    FOUR(H, 5, 3, 4, 11, 16, 23, 0xfffa3942, 0x8771f681, 0x6d9d6122, 0xfde5380c)
    FOUR(H, 1, 3, 4, 11, 16, 23, 0xa4beea44, 0x4bdecfa9, 0xf6bb4b60, 0xbebfbc70)
    FOUR(H, 13, 3, 4, 11, 16, 23, 0x289b7ec6, 0xeaa127fa, 0xd4ef3085, 0x04881d05)
    FOUR(H, 9, 3, 4, 11, 16, 23, 0xd9d4d039, 0xe6db99e5, 0x1fa27cf8, 0xc4ac5665)

    FOUR(I, 0, 7, 6, 10, 15, 21, 0xf4292244, 0x432aff97, 0xab9423a7, 0xfc93a039)
    FOUR(I, 12, 7, 6, 10, 15, 21, 0x655b59c3, 0x8f0ccc92, 0xffeff47d, 0x85845dd1)
    FOUR(I, 8, 7, 6, 10, 15, 21, 0x6fa87e4f, 0xfe2ce6e0, 0xa3014314, 0x4e0811a1)
    FOUR(I, 4, 7, 6, 10, 15, 21, 0xf7537e82, 0xbd3af235, 0x2ad7d2bb, 0xeb86d391)

    state[0] += a;
    state[1] += b;
    state[2] += c;
    state[3] += d;
}

void md5_start(struct md5 *digest)
{
    digest->state[0] = 0x67452301;
    digest->state[1] = 0xefcdab89;
    digest->state[2] = 0x98badcfe;
    digest->state[3] = 0x10325476;
    digest->length = 0;
}

void md5_add(struct md5 *digest, const void *octets, size_t length)
{
    const uint8_t *next = octets;
    size_t held = digest->length % MD5_BLOCK;

    digest->length += length;
    if (held + length < MD5_BLOCK) {
        memcpy(digest->block + held, next, length);
        return;
    }
    if (held > 0) {
        size_t taken = MD5_BLOCK - held;
        memcpy(digest->block + held, next, taken);
        md5_block(digest->state, digest->block);
        next += taken;
        length -= taken;
    }
    for (; length >= MD5_BLOCK; next += MD5_BLOCK, length -= MD5_BLOCK)
        md5_block(digest->state, next);
    memcpy(digest->block, next, length);
}

void md5_finish(struct md5 *digest, uint8_t result[MD5_SIZE])
{
    uint64_t bits = digest->length * 8;
    size_t held = digest->length % MD5_BLOCK;

    digest->block[held++] = 0x80;
    if (held > MD5_BLOCK - sizeof bits) {
        memset(digest->block + held, 0, MD5_BLOCK - held);
        md5_block(digest->state, digest->block);
        held = 0;
    }
    memset(digest->block + held, 0, MD5_BLOCK - sizeof bits - held);
    memcpy(digest->block + MD5_BLOCK - sizeof bits, &bits, sizeof bits);
    md5_block(digest->state, digest->block);
    memcpy(result, digest->state, MD5_SIZE);
}

static void pad_key(struct md5 *digest, const uint8_t *octets, size_t length, uint8_t pad)
{
    uint8_t block[MD5_BLOCK];

    memset(block, pad, sizeof block);
    for (size_t at = 0; at < length && at < MD5_BLOCK; at++)
        block[at] ^= octets[at];
    md5_start(digest);
    md5_add(digest, block, sizeof block);
}

void hmac_prepare(struct hmac_key *key, const void *octets, size_t length)
{
    pad_key(&key->inner, octets, length, 0x36);
    pad_key(&key->outer, octets, length, 0x5c);
}

static void take_state(struct md5 *digest, const struct md5 *from)
{
    memcpy(digest->state, from->state, sizeof digest->state);
    digest->length = from->length;
}

void hmac_start(struct md5 *digest, const struct hmac_key *key)
{
    take_state(digest, &key->inner);
}

void hmac_finish(struct md5 *digest, const struct hmac_key *key, uint8_t result[MD5_SIZE])
{
    uint8_t inner[MD5_SIZE];

    md5_finish(digest, inner);
    take_state(digest, &key->outer);
    md5_add(digest, inner, sizeof inner);
    md5_finish(digest, result);
}

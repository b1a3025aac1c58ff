/* Checks MD5 (RFC 1321), HMAC-MD5 (RFC 2202), the example of RFC 2865 section 7.1, and that our
   own requests and answers pass our own checks, and changed ones don't. */
#include <stdio.h>

#include "exchange.h"
#include "latency.h"

static unsigned failures;

static void expect(bool holds, const char *what)
{
    if (holds)
        return;
    failures++;
    printf("failed: %s\n", what);
}

static void expect_hex(const uint8_t *octets, size_t length, const char *wanted)
{
    char text[65];

    for (size_t at = 0; at < length; at++)
        snprintf(text + 2 * at, 3, "%02x", octets[at]);
    expect(strcmp(text, wanted) == 0, wanted);
}

static void test_md5(void)
{
    static const char *const rows[][2] = {
        {"", "d41d8cd98f00b204e9800998ecf8427e"},
        {"a", "0cc175b9c0f1b6a831c399e269772661"},
        {"abc", "900150983cd24fb0d6963f7d28e17f72"},
        {"message digest", "f96b697d7cb7938d525a2f31aaf161d0"},
        {"abcdefghijklmnopqrstuvwxyz", "c3fcd3d76192e4007dfb496cca67e13b"},
        {"ABCDEFGHIJKLMNOPQRSTUVWXYZabcdefghijklmnopqrstuvwxyz0123456789",
         "d174ab98d277d9f5a5611c2c9f419d9f"},
        {"12345678901234567890123456789012345678901234567890123456789012345678901234567890",
         "57edf4a22be3c955ac49da2e2107b67a"}};
    struct md5 digest;
    uint8_t result[MD5_SIZE];

    for (size_t row = 0; row < sizeof rows / sizeof *rows; row++) {
        md5_start(&digest);
        md5_add(&digest, rows[row][0], strlen(rows[row][0]));
        md5_finish(&digest, result);
        expect_hex(result, MD5_SIZE, rows[row][1]);
    }
}

/* The same octets in pieces of any size give the same digest. */
static void test_pieces(void)
{
    uint8_t octets[300], whole[MD5_SIZE], pieces[MD5_SIZE];
    struct random random = {1};
    struct md5 digest;

    random_fill(&random, octets, sizeof octets);
    for (size_t length = 0; length <= sizeof octets; length++) {
        size_t first = length > 0 ? random_below(&random, length + 1) : 0;
        md5_start(&digest);
        md5_add(&digest, octets, length);
        md5_finish(&digest, whole);
        md5_start(&digest);
        md5_add(&digest, octets, first);
        md5_add(&digest, octets + first, length - first);
        md5_finish(&digest, pieces);
        expect(memcmp(whole, pieces, MD5_SIZE) == 0, "pieces");
    }
}

static void test_hmac(void)
{
    static const char *const rows[][3] = {
        {"\x0b\x0b\x0b\x0b\x0b\x0b\x0b\x0b\x0b\x0b\x0b\x0b\x0b\x0b\x0b\x0b", "Hi There",
         "9294727a3638bb1c13f48ef8158bfc9d"},
        {"Jefe", "what do ya want for nothing?", "750c783e6ab0b503eaa86e310a5db738"},
        {"\x0c\x0c\x0c\x0c\x0c\x0c\x0c\x0c\x0c\x0c\x0c\x0c\x0c\x0c\x0c\x0c",
         "Test With Truncation", "56461ef2342edc00f9bab995690efd4c"}};
    struct hmac_key key;
    struct md5 digest;
    uint8_t result[MD5_SIZE];

    for (size_t row = 0; row < sizeof rows / sizeof *rows; row++) {
        hmac_prepare(&key, rows[row][0], strlen(rows[row][0]));
        hmac_start(&digest, &key);
        md5_add(&digest, rows[row][1], strlen(rows[row][1]));
        hmac_finish(&digest, &key, result);
        expect_hex(result, MD5_SIZE, rows[row][2]);
    }
}

static void test_rfc2865(void)
{
    static const uint8_t authenticator[MD5_SIZE] = {0x0f, 0x40, 0x3f, 0x94, 0x73, 0x97,
                                                    0x80, 0x57, 0xbd, 0x83, 0xd5, 0xcb,
                                                    0x98, 0xf4, 0x22, 0x7a};
    static const uint8_t accept[38] = {2,    0,    0,    0x26, 0,    0,    0,    0, 0, 0,
                                       0,    0,    0,    0,    0,    0,    0,    0, 0, 0,
                                       0x06, 0x06, 0,    0,    0,    0x01, 0x0f, 6, 0, 0,
                                       0,    0,    0x0e, 0x06, 0xc0, 0xa8, 1,    3};
    uint8_t password[PASSWORD_SIZE] = "arctangent", result[MD5_SIZE];
    struct secret secret;

    secret_set(&secret, "xyzzy5461");
    hide_password(password, authenticator, &secret);
    expect_hex(password, PASSWORD_SIZE, "0dbe708d93d413ce3196e43f782a0aee");
    packet_digest(accept, sizeof accept, authenticator, &secret, result);
    expect_hex(result, MD5_SIZE, "86fe220e7624ba2a1005f6bf9b55e0b2");
}

static void test_exchange(enum code code)
{
    struct random random = {2};
    struct request request;
    struct secret secret, other;
    uint8_t room[LARGEST_PACKET];
    struct packet answer = {room, sizeof room, 0};

    secret_set(&secret, "one");
    secret_set(&other, "two");
    request_make(&request, code, 12, 7);
    request_renew(&request, 200, &secret, &random);
    expect(request_answer(request.octets, request.length, 12, &other, &answer) != ANSWERED,
           "other secret");
    expect(request_answer(request.octets, request.length, 13, &secret, &answer) == OTHER_REALM,
           "other realm");
    expect(request_answer(request.octets, request.length, 12, &secret, &answer) == ANSWERED,
           "answered");
    expect(answer_check(&request, room, answer.length, &secret) == GOOD, "good");
    for (size_t bit = 0; bit < 8 * answer.length; bit++) {
        room[bit / 8] ^= (uint8_t)(1 << bit % 8);
        expect(answer_check(&request, room, answer.length, &secret) != GOOD, "changed answer");
        room[bit / 8] ^= (uint8_t)(1 << bit % 8);
    }
    for (size_t bit = 0; bit < 8 * request.length; bit++) {
        request.octets[bit / 8] ^= (uint8_t)(1 << bit % 8);
        expect(request_answer(request.octets, request.length, 12, &secret, &answer) != ANSWERED,
               "changed request");
        request.octets[bit / 8] ^= (uint8_t)(1 << bit % 8);
    }
}

static void test_latency(void)
{
    static struct latency latency;

    for (unsigned value = 1; value <= 100000; value++)
        latency_add(&latency, value * 10);
    expect(latency_at(&latency, 0.5) > 495 && latency_at(&latency, 0.5) < 510, "p50");
    expect(latency_at(&latency, 0.99) > 985 && latency_at(&latency, 0.99) <= 1000, "p99");
    expect(latency_at(&latency, 1) == 1000, "longest");
}

int main(void)
{
    test_md5();
    test_pieces();
    test_hmac();
    test_rfc2865();
    test_exchange(ACCESS_REQUEST);
    test_exchange(ACCOUNTING_REQUEST);
    test_latency();
    printf(failures == 0 ? "self test passed\n" : "self test failed\n");
    return failures == 0 ? 0 : 1;
}

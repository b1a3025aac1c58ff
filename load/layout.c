#include "layout.h"

#include <arpa/inet.h>
#include <stdio.h>

const char *const peer_addresses[PEERS] = {"127.0.0.1", "127.0.0.2"};

struct sockaddr_in address_of(const char *address, unsigned port)
{
    struct sockaddr_in result = {.sin_family = AF_INET, .sin_port = htons((uint16_t)port)};

    inet_pton(AF_INET, address, &result.sin_addr);
    return result;
}

struct sockaddr_in broker_auth(unsigned base)
{
    return address_of(HERE, base);
}

struct sockaddr_in broker_acct(unsigned base)
{
    return address_of(HERE, base + 1);
}

struct sockaddr_in peer_coa(unsigned base, unsigned peer)
{
    return address_of(peer_addresses[peer], base + 2);
}

struct sockaddr_in realm_out(unsigned base, unsigned realm)
{
    return address_of(HERE, base + 10 + 2 * realm);
}

struct sockaddr_in realm_reverse(unsigned base, unsigned realm)
{
    return address_of(HERE, base + 11 + 2 * realm);
}

struct sockaddr_in home_auth(unsigned base, unsigned realm)
{
    return address_of(HERE, base + 1000 + 2 * realm);
}

struct sockaddr_in home_acct(unsigned base, unsigned realm)
{
    return address_of(HERE, base + 1001 + 2 * realm);
}

static void numbered_secret(struct secret *secret, const char *whose, unsigned number)
{
    char text[32];

    snprintf(text, sizeof text, "%s-secret-%u", whose, number);
    secret_set(secret, text);
}

void peer_secret(struct secret *secret, unsigned peer)
{
    numbered_secret(secret, "peer", peer);
}

void home_secret(struct secret *secret, unsigned realm)
{
    numbered_secret(secret, "home", realm);
}

/* Where everything stands: addresses and secrets of the broker, its peers and the home servers,
   from a base port. `layout.py` writes the brokers' configurations by the same rules. */
#ifndef LAYOUT_H
#define LAYOUT_H

#include <netinet/in.h>

#include "radius.h"

enum { MOST_REALMS = 256, PEERS = 2, BROKER_PORTS = 10 + 2 * MOST_REALMS };

/* Peer 0 is 127.0.0.1, peer 1 is 127.0.0.2; no broker knows 127.0.0.9. */
extern const char *const peer_addresses[PEERS];
#define STRANGER "127.0.0.9"
/* Brokers and home servers. */
#define HERE "127.0.0.1"

struct sockaddr_in address_of(const char *address, unsigned port);

struct sockaddr_in broker_auth(unsigned base);                        /* base */
struct sockaddr_in broker_acct(unsigned base);                        /* base + 1 */
struct sockaddr_in peer_coa(unsigned base, unsigned peer);            /* base + 2 */
struct sockaddr_in realm_out(unsigned base, unsigned realm);          /* base + 10 + 2 realm */
struct sockaddr_in realm_reverse(unsigned base, unsigned realm);      /* base + 11 + 2 realm */
struct sockaddr_in home_auth(unsigned base, unsigned realm);          /* base + 1000 + 2 realm */
struct sockaddr_in home_acct(unsigned base, unsigned realm);          /* base + 1001 + 2 realm */

void peer_secret(struct secret *secret, unsigned peer);  /* `peer-secret-0` */
void home_secret(struct secret *secret, unsigned realm); /* `home-secret-0` */

#endif

/* UDP sockets on loopback, and datagrams sent and received many at a time. */
#ifndef SOCKETS_H
#define SOCKETS_H

#include <netinet/in.h>
#include <stdbool.h>
#include <stdint.h>
#include <sys/socket.h>

enum { BATCH = 64, DATAGRAM_ROOM = 4200 };

/* Ends the program with a message where the socket can't be had. */
int open_socket(const struct sockaddr_in *address);
/* Waits for datagrams of many sockets; `number` comes back in the event. */
int open_poller(void);
void watch_socket(int poller, int socket, uint32_t number);
_Noreturn void fail(const char *what);

/* Datagrams to send: octets and addresses stay the caller's until they are sent. */
struct outgoing {
    unsigned count;
    struct mmsghdr messages[BATCH];
    struct iovec parts[BATCH];
};

/* Adds a datagram; there is room while `count` is below BATCH. */
void outgoing_add(struct outgoing *outgoing, const uint8_t *octets, size_t length,
                  const struct sockaddr_in *to);
/* Sends them all and answers how many the system took. */
unsigned outgoing_send(struct outgoing *outgoing, int socket);

struct incoming {
    struct mmsghdr messages[BATCH];
    struct iovec parts[BATCH];
    struct sockaddr_in from[BATCH];
    uint8_t octets[BATCH][DATAGRAM_ROOM];
};

void incoming_prepare(struct incoming *incoming);
/* Receives what is there, at most `most` datagrams (up to BATCH), and answers how many. */
unsigned incoming_receive(struct incoming *incoming, int socket, unsigned most);

bool same_address(const struct sockaddr_in *one, const struct sockaddr_in *other);

#endif

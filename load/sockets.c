#include "sockets.h"

#include <errno.h>
#include <stdio.h>
#include <stdlib.h>
#include <string.h>
#include <sys/epoll.h>

enum { SOCKET_BUFFER = 4 << 20 };

void fail(const char *what)
{
    perror(what);
    exit(1);
}

int open_socket(const struct sockaddr_in *address)
{
    int room = SOCKET_BUFFER;
    int opened = socket(AF_INET, SOCK_DGRAM | SOCK_NONBLOCK | SOCK_CLOEXEC, 0);

    if (opened < 0)
        fail("socket");
    setsockopt(opened, SOL_SOCKET, SO_RCVBUF, &room, sizeof room);
    if (bind(opened, (const struct sockaddr *)address, sizeof *address) != 0)
        fail("bind");
    return opened;
}

int open_poller(void)
{
    int poller = epoll_create1(EPOLL_CLOEXEC);

    if (poller < 0)
        fail("epoll_create1");
    return poller;
}

void watch_socket(int poller, int socket, uint32_t number)
{
    struct epoll_event event = {.events = EPOLLIN, .data.u32 = number};

    if (epoll_ctl(poller, EPOLL_CTL_ADD, socket, &event) != 0)
        fail("epoll_ctl");
}

void outgoing_add(struct outgoing *outgoing, const uint8_t *octets, size_t length,
                  const struct sockaddr_in *to)
{
    struct iovec *part = &outgoing->parts[outgoing->count];
    struct msghdr *header = &outgoing->messages[outgoing->count].msg_hdr;

    *part = (struct iovec){.iov_base = (void *)octets, .iov_len = length};
    *header = (struct msghdr){.msg_name = (void *)to,
                              .msg_namelen = sizeof *to,
                              .msg_iov = part,
                              .msg_iovlen = 1};
    outgoing->count++;
}

unsigned outgoing_send(struct outgoing *outgoing, int socket)
{
    unsigned at = 0, taken = 0;

    while (at < outgoing->count) {
        int sent = sendmmsg(socket, outgoing->messages + at, outgoing->count - at, 0);
        if (sent > 0) {
            at += (unsigned)sent;
            taken += (unsigned)sent;
        } else if (errno != EINTR) {
            at++; /* this one is lost */
        }
    }
    outgoing->count = 0;
    return taken;
}

void incoming_prepare(struct incoming *incoming)
{
    memset(incoming->messages, 0, sizeof incoming->messages);
    for (unsigned at = 0; at < BATCH; at++) {
        incoming->parts[at].iov_base = incoming->octets[at];
        incoming->parts[at].iov_len = DATAGRAM_ROOM;
        incoming->messages[at].msg_hdr.msg_iov = &incoming->parts[at];
        incoming->messages[at].msg_hdr.msg_iovlen = 1;
        incoming->messages[at].msg_hdr.msg_name = &incoming->from[at];
    }
}

unsigned incoming_receive(struct incoming *incoming, int socket, unsigned most)
{
    int received;

    for (unsigned at = 0; at < most; at++)
        incoming->messages[at].msg_hdr.msg_namelen = sizeof incoming->from[at];
    received = recvmmsg(socket, incoming->messages, most, MSG_DONTWAIT, NULL);
    return received > 0 ? (unsigned)received : 0;
}

bool same_address(const struct sockaddr_in *one, const struct sockaddr_in *other)
{
    return one->sin_port == other->sin_port && one->sin_addr.s_addr == other->sin_addr.s_addr;
}

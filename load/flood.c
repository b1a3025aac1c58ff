#include "flood.h"

#include <stdlib.h>
#include <time.h>
#include <unistd.h>

#include "meters.h"
#include "sockets.h"

enum { FLOOD_SOCKETS = 4, FLOOD_USERS = 1000 };

struct flooder {
    struct flood *flood;
    struct random random;
    struct sockaddr_in to;
    struct secret secret;
    int sockets[FLOOD_SOCKETS];
    unsigned turn;
    struct request requests[BATCH];
    struct outgoing outgoing;
    struct incoming incoming;
};

static void open_flooder(struct flooder *flooder)
{
    const struct flood *flood = flooder->flood;
    struct sockaddr_in from = address_of(peer_addresses[flood->peer], 0);

    flooder->random.state = flood->plan->seed + 1;
    flooder->to = target_address(flood->plan, flood->realm);
    target_secret(flood->plan, flood->realm, flood->peer, &flooder->secret);
    for (unsigned at = 0; at < FLOOD_SOCKETS; at++)
        flooder->sockets[at] = open_socket(&from);
    for (unsigned at = 0; at < BATCH; at++)
        request_make(&flooder->requests[at], code_of(flood->plan), flood->realm,
                     FLOOD_USERS + at);
    incoming_prepare(&flooder->incoming);
}

static void close_flooder(struct flooder *flooder)
{
    for (unsigned at = 0; at < FLOOD_SOCKETS; at++)
        close(flooder->sockets[at]);
    free(flooder);
}

/* New requests from one socket: 256 Identifiers of a socket, and then those of the next one. The
   count divides 256. */
static void send_some(struct flooder *flooder, unsigned count)
{
    int socket = flooder->sockets[flooder->turn / 256 % FLOOD_SOCKETS];

    for (unsigned at = 0; at < count; at++) {
        struct request *request = &flooder->requests[at];
        request_renew(request, (uint8_t)flooder->turn++, &flooder->secret, &flooder->random);
        outgoing_add(&flooder->outgoing, request->octets, request->length, &flooder->to);
    }
    flooder->flood->sent += outgoing_send(&flooder->outgoing, socket);
}

static void drain_answers(struct flooder *flooder)
{
    for (unsigned at = 0; at < FLOOD_SOCKETS; at++)
        flooder->flood->answered +=
            incoming_receive(&flooder->incoming, flooder->sockets[at], BATCH);
}

static void *flood_thread(void *argument)
{
    struct flooder *flooder = calloc(1, sizeof *flooder);
    struct flood *flood = argument;
    uint64_t now = now_nanoseconds(), end = now + flood->seconds * 1000000000, due = now;

    if (flooder == NULL)
        fail("calloc");
    flooder->flood = flood;
    open_flooder(flooder);
    while (!atomic_load(&flood->stopped) && now_nanoseconds() < end) {
        send_some(flooder, flood->rate == 0 ? BATCH : 1);
        drain_answers(flooder);
        if (flood->rate > 0) {
            due += 1000000000 / flood->rate;
            pause_until(due);
        }
    }
    close_flooder(flooder);
    return NULL;
}

void flood_start(struct flood *flood)
{
    atomic_init(&flood->stopped, false);
    flood->sent = flood->answered = 0;
    if (pthread_create(&flood->thread, NULL, flood_thread, flood) != 0)
        fail("pthread_create");
}

void flood_stop(struct flood *flood)
{
    atomic_store(&flood->stopped, true);
    pthread_join(flood->thread, NULL);
}

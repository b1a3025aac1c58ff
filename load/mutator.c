#include "mutator.h"

#include <stdlib.h>
#include <time.h>

#include "meters.h"
#include "mutate.h"
#include "sockets.h"

enum { MUTATED_USERS = 2000, SOURCES = PEERS + 1 };

/* One datagram on its way. */
struct draft {
    enum port_kind kind;
    unsigned realm;
    unsigned source; /* a peer, or PEERS for a stranger */
    struct secret secret;
    size_t length;
    uint8_t octets[LARGEST_DATAGRAM];
};

struct sender {
    struct mutator *mutator;
    struct random random;
    int sources[SOURCES];
    int coa[PEERS];
    struct incoming incoming;
};

static void open_sender(struct sender *sender)
{
    unsigned base = (unsigned)sender->mutator->plan->base;

    for (unsigned peer = 0; peer < PEERS; peer++) {
        struct sockaddr_in from = address_of(peer_addresses[peer], 0);
        struct sockaddr_in coa = peer_coa(base, peer);
        sender->sources[peer] = open_socket(&from);
        sender->coa[peer] = open_socket(&coa);
    }
    struct sockaddr_in stranger = address_of(STRANGER, 0);
    sender->sources[PEERS] = open_socket(&stranger);
    incoming_prepare(&sender->incoming);
}

/* The code of a good packet for a port; one in eight is for another port. */
static enum code draft_code(struct random *random, enum port_kind kind)
{
    static const enum code codes[] = {ACCESS_REQUEST, ACCOUNTING_REQUEST, ACCESS_ACCEPT,
                                      COA_REQUEST, DISCONNECT_REQUEST};

    if (random_below(random, 8) == 0)
        return codes[random_below(random, sizeof codes / sizeof *codes)];
    if (kind == TO_REVERSE && random_below(random, 2) == 0)
        return DISCONNECT_REQUEST;
    return codes[kind];
}

/* A good request, or for `out` a good answer to one that was never sent. */
static void draft_packet(struct draft *draft, struct random *random)
{
    enum code code = draft_code(random, draft->kind);
    unsigned user = (unsigned)(MUTATED_USERS + random_below(random, 100));
    struct packet answer = {draft->octets, LARGEST_PACKET, 0};
    struct request request;

    request_make(&request, code == ACCESS_ACCEPT ? ACCESS_REQUEST : code, draft->realm, user);
    request_renew(&request, (uint8_t)random_next(random), &draft->secret, random);
    if (code == ACCESS_ACCEPT) {
        request_answer(request.octets, request.length, draft->realm, &draft->secret, &answer);
        draft->length = answer.length;
    } else {
        memcpy(draft->octets, request.octets, request.length);
        draft->length = request.length;
    }
}

/* Proxy-States up to about the largest packet. */
static void grow_packet(struct draft *draft, struct random *random)
{
    struct packet packet = {draft->octets, LARGEST_PACKET, draft->length};
    size_t wanted = LARGEST_PACKET - random_below(random, 64);
    uint8_t value[253];

    random_fill(random, value, sizeof value);
    while (wanted >= packet.length + 2) {
        size_t size = wanted - packet.length - 2;
        packet_add(&packet, PROXY_STATE, value, size > sizeof value ? sizeof value : size);
    }
    packet_end(&packet);
    draft->length = packet.length;
}

/* Seals and signs a packet anew, if it still reads, so that it passes the first checks. */
static bool sign_anew(struct draft *draft)
{
    uint8_t *octets = draft->octets, *authenticator = octets + AUTHENTICATOR_AT;
    size_t length = packet_length(octets, draft->length);
    const uint8_t *covered = octets[0] == ACCESS_REQUEST ? authenticator : no_authenticator;
    struct attribute seal;

    if (length == 0)
        return false;
    if (packet_first(octets, length, MESSAGE_AUTHENTICATOR, &seal) && seal.length == MD5_SIZE) {
        size_t seal_at = (size_t)(seal.value - octets);
        packet_seal(octets, length, seal_at, covered, &draft->secret.key, octets + seal_at);
    }
    if (octets[0] != ACCESS_REQUEST)
        packet_digest(octets, length, no_authenticator, &draft->secret, authenticator);
    return true;
}

static void make_draft(struct draft *draft, struct sender *sender)
{
    struct random *random = &sender->random;
    uint64_t source = random_below(random, 16);

    draft->kind = (enum port_kind)random_below(random, PORT_KINDS);
    draft->realm = (unsigned)random_below(random, sender->mutator->plan->realms);
    draft->source = source < 12 ? 0 : source < 15 ? 1 : PEERS;
    if (draft->kind == TO_AUTH || draft->kind == TO_ACCT)
        peer_secret(&draft->secret, draft->source % PEERS);
    else
        home_secret(&draft->secret, draft->realm);
    draft_packet(draft, random);
    if (random_below(random, 16) == 0)
        grow_packet(draft, random);
    draft->length = mutate(random, draft->octets, draft->length, sizeof draft->octets);
    if (random_below(random, 2) == 0)
        sender->mutator->signed_anew += sign_anew(draft);
}

static struct sockaddr_in address_for(const struct plan *plan, const struct draft *draft)
{
    unsigned base = (unsigned)plan->base;

    switch (draft->kind) {
    case TO_AUTH:
        return broker_auth(base);
    case TO_ACCT:
        return broker_acct(base);
    case TO_OUT:
        return realm_out(base, draft->realm);
    default:
        return realm_reverse(base, draft->realm);
    }
}

static void send_one(struct sender *sender)
{
    struct draft draft;
    struct sockaddr_in to;

    make_draft(&draft, sender);
    to = address_for(sender->mutator->plan, &draft);
    sendto(sender->sources[draft.source], draft.octets, draft.length, 0,
           (const struct sockaddr *)&to, sizeof to);
    sender->mutator->sent[draft.kind]++;
}

static void drain_sockets(struct sender *sender)
{
    for (unsigned at = 0; at < SOURCES; at++)
        sender->mutator->answers +=
            incoming_receive(&sender->incoming, sender->sources[at], BATCH);
    for (unsigned at = 0; at < PEERS; at++)
        sender->mutator->forwarded +=
            incoming_receive(&sender->incoming, sender->coa[at], BATCH);
}

static void *mutator_thread(void *argument)
{
    struct mutator *mutator = argument;
    struct sender *sender = calloc(1, sizeof *sender);
    uint64_t due = now_nanoseconds();

    if (sender == NULL)
        fail("calloc");
    sender->mutator = mutator;
    sender->random.state = mutator->plan->seed;
    open_sender(sender);
    for (uint64_t at = 0; at < mutator->plan->count && !atomic_load(&mutator->stopped); at++) {
        send_one(sender);
        if (at % 16 == 0)
            drain_sockets(sender);
        due += 1000000000 / mutator->plan->mutated_rate;
        pause_until(due);
    }
    drain_sockets(sender);
    free(sender);
    atomic_store(&mutator->done, true);
    return NULL;
}

void mutator_start(struct mutator *mutator)
{
    atomic_init(&mutator->stopped, false);
    atomic_init(&mutator->done, false);
    if (pthread_create(&mutator->thread, NULL, mutator_thread, mutator) != 0)
        fail("pthread_create");
}

void mutator_stop(struct mutator *mutator)
{
    atomic_store(&mutator->stopped, true);
    pthread_join(mutator->thread, NULL);
}

/* A generator is made: its slots, its sockets and where its requests go. */
#include <stdlib.h>

#include "generator.h"

static void *need(size_t count, size_t size)
{
    void *memory = calloc(count, size);

    if (memory == NULL)
        fail("calloc");
    return memory;
}

static void open_channels(struct generator *generator)
{
    struct sockaddr_in any = address_of(peer_addresses[0], 0);

    generator->poller = open_poller();
    for (unsigned at = 0; at < generator->channel_count; at++) {
        generator->channels[at].socket = open_socket(&any);
        watch_socket(generator->poller, generator->channels[at].socket, at);
    }
}

/* Slot s belongs to realm s modulo the realms, and to channel s / slots_a_channel. */
static void make_slots(struct generator *generator)
{
    const struct plan *plan = generator->plan;

    for (unsigned at = 0; at < generator->slot_count; at++) {
        generator->slots[at].realm = (uint16_t)(at % plan->realms);
        request_make(&generator->slots[at].request, code_of(plan), (unsigned)(at % plan->realms),
                     (unsigned)(at / plan->realms));
    }
}

static void make_targets(struct generator *generator)
{
    for (unsigned realm = 0; realm < generator->plan->realms; realm++) {
        generator->targets[realm].address = target_address(generator->plan, realm);
        target_secret(generator->plan, realm, 0, &generator->targets[realm].secret);
    }
}

struct generator *generator_open(const struct plan *plan)
{
    struct generator *generator = need(1, sizeof *generator);

    generator->plan = plan;
    generator->random.state = plan->seed ^ now_nanoseconds();
    generator->slot_count = (unsigned)(plan->realms * plan->outstanding);
    generator->slots_a_channel = (unsigned)(IDENTIFIERS / plan->turns);
    generator->channel_count =
        (generator->slot_count - 1) / generator->slots_a_channel + 1;
    generator->targets = need(plan->realms, sizeof *generator->targets);
    generator->slots = need(generator->slot_count, sizeof *generator->slots);
    generator->deadlines = need(generator->slot_count, sizeof *generator->deadlines);
    generator->channels = need(generator->channel_count, sizeof *generator->channels);
    incoming_prepare(&generator->incoming);
    make_targets(generator);
    make_slots(generator);
    open_channels(generator);
    return generator;
}

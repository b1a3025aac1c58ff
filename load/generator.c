#include "generator.h"

#include <sys/epoll.h>
#include <time.h>

enum { STARTED_AT_A_TIME = 16 };
static const uint64_t MILLISECOND = 1000000;
static const uint64_t EXPIRY_INTERVAL = 10000000;

static void flush(struct channel *channel)
{
    if (channel->outgoing.count > 0)
        outgoing_send(&channel->outgoing, channel->socket);
}

static void send_slot(struct generator *generator, unsigned number, uint64_t now)
{
    struct slot *slot = &generator->slots[number];
    struct channel *channel = &generator->channels[number / generator->slots_a_channel];

    slot->sends++;
    generator->deadlines[number] = now + generator->plan->wait * MILLISECOND;
    outgoing_add(&channel->outgoing, slot->request.octets, slot->request.length,
                 &generator->targets[slot->realm].address);
    if (channel->outgoing.count == generator->plan->batch)
        flush(channel);
}

/* Keeps the Authenticators of the last two requests with one Identifier. */
static void remember(struct channel *channel, const struct request *request)
{
    uint8_t identifier = request->octets[1];

    memcpy(channel->former[identifier], channel->last[identifier], MD5_SIZE);
    memcpy(channel->last[identifier], request->octets + AUTHENTICATOR_AT, MD5_SIZE);
}

static void start_slot(struct generator *generator, unsigned number, uint64_t planned,
                       uint64_t now)
{
    struct slot *slot = &generator->slots[number];
    unsigned turn = slot->turn++ % (unsigned)generator->plan->turns;
    unsigned place = number % generator->slots_a_channel;

    request_renew(&slot->request, (uint8_t)(place + turn * generator->slots_a_channel),
                  &generator->targets[slot->realm].secret, &generator->random);
    remember(&generator->channels[number / generator->slots_a_channel], &slot->request);
    slot->planned = planned;
    slot->sends = 0;
    generator->tally.sent++;
    send_slot(generator, number, now);
}

/* In closed loop a slot whose request came to its end gets the next one at once. */
static void end_slot(struct generator *generator, unsigned number, uint64_t now)
{
    generator->deadlines[number] = 0;
    if (generator->issuing && generator->rate == 0)
        start_slot(generator, number, now, now);
}

/* The slot whose waiting request has this Identifier on this channel; -1 where none has. */
static int find_slot(const struct generator *generator, unsigned channel, uint8_t identifier)
{
    unsigned number = channel * generator->slots_a_channel
                      + identifier % generator->slots_a_channel;

    if (number >= generator->slot_count || generator->deadlines[number] == 0
        || generator->slots[number].request.octets[1] != identifier)
        return -1;
    return (int)number;
}

static void take_answer(struct generator *generator, unsigned channel, unsigned at,
                        uint64_t now)
{
    const uint8_t *octets = generator->incoming.octets[at];
    size_t size = generator->incoming.messages[at].msg_len;
    int number = size < HEADER_SIZE ? -1 : find_slot(generator, channel, octets[1]);
    const struct target *target;
    enum verdict verdict;
    struct slot *slot;

    if (number < 0) {
        generator->tally.late++;
        return;
    }
    slot = &generator->slots[number];
    target = &generator->targets[slot->realm];
    if (!same_address(&generator->incoming.from[at], &target->address)) {
        generator->tally.strange++;
        return;
    }
    verdict = answer_check(&slot->request, octets, size, &target->secret);
    if (verdict == BAD_AUTHENTICATOR
        && is_signed_for(octets, size, generator->channels[channel].former[octets[1]],
                         &target->secret)) {
        generator->tally.late++;
        return;
    }
    generator->tally.verdicts[verdict]++;
    if (verdict == GOOD)
        latency_add(&generator->latency, now - slot->planned);
    end_slot(generator, (unsigned)number, now);
}

static void receive(struct generator *generator, unsigned channel)
{
    unsigned received =
        incoming_receive(&generator->incoming, generator->channels[channel].socket,
                         (unsigned)generator->plan->batch);
    uint64_t now = now_nanoseconds();

    for (unsigned at = 0; at < received; at++)
        take_answer(generator, channel, at, now);
    flush(&generator->channels[channel]);
}

static void expire(struct generator *generator, uint64_t now)
{
    for (unsigned number = 0; number < generator->slot_count; number++) {
        if (generator->deadlines[number] == 0 || generator->deadlines[number] > now)
            continue;
        if (generator->slots[number].sends < generator->plan->tries) {
            generator->tally.resent++;
            send_slot(generator, number, now);
        } else {
            generator->tally.lost++;
            end_slot(generator, number, now);
        }
    }
    generator->next_expiry = now + EXPIRY_INTERVAL;
}

/* A free slot of a realm, from its next user on; -1 where all wait. */
static int free_slot(struct generator *generator, unsigned realm)
{
    const struct plan *plan = generator->plan;

    for (unsigned count = 0; count < plan->outstanding; count++) {
        uint32_t user = generator->next_user[realm]++ % (uint32_t)plan->outstanding;
        unsigned number = (unsigned)(realm + user * plan->realms);
        if (generator->deadlines[number] == 0)
            return (int)number;
    }
    return -1;
}

/* Sends what the rate says is due, realm after realm. */
static void start_due(struct generator *generator, uint64_t now)
{
    while (generator->next_due <= now) {
        int number = free_slot(generator, generator->next_realm);
        if (number >= 0)
            start_slot(generator, (unsigned)number, generator->next_due, now);
        else
            generator->tally.skipped++;
        generator->next_due += 1000000000 / generator->rate;
        if (++generator->next_realm == generator->plan->realms)
            generator->next_realm = generator->first_realm;
    }
}

/* Closed loop: starts the slots a few at a time, so that no buffer is flooded. */
static void start_more(struct generator *generator, uint64_t now)
{
    unsigned end = generator->started + STARTED_AT_A_TIME;

    for (; generator->started < end && generator->started < generator->slot_count;
         generator->started++)
        if (generator->deadlines[generator->started] == 0)
            start_slot(generator, generator->started, now, now);
}

static int wait_for_answers(struct generator *generator, struct epoll_event *events)
{
    uint64_t now = now_nanoseconds(), pause = MILLISECOND;
    struct timespec time = {0, 0};

    if (generator->issuing && generator->rate > 0) {
        uint64_t due = generator->next_due > now ? generator->next_due - now : 0;
        pause = due < pause ? due : pause;
    }
    time.tv_nsec = (long)pause;
    return epoll_pwait2(generator->poller, events, BATCH, &time, NULL);
}

static void take_turn(struct generator *generator)
{
    struct epoll_event events[BATCH];
    int ready = wait_for_answers(generator, events);
    uint64_t now;

    for (int at = 0; at < ready; at++)
        receive(generator, events[at].data.u32);
    now = now_nanoseconds();
    if (generator->issuing && generator->rate > 0)
        start_due(generator, now);
    else if (generator->issuing)
        start_more(generator, now);
    if (now >= generator->next_expiry)
        expire(generator, now);
    for (unsigned at = 0; at < generator->channel_count; at++)
        flush(&generator->channels[at]);
}

void generator_start(struct generator *generator, uint64_t rate, unsigned first)
{
    generator->rate = rate;
    generator->issuing = true;
    generator->started = 0;
    generator->first_realm = generator->next_realm = first;
    generator->next_due = now_nanoseconds();
}

void generator_run(struct generator *generator, uint64_t until)
{
    while (now_nanoseconds() < until)
        take_turn(generator);
}

static bool is_waiting(const struct generator *generator)
{
    for (unsigned number = 0; number < generator->slot_count; number++)
        if (generator->deadlines[number] != 0)
            return true;
    return false;
}

void generator_drain(struct generator *generator)
{
    const struct plan *plan = generator->plan;
    uint64_t end = now_nanoseconds() + (plan->wait * plan->tries + 100) * MILLISECOND;

    generator->issuing = false;
    while (is_waiting(generator) && now_nanoseconds() < end)
        take_turn(generator);
}

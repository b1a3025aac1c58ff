#include "measure.h"

#include <unistd.h>

typedef unsigned long long number;

static struct used read_used(const struct generator *generator, const struct board *board)
{
    struct used used = {own_thread_time(), 0, 0};

    if (board != NULL)
        used.home = processor_time(board->process);
    used.broker = processor_time((pid_t)generator->plan->process);
    return used;
}

static struct used used_between(struct used before, struct used after)
{
    after.generator -= before.generator;
    after.home -= before.home;
    after.broker -= before.broker;
    return after;
}

static struct dropped read_dropped(const struct plan *plan)
{
    unsigned base = (unsigned)plan->base;

    return (struct dropped){dropped_datagrams(base, base + BROKER_PORTS),
                            dropped_datagrams(base + 1000, base + 1000 + 2 * MOST_REALMS)};
}

static struct host_time host_time_since(struct host_time before)
{
    struct host_time time = read_host_time();

    return (struct host_time){time.stolen - before.stolen, time.all - before.all};
}

/* What the host took, in hundredths of all processor time of a window. */
static double stolen_percent(struct host_time time)
{
    return time.all > 0 ? 100.0 * (double)time.stolen / (double)time.all : 0;
}

static struct tally tally_between(const struct tally *before, const struct tally *after)
{
    struct tally tally = *after;

    tally.sent -= before->sent;
    tally.resent -= before->resent;
    tally.lost -= before->lost;
    tally.late -= before->late;
    tally.strange -= before->strange;
    tally.skipped -= before->skipped;
    for (unsigned verdict = 0; verdict < VERDICTS; verdict++)
        tally.verdicts[verdict] -= before->verdicts[verdict];
    return tally;
}

static void read_broker_threads(const struct generator *generator, struct thread_times *times)
{
    times->count = 0;
    if (generator->plan->threads > 0 && generator->plan->process > 0)
        read_threads(times, (pid_t)generator->plan->process);
}

void measure(struct generator *generator, const struct board *board, uint64_t warmup,
             uint64_t seconds, struct window *window)
{
    const uint64_t second = 1000000000;
    struct dropped dropped;
    struct host_time host;
    struct tally before;
    struct used used;
    uint64_t begin;

    generator_run(generator, now_nanoseconds() + warmup * second);
    before = generator->tally;
    latency_clear(&generator->latency);
    read_broker_threads(generator, &window->before);
    dropped = read_dropped(generator->plan);
    host = read_host_time();
    used = read_used(generator, board);
    begin = now_nanoseconds();
    generator_run(generator, begin + seconds * second);
    window->nanoseconds = now_nanoseconds() - begin;
    window->used = used_between(used, read_used(generator, board));
    read_broker_threads(generator, &window->after);
    window->tally = tally_between(&before, &generator->tally);
    window->host = host_time_since(host);
    window->dropped = read_dropped(generator->plan);
    window->dropped.at_broker -= dropped.at_broker;
    window->dropped.at_home -= dropped.at_home;
}

uint64_t bad_answers(const struct tally *tally)
{
    uint64_t bad = tally->strange;

    for (unsigned verdict = GOOD + 1; verdict < VERDICTS; verdict++)
        bad += tally->verdicts[verdict];
    return bad;
}

static void print_tally(const struct tally *tally)
{
    printf("sent=%llu\ngood=%llu\nresent=%llu\nlost=%llu\nlate=%llu\nskipped=%llu\nbad=%llu\n",
           (number)tally->sent, (number)tally->verdicts[GOOD], (number)tally->resent,
           (number)tally->lost, (number)tally->late, (number)tally->skipped,
           (number)bad_answers(tally));
    if (tally->strange > 0)
        printf("bad_strange_address=%llu\n", (number)tally->strange);
    for (unsigned verdict = GOOD + 1; verdict < VERDICTS; verdict++)
        if (tally->verdicts[verdict] > 0)
            printf("bad_%s=%llu\n", verdict_names[verdict], (number)tally->verdicts[verdict]);
}

static void print_used(const char *name, uint64_t used, uint64_t exchanges)
{
    if (used > 0 && exchanges > 0)
        printf("%s_us=%.2f\n", name, (double)used / 1000 / (double)exchanges);
}

void print_window(const char *label, const struct generator *generator,
                  const struct window *window)
{
    const struct latency *latency = &generator->latency;
    uint64_t good = window->tally.verdicts[GOOD];
    pid_t broker = (pid_t)generator->plan->process;

    printf("[%s]\nexchanges_a_second=%.0f\n", label,
           (double)good * 1e9 / (double)window->nanoseconds);
    printf("p50_us=%.1f\np99_us=%.1f\np999_us=%.1f\nlongest_us=%.1f\n",
           latency_at(latency, 0.5), latency_at(latency, 0.99), latency_at(latency, 0.999),
           latency_at(latency, 1));
    print_tally(&window->tally);
    printf("dropped_at_broker=%llu\ndropped_at_home=%llu\n",
           (number)window->dropped.at_broker, (number)window->dropped.at_home);
    printf("stolen_percent=%.1f\n", stolen_percent(window->host));
    print_used("generator", window->used.generator, good);
    print_used("home", window->used.home, good);
    print_used("broker", window->used.broker, good);
    print_threads(stdout, &window->before, &window->after, good);
    if (broker > 0)
        printf("broker_memory_kib=%llu\n", (number)resident_memory(broker));
    fflush(stdout);
}

void print_minute(const struct generator *generator, const struct window *window,
                  uint64_t minute)
{
    const struct latency *latency = &generator->latency;
    const struct tally *tally = &window->tally;
    uint64_t good = tally->verdicts[GOOD];

    printf("| %llu | %llu | %llu | %llu | %llu | %llu | %llu | %.0f | %.0f | %.0f | %.1f |"
           " %llu | %.0f |\n",
           (number)minute, (number)tally->sent, (number)good, (number)tally->resent,
           (number)tally->lost, (number)tally->skipped, (number)bad_answers(tally),
           latency_at(latency, 0.5), latency_at(latency, 0.99), latency_at(latency, 1),
           good > 0 ? (double)window->used.broker / 1000 / (double)good : 0,
           (number)resident_memory((pid_t)generator->plan->process),
           stolen_percent(window->host));
    fflush(stdout);
}

void print_totals(const struct generator *generator)
{
    printf("[total]\n");
    print_tally(&generator->tally);
    fflush(stdout);
}

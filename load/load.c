/* The generator of load: one of its modes, by the options of the command line. */
#include <stdio.h>
#include <stdlib.h>
#include <sys/prctl.h>

#include "flood.h"
#include "measure.h"
#include "mutator.h"
#include "options.h"

static const uint64_t SECOND = 1000000000;

struct bench {
    const struct plan *plan;
    struct board *board; /* null where none was named */
    struct generator *generator;
    struct window window;
};

static bool has_ended(const struct plan *plan)
{
    return plan->process > 0 && !is_alive((pid_t)plan->process);
}

/* Statuses: 1 for an answer that wasn't good, or a broker that isn't there any more. */
static int finish(struct bench *bench)
{
    generator_drain(bench->generator);
    print_totals(bench->generator);
    if (has_ended(bench->plan)) {
        printf("broker_ended=1\n");
        return 1;
    }
    return bad_answers(&bench->generator->tally) > 0 ? 1 : 0;
}

static int run_window(struct bench *bench, const char *label, uint64_t rate)
{
    generator_start(bench->generator, rate, 0);
    measure(bench->generator, bench->board, bench->plan->warmup, bench->plan->seconds,
            &bench->window);
    print_window(label, bench->generator, &bench->window);
    return finish(bench);
}

static int closed(struct bench *bench)
{
    return run_window(bench, "closed", 0);
}

static int paced(struct bench *bench)
{
    return run_window(bench, "paced", bench->plan->rate);
}

/* Realm 0's own stream, beside which the other realms are measured. */
static void run_phase(struct bench *bench, const char *label, struct flood flood)
{
    const struct plan *plan = bench->plan;

    if (has_ended(plan))
        return;
    flood.plan = plan;
    flood.seconds = 2 * plan->warmup + plan->seconds + 10;
    flood_start(&flood);
    generator_start(bench->generator, plan->rate, 1);
    measure(bench->generator, bench->board, plan->warmup, plan->seconds, &bench->window);
    flood_stop(&flood);
    generator_drain(bench->generator);
    print_window(label, bench->generator, &bench->window);
    printf("realm0_sent=%llu\nrealm0_answered=%llu\n", (unsigned long long)flood.sent,
           (unsigned long long)flood.answered);
    fflush(stdout);
    pause_until(now_nanoseconds() + SECOND);
}

static int interference(struct bench *bench)
{
    const struct plan *plan = bench->plan;
    const struct flood quiet = {.rate = plan->rate / plan->realms + 1};
    const struct flood same_peer = {.rate = plan->flood_rate};
    const struct flood other_peer = {.rate = plan->flood_rate, .peer = 1};

    if (bench->board == NULL || plan->realms < 2) {
        fprintf(stderr, "interference wants board=FILE and at least two realms\n");
        return 2;
    }
    run_phase(bench, "quiet", quiet);
    run_phase(bench, "flood from the same peer", same_peer);
    run_phase(bench, "quiet after it", quiet);
    run_phase(bench, "flood from another peer", other_peer);
    run_phase(bench, "quiet after that", quiet);
    bench->board->dead_realm = 0;
    run_phase(bench, "dead home server", quiet);
    bench->board->dead_realm = -1;
    run_phase(bench, "quiet at the end", quiet);
    return finish(bench);
}

/* One line a minute: what came, what was lost, and the broker's memory. */
static int soak(struct bench *bench)
{
    const struct plan *plan = bench->plan;
    uint64_t end = now_nanoseconds() + plan->seconds * SECOND, now;
    struct window *window = &bench->window;

    printf("| minute | sent | good | resent | lost | skipped | bad | p50 us | p99 us |"
           " longest us | broker us | broker KiB | stolen %% |\n");
    printf("|---|---|---|---|---|---|---|---|---|---|---|---|---|\n");
    generator_start(bench->generator, plan->rate, 0);
    for (uint64_t minute = 1; (now = now_nanoseconds()) + SECOND / 2 < end; minute++) {
        uint64_t left = (end - now + SECOND / 2) / SECOND;
        if (has_ended(plan))
            break;
        measure(bench->generator, bench->board, 0, left < 60 ? left : 60, window);
        print_minute(bench->generator, window, minute);
    }
    return finish(bench);
}

static int mutated(struct bench *bench)
{
    static const char *const names[PORT_KINDS] = {"auth", "acct", "out", "reverse"};
    const struct plan *plan = bench->plan;
    struct mutator mutator = {.plan = plan};
    uint64_t end = now_nanoseconds() + (plan->count / plan->mutated_rate + 60) * SECOND;

    if (bench->board != NULL)
        bench->board->spoilt_in_1000 = (uint32_t)plan->spoilt;
    mutator_start(&mutator);
    generator_start(bench->generator, plan->rate, 0);
    while (!atomic_load(&mutator.done) && now_nanoseconds() < end && !has_ended(plan))
        measure(bench->generator, bench->board, 0, 1, &bench->window);
    mutator_stop(&mutator);
    printf("[mutated]\n");
    for (unsigned kind = 0; kind < PORT_KINDS; kind++)
        printf("mutated_to_%s=%llu\n", names[kind], (unsigned long long)mutator.sent[kind]);
    printf("signed_anew=%llu\nanswered=%llu\nforwarded_to_coa=%llu\n",
           (unsigned long long)mutator.signed_anew, (unsigned long long)mutator.answers,
           (unsigned long long)mutator.forwarded);
    if (bench->board != NULL) {
        printf("mutated_answers=%llu\n", (unsigned long long)bench->board->spoilt);
        bench->board->spoilt_in_1000 = 0;
    }
    print_window("last second", bench->generator, &bench->window);
    return finish(bench);
}

static void read_plan(struct plan *plan, int count, char **words)
{
    const struct number_option numbers[] = {
        {"base", &plan->base, 1024, 60000},
        {"realms", &plan->realms, 1, MOST_REALMS},
        {"outstanding", &plan->outstanding, 1, 1024},
        {"turns", &plan->turns, 1, 256},
        {"batch", &plan->batch, 1, BATCH},
        {"seconds", &plan->seconds, 1, 86400},
        {"warmup", &plan->warmup, 0, 60},
        {"rate", &plan->rate, 1, 1000000},
        {"wait", &plan->wait, 1, 60000},
        {"tries", &plan->tries, 1, 100},
        {"seed", &plan->seed, 0, UINT64_MAX},
        {"count", &plan->count, 1, 1000000000},
        {"mutated_rate", &plan->mutated_rate, 1, 100000},
        {"flood_rate", &plan->flood_rate, 0, 1000000},
        {"spoilt", &plan->spoilt, 0, 1000},
        {"threads", &plan->threads, 0, 1},
        {"pid", &plan->process, 0, 1 << 30},
        {NULL, NULL, 0, 0}};
    const struct text_option texts[] = {{"via", &plan->via},
                                        {"kind", &plan->kind},
                                        {"board", &plan->board},
                                        {NULL, NULL}};

    read_options(count, words, 2, numbers, texts);
}

struct mode {
    const char *name;
    int (*run)(struct bench *bench);
    uint64_t outstanding; /* of a realm, where no option says it */
    uint64_t seconds;
};

static const struct mode *find_mode(const char *name)
{
    static const struct mode modes[] = {{"closed", closed, 16, 5},
                                        {"paced", paced, 64, 5},
                                        {"interference", interference, 256, 5},
                                        {"soak", soak, 64, 3600},
                                        {"mutated", mutated, 64, 1}};

    for (size_t at = 0; at < sizeof modes / sizeof *modes; at++)
        if (strcmp(modes[at].name, name) == 0)
            return &modes[at];
    return NULL;
}

int main(int count, char **words)
{
    static struct bench bench;
    const struct mode *mode = find_mode(count > 1 ? words[1] : "");
    struct plan plan = {.base = 20000, .realms = 8, .turns = 4, .batch = BATCH, .warmup = 1,
                        .rate = 4000, .wait = 1000, .tries = 5, .seed = 1, .count = 100000,
                        .mutated_rate = 2000, .spoilt = 100, .via = "broker",
                        .kind = "access"};

    if (mode == NULL) {
        fprintf(stderr, "usage: load closed|paced|interference|soak|mutated [name=value ...]\n");
        return 2;
    }
    plan.outstanding = mode->outstanding;
    plan.seconds = mode->seconds;
    read_plan(&plan, count, words);
    prctl(PR_SET_TIMERSLACK, 1);
    bench.plan = &plan;
    bench.board = plan.board != NULL ? open_board(plan.board) : NULL;
    bench.generator = generator_open(&plan);
    return mode->run(&bench);
}

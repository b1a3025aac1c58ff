/* Home servers of many realms in one process, of one thread: an epoll loop that receives and
   sends one datagram a call. It checks each request, answers it, and counts. With `apart=1` realm
   0 has a process of its own, so that its load isn't that of the other realms' home servers. */
#include <signal.h>
#include <stdio.h>
#include <stdlib.h>
#include <sys/epoll.h>
#include <sys/prctl.h>
#include <sys/wait.h>
#include <unistd.h>

#include "layout.h"
#include "meters.h"
#include "mutate.h"
#include "options.h"
#include "sockets.h"

enum { IN_A_ROW = 32, WAIT_MILLISECONDS = 100 };

struct home {
    uint64_t base, realms, seconds, seed, apart;
    unsigned first, end; /* the realms of this process */
    struct random random;
    struct board *board;
    int poller;
    int sockets[2 * MOST_REALMS]; /* of realm r: 2r for authentication, 2r + 1 for accounting */
    struct secret secrets[MOST_REALMS];
};

static volatile sig_atomic_t stopped;

static void stop(int number)
{
    (void)number;
    stopped = 1;
}

static void open_home(struct home *home)
{
    home->poller = open_poller();
    for (unsigned realm = home->first; realm < home->end; realm++) {
        struct sockaddr_in auth = home_auth((unsigned)home->base, realm);
        struct sockaddr_in acct = home_acct((unsigned)home->base, realm);
        home_secret(&home->secrets[realm], realm);
        home->sockets[2 * realm] = open_socket(&auth);
        home->sockets[2 * realm + 1] = open_socket(&acct);
        watch_socket(home->poller, home->sockets[2 * realm], 2 * realm);
        watch_socket(home->poller, home->sockets[2 * realm + 1], 2 * realm + 1);
    }
}

static void count_up(_Atomic uint64_t *counter)
{
    atomic_fetch_add_explicit(counter, 1, memory_order_relaxed);
}

/* Sends a mutated copy of an answer, as often as the board says. */
static void spoil(struct home *home, int socket, const struct packet *answer,
                  const struct sockaddr_in *to)
{
    uint8_t octets[DATAGRAM_ROOM];
    size_t length;

    if (random_below(&home->random, 1000) >= home->board->spoilt_in_1000)
        return;
    memcpy(octets, answer->octets, answer->length);
    length = mutate(&home->random, octets, answer->length, sizeof octets);
    sendto(socket, octets, length, 0, (const struct sockaddr *)to, sizeof *to);
    count_up(&home->board->spoilt);
}

static void answer_one(struct home *home, unsigned number, const uint8_t *octets, size_t size,
                       const struct sockaddr_in *from)
{
    uint8_t room[LARGEST_PACKET];
    struct packet answer = {room, sizeof room, 0};
    unsigned realm = number / 2;
    enum finding finding;

    if (atomic_load_explicit(&home->board->dead_realm, memory_order_relaxed) == (int)realm) {
        count_up(&home->board->swallowed);
        return;
    }
    finding = request_answer(octets, size, realm, &home->secrets[realm], &answer);
    count_up(&home->board->findings[finding]);
    if (answer.length == 0)
        return;
    if (atomic_load_explicit(&home->board->spoilt_in_1000, memory_order_relaxed) > 0)
        spoil(home, home->sockets[number], &answer, from);
    sendto(home->sockets[number], answer.octets, answer.length, 0,
           (const struct sockaddr *)from, sizeof *from);
}

static void drain(struct home *home, unsigned number)
{
    uint8_t octets[DATAGRAM_ROOM];
    struct sockaddr_in from;

    for (unsigned count = 0; count < IN_A_ROW; count++) {
        socklen_t from_size = sizeof from;
        ssize_t size = recvfrom(home->sockets[number], octets, sizeof octets, 0,
                                (struct sockaddr *)&from, &from_size);
        if (size < 0)
            return;
        answer_one(home, number, octets, (size_t)size, &from);
    }
}

static void serve(struct home *home)
{
    uint64_t end = now_nanoseconds() + home->seconds * 1000000000;
    struct epoll_event events[BATCH];

    while (!stopped && now_nanoseconds() < end) {
        int ready = epoll_wait(home->poller, events, BATCH, WAIT_MILLISECONDS);
        for (int at = 0; at < ready; at++)
            drain(home, events[at].data.u32);
    }
}

static void report(const struct home *home, uint64_t processor)
{
    uint64_t answered = home->board->findings[ANSWERED];

    for (unsigned finding = 0; finding < FINDINGS; finding++)
        printf("home_%s=%llu\n", finding_names[finding],
               (unsigned long long)home->board->findings[finding]);
    printf("home_swallowed=%llu\n", (unsigned long long)home->board->swallowed);
    printf("home_spoilt=%llu\n", (unsigned long long)home->board->spoilt);
    if (answered > 0)
        printf("home_us=%.2f\n", (double)processor / 1000 / (double)answered);
}

/* Makes the process of realm 0 and answers its number, or 0 in that process and where none is
   made. */
static pid_t set_apart(struct home *home)
{
    pid_t child;

    home->end = (unsigned)home->realms;
    if (home->apart == 0 || home->realms < 2)
        return 0;
    child = fork();
    if (child < 0)
        fail("fork");
    if (child == 0) {
        prctl(PR_SET_PDEATHSIG, SIGTERM);
        home->end = 1;
    } else {
        home->first = 1;
    }
    return child;
}

static void read_home(struct home *home, const char **path, int count, char **words)
{
    const struct number_option numbers[] = {{"base", &home->base, 1024, 60000},
                                            {"realms", &home->realms, 1, MOST_REALMS},
                                            {"seconds", &home->seconds, 1, 100000},
                                            {"seed", &home->seed, 0, UINT64_MAX},
                                            {"apart", &home->apart, 0, 1},
                                            {NULL, NULL, 0, 0}};
    const struct text_option texts[] = {{"board", path}, {NULL, NULL}};

    read_options(count, words, 1, numbers, texts);
    home->random.state = home->seed;
}

static void clear_board(struct home *home, const char *path)
{
    home->board = open_board(path);
    memset((void *)home->board, 0, sizeof *home->board);
    home->board->dead_realm = -1;
    home->board->process = getpid();
}

int main(int count, char **words)
{
    static struct home home = {.base = 20000, .realms = 8, .seconds = 600, .seed = 1};
    const char *path = "home.board";
    uint64_t before;
    pid_t child;

    read_home(&home, &path, count, words);
    signal(SIGTERM, stop);
    signal(SIGINT, stop);
    clear_board(&home, path);
    child = set_apart(&home);
    open_home(&home);
    before = processor_time(getpid());
    serve(&home);
    if (child > 0) {
        kill(child, SIGTERM);
        waitpid(child, NULL, 0);
    }
    if (getpid() == home.board->process)
        report(&home, processor_time(getpid()) - before);
    return 0;
}

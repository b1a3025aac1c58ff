#include "meters.h"

#include <dirent.h>
#include <fcntl.h>
#include <stdlib.h>
#include <sys/mman.h>
#include <time.h>
#include <unistd.h>

#include "sockets.h"

static uint64_t read_clock(clockid_t clock)
{
    struct timespec time;

    if (clock_gettime(clock, &time) != 0)
        return 0;
    return (uint64_t)time.tv_sec * 1000000000 + (uint64_t)time.tv_nsec;
}

uint64_t now_nanoseconds(void)
{
    return read_clock(CLOCK_MONOTONIC);
}

void pause_until(uint64_t moment)
{
    struct timespec time = {(time_t)(moment / 1000000000), (long)(moment % 1000000000)};

    clock_nanosleep(CLOCK_MONOTONIC, TIMER_ABSTIME, &time, NULL);
}

uint64_t own_thread_time(void)
{
    return read_clock(CLOCK_THREAD_CPUTIME_ID);
}

uint64_t processor_time(pid_t process)
{
    clockid_t clock;

    if (process <= 0 || clock_getcpuclockid(process, &clock) != 0)
        return 0;
    return read_clock(clock);
}

uint64_t resident_memory(pid_t process)
{
    char path[64], line[128];
    unsigned long long memory = 0;
    FILE *file;

    snprintf(path, sizeof path, "/proc/%d/status", (int)process);
    file = fopen(path, "r");
    if (file == NULL)
        return 0;
    while (fgets(line, sizeof line, file) != NULL)
        if (sscanf(line, "VmRSS: %llu", &memory) == 1)
            break;
    fclose(file);
    return memory;
}

/* A process that ended and whose parent didn't ask yet has no memory. */
bool is_alive(pid_t process)
{
    return resident_memory(process) > 0;
}

/* The first line of /proc/stat: user nice system idle iowait irq softirq steal. */
struct host_time read_host_time(void)
{
    enum { STEAL = 7, FIELDS = 8 };
    FILE *file = fopen("/proc/stat", "r");
    struct host_time time = {0, 0};
    unsigned long long field;

    if (file == NULL)
        return time;
    if (fscanf(file, "cpu") == 0)
        for (int at = 0; at < FIELDS && fscanf(file, "%llu", &field) == 1; at++) {
            time.all += field;
            if (at == STEAL)
                time.stolen = field;
        }
    fclose(file);
    return time;
}

uint64_t dropped_datagrams(unsigned first_port, unsigned end_port)
{
    FILE *file = fopen("/proc/net/udp", "r");
    unsigned long long dropped, sum = 0;
    unsigned port;
    char line[256];

    if (file == NULL)
        return 0;
    while (fgets(line, sizeof line, file) != NULL)
        if (sscanf(line, " %*d: %*x:%x %*s %*s %*s %*s %*s %*s %*s %*s %*s %*s %llu", &port,
                   &dropped) == 2 && port >= first_port && port < end_port)
            sum += dropped;
    fclose(file);
    return sum;
}

/* The first line of a file of one thread in /proc; false where it can't be read. */
static bool read_line(pid_t process, pid_t thread, const char *name, char *line, int room)
{
    char path[96];
    FILE *file;
    bool read;

    snprintf(path, sizeof path, "/proc/%d/task/%d/%s", (int)process, (int)thread, name);
    file = fopen(path, "r");
    if (file == NULL)
        return false;
    read = fgets(line, room, file) != NULL;
    fclose(file);
    return read;
}

static void read_thread(struct thread_times *times, pid_t process, pid_t thread)
{
    unsigned long long nanoseconds;
    char line[128];

    if (times->count == MOST_THREADS)
        return;
    if (!read_line(process, thread, "schedstat", line, sizeof line)
        || sscanf(line, "%llu", &nanoseconds) != 1)
        return;
    times->threads[times->count].thread = thread;
    times->threads[times->count].nanoseconds = nanoseconds;
    if (!read_line(process, thread, "comm", line, sizeof line)
        || sscanf(line, "%19s", times->threads[times->count].name) != 1)
        return;
    times->count++;
}

void read_threads(struct thread_times *times, pid_t process)
{
    char path[64];
    struct dirent *entry;
    DIR *directory;

    times->count = 0;
    snprintf(path, sizeof path, "/proc/%d/task", (int)process);
    directory = opendir(path);
    if (directory == NULL)
        return;
    while ((entry = readdir(directory)) != NULL)
        if (entry->d_name[0] != '.')
            read_thread(times, process, atoi(entry->d_name));
    closedir(directory);
}

static uint64_t time_of(const struct thread_times *times, pid_t thread)
{
    for (unsigned at = 0; at < times->count; at++)
        if (times->threads[at].thread == thread)
            return times->threads[at].nanoseconds;
    return 0;
}

void print_threads(FILE *file, const struct thread_times *before,
                   const struct thread_times *after, uint64_t exchanges)
{
    for (unsigned at = 0; at < after->count && exchanges > 0; at++) {
        pid_t thread = after->threads[at].thread;
        uint64_t used = after->threads[at].nanoseconds - time_of(before, thread);
        double each = (double)used / 1000 / (double)exchanges;
        if (each >= 0.05)
            fprintf(file, "thread_us_%s_%d=%.2f\n", after->threads[at].name, (int)thread, each);
    }
}

struct board *open_board(const char *path)
{
    int file = open(path, O_RDWR | O_CREAT | O_CLOEXEC, 0600);
    void *board;

    if (file < 0 || ftruncate(file, sizeof(struct board)) != 0)
        fail(path);
    board = mmap(NULL, sizeof(struct board), PROT_READ | PROT_WRITE, MAP_SHARED, file, 0);
    if (board == MAP_FAILED)
        fail(path);
    close(file);
    return board;
}

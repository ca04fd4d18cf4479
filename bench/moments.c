/* Notes how long a run of heapmark reads, builds, marks and reports, from inside its process.
 *
 * Build it by `cc -O2 -shared -fPIC -o moments.so bench/moments.c`, and preload it. The variable MOMENTS names the file
 * to which it adds a line "READ BUILD MARK REPORT", in seconds; WORKERS is the number of workers. `strace` would stop
 * at each of the 2,000 reads of a large dump: the stops took a fifth of the reading time.
 *
 * Threads that live at the same time are a group. The last group with as many threads as there are workers does the
 * marking; if no group has that size, the last group does it. The groups before it parse, gather and link. Reading ends
 * when a read of the dump returns 0.
 */
#define _GNU_SOURCE
#include <dlfcn.h>
#include <pthread.h>
#include <stdatomic.h>
#include <stdio.h>
#include <stdlib.h>
#include <string.h>
#include <sys/syscall.h>
#include <time.h>
#include <unistd.h>

enum { MOST_GROUPS = 64 };

struct group {
    int threads;
    double began, ended;
};

struct start {
    void *(*body)(void *);
    void *argument;
    int group;
};

static struct group groups[MOST_GROUPS];
static int last_group;
static atomic_int living;
static int dump = -1;
static double opened, was_read;

static double now(void)
{
    struct timespec time;
    clock_gettime(CLOCK_MONOTONIC, &time);
    return time.tv_sec + time.tv_nsec / 1e9;
}

int open(const char *name, int flags, ...)
{
    int (*next)(const char *, int, ...) = dlsym(RTLD_NEXT, "open");
    int file = next(name, flags, 0);
    if (dump < 0 && strstr(name, ".hprof")) {
        dump = file;
        opened = now();
    }
    return file;
}

ssize_t read(int file, void *bytes, size_t count)
{
    static ssize_t (*next)(int, void *, size_t);
    if (!next)
        next = dlsym(RTLD_NEXT, "read");
    ssize_t taken = next(file, bytes, count);
    if (file == dump && taken == 0 && was_read == 0)
        was_read = now();
    return taken;
}

static void *timed(void *argument)
{
    struct start start = *(struct start *)argument;
    free(argument);
    void *result = start.body(start.argument);
    groups[start.group].ended = now();
    atomic_fetch_sub(&living, 1);
    return result;
}

int pthread_create(pthread_t *thread, const pthread_attr_t *attributes, void *(*body)(void *), void *argument)
{
    int (*next)(pthread_t *, const pthread_attr_t *, void *(*)(void *), void *) = dlsym(RTLD_NEXT, "pthread_create");
    struct start *start = malloc(sizeof *start);
    if (atomic_fetch_add(&living, 1) == 0 && last_group < MOST_GROUPS - 1)
        groups[++last_group].began = now();
    groups[last_group].threads++;
    *start = (struct start){ body, argument, last_group };
    return next(thread, attributes, timed, start);
}

void _exit(int status)
{
    double end = now();
    const char *name = getenv("MOMENTS"), *workers = getenv("WORKERS");
    int marking = last_group;
    while (marking > 1 && groups[marking].threads != atoi(workers ? workers : "1"))
        marking--;
    if (marking < 1 || groups[marking].threads != atoi(workers ? workers : "1"))
        marking = last_group;
    FILE *file = name ? fopen(name, "a") : NULL;
    if (file) {
        struct group mark = groups[marking];
        fprintf(file, "%.6f %.6f %.6f %.6f\n", was_read - opened, mark.began - was_read, mark.ended - mark.began,
                end - mark.ended);
        fclose(file);
    }
    syscall(SYS_exit_group, status);
    __builtin_unreachable();
}

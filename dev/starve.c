/* A library that is loaded before the C library. It counts the calls of malloc and realloc (requests) and the starts of
   threads, and lets some of them fail, as the environment says:

   STARVE        the number of the request that fails
   STARVE_START  the number of the start that fails, with STARVE_LATER all later ones too
   STARVE_COUNT  the file for the counts, a line each: requests, starts */
#define _GNU_SOURCE
#include <dlfcn.h>
#include <errno.h>
#include <fcntl.h>
#include <pthread.h>
#include <stdatomic.h>
#include <stdio.h>
#include <stdlib.h>
#include <sys/syscall.h>
#include <unistd.h>

static atomic_ulong requests, starts;
static unsigned long refused, refused_start;
static int later_starts_too;
static void *(*next_malloc)(size_t);
static void *(*next_realloc)(void *, size_t);

static unsigned long number_in(const char *name) {
    const char *number = getenv(name);
    return number ? strtoul(number, NULL, 10) : 0;
}

static void init(void) {
    if (next_realloc) return;
    refused = number_in("STARVE");
    next_malloc = (void *(*)(size_t))dlsym(RTLD_NEXT, "malloc");
    next_realloc = (void *(*)(void *, size_t))dlsym(RTLD_NEXT, "realloc");
}

static int is_refused(void) {
    init();
    if (atomic_fetch_add(&requests, 1) + 1 != refused) return 0;
    errno = ENOMEM;
    return 1;
}

void *malloc(size_t size) { return is_refused() ? NULL : next_malloc(size); }

void *realloc(void *old, size_t size) { return is_refused() ? NULL : next_realloc(old, size); }

int pthread_create(pthread_t *thread, const pthread_attr_t *attr, void *(*body)(void *), void *arg) {
    static int (*next)(pthread_t *, const pthread_attr_t *, void *(*)(void *), void *);
    if (!next) {
        refused_start = number_in("STARVE_START");
        later_starts_too = getenv("STARVE_LATER") != NULL;
        *(void **)&next = dlsym(RTLD_NEXT, "pthread_create");
    }
    unsigned long start = atomic_fetch_add(&starts, 1) + 1;
    if (refused_start && (start == refused_start || (later_starts_too && start > refused_start))) return EAGAIN;
    return next(thread, attr, body, arg);
}

/* The program ends here, and not by exit: so no destructor would run. What writes the counts takes no memory. */
void _exit(int status) {
    const char *name = getenv("STARVE_COUNT");
    char text[64];
    int length = snprintf(text, sizeof text, "%lu\n%lu\n", (unsigned long)requests, (unsigned long)starts);
    int file = name ? open(name, O_WRONLY | O_CREAT, 0600) : -1;
    if (file >= 0 && write(file, text, length) == length) close(file);
    syscall(SYS_exit_group, status);
    __builtin_unreachable();
}

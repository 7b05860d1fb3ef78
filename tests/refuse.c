/* What is put in front of the C library (LD_PRELOAD) to refuse requests of a program: for memory, or for threads where REFUSE_WHAT is
   `threads`; so many in a row as REFUSE_COUNT says, of which the first is that of the number REFUSE_FIRST, counted from 1. Where REFUSE_FILE
   names a file, the two numbers are what stands in it at the time, each of eight octets, the first one before the count, and requests are
   counted by the third number in it. Each that is refused is told on the standard error. refused.sh, tests/ending.py and
   tests/refused_updates.py make it by a C compiler. */
#define _GNU_SOURCE
#include <dlfcn.h>
#include <errno.h>
#include <fcntl.h>
#include <pthread.h>
#include <stdatomic.h>
#include <stdlib.h>
#include <string.h>
#include <sys/mman.h>
#include <unistd.h>

extern void *__libc_malloc(size_t);
extern void *__libc_realloc(void *, size_t);
static struct { volatile unsigned long first, count; atomic_ulong made; } own, *now = &own;

static unsigned long number(const char *name) {
    const char *said = getenv(name);
    return said ? strtoul(said, 0, 10) : 0;
}

__attribute__((constructor)) static void begin(void) {
    own.first = number("REFUSE_FIRST"), own.count = number("REFUSE_COUNT");
    const char *path = getenv("REFUSE_FILE");
    int file = path ? open(path, O_RDWR) : -1;
    void *shared = file >= 0 ? mmap(0, sizeof own, PROT_READ | PROT_WRITE, MAP_SHARED, file, 0) : MAP_FAILED;
    if (shared != MAP_FAILED) now = shared;
}

static int is_refused(const char *what) {
    const char *meant = getenv("REFUSE_WHAT");
    if (strcmp(meant ? meant : "memory", what)) return 0;
    unsigned long at = ++now->made;
    if (at < now->first || at - now->first >= now->count) return 0;
    static const char said[] = "a request was refused\n";
    return write(2, said, sizeof said - 1) >= -1;
}

void *malloc(size_t size) { return is_refused("memory") ? 0 : __libc_malloc(size); }

void *realloc(void *old, size_t size) { return is_refused("memory") ? 0 : __libc_realloc(old, size); }

int pthread_create(pthread_t *thread, const pthread_attr_t *how, void *(*run)(void *), void *with) {
    int (*create)(pthread_t *, const pthread_attr_t *, void *(*)(void *), void *) = dlsym(RTLD_NEXT, "pthread_create");
    return is_refused("threads") ? EAGAIN : create(thread, how, run, with);
}

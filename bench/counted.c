/* A library that is loaded before a program's own (LD_PRELOAD) and counts the octets that it has from malloc, those between blocks too, as they are and as
 * they were at most, in the two words of the file that COUNTED names. bench/kept_versions.py reads them. Of the three calls that dnsd makes none is left out. */
#define _GNU_SOURCE
#include <dlfcn.h>
#include <fcntl.h>
#include <malloc.h>
#include <stdatomic.h>
#include <stdlib.h>
#include <sys/mman.h>

enum { HEAD = 8 };
static void *(*own_malloc)(size_t);
static void *(*own_realloc)(void *, size_t);
static void (*own_free)(void *);
static atomic_long spare[2], *counts = spare;

__attribute__((constructor)) static void begin(void) {
    own_malloc = dlsym(RTLD_NEXT, "malloc");
    own_realloc = dlsym(RTLD_NEXT, "realloc");
    own_free = dlsym(RTLD_NEXT, "free");
    const char *path = getenv("COUNTED");
    int file = path ? open(path, O_RDWR) : -1;
    void *at = file < 0 ? MAP_FAILED : mmap(0, sizeof spare, PROT_READ | PROT_WRITE, MAP_SHARED, file, 0);
    if (at != MAP_FAILED) counts = at;
}

static long size_of(void *block) { return block ? (long)malloc_usable_size(block) + HEAD : 0; }

static void count(long more) {
    long now = atomic_fetch_add(&counts[0], more) + more, most = atomic_load(&counts[1]);
    while (now > most && !atomic_compare_exchange_weak(&counts[1], &most, now)) {}
}

void *malloc(size_t size) {
    if (!own_malloc) begin();
    void *block = own_malloc(size);
    count(size_of(block));
    return block;
}

void *realloc(void *old, size_t size) {
    if (!own_realloc) begin();
    long before = size_of(old);
    void *block = own_realloc(old, size);
    if (block || !size) count(size_of(block) - before);
    return block;
}

void free(void *block) {
    if (!own_free) begin();
    count(-size_of(block));
    own_free(block);
}

/* What is put in front of the C library (LD_PRELOAD) to see what a program does to the files below one folder, DISK_DIR, and to make its disk slow
   or faulty. Each of the calls below is done, and then told by one record at the end of the file DISK_LOG, with the octets that it wrote; a sync is
   told when it begins and when it has come back. Each record is put there by one write, while no other thread's call is done: so they stand in the
   order of the calls, and where the program is killed all are whole but perhaps the last one, of whose call the program knows nothing yet.
     DISK_SLOW=N    each sync takes N milliseconds more
     DISK_WHEN=FILE it does only while there is this file
     DISK_FAIL=K    the Kth of the writes, cuts, syncs and renames below the folder, counted from 1, is refused: a write by ENOSPC, others by EIO.
                    A sync that is refused isn't done
     DISK_COUNT=N   so many in a row are refused, by default 1
     DISK_END=K     the program is killed in front of the Kth of the calls that are told
   A record is the struct below, then the first name and the second one, each below the folder, then the octets. tests/crash_disk.py reads it;
   tests/crash.py and tests/slow_disk.py make the library by a C compiler. For Linux, where a word has 64 bits. */
#define _GNU_SOURCE
#include <errno.h>
#include <fcntl.h>
#include <limits.h>
#include <pthread.h>
#include <signal.h>
#include <stdarg.h>
#include <stdint.h>
#include <stdio.h>
#include <stdlib.h>
#include <string.h>
#include <sys/stat.h>
#include <sys/syscall.h>
#include <sys/uio.h>
#include <time.h>
#include <unistd.h>

enum kind { OPENED = 1, WRITTEN, CUT, SYNC, SYNCED, UNSYNCED, RENAMED, REMOVED, LINKED, CLOSED, REFUSED };

/* file: the inode. at: where octets were written, how long the file was made, which thread syncs, or of an open whether the file is a new one (1)
   or was emptied (2). */
struct record { uint32_t kind, first, second, size; uint64_t file, at; };

enum { FILES = 1 << 16 };
static char folder[PATH_MAX];
static size_t folder_size;
static int log_file = -1;
static unsigned long slow, fail, many, end, failing, told;
static unsigned char is_below[FILES];
static pthread_mutex_t lock = PTHREAD_MUTEX_INITIALIZER;

static unsigned long number(const char *name, unsigned long otherwise) {
    const char *said = getenv(name);
    return said ? strtoul(said, 0, 10) : otherwise;
}

__attribute__((constructor)) static void begin(void) {
    const char *dir = getenv("DISK_DIR"), *path = getenv("DISK_LOG");
    slow = number("DISK_SLOW", 0), fail = number("DISK_FAIL", 0), many = number("DISK_COUNT", 1), end = number("DISK_END", 0);
    if (!dir || !realpath(dir, folder)) return;
    folder_size = strlen(folder);
    if (path) log_file = syscall(SYS_openat, AT_FDCWD, path, O_WRONLY | O_CREAT | O_APPEND | O_CLOEXEC, 0666);
}

/* The part of a whole path that is below the folder, "" of the folder itself; none elsewhere. */
static const char *below(const char *path) {
    if (!folder_size || strncmp(path, folder, folder_size)) return 0;
    return path[folder_size] == '/' ? path + folder_size + 1 : path[folder_size] ? 0 : path + folder_size;
}

/* The same of a path as it is given to a call, whose last name need not be there. */
static const char *named(int at, const char *path, char whole[PATH_MAX]) {
    char given[2 * PATH_MAX], link[64];
    if (!folder_size) return 0;
    ssize_t size = 0;
    if (path[0] != '/') {
        snprintf(link, sizeof link, at == AT_FDCWD ? "/proc/self/cwd" : "/proc/self/fd/%d", at);
        if ((size = readlink(link, given, PATH_MAX - 1)) < 0) return 0;
        given[size++] = '/';
    }
    if (strlen(path) >= PATH_MAX) return 0;
    strcpy(given + size, path);
    char *last = strrchr(given, '/');
    *last = 0;
    if (!realpath(*given ? given : "/", whole) || strlen(whole) + strlen(last + 1) + 2 > PATH_MAX) return 0;
    return below(strcat(strcat(whole, "/"), last + 1));
}

static int is_seen(int file) { return file >= 0 && file < FILES && is_below[file]; }

static uint64_t inode(int file) {
    struct stat is;
    return fstat(file, &is) ? 0 : is.st_ino;
}

/* In front of each call that is told. */
static void counted(void) {
    if (++told == end) kill(getpid(), SIGKILL);
}

static void tell(enum kind kind, uint64_t file, uint64_t at, const char *first, const char *second, const void *octets, size_t size) {
    struct record is = {kind, first ? strlen(first) : 0, second ? strlen(second) : 0, size, file, at};
    struct iovec parts[] = {{&is, sizeof is}, {(void *)first, is.first}, {(void *)second, is.second}, {(void *)octets, size}};
    int error = errno;
    if (log_file >= 0 && writev(log_file, parts, 4) < 0) abort();
    errno = error;
}

/* Whether a call is refused; then the reason is told to the caller. */
static int refused(int reason) {
    unsigned long at = ++failing;
    if (!fail || at < fail || at - fail >= many) return 0;
    static const char said[] = "a call to the disk was refused\n";
    if (syscall(SYS_write, 2, said, sizeof said - 1) < 0) return 0;
    tell(REFUSED, 0, at, 0, 0, 0, 0);
    errno = reason;
    return 1;
}

static int opened(int at, const char *path, int flags, mode_t mode) {
    char whole[PATH_MAX];
    pthread_mutex_lock(&lock);
    const char *name = named(at, path, whole);
    if (name && flags & (O_CREAT | O_TRUNC)) counted();
    int was = name && !faccessat(AT_FDCWD, whole, F_OK, 0);
    int file = syscall(SYS_openat, at, path, flags, mode);
    if (file >= 0 && file < FILES && (is_below[file] = name != 0)) {
        uint64_t what = !was && flags & O_CREAT ? 1 : flags & O_TRUNC ? 2 : 0;
        if (what) tell(OPENED, inode(file), what, name, 0, 0, 0);
    }
    pthread_mutex_unlock(&lock);
    return file;
}

static mode_t mode_of(int flags, va_list list) { return flags & (O_CREAT | O_TMPFILE) ? va_arg(list, mode_t) : 0; }

int open(const char *path, int flags, ...) {
    va_list list;
    va_start(list, flags);
    mode_t mode = mode_of(flags, list);
    va_end(list);
    return opened(AT_FDCWD, path, flags, mode);
}

int openat(int at, const char *path, int flags, ...) {
    va_list list;
    va_start(list, flags);
    mode_t mode = mode_of(flags, list);
    va_end(list);
    return opened(at, path, flags, mode);
}

/* A write at a place, or where the file stands (at < 0). */
static ssize_t written(int file, const void *octets, size_t size, off_t at) {
    if (!is_seen(file)) return at < 0 ? syscall(SYS_write, file, octets, size) : syscall(SYS_pwrite64, file, octets, size, at);
    pthread_mutex_lock(&lock);
    counted();
    ssize_t done = -1;
    if (!refused(ENOSPC)) {
        done = at < 0 ? syscall(SYS_write, file, octets, size) : syscall(SYS_pwrite64, file, octets, size, at);
        if (done > 0) tell(WRITTEN, inode(file), at < 0 ? lseek(file, 0, SEEK_CUR) - done : at, 0, 0, octets, done);
    }
    pthread_mutex_unlock(&lock);
    return done;
}

/* The names by which programs for files of any size call the same. */
__attribute__((alias("open"))) int open64(const char *, int, ...);
__attribute__((alias("openat"))) int openat64(int, const char *, int, ...);

ssize_t write(int file, const void *octets, size_t size) { return written(file, octets, size, -1); }

ssize_t pwrite(int file, const void *octets, size_t size, off_t at) { return written(file, octets, size, at); }

__attribute__((alias("pwrite"))) ssize_t pwrite64(int, const void *, size_t, off_t);

int ftruncate(int file, off_t size) {
    if (!is_seen(file)) return syscall(SYS_ftruncate, file, size);
    pthread_mutex_lock(&lock);
    counted();
    int is = refused(EIO) ? -1 : syscall(SYS_ftruncate, file, size);
    if (!is) tell(CUT, inode(file), size, 0, 0, 0, 0);
    pthread_mutex_unlock(&lock);
    return is;
}

__attribute__((alias("ftruncate"))) int ftruncate64(int, off_t);

/* Other threads go on while a file is synced: what they write meanwhile may be left out. */
static int synced(long call, int file) {
    if (!is_seen(file)) return syscall(call, file);
    uint64_t which = inode(file), thread = gettid();
    pthread_mutex_lock(&lock);
    counted();
    tell(SYNC, which, thread, 0, 0, 0, 0);
    int is = refused(EIO) ? -1 : 0;
    pthread_mutex_unlock(&lock);
    struct timespec time = {slow / 1000, slow % 1000 * 1000000};
    const char *when = getenv("DISK_WHEN");
    while (slow && (!when || !access(when, F_OK)) && nanosleep(&time, &time) && errno == EINTR) {}
    if (is) errno = EIO;
    else is = syscall(call, file);
    pthread_mutex_lock(&lock);
    tell(is ? UNSYNCED : SYNCED, which, thread, 0, 0, 0, 0);
    pthread_mutex_unlock(&lock);
    return is;
}

int fsync(int file) { return synced(SYS_fsync, file); }

int fdatasync(int file) { return synced(SYS_fdatasync, file); }

/* A call that changes a name, of one or of two paths. */
static int renamed(enum kind kind, int at, const char *path, int to_at, const char *to, int flags) {
    char whole[PATH_MAX], to_whole[PATH_MAX];
    pthread_mutex_lock(&lock);
    const char *name = named(at, path, whole), *to_name = to ? named(to_at, to, to_whole) : 0;
    int is = -1;
    if (name || to_name) counted();
    if (kind != RENAMED || !(name || to_name) || !refused(EIO)) {
        if (kind == RENAMED) is = syscall(SYS_renameat2, at, path, to_at, to, flags);
        else if (kind == LINKED) is = syscall(SYS_linkat, at, path, to_at, to, flags);
        else is = syscall(SYS_unlinkat, at, path, flags);
    }
    if (!is && (name || to_name)) tell(kind, 0, 0, name, to_name, 0, 0);
    pthread_mutex_unlock(&lock);
    return is;
}

int rename(const char *path, const char *to) { return renamed(RENAMED, AT_FDCWD, path, AT_FDCWD, to, 0); }

int renameat(int at, const char *path, int to_at, const char *to) { return renamed(RENAMED, at, path, to_at, to, 0); }

int unlink(const char *path) { return renamed(REMOVED, AT_FDCWD, path, 0, 0, 0); }

int unlinkat(int at, const char *path, int flags) { return renamed(REMOVED, at, path, 0, 0, flags); }

int link(const char *path, const char *to) { return renamed(LINKED, AT_FDCWD, path, AT_FDCWD, to, 0); }

int close(int file) {
    if (!is_seen(file)) return syscall(SYS_close, file);
    pthread_mutex_lock(&lock);
    uint64_t which = inode(file);
    is_below[file] = 0;
    int is = syscall(SYS_close, file);
    tell(CLOSED, which, 0, 0, 0, 0, 0);
    pthread_mutex_unlock(&lock);
    return is;
}

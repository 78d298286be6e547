// What the module asks of its system, on Linux: for processors beside the one that it was lowered for, and for programs
// that need no C library where they run. Calls go on to glibc, which is linked in. What differs between processors is
// said here: the numbers of `open` and of system calls, and what a thread's attributes take.
#define _GNU_SOURCE
#include "system.h"
#include <errno.h>
#include <fcntl.h>
#include <pthread.h>
#include <sched.h>
#include <signal.h>
#include <stdarg.h>
#include <stdlib.h>
#include <string.h>
#include <sys/stat.h>
#include <sys/syscall.h>
#include <time.h>
#include <unistd.h>

extern char **environ;
static char **words;
static u64 count_of_words;

int main(int count, char **given) {
    words = given;
    count_of_words = (u64)count;
    return torchplan_main();
}

// ---- memory
void *system_malloc(u64 count) {
    return malloc(count);
}

void *system_realloc(void *block, u64 count) {
    return realloc(block, count);
}

void system_free(void *block) {
    free(block);
}

// ---- faults
i32 system_rattle_errno(void) {
    return errno;
}

void system_rattle_set_errno(i32 fault) {
    errno = fault;
}

i32 *system___errno_location(void) {
    return &errno;
}

i32 system___xpg_strerror_r(i32 fault, char *to, u64 room) {
    extern int __xpg_strerror_r(int, char *, size_t);
    return __xpg_strerror_r(fault, to, room);
}

// ---- files and streams
i32 system_open(const char *path, i32 how, ...) {
    int own = O_CLOEXEC | (how & OPEN_KIND);
    if (how & OPEN_CREATE) own |= O_CREAT;
    if (how & OPEN_NEW) own |= O_EXCL;
    if (how & OPEN_EMPTY) own |= O_TRUNC;
    if (how & OPEN_APPEND) own |= O_APPEND;
    va_list rest;
    va_start(rest, how);
    int mode = how & OPEN_CREATE ? va_arg(rest, int) : 0;
    va_end(rest);
    return open(path, own, mode);
}

i64 system_read(i32 file, void *to, u64 count) {
    return read(file, to, count);
}

i64 system_write(i32 file, const void *from, u64 count) {
    return write(file, from, count);
}

i64 system___write(i32 file, const void *from, u64 count) {
    return write(file, from, count);
}

i32 system_close(i32 file) {
    return close(file);
}

i64 system_lseek(i32 file, i64 by, i32 from) {
    return lseek(file, by, from);
}

i32 system_isatty(i32 file) {
    return isatty(file);
}

i32 system_statx(i32 folder, const char *path, i32 how, i32 wanted, void *to) {
    return statx(folder, path, how, (unsigned)wanted, to);
}

// ---- words, the environment, the clock
static i64 copied(const char *text, u8 *to, u64 room) {
    u64 count = strlen(text);
    memcpy(to, text, count < room ? count : room);
    return count > room ? -2 : (i64)count;
}

i64 system_rattle_arg(u64 index, u8 *to, u64 room) {
    return index < count_of_words ? copied(words[index], to, room) : -1;
}

i64 system_rattle_env(const char *name, u8 *to, u64 room) {
    const char *value = getenv(name);
    return value ? copied(value, to, room) : -1;
}

i64 system_rattle_env_at(u64 index, u8 *to, u64 room) {
    for (u64 at = 0; environ && environ[at]; at++)
        if (at == index) return copied(environ[at], to, room);
    return -1;
}

i32 system_clock_gettime(i32 clock, struct time *now) {
    struct timespec told;
    if (clock_gettime(clock, &told)) return -1;
    *now = (struct time){ told.tv_sec, told.tv_nsec };
    return 0;
}

// ---- threads. The module has room for the attributes of x86_64's glibc, 56 bytes; here its first eight hold the size
// of the stack that is asked for.
i32 system_pthread_attr_init(void *attributes) {
    *(u64 *)attributes = 0;
    return 0;
}

i32 system_pthread_attr_destroy(void *attributes) {
    (void)attributes;
    return 0;
}

i32 system_pthread_attr_setstacksize(void *attributes, u64 bytes) {
    *(u64 *)attributes = bytes;
    return 0;
}

i32 system_pthread_attr_setguardsize(void *attributes, u64 bytes) {
    (void)attributes, (void)bytes;  // a page, as ever
    return 0;
}

i32 system_pthread_create(u64 *thread, void *attributes, void *(*does)(void *), void *with) {
    pthread_attr_t own;
    i32 fault = pthread_attr_init(&own);
    if (fault) return fault;
    u64 bytes = attributes ? *(u64 *)attributes : 0;
    if (bytes) fault = pthread_attr_setstacksize(&own, bytes);
    pthread_t made;
    if (!fault) fault = pthread_create(&made, &own, does, with);
    pthread_attr_destroy(&own);
    if (!fault) *thread = (u64)made;
    return fault;
}

i32 system_pthread_detach(u64 thread) {
    return pthread_detach((pthread_t)thread);
}

i32 system_pthread_join(u64 thread, void **answer) {
    return pthread_join((pthread_t)thread, answer);
}

u64 system_pthread_self(void) {
    return (u64)pthread_self();
}

i32 system_sched_yield(void) {
    return sched_yield();
}

i64 system_syscall(i64 number, u32 *word, i64 kind, i64 value, void *limit, ...) {
    if (number != FUTEX) {
        errno = ENOSYS;
        return -1;
    }
    va_list rest;
    va_start(rest, limit);
    void *other = va_arg(rest, void *);
    i64 bits = va_arg(rest, i64);
    va_end(rest);
    return syscall(SYS_futex, word, kind, value, limit, other, bits);
}

// ---- the process
u64 system___sysv_signal(i32 number, u64 does) {
    return (u64)signal(number, (void (*)(int))does);
}

void *system___x86_get_cpuid_feature_leaf(i32 leaf) {
    static u32 all[12] = { -1u, -1u, -1u, -1u, -1u, -1u, -1u, -1u, -1u, -1u, -1u, -1u };
    (void)leaf;
    return all;
}

_Noreturn void system__exit(i32 status) {
    _exit(status);
}

_Noreturn void system_abort(void) {
    abort();
}

// What the module asks of its system, on macOS: by libSystem, whose functions are declared here, since no header of
// Apple's may lie in this repository. Nobody has run this file yet; it is compiled and linked, and no more is
// claimed.
#include "system.h"

extern i32 open(const char *path, i32 how, ...);
extern i64 read(i32 file, void *to, u64 count);
extern i64 write(i32 file, const void *from, u64 count);
extern i32 close(i32 file);
extern i64 lseek(i32 file, i64 by, i32 from);
extern i32 isatty(i32 file);
#ifdef __x86_64__
extern i32 told_of(const char *path, void *to) __asm__("_stat$INODE64");
#else
extern i32 told_of(const char *path, void *to) __asm__("_stat");
#endif
extern void *malloc(u64 count), *realloc(void *block, u64 count);
extern void free(void *block);
extern i32 *__error(void);
extern i32 strerror_r(i32 fault, char *to, u64 room);
extern char *getenv(const char *name), ***_NSGetEnviron(void);
extern i32 clock_gettime(i32 clock, struct time *now);
extern i32 pthread_attr_init(void *attributes), pthread_attr_destroy(void *attributes);
extern i32 pthread_attr_setstacksize(void *attributes, u64 bytes);
extern i32 pthread_create(void **thread, void *attributes, void *(*does)(void *), void *with);
extern i32 pthread_detach(void *thread), pthread_join(void *thread, void **answer), sched_yield(void);
extern void *pthread_self(void);
extern i32 __ulock_wait(u32 kind, void *word, u64 value, u32 microseconds);
extern i32 __ulock_wake(u32 kind, void *word, u64 value);
extern u64 signal(i32 number, u64 does);
extern _Noreturn void _exit(i32 status), abort(void);

// macOS's own numbers where they aren't Linux's.
enum { OWN_TRY_AGAIN = 35, OWN_TIMED_OUT = 60, OWN_NO_CALL = 78 };
enum { OWN_APPEND = 8, OWN_CREATE = 0x200, OWN_EMPTY = 0x400, OWN_NEW = 0x800, OWN_CLOSED_BY_EXEC = 0x1000000 };
enum { OWN_MONOTONIC = 6, WAIT_WHILE_SAME = 1, WAKE_ALL = 0x100, MOST_MICROSECONDS = 1 << 30 };
// Where `stat` tells its fields: device, mode, number and size.
enum { STAT_DEVICE = 0, STAT_MODE = 4, STAT_NUMBER = 8, STAT_SIZE = 96, STAT_BYTES = 256 };

static char **words;
static u64 count_of_words;

i32 main(i32 count, char **given) {
    words = given;
    count_of_words = (u64)count;
    return torchplan_main();
}

// ---- memory
void *system_malloc(u64 count) {
    return malloc(count);
}

void *system_realloc(void *block, u64 count) {
    return realloc(block, count);
}

void system_free(void *block) {
    free(block);
}

// ---- faults
static i32 as_linux(i32 fault) {
    if (fault == OWN_TRY_AGAIN) return TRY_AGAIN;
    return fault == OWN_TIMED_OUT ? TIMED_OUT : fault == OWN_NO_CALL ? NO_CALL : fault;
}

static i32 as_own(i32 fault) {
    if (fault == TRY_AGAIN) return OWN_TRY_AGAIN;
    return fault == TIMED_OUT ? OWN_TIMED_OUT : fault == NO_CALL ? OWN_NO_CALL : fault;
}

i32 system_rattle_errno(void) {
    return as_linux(*__error());
}

void system_rattle_set_errno(i32 fault) {
    *__error() = as_own(fault);
}

i32 *system___errno_location(void) {
    return __error();
}

i32 system___xpg_strerror_r(i32 fault, char *to, u64 room) {
    return strerror_r(as_own(fault), to, room);
}

// ---- files and streams
i32 system_open(const char *path, i32 how, ...) {
    i32 own = OWN_CLOSED_BY_EXEC | (how & OPEN_KIND);
    if (how & OPEN_CREATE) own |= OWN_CREATE;
    if (how & OPEN_NEW) own |= OWN_NEW;
    if (how & OPEN_EMPTY) own |= OWN_EMPTY;
    if (how & OPEN_APPEND) own |= OWN_APPEND;
    __builtin_va_list rest;
    __builtin_va_start(rest, how);
    i32 mode = how & OPEN_CREATE ? __builtin_va_arg(rest, i32) : 0;
    __builtin_va_end(rest);
    return open(path, own, mode);
}

i64 system_read(i32 file, void *to, u64 count) {
    return read(file, to, count);
}

i64 system_write(i32 file, const void *from, u64 count) {
    return write(file, from, count);
}

i64 system___write(i32 file, const void *from, u64 count) {
    return write(file, from, count);
}

i32 system_close(i32 file) {
    return close(file);
}

i64 system_lseek(i32 file, i64 by, i32 from) {
    return lseek(file, by, from);
}

i32 system_isatty(i32 file) {
    return isatty(file);
}

i32 system_statx(i32 folder, const char *path, i32 how, i32 wanted, void *to) {
    (void)folder, (void)how, (void)wanted;
    u8 told[STAT_BYTES], *at = to;
    if (told_of(path, told)) return -1;
    for (u64 index = 0; index < STATX_BYTES; index++) at[index] = 0;
    *(u32 *)at = STATX_ALL;
    *(unsigned short *)(at + STATX_MODE) = *(unsigned short *)(told + STAT_MODE);
    *(u64 *)(at + STATX_NUMBER) = *(u64 *)(told + STAT_NUMBER);
    *(u64 *)(at + STATX_SIZE) = *(u64 *)(told + STAT_SIZE);
    *(u32 *)(at + STATX_DEVICE) = *(u32 *)(told + STAT_DEVICE);
    return 0;
}

// ---- words, the environment, the clock
static i64 copied(const char *text, u8 *to, u64 room) {
    u64 count = 0;
    for (; text[count]; count++) {
        if (count == room) return -2;
        to[count] = (u8)text[count];
    }
    return (i64)count;
}

i64 system_rattle_arg(u64 index, u8 *to, u64 room) {
    return index < count_of_words ? copied(words[index], to, room) : -1;
}

i64 system_rattle_env(const char *name, u8 *to, u64 room) {
    const char *value = getenv(name);
    return value ? copied(value, to, room) : -1;
}

i64 system_rattle_env_at(u64 index, u8 *to, u64 room) {
    char **all = *_NSGetEnviron();
    for (u64 at = 0; all[at]; at++)
        if (at == index) return copied(all[at], to, room);
    return -1;
}

i32 system_clock_gettime(i32 clock, struct time *now) {
    return clock_gettime(clock ? OWN_MONOTONIC : 0, now);
}

// ---- threads. The module's attributes hold the size of the stack that is asked for in their first eight bytes.
i32 system_pthread_attr_init(void *attributes) {
    *(u64 *)attributes = 0;
    return 0;
}

i32 system_pthread_attr_destroy(void *attributes) {
    (void)attributes;
    return 0;
}

i32 system_pthread_attr_setstacksize(void *attributes, u64 bytes) {
    *(u64 *)attributes = bytes;
    return 0;
}

i32 system_pthread_attr_setguardsize(void *attributes, u64 bytes) {
    (void)attributes, (void)bytes;  // a page, as ever
    return 0;
}

i32 system_pthread_create(u64 *thread, void *attributes, void *(*does)(void *), void *with) {
    u64 own[16];
    i32 fault = pthread_attr_init(own);
    if (fault) return as_linux(fault);
    u64 bytes = attributes ? *(u64 *)attributes : 0;
    if (bytes) fault = pthread_attr_setstacksize(own, bytes);
    void *made;
    if (!fault) fault = pthread_create(&made, own, does, with);
    pthread_attr_destroy(own);
    if (!fault) *thread = (u64)made;
    return as_linux(fault);
}

i32 system_pthread_detach(u64 thread) {
    return pthread_detach((void *)thread);
}

i32 system_pthread_join(u64 thread, void **answer) {
    return pthread_join((void *)thread, answer);
}

u64 system_pthread_self(void) {
    return (u64)pthread_self();
}

i32 system_sched_yield(void) {
    return sched_yield();
}

i64 system_syscall(i64 number, u32 *word, i64 kind, i64 value, void *limit, ...) {
    if (number != FUTEX) {
        *__error() = OWN_NO_CALL;
        return -1;
    }
    kind &= FUTEX_KIND;
    if (kind == FUTEX_WAKE || kind == FUTEX_WAKE_BITS) {
        __ulock_wake(WAIT_WHILE_SAME | (value == 1 ? 0 : WAKE_ALL), word, 0);
        return value;
    }
    struct time *most = limit;
    u64 microseconds = most ? (u64)most->seconds * 1000000 + (u64)most->nanoseconds / 1000 : 0;
    if (limit && microseconds == 0) microseconds = 1;  // 0 is without end
    if (microseconds > MOST_MICROSECONDS) microseconds = MOST_MICROSECONDS;
    if (*(volatile u32 *)word != (u32)value) {
        *__error() = OWN_TRY_AGAIN;
        return -1;
    }
    return __ulock_wait(WAIT_WHILE_SAME, word, (u32)value, (u32)microseconds) < 0 ? -1 : 0;
}

// ---- the process
u64 system___sysv_signal(i32 number, u64 does) {
    return signal(number, does);
}

void *system___x86_get_cpuid_feature_leaf(i32 leaf) {
    static u32 all[12] = { -1u, -1u, -1u, -1u, -1u, -1u, -1u, -1u, -1u, -1u, -1u, -1u };
    (void)leaf;
    return all;
}

_Noreturn void system__exit(i32 status) {
    _exit(status);
}

_Noreturn void system_abort(void) {
    abort();
}

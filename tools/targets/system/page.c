// What the module asks of its system, in a page: files and streams by seven functions of the page's JavaScript
// (../page/host.js), memory by heap.c, and no threads. Numbers cross to JavaScript as doubles, which it has; each is
// below 2^53.
#include "system.h"

#define HOST(name) __attribute__((import_module("host"), import_name(name)))
HOST("open") i32 host_open(double path, double length, i32 is_made);
HOST("read") double host_read(i32 file, double to, double count);
HOST("write") double host_write(i32 file, double from, double count);
HOST("kind") i32 host_kind(double path, double length);
HOST("argument") double host_argument(double index, double to, double room);
HOST("now") double host_now(void);
HOST("exit") _Noreturn void host_exit(i32 status);

static double place(const void *at) {
    return (double)(u64)at;
}

static double length_of(const char *text) {
    u64 count = 0;
    while (text[count]) count++;
    return (double)count;
}

// ---- memory that is copied, which compiled code asks for by these names
void *memcpy(void *to, const void *from, unsigned long count) {
    __builtin_memcpy(to, from, count);
    return to;
}

void *memmove(void *to, const void *from, unsigned long count) {
    __builtin_memmove(to, from, count);
    return to;
}

void *memset(void *to, int byte, unsigned long count) {
    __builtin_memset(to, byte, count);
    return to;
}

// ---- faults: one thread, one fault
static i32 fault_of_last;

i32 system_rattle_errno(void) {
    return fault_of_last;
}

void system_rattle_set_errno(i32 fault) {
    fault_of_last = fault;
}

i32 *system___errno_location(void) {
    return &fault_of_last;
}

// A negative answer of the host is a failure of this kind.
static i64 told(double answer, i32 fault) {
    if (answer < 0) fault_of_last = fault;
    return (i64)answer;
}

// The texts that the program's lines may have: no others come up here.
i32 system___xpg_strerror_r(i32 fault, char *to, u64 room) {
    const char *text = fault == NO_FILE ? "No such file or directory" : fault == FAILED_READ ? "Input/output error"
        : fault == NO_MEMORY ? "Cannot allocate memory" : "Unknown error";
    for (u64 at = 0; at < room; at++) {
        to[at] = text[at];
        if (!text[at]) return 0;
    }
    return 34;
}

// ---- files and streams
i32 system_open(const char *path, i32 how, ...) {
    return (i32)told(host_open(place(path), length_of(path), (how & OPEN_KIND) != OPEN_READ), NO_FILE);
}

i64 system_read(i32 file, void *to, u64 count) {
    return told(host_read(file, place(to), (double)count), FAILED_READ);
}

i64 system_write(i32 file, const void *from, u64 count) {
    return told(host_write(file, place(from), (double)count), FAILED_READ);
}

i64 system___write(i32 file, const void *from, u64 count) {
    return system_write(file, from, count);
}

i32 system_close(i32 file) {
    (void)file;
    return 0;
}

i64 system_lseek(i32 file, i64 by, i32 from) {
    (void)file, (void)by, (void)from;
    return told(-1, NO_SEEK);
}

i32 system_isatty(i32 file) {
    (void)file;
    fault_of_last = NOT_A_TERMINAL;
    return 0;
}

// The host numbers its files, so that two names of one file are known for one.
i32 system_statx(i32 folder, const char *path, i32 how, i32 wanted, void *to) {
    (void)folder, (void)how, (void)wanted;
    i32 kind = host_kind(place(path), length_of(path));
    if (kind < 0) return (i32)told(-1, NO_FILE);
    __builtin_memset(to, 0, STATX_BYTES);
    *(u32 *)to = STATX_ALL;
    *(unsigned short *)((u8 *)to + STATX_MODE) = MODE_FILE;
    *(u64 *)((u8 *)to + STATX_NUMBER) = (u64)kind + 1;
    return 0;
}

// ---- words, the clock, and the end
i64 system_rattle_arg(u64 index, u8 *to, u64 room) {
    return (i64)host_argument((double)index, place(to), (double)room);
}

i64 system_rattle_env(const char *name, u8 *to, u64 room) {
    (void)name, (void)to, (void)room;
    return -1;
}

i64 system_rattle_env_at(u64 index, u8 *to, u64 room) {
    (void)index, (void)to, (void)room;
    return -1;
}

i32 system_clock_gettime(i32 clock, struct time *now) {
    (void)clock;
    double milliseconds = host_now();
    now->seconds = (i64)(milliseconds / 1000);
    now->nanoseconds = (i64)((milliseconds - (double)now->seconds * 1000) * 1e6);
    return 0;
}

_Noreturn void system__exit(i32 status) {
    host_exit(status);
}

_Noreturn void system_abort(void) {
    host_exit(134);
}

// ---- what a page hasn't: signals, and threads beside the one
u64 system___sysv_signal(i32 signal, u64 does) {
    (void)signal, (void)does;
    return 0;
}

void *system___x86_get_cpuid_feature_leaf(i32 leaf) {
    static u32 all[12] = { -1u, -1u, -1u, -1u, -1u, -1u, -1u, -1u, -1u, -1u, -1u, -1u };
    (void)leaf;
    return all;
}

i32 system_pthread_attr_init(void *attributes) {
    (void)attributes;
    return 0;
}

i32 system_pthread_attr_destroy(void *attributes) {
    (void)attributes;
    return 0;
}

i32 system_pthread_attr_setstacksize(void *attributes, u64 bytes) {
    (void)attributes, (void)bytes;
    return 0;
}

i32 system_pthread_attr_setguardsize(void *attributes, u64 bytes) {
    (void)attributes, (void)bytes;
    return 0;
}

i32 system_pthread_create(u64 *thread, void *attributes, void *(*does)(void *), void *with) {
    (void)thread, (void)attributes, (void)does, (void)with;
    return TRY_AGAIN;
}

i32 system_pthread_detach(u64 thread) {
    (void)thread;
    return NO_CALL;
}

i32 system_pthread_join(u64 thread, void **answer) {
    (void)thread, (void)answer;
    return NO_CALL;
}

u64 system_pthread_self(void) {
    return 1;
}

i32 system_sched_yield(void) {
    return 0;
}

i64 system_syscall(i64 number, u32 *word, i64 kind, i64 value, void *limit, ...) {
    (void)number, (void)word, (void)kind, (void)value, (void)limit;
    return told(-1, NO_CALL);
}

// What the host calls: runs the program once; the status. An instance is used for one run.
__attribute__((export_name("start"))) i32 start(void) {
    return torchplan_main();
}

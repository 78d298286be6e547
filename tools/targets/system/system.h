// What torchplan's module asks of its system. The module was lowered for Linux and glibc on x86_64, so each function
// has the name that it has there behind `system_`, and takes and answers Linux's numbers: of faults, of the ways to
// open a file, of clocks. A file for each system, beside this one, gives them by what that system has.
//
// No header of a C library is needed here, so that a page's program is built by the toolchain alone.
#ifndef SYSTEM_H
#define SYSTEM_H
typedef unsigned char u8;
typedef int i32;
typedef unsigned u32;
typedef long long i64;
typedef unsigned long long u64;

// The module's own `main`: it looks at the processor, reads the words, runs, and answers the status to end by.
i32 torchplan_main(void);

// Memory. Null where the system refuses. allocation.ll makes of these what the module mostly calls.
void *system_malloc(u64 count);
void *system_realloc(void *block, u64 count);
void system_free(void *block);

// The fault of the last call that failed, for each thread its own.
i32 system_rattle_errno(void);
void system_rattle_set_errno(i32 fault);
i32 *system___errno_location(void);
i32 system___xpg_strerror_r(i32 fault, char *to, u64 room);

// Files. A path ends at its first NUL.
i32 system_open(const char *path, i32 how, ...);
i64 system_read(i32 file, void *to, u64 count);
i64 system_write(i32 file, const void *from, u64 count);
i64 system___write(i32 file, const void *from, u64 count);
i32 system_close(i32 file);
i64 system_lseek(i32 file, i64 by, i32 from);
i32 system_isatty(i32 file);
i32 system_statx(i32 folder, const char *path, i32 how, i32 wanted, void *to);

// The words of the command line and the environment: the bytes of the one at `index` go to `to`. Answers how many they
// are, -1 where there is none, and -2 where there isn't room.
i64 system_rattle_arg(u64 index, u8 *to, u64 room);
i64 system_rattle_env(const char *name, u8 *to, u64 room);
i64 system_rattle_env_at(u64 index, u8 *to, u64 room);

struct time {
    i64 seconds, nanoseconds;
};
i32 system_clock_gettime(i32 clock, struct time *now);

// Threads. `syscall` is Linux's futex alone: to wait while a word has a value, and to wake who waits for it.
i32 system_pthread_attr_init(void *attributes);
i32 system_pthread_attr_destroy(void *attributes);
i32 system_pthread_attr_setstacksize(void *attributes, u64 bytes);
i32 system_pthread_attr_setguardsize(void *attributes, u64 bytes);
i32 system_pthread_create(u64 *thread, void *attributes, void *(*does)(void *), void *with);
i32 system_pthread_detach(u64 thread);
i32 system_pthread_join(u64 thread, void **answer);
u64 system_pthread_self(void);
i32 system_sched_yield(void);
i64 system_syscall(i64 number, u32 *word, i64 kind, i64 value, void *limit, ...);

// The process, and the processor: twelve words of bits, all set, say that it has what the module's `main` asks for.
u64 system___sysv_signal(i32 signal, u64 does);
void *system___x86_get_cpuid_feature_leaf(i32 leaf);
_Noreturn void system__exit(i32 status);
_Noreturn void system_abort(void);

// Linux's numbers.
enum { NO_FILE = 2, FAILED_READ = 5, TRY_AGAIN = 11, NO_MEMORY = 12, NOT_A_TERMINAL = 25, NO_SEEK = 29, NO_CALL = 38,
       TIMED_OUT = 110 };
enum { OPEN_KIND = 3, OPEN_READ = 0, OPEN_WRITE = 1, OPEN_BOTH = 2, OPEN_CREATE = 0100, OPEN_NEW = 0200,
       OPEN_EMPTY = 01000, OPEN_APPEND = 02000 };
enum { FUTEX = 202, FUTEX_WAIT = 0, FUTEX_WAKE = 1, FUTEX_WAIT_BITS = 9, FUTEX_WAKE_BITS = 10, FUTEX_KIND = 127 };

// What `statx` tells, as std's Metadata reads it: where the mode, the file's number, its size and its device lie.
enum { STATX_BYTES = 256, STATX_MODE = 28, STATX_NUMBER = 32, STATX_SIZE = 40, STATX_DEVICE = 136, STATX_ALL = 0x7ff };
enum { MODE_FILE = 0100644, MODE_FOLDER = 0040755, MODE_STREAM = 0020644 };
#endif

// What the module asks of its system, on Windows: by its own calls, and by the C library that every Windows has.
// Paths and words are UTF-8 to the module, and UTF-16 to Windows.
#define WIN32_LEAN_AND_MEAN
#define _WIN32_WINNT 0x0602
#include "system.h"
#include "drop.h"
#include <errno.h>
#include <fcntl.h>
#include <io.h>
#include <process.h>
#include <stdarg.h>
#include <stdlib.h>
#include <string.h>
#include <sys/stat.h>
#include <windows.h>
#include <shellapi.h>

enum { LONGEST_PATH = 32768, MOST_AT_ONCE = 1 << 30 };

static wchar_t **words;
static i32 count_of_words;

int main(void) {
    for (i32 file = 0; file <= 2; file++) _setmode(file, _O_BINARY);
    words = words_for(CommandLineToArgvW(GetCommandLineW(), &count_of_words), &count_of_words);
    i32 status = torchplan_main();
    end_drop(status);
    return status;
}

// ---- memory
void *system_malloc(u64 count) {
    return malloc(count);
}

void *system_realloc(void *block, u64 count) {
    return realloc(block, count);
}

void system_free(void *block) {
    free(block);
}

// ---- faults: the C library's numbers are Linux's up to 34, but for those of files and memory alone
i32 system_rattle_errno(void) {
    return errno;
}

void system_rattle_set_errno(i32 fault) {
    errno = fault;
}

i32 *system___errno_location(void) {
    return &errno;
}

i32 system___xpg_strerror_r(i32 fault, char *to, u64 room) {
    return strerror_s(to, room, fault);
}

static i32 failed(i32 fault) {
    errno = fault;
    return -1;
}

// ---- files and streams
// A path as Windows has it, to be let go; null where it is none.
static wchar_t *wide_path(const char *path) {
    if (!strcmp(path, "/dev/null")) path = "NUL";
    wchar_t *wide = malloc(LONGEST_PATH * sizeof(wchar_t));
    if (wide && MultiByteToWideChar(CP_UTF8, MB_ERR_INVALID_CHARS, path, -1, wide, LONGEST_PATH)) return wide;
    free(wide);
    errno = NO_FILE;
    return 0;
}

i32 system_open(const char *path, i32 how, ...) {
    static const i32 kinds[] = { _O_RDONLY, _O_WRONLY, _O_RDWR, _O_RDWR };
    i32 own = kinds[how & OPEN_KIND] | _O_BINARY | _O_NOINHERIT;
    if (how & OPEN_CREATE) own |= _O_CREAT;
    if (how & OPEN_NEW) own |= _O_EXCL;
    if (how & OPEN_EMPTY) own |= _O_TRUNC;
    if (how & OPEN_APPEND) own |= _O_APPEND;
    wchar_t *wide = wide_path(path);
    if (!wide) return -1;
    i32 file = _wopen(wide, own, _S_IREAD | _S_IWRITE);
    i32 fault = errno;
    free(wide);
    errno = fault;
    return file;
}

static u32 at_once(u64 count) {
    return count < MOST_AT_ONCE ? (u32)count : MOST_AT_ONCE;
}

i64 system_read(i32 file, void *to, u64 count) {
    return _read(file, to, at_once(count));
}

i64 system_write(i32 file, const void *from, u64 count) {
    if (file == 1) keep_output(from, at_once(count));
    return _write(file, from, at_once(count));
}

i64 system___write(i32 file, const void *from, u64 count) {
    return system_write(file, from, count);
}

i32 system_close(i32 file) {
    return _close(file);
}

i64 system_lseek(i32 file, i64 by, i32 from) {
    return _lseeki64(file, by, from);
}

i32 system_isatty(i32 file) {
    DWORD mode;
    if (GetConsoleMode((HANDLE)_get_osfhandle(file), &mode)) return 1;
    errno = NOT_A_TERMINAL;
    return 0;
}

// A stream of this process by its name on Linux; null where the path is none.
static HANDLE stream(const char *path) {
    if (!strcmp(path, "/dev/stdin")) return GetStdHandle(STD_INPUT_HANDLE);
    return strcmp(path, "/dev/stdout") ? 0 : GetStdHandle(STD_OUTPUT_HANDLE);
}

i32 system_statx(i32 folder, const char *path, i32 how, i32 wanted, void *to) {
    (void)folder, (void)how, (void)wanted;
    HANDLE file = stream(path), opened = 0;
    if (!file) {
        wchar_t *wide = wide_path(path);
        if (!wide) return -1;
        DWORD shared = FILE_SHARE_READ | FILE_SHARE_WRITE | FILE_SHARE_DELETE;
        file = opened = CreateFileW(wide, 0, shared, 0, OPEN_EXISTING, FILE_FLAG_BACKUP_SEMANTICS, 0);
        free(wide);
        if (opened == INVALID_HANDLE_VALUE) return failed(NO_FILE);
    }
    BY_HANDLE_FILE_INFORMATION told;
    i32 is_known = GetFileType(file) == FILE_TYPE_DISK && GetFileInformationByHandle(file, &told);
    if (opened) CloseHandle(opened);
    u8 *at = memset(to, 0, STATX_BYTES);
    *(u32 *)at = STATX_ALL;
    *(unsigned short *)(at + STATX_MODE) = MODE_STREAM;
    if (!is_known) return 0;
    i32 is_folder = (told.dwFileAttributes & FILE_ATTRIBUTE_DIRECTORY) != 0;
    *(unsigned short *)(at + STATX_MODE) = is_folder ? MODE_FOLDER : MODE_FILE;
    *(u64 *)(at + STATX_NUMBER) = (u64)told.nFileIndexHigh << 32 | told.nFileIndexLow;
    *(u64 *)(at + STATX_SIZE) = (u64)told.nFileSizeHigh << 32 | told.nFileSizeLow;
    *(u32 *)(at + STATX_DEVICE) = told.dwVolumeSerialNumber;
    return 0;
}

// ---- words, the environment, the clock
static i64 copied(const wchar_t *wide, u8 *to, u64 room) {
    i32 count = WideCharToMultiByte(CP_UTF8, WC_ERR_INVALID_CHARS, wide, -1, 0, 0, 0, 0);
    if (count == 0) {  // half a surrogate: a byte that no UTF-8 has, so that the word is refused
        if (room) *to = 0xff;
        return room ? 1 : -2;
    }
    char *text = malloc((u64)count);
    if (!text) return -2;
    WideCharToMultiByte(CP_UTF8, 0, wide, -1, text, count, 0, 0);
    u64 length = (u64)count - 1;
    memcpy(to, text, length < room ? length : room);
    free(text);
    return length > room ? -2 : (i64)length;
}

// The program's own name is always `torchplan`, as on other systems.
i64 system_rattle_arg(u64 index, u8 *to, u64 room) {
    if (!words || index >= (u64)count_of_words) return -1;
    return copied(index ? words[index] : L"torchplan", to, room);
}

i64 system_rattle_env(const char *name, u8 *to, u64 room) {
    (void)name, (void)to, (void)room;
    return -1;
}

i64 system_rattle_env_at(u64 index, u8 *to, u64 room) {
    (void)index, (void)to, (void)room;
    return -1;
}

i32 system_clock_gettime(i32 clock, struct time *now) {
    (void)clock;
    LARGE_INTEGER at, each;
    QueryPerformanceCounter(&at);
    QueryPerformanceFrequency(&each);
    now->seconds = at.QuadPart / each.QuadPart;
    now->nanoseconds = at.QuadPart % each.QuadPart * 1000000000 / each.QuadPart;
    return 0;
}

// ---- threads. Of the module's attributes the first eight bytes hold the size of the stack that is asked for; a thread
// is its handle.
struct begun {
    void *(*does)(void *);
    void *with;
};

static unsigned __stdcall run(void *given) {
    struct begun begun = *(struct begun *)given;
    free(given);
    begun.does(begun.with);  // no thread of the module answers anything
    return 0;
}

i32 system_pthread_attr_init(void *attributes) {
    *(u64 *)attributes = 0;
    return 0;
}

i32 system_pthread_attr_destroy(void *attributes) {
    (void)attributes;
    return 0;
}

i32 system_pthread_attr_setstacksize(void *attributes, u64 bytes) {
    *(u64 *)attributes = bytes;
    return 0;
}

i32 system_pthread_attr_setguardsize(void *attributes, u64 bytes) {
    (void)attributes, (void)bytes;  // a page, as ever
    return 0;
}

i32 system_pthread_create(u64 *thread, void *attributes, void *(*does)(void *), void *with) {
    struct begun *begun = malloc(sizeof *begun);
    if (!begun) return TRY_AGAIN;
    *begun = (struct begun){ does, with };
    u32 bytes = attributes ? (u32)*(u64 *)attributes : 0;
    uintptr_t handle = _beginthreadex(0, bytes, run, begun, STACK_SIZE_PARAM_IS_A_RESERVATION, 0);
    if (!handle) {
        free(begun);
        return TRY_AGAIN;
    }
    *thread = handle;
    return 0;
}

i32 system_pthread_detach(u64 thread) {
    return CloseHandle((HANDLE)thread) ? 0 : NO_CALL;
}

i32 system_pthread_join(u64 thread, void **answer) {
    if (WaitForSingleObject((HANDLE)thread, INFINITE) != WAIT_OBJECT_0) return NO_CALL;
    if (answer) *answer = 0;
    CloseHandle((HANDLE)thread);
    return 0;
}

u64 system_pthread_self(void) {
    return GetCurrentThreadId();
}

i32 system_sched_yield(void) {
    SwitchToThread();
    return 0;
}

i64 system_syscall(i64 number, u32 *word, i64 kind, i64 value, void *limit, ...) {
    if (number != FUTEX) return failed(NO_CALL);
    kind &= FUTEX_KIND;
    if (kind == FUTEX_WAKE || kind == FUTEX_WAKE_BITS) {
        if (value == 1) WakeByAddressSingle(word);
        else WakeByAddressAll(word);
        return value;
    }
    struct time *most = limit;
    DWORD milliseconds = most ? (DWORD)(most->seconds * 1000 + most->nanoseconds / 1000000) : INFINITE;
    u32 expected = (u32)value;
    if (*(volatile u32 *)word != expected) return failed(TRY_AGAIN);
    return WaitOnAddress(word, &expected, sizeof expected, milliseconds) ? 0 : failed(TIMED_OUT);
}

// ---- the process: Windows has no signal for a closed pipe
u64 system___sysv_signal(i32 number, u64 does) {
    (void)number, (void)does;
    return 0;
}

void *system___x86_get_cpuid_feature_leaf(i32 leaf) {
    static u32 all[12] = { -1u, -1u, -1u, -1u, -1u, -1u, -1u, -1u, -1u, -1u, -1u, -1u };
    (void)leaf;
    return all;
}

_Noreturn void system__exit(i32 status) {
    end_drop(status);
    _exit(status);
}

_Noreturn void system_abort(void) {
    _exit(134);
}

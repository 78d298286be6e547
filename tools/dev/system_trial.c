// Stands for the module, and calls what a file of tools/targets/system gives: `try-system` links it with each of them.
// It writes a line for each thing that it saw. Its words are: a file that is there, another name of it, another file,
// one to make anew, and a word of 300 bytes. Or it was called as for a file that was dropped on it: then it writes its
// words and the file, makes the proof, and ends by the status that is the file's first digit.
#include "system.h"

// Whether the system's compiler brings no arithmetic of 128 bits, and whether C gives pairs back as the module does.
#if TRIED_HAS_WIDE
typedef unsigned __int128 u128;
#endif
#if TRIED_HAS_PAIRS
struct pair {
    u64 is_given;
    u8 *block;
};
struct pair system_rattle_alloc(u64 count, u64 align);
struct pair system_rattle_realloc(u8 *old, u64 kept, u64 count, u64 align);
#endif

static char line[512];
static u64 used;

static void text(const char *more) {
    while (*more) line[used++] = *more++;
}

static void number(i64 value) {
    char digits[24];
    u64 left = value < 0 ? 0 - (u64)value : (u64)value, count = 0;
    do digits[count++] = (char)('0' + left % 10);
    while (left /= 10);
    if (value < 0) line[used++] = '-';
    while (count) line[used++] = digits[--count];
}

static void hex(u64 value) {
    for (i32 shift = 60; shift >= 0; shift -= 4) line[used++] = "0123456789abcdef"[value >> shift & 15];
}

static void end(void) {
    line[used++] = '\n';
    system_write(1, line, used);
    used = 0;
}

// A line of what was seen, a number, and the fault where it is one of failure.
static void told(const char *what, i64 value) {
    i32 fault = system_rattle_errno();
    text(what);
    text(" ");
    number(value);
    if (value < 0) text(" fault "), number(fault);
    end();
}

static char path[5][512];

static i32 is_text(const char *one, const char *other) {
    while (*one && *one == *other) one++, other++;
    return *one == *other;
}

static void words(void) {
    u8 small[16];
    i64 own = system_rattle_arg(0, (u8 *)path[0], sizeof path[0] - 1);
    path[0][own < 0 ? 0 : own] = 0;
    told("its own name is torchplan", is_text(path[0], "torchplan"));
    for (u64 at = 1; at <= 4; at++) {
        i64 count = system_rattle_arg(at, (u8 *)path[at], sizeof path[at] - 1);
        path[at][count < 0 ? 0 : count] = 0;
    }
    text("a word that has no room "), number(system_rattle_arg(5, small, sizeof small)), end();
    text("a word with room "), number(system_rattle_arg(5, (u8 *)path[0], 300)), end();
    text("a word that isn't there "), number(system_rattle_arg(6, small, sizeof small)), end();
}

static void files(void) {
    char bytes[64];
    told("a file that isn't there", system_open("none/none", OPEN_READ));
    system_rattle_set_errno(FAILED_READ);
    told("a path that is no text", system_open("\xff", OPEN_READ));
    i32 file = system_open(path[1], OPEN_READ), made = system_open(path[4], OPEN_WRITE | OPEN_CREATE | OPEN_EMPTY, 0666);
    told("a file that isn't there is made", system_open("anew", OPEN_WRITE | OPEN_CREATE, 0666) >= 0);
    told("a file is opened", file >= 0 && made >= 0 && made != file);
    told("bytes of four that are read", system_read(file, bytes, 4));
    told("bytes of the rest", system_read(file, bytes + 4, sizeof bytes - 4));
    told("bytes behind the end", system_read(file, bytes, 4));
    told("bytes that are written", system_write(made, bytes, 10));
    told("read of a file that is none", system_read(99, bytes, 4) < 0);
    told("written to a file that is none", system_write(99, bytes, 4) < 0);
    told("a file is closed", system_close(file) == 0 && system_close(made) == 0);
    told("a file is a terminal", system_isatty(1) > 0);
    u8 one[STATX_BYTES], other[STATX_BYTES];
    i32 found = system_statx(-100, path[1], 0, STATX_ALL, one), again = system_statx(-100, path[2], 0, STATX_ALL, other);
    told("a file is known", found == 0 && again == 0);
    u64 *numbers[] = { (u64 *)(one + STATX_NUMBER), (u64 *)(other + STATX_NUMBER) };
    told("two names of one file", *numbers[0] == *numbers[1] && *numbers[0] != 0);
    told("another file is known", system_statx(-100, path[3], 0, STATX_ALL, other));
    told("another file has the number", *numbers[0] == *numbers[1]);
    told("a file that isn't there is known", system_statx(-100, "none/none", 0, STATX_ALL, other));
    i32 is_known = system_statx(-100, "/dev/stdout", 0, STATX_ALL, other) == 0;
    told("the output is a file", is_known && *(unsigned short *)(other + STATX_MODE) == MODE_FILE);
}

static i32 dropped(void) {
    char word[512], bytes[64];
    for (u64 at = 1;; at++) {
        i64 count = system_rattle_arg(at, (u8 *)word, sizeof word);
        if (count < 0) break;
        if (at == 2) continue;  // where the file lies once it is unpacked
        for (i64 each = 0; each < count; each++) line[used++] = word[each];
        text(" ");
    }
    end();
    i64 count = system_rattle_arg(2, (u8 *)word, sizeof word - 1);
    word[count] = 0;
    i32 file = system_open(word, OPEN_READ);
    count = system_read(file, bytes, sizeof bytes);
    system_close(file);
    system_write(1, bytes, (u64)count);
    i64 length = system_rattle_arg(4, (u8 *)word, sizeof word - 1);
    word[length] = 0;
    file = system_open(word, OPEN_WRITE | OPEN_CREATE | OPEN_EMPTY, 0666);
    system_write(file, bytes, (u64)count);
    system_close(file);
    return bytes[0] - '0';
}

// Blocks of many sizes are taken, filled, made longer, shorter, and let go; each keeps its bytes.
static void memory(void) {
    static u8 *blocks[200];
    static u64 sizes[200];
    u64 wrong = 0, seed = 7;
    for (u64 turn = 0; turn < 6000; turn++) {
        seed = seed * 6364136223846793005 + 1442695040888963407;
        u64 at = (seed >> 33) % 200, size = 1 + (seed >> 20) % (turn % 50 ? 300 : 300000);
        for (u64 byte = 0; blocks[at] && byte < sizes[at]; byte++) wrong += blocks[at][byte] != (u8)(at + byte);
        if (turn % 3 == 0) system_free(blocks[at]), blocks[at] = 0, sizes[at] = 0;
        u64 kept = sizes[at] < size ? sizes[at] : size;
        blocks[at] = blocks[at] ? system_realloc(blocks[at], size) : system_malloc(size);
        if ((u64)blocks[at] % 16) wrong++;
        for (u64 byte = 0; byte < kept; byte++) wrong += blocks[at][byte] != (u8)(at + byte);
        for (u64 byte = 0; byte < size; byte++) blocks[at][byte] = (u8)(at + byte);
        sizes[at] = size;
    }
    told("bytes of blocks that changed", (i64)wrong);
    told("a block of a petabyte", system_malloc(1ull << 50) != 0);
}

#if TRIED_HAS_PAIRS
static void pairs(void) {
    struct pair one = system_rattle_alloc(100, 8), other = system_rattle_alloc(100, 8);
    for (u64 at = 0; at < 100; at++) one.block[at] = (u8)at;
    for (u64 at = 0; at < 100; at++) other.block[at] = 200;
    one = system_rattle_realloc(one.block, 100, 1000, 8);
    u64 wrong = 0;
    for (u64 at = 0; at < 100; at++) wrong += one.block[at] != (u8)at;
    told("blocks are given", one.is_given == 1 && other.is_given == 1 && system_rattle_alloc(0, 8).is_given == 1);
    told("bytes of a block that changed", (i64)wrong);
    told("a block that is refused is given", (i64)system_rattle_alloc(1ull << 50, 8).is_given);
}
#endif

#if TRIED_HAS_WIDE
// A page's memory, to its end.
static void whole_memory(void) {
    u64 count = 0;
    for (u8 *block = 0; (block = system_malloc(1 << 20)); count++) block[0] = block[(1 << 20) - 1] = 1;
    told("more megabytes than 3,900 and fewer than 4,080 are given", count > 3900 && count < 4080);
}
#endif

static u32 shared[128];
static void *given;

static void *thread(void *with) {
    given = with;
    struct time now, then;
    system_clock_gettime(1, &then);
    do {
        system_sched_yield();
        system_clock_gettime(1, &now);
    } while ((now.seconds - then.seconds) * 1000 + (now.nanoseconds - then.nanoseconds) / 1000000 < 200);
    __atomic_store_n(&shared[0], 2, __ATOMIC_SEQ_CST);
    system_syscall(FUTEX, shared, FUTEX_WAKE, 1, 0, 0, 0ll);
    return 0;
}

static void threads(void) {
    u64 attributes[8], made = 0;
    struct time limit = { 0, 30000000 };
    for (u32 at = 0; at < 128; at++) shared[at] = at;
    shared[0] = 1;
    told("waiting for another value", system_syscall(FUTEX, shared, FUTEX_WAIT, 3, 0, 0, 0ll));
    told("waiting for some time", system_syscall(FUTEX, shared, FUTEX_WAIT, 1, &limit, 0, 0ll));
    told("another call", system_syscall(1000, shared, 0, 0, 0, 0, 0ll));
    system_pthread_attr_init(attributes);
    system_pthread_attr_setstacksize(attributes, 1 << 20);
    system_pthread_attr_setguardsize(attributes, 4096);
    i32 fault = system_pthread_create(&made, attributes, thread, &shared[5]);
    system_pthread_attr_destroy(attributes);
    told("a thread is made", fault);
    if (fault) return;
    told("waiting until it is woken", system_syscall(FUTEX, shared, FUTEX_WAIT, 1, 0, 0, 0ll));
    told("the thread has ended", system_pthread_join(made, 0));
    told("the thread was given what was told", given == &shared[5]);
}

#if TRIED_HAS_WIDE
static void wide(void) {
    static const u64 halves[] = { 0, 1, 0xffffffff, 0x100000001, 0xfedcba9876543210, ~0ull };
    volatile u128 one, other;
    volatile i32 by;
    u64 high = 0, low = 0;
    for (u32 at = 0; at < 1296; at++) {
        one = (u128)halves[at % 6] << 64 | halves[at / 6 % 6];
        other = (u128)halves[at / 36 % 6] << 64 | halves[at / 216];
        by = (i32)(at % 128);
        u128 all[] = { one * other, one << by, one >> by, (u128)((__int128)one >> by) };
        for (u32 each = 0; each < 4; each++) {
            high = high * 31 + (u64)(all[each] >> 64);
            low = low * 31 + (u64)all[each];
        }
    }
    text("products and shifts "), hex(high), text(" "), hex(low), end();
}
#endif

i32 torchplan_main(void) {
    i64 count = system_rattle_arg(1, (u8 *)path[1], sizeof path[1] - 1);
    path[1][count < 0 ? 0 : count] = 0;
    if (is_text(path[1], "plan")) system__exit(dropped());
    words();
    files();
    memory();
#if TRIED_HAS_PAIRS
    pairs();
#endif
    threads();
#if TRIED_HAS_WIDE
    wide();
    whole_memory();
#endif
    system__exit(7);
}

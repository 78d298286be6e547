// The heap of a page: free blocks by size class, four classes to each power of two. A block is never given back to the
// page, since the page lets go of the whole memory after a run.
#include "system.h"

extern u8 __heap_base[];  // where the linker's own data ends
enum { PAGE = 65536, HEAD = 16, CLASSES = 256 };

// Before what is handed out.
struct block {
    u64 class;
    struct block *next;
};

static struct block *free_blocks[CLASSES];
static u64 top, end;  // what was never handed out lies between these
static u64 in_use, peak;

// The least class whose blocks have that many bytes, of which there are 16 or more.
static u32 class_of(u64 count) {
    u32 high = 63 - (u32)__builtin_clzll(count);
    u64 step = 1ull << (high - 2);
    return high * 4 + (u32)((count - (1ull << high) + step - 1) / step);
}

static u64 bytes_of(u64 class) {
    u64 low = 1ull << (class / 4);
    return low + class % 4 * (low / 4);
}

// Asks the page for more memory: a sixteenth of what there is, or what is needed.
static int grow(u64 needed) {
    u64 pages = (needed + PAGE - 1) / PAGE, more = end / 16 / PAGE;
    if (pages < more && __builtin_wasm_memory_grow(0, more) != (unsigned long)-1) {
        end += more * PAGE;
        return 1;
    }
    if (__builtin_wasm_memory_grow(0, pages) == (unsigned long)-1) return 0;
    end += pages * PAGE;
    return 1;
}

static struct block *fresh(u64 class) {
    u64 count = (bytes_of(class) + HEAD + 15) / 16 * 16;
    if (!top) {
        top = ((u64)__heap_base + 15) / 16 * 16;
        end = (u64)__builtin_wasm_memory_size(0) * PAGE;
    }
    if (end - top < count && !grow(count - (end - top))) return 0;
    struct block *block = (struct block *)top;
    top += count;
    block->class = class;
    return block;
}

void *system_malloc(u64 count) {
    if (count > 1ull << 40) return 0;
    u32 class = class_of(count < 16 ? 16 : count);
    struct block *block = free_blocks[class];
    if (block) free_blocks[class] = block->next;
    else block = fresh(class);
    if (!block) return 0;
    in_use += bytes_of(class);
    if (in_use > peak) peak = in_use;
    return (u8 *)block + HEAD;
}

void system_free(void *given) {
    if (!given) return;
    struct block *block = (struct block *)((u8 *)given - HEAD);
    in_use -= bytes_of(block->class);
    block->next = free_blocks[block->class];
    free_blocks[block->class] = block;
}

void *system_realloc(void *given, u64 count) {
    if (!given) return system_malloc(count);
    u64 old = bytes_of(((struct block *)((u8 *)given - HEAD))->class);
    if (count <= old && count > old / 2) return given;
    void *other = system_malloc(count);
    if (!other) return 0;
    __builtin_memcpy(other, given, old < count ? old : count);
    system_free(given);
    return other;
}

// The most bytes that were in use at a time.
__attribute__((export_name("peak"))) double heap_peak(void) {
    return (double)peak;
}

// Unpacking what the game packs: gzip (RFC 1952) about deflate (RFC 1951). What it gives goes to the program, which
// judges each byte, so a fault here can refuse a file and can make no wrong plan of it.
#include "inflate.h"
#include <stdlib.h>
#include <string.h>

enum { LONGEST = 15, LITERALS = 288, DISTANCES = 30, LENGTHS = 19, END_OF_BLOCK = 256 };

struct stream {
    const u8 *at, *end;
    u32 held, bits;  // bits that were taken from the bytes and not yet used
    u8 *out;
    u64 count, room, most;
    i32 is_wrong;
};

// A code: how many symbols have each length, and the symbols by length and then in order.
struct code {
    unsigned short counts[LONGEST + 1], symbols[LITERALS + 32];
};

static u32 bits(struct stream *in, u32 count) {
    while (in->bits < count) {
        if (in->at == in->end) {
            in->is_wrong = 1;
            return 0;
        }
        in->held |= (u32)*in->at++ << in->bits;
        in->bits += 8;
    }
    u32 found = in->held & ((1u << count) - 1);
    in->held >>= count;
    in->bits -= count;
    return found;
}

static void put(struct stream *in, u8 byte) {
    if (in->count == in->room) {
        u64 room = in->room * 2 < in->most ? in->room * 2 : in->most;
        u8 *more = room > in->room ? realloc(in->out, room) : 0;
        if (!more) {
            in->is_wrong = 1;
            return;
        }
        in->out = more;
        in->room = room;
    }
    in->out[in->count++] = byte;
}

static void make_code(struct code *code, const u8 *lengths, u32 count) {
    unsigned short first[LONGEST + 1] = { 0 };
    memset(code->counts, 0, sizeof code->counts);
    for (u32 symbol = 0; symbol < count; symbol++) code->counts[lengths[symbol]]++;
    code->counts[0] = 0;
    for (u32 length = 1; length < LONGEST; length++) first[length + 1] = first[length] + code->counts[length];
    for (u32 symbol = 0; symbol < count; symbol++)
        if (lengths[symbol]) code->symbols[first[lengths[symbol]]++] = (unsigned short)symbol;
}

// The symbol whose code comes next: codes of a length follow one another, above twice those that are shorter.
static u32 symbol(struct stream *in, const struct code *code) {
    i32 read = 0, first = 0, index = 0;
    for (u32 length = 1; length <= LONGEST && !in->is_wrong; length++) {
        read |= (i32)bits(in, 1);
        i32 count = code->counts[length];
        if (read - count < first) return code->symbols[index + read - first];
        index += count;
        first = (first + count) << 1;
        read <<= 1;
    }
    in->is_wrong = 1;
    return END_OF_BLOCK;
}

// Repeats what stands some bytes back: the length by its symbol, then how far back.
static void repeat(struct stream *in, u32 length_symbol, const struct code *distances) {
    static const unsigned short lengths[] = { 3, 4, 5, 6, 7, 8, 9, 10, 11, 13, 15, 17, 19, 23, 27, 31, 35, 43, 51, 59,
        67, 83, 99, 115, 131, 163, 195, 227, 258 };
    if (length_symbol > 28) {
        in->is_wrong = 1;
        return;
    }
    u32 more = length_symbol < 8 || length_symbol == 28 ? 0 : length_symbol / 4 - 1;
    u32 length = lengths[length_symbol] + bits(in, more);
    u32 far_symbol = symbol(in, distances);
    if (far_symbol >= DISTANCES) {
        in->is_wrong = 1;
        return;
    }
    u32 far_more = far_symbol < 4 ? 0 : far_symbol / 2 - 1;
    u32 far = far_symbol < 4 ? far_symbol + 1 : ((2 + far_symbol % 2) << far_more) + 1 + bits(in, far_more);
    if (far > in->count) in->is_wrong = 1;
    for (; length && !in->is_wrong; length--) put(in, in->out[in->count - far]);
}

static void coded_block(struct stream *in, const struct code *literals, const struct code *distances) {
    while (!in->is_wrong) {
        u32 found = symbol(in, literals);
        if (found == END_OF_BLOCK) return;
        if (found < END_OF_BLOCK) put(in, (u8)found);
        else repeat(in, found - END_OF_BLOCK - 1, distances);
    }
}

static void plain_block(struct stream *in) {
    in->held = in->bits = 0;  // the rest of the byte
    u32 length = bits(in, 16), inverse = bits(in, 16);
    if ((length ^ inverse) != 0xffff) in->is_wrong = 1;
    for (; length && !in->is_wrong; length--) put(in, (u8)bits(in, 8));
}

static void fixed_block(struct stream *in) {
    u8 lengths[LITERALS];
    struct code literals, distances;
    for (u32 at = 0; at < LITERALS; at++) lengths[at] = at < 144 ? 8 : at < 256 ? 9 : at < 280 ? 7 : 8;
    make_code(&literals, lengths, LITERALS);
    memset(lengths, 5, DISTANCES);
    make_code(&distances, lengths, DISTANCES);
    coded_block(in, &literals, &distances);
}

// A block that tells its own codes, by lengths that are coded too.
static void own_block(struct stream *in) {
    static const u8 order[LENGTHS] = { 16, 17, 18, 0, 8, 7, 9, 6, 10, 5, 11, 4, 12, 3, 13, 2, 14, 1, 15 };
    u8 lengths[LITERALS + 32] = { 0 };
    struct code literals, distances;
    u32 of_literals = bits(in, 5) + 257, of_distances = bits(in, 5) + 1, of_lengths = bits(in, 4) + 4;
    if (of_literals > LITERALS) in->is_wrong = 1;
    for (u32 at = 0; at < of_lengths; at++) lengths[order[at]] = (u8)bits(in, 3);
    make_code(&literals, lengths, LENGTHS);
    for (u32 at = 0; at < of_literals + of_distances && !in->is_wrong;) {
        u32 found = symbol(in, &literals), again = 1;
        u8 length = (u8)found;
        if (found == 16) {
            length = at ? lengths[at - 1] : 0;
            again = 3 + bits(in, 2);
        } else if (found > 16) {
            length = 0;
            again = found == 17 ? 3 + bits(in, 3) : 11 + bits(in, 7);
        }
        if (at + again > of_literals + of_distances) in->is_wrong = 1;
        for (; again && !in->is_wrong; again--) lengths[at++] = length;
    }
    if (in->is_wrong) return;
    make_code(&literals, lengths, of_literals);
    make_code(&distances, lengths + of_literals, of_distances);
    coded_block(in, &literals, &distances);
}

// Where the packed data begins behind the head; null where there is no such head.
static const u8 *behind_head(const u8 *at, const u8 *end) {
    enum { SUM = 2, EXTRA = 4, NAME = 8, COMMENT = 16, HEAD = 10 };
    if (end - at < HEAD || at[0] != 0x1f || at[1] != 0x8b || at[2] != 8) return 0;
    u8 flags = at[3];
    at += HEAD;
    if (flags & EXTRA) {
        if (end - at < 2 || end - at - 2 < at[0] + at[1] * 256) return 0;
        at += 2 + at[0] + at[1] * 256;
    }
    for (u32 text = NAME; text <= COMMENT; text *= 2) {
        if (!(flags & text)) continue;
        while (at < end && *at) at++;
        at++;
    }
    if (flags & SUM) at += 2;
    return at < end ? at : 0;
}

u8 *unpacked(const u8 *packed, u64 length, u64 most, u64 *count) {
    const u8 *end = packed + length;
    struct stream in = { behind_head(packed, end), end, 0, 0, malloc(1 << 16), 0, 1 << 16, most, 0 };
    in.is_wrong = !in.at || !in.out;
    for (u32 is_last = 0; !is_last && !in.is_wrong;) {
        is_last = bits(&in, 1);
        u32 kind = bits(&in, 2);
        if (in.is_wrong) break;
        if (kind == 0) plain_block(&in);
        else if (kind == 1) fixed_block(&in);
        else if (kind == 2) own_block(&in);
        else in.is_wrong = 1;
    }
    if (in.is_wrong) {
        free(in.out);
        return 0;
    }
    *count = in.count;
    return in.out;
}

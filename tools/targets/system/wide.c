// Arithmetic of 128 bits, which compiled code for WebAssembly calls by these names (other systems' compilers bring
// theirs). Each is written over 64 bits, and none calls another that the compiler would make of it.
#include "system.h"

typedef unsigned __int128 u128;
typedef __int128 i128;

static u128 joined(u64 high, u64 low) {
    return (u128)high << 64 | low;
}

// The product, of which the lowest 128 bits are kept: by halves of 32 bits.
u128 __multi3(u128 one, u128 other) {
    u64 a = (u64)one, b = (u64)other;
    u64 a_low = a & 0xffffffff, a_high = a >> 32, b_low = b & 0xffffffff, b_high = b >> 32;
    u64 low = a_low * b_low, cross = a_high * b_low, crossed = a_low * b_high;
    u64 middle = (low >> 32) + (cross & 0xffffffff) + (crossed & 0xffffffff);
    u64 high = a_high * b_high + (cross >> 32) + (crossed >> 32) + (middle >> 32);
    high += a * (u64)(other >> 64) + (u64)(one >> 64) * b;
    return joined(high, middle << 32 | (low & 0xffffffff));
}

u128 __ashlti3(u128 value, i32 by) {
    u64 high = (u64)(value >> 64), low = (u64)value;
    if (by >= 64) return joined(low << (by - 64), 0);
    return by == 0 ? value : joined(high << by | low >> (64 - by), low << by);
}

u128 __lshrti3(u128 value, i32 by) {
    u64 high = (u64)(value >> 64), low = (u64)value;
    if (by >= 64) return joined(0, high >> (by - 64));
    return by == 0 ? value : joined(high >> by, high << (64 - by) | low >> by);
}

i128 __ashrti3(i128 value, i32 by) {
    i64 high = (i64)(value >> 64);
    u64 low = (u64)value;
    if (by >= 64) return (i128)joined((u64)(high >> 63), (u64)(high >> (by - 64)));
    return by == 0 ? value : (i128)joined((u64)(high >> by), (u64)high << (64 - by) | low >> by);
}

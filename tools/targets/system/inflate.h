// Unpacking what the game packs, for a file that is dropped on the Windows program.
#include "system.h"

// Unpacks a file that is packed by gzip (RFC 1952): its bytes, to be let go by free, and how many they are. Null
// where it is no such file, is damaged, has more than `most` bytes, or where memory is refused.
u8 *unpacked(const u8 *packed, u64 length, u64 most, u64 *count);

// A file that is dropped on torchplan.exe, or the program opened by itself, as people use a program without a console.
#include "system.h"
#include <wchar.h>

// The words to run by in place of these: where one file was dropped, `plan` of it, with the table of blocks that lies
// beside the program. Whoever opened the program by itself is told what to do.
wchar_t **words_for(wchar_t **words, i32 *count);

// What is written to standard output, which of a dropped file is kept as its plan.
void keep_output(const void *from, u64 count);

// To be called last: says where the plan lies, and waits, since the window goes with the program.
void end_drop(i32 status);

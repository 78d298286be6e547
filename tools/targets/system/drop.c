// What drop.h says. A dropped NAME.nbt, packed as the game saves it or not, gets NAME.plan.txt and NAME.proof beside
// it.
#define WIN32_LEAN_AND_MEAN
#define _WIN32_WINNT 0x0602
#include "drop.h"
#include "inflate.h"
#include <stdio.h>
#include <stdlib.h>
#include <string.h>
#include <windows.h>

enum { LONGEST = 32768, MOST_BYTES = 67108864 };
static const wchar_t TABLE[] = L"vanilla-1.21.toml";
static const char HOW[] = "torchplan plans the fewest torches for a Minecraft cave.\n\n"
    "Drop a structure file (NAME.nbt, as a structure block saves it) on torchplan.exe.\n"
    "In a console: torchplan.exe --help\n";

static wchar_t unpacked_path[LONGEST], plan_path[LONGEST], proof_path[LONGEST], table_path[LONGEST];
static FILE *plan_file;
static i32 is_dropped, is_opened;

// Whether this program has the window for itself, which then closes with it.
static i32 has_own_window(void) {
    DWORD processes[2];
    return GetConsoleProcessList(processes, 2) == 1;
}

static i32 is_file(const wchar_t *path) {
    DWORD told = GetFileAttributesW(path);
    return told != INVALID_FILE_ATTRIBUTES && !(told & FILE_ATTRIBUTE_DIRECTORY);
}

// The bytes of a file, to be let go; null where it can't be read or is too long.
static u8 *bytes_of(const wchar_t *path, u64 *count) {
    FILE *file = _wfopen(path, L"rb");
    u8 *bytes = file ? malloc(MOST_BYTES + 1) : 0;
    if (bytes) *count = fread(bytes, 1, MOST_BYTES + 1, file);
    if (file) fclose(file);
    return bytes;
}

// The path that the program reads: the file itself, or another one with its bytes unpacked.
static const wchar_t *readable(const wchar_t *path) {
    u64 length = 0, count = 0;
    u8 *bytes = bytes_of(path, &length);
    i32 is_packed = bytes && length > 2 && bytes[0] == 0x1f && bytes[1] == 0x8b;
    u8 *plain = is_packed ? unpacked(bytes, length, MOST_BYTES, &count) : 0;
    free(bytes);
    if (!plain) return path;
    wchar_t folder[LONGEST];
    GetTempPathW(LONGEST, folder);
    swprintf(unpacked_path, LONGEST, L"%lstorchplan-%lu.nbt", folder, GetCurrentProcessId());
    FILE *file = _wfopen(unpacked_path, L"wb");
    i32 is_written = file && fwrite(plain, 1, count, file) == count;
    if (file) is_written &= fclose(file) == 0;
    free(plain);
    return is_written ? unpacked_path : path;
}

// What lies beside a file: its path with another name, or with another ending.
static void beside(wchar_t *to, const wchar_t *path, const wchar_t *name, const wchar_t *ending) {
    wcsncpy(to, path, LONGEST - 32);
    wchar_t *last = wcsrchr(to, L'\\'), *slash = wcsrchr(to, L'/');
    if (slash > last) last = slash;
    wchar_t *file = last ? last + 1 : to, *point = wcsrchr(file, L'.');
    if (name) wcscpy(file, name);
    else wcscpy(point && point != file ? point : file + wcslen(file), ending);
}

wchar_t **words_for(wchar_t **words, i32 *count) {
    if (!words || *count > 2 || (*count == 2 && !is_file(words[1]))) return words;
    if (*count < 2) {
        is_opened = has_own_window();
        if (is_opened) fputs(HOW, stdout);
        return words;
    }
    static wchar_t *plan[] = { L"torchplan", L"plan", 0, L"--proof", proof_path, L"--turns", L"1000", L"--table",
        table_path };
    is_dropped = 1;
    plan[2] = (wchar_t *)readable(words[1]);
    beside(proof_path, words[1], 0, L".proof");
    beside(plan_path, words[1], 0, L".plan.txt");
    wchar_t own[LONGEST];
    GetModuleFileNameW(0, own, LONGEST);
    beside(table_path, own, TABLE, 0);
    plan_file = _wfopen(plan_path, L"wb");
    *count = is_file(table_path) ? 9 : 7;
    return plan;
}

void keep_output(const void *from, u64 count) {
    if (plan_file) fwrite(from, 1, count, plan_file);
}

void end_drop(i32 status) {
    if (plan_file) fclose(plan_file);
    if (is_dropped && status != 0 && status != 5) _wremove(plan_path);
    if (is_dropped && status != 0) _wremove(proof_path);
    if (unpacked_path[0]) _wremove(unpacked_path);
    if (is_dropped && (status == 0 || status == 5)) {
        char path[3 * LONGEST];
        WideCharToMultiByte(CP_UTF8, 0, plan_path, -1, path, sizeof path, 0, 0);
        const char *more = status == 0 ? ", its proof beside it." : ". More turns may find fewer torches.";
        fprintf(stderr, "\nThe plan lies in %s%s\n", path, more);
    }
    if (!is_opened && !(is_dropped && has_own_window())) return;
    fputs("\nEnter closes this window.\n", stderr);
    getchar();
}

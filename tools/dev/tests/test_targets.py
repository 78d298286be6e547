"""The way from the program's module to other systems: its text, and 64-bit addresses over a 32-bit memory. What is
compiled needs the toolchain, and what is run node."""
import gzip
import json
import os
import random
import shutil
import subprocess
import sys
import tempfile
import unittest
import zlib

import paths
from repository import TOOLS

sys.path.insert(1, os.path.join(TOOLS, "targets"))
import kit
import modules
import narrow
from wasm_bytes import Reader, leb, signed_leb

TEXT = '''target datalayout = "e-m:e"
target triple = "x86_64-unknown-linux-gnu"
define i64 @"a::read"(ptr %p) #0 {
  %r = call i64 @read(i32 0, ptr %p, i64 1)
  %f = call i64 @rattle_arg(i64 0, ptr @read, i64 1)
  ret i64 %r
}
define i32 @main() #1 {
  ret i32 0
}
declare noundef i64 @read(i32 noundef, ptr noundef, i64 noundef) #2
declare i64 @rattle_arg(i64, ptr, i64)
declare void @llvm.trap() #3
attributes #0 = { nounwind "probe-stack"="inline-asm" "stack-probe-size"="3072" "target-cpu"="x86-64-v2" }
attributes #1 = { cold nounwind "target-cpu"="x86-64" }
'''

# Every kind of access that the narrowing knows; `answers` tells what each gave.
C = r'''
typedef unsigned char u8; typedef unsigned short u16; typedef unsigned u32; typedef unsigned long long u64;
typedef u32 lanes __attribute__((vector_size(16)));
static u64 words[64]; static u8 bytes[256]; static double reals[4]; static float short_reals[4]; static lanes vector;
static u64 twice(u64 n) { return 2 * n; }
static u64 thrice(u64 n) { return 3 * n; }
static u64 (*volatile ways[2])(u64) = { twice, thrice };
extern u8 __heap_base[];
__attribute__((export_name("words"))) double word(double at) { return (double)words[(u64)at]; }
__attribute__((export_name("run"))) void run(void) {
    for (u32 n = 0; n < 256; n++) bytes[n] = (u8)n;
    __builtin_memmove(bytes + 10, bytes, 100);
    __builtin_memset(bytes + 200, 7, 50);
    words[0] = bytes[10] + 256 * bytes[109] + 65536 * bytes[110] + 16777216ull * bytes[249];
    words[0] += 4294967296ull * bytes[250];
    *(volatile u16 *)(bytes + 20) = 54321; words[1] = *(volatile u16 *)(bytes + 20);
    *(volatile signed char *)(bytes + 30) = -5; words[2] = (u64)(100 + *(volatile signed char *)(bytes + 30));
    *(volatile u32 *)(bytes + 40) = 4000000000u; words[3] = *(volatile u32 *)(bytes + 40);
    *(volatile short *)(bytes + 50) = -300; words[4] = (u64)(1000 + *(volatile short *)(bytes + 50));
    *(volatile double *)&reals[1] = 2.5; words[5] = (u64)(*(volatile double *)&reals[1] * 2);
    *(volatile float *)&short_reals[1] = 1.5f; words[6] = (u64)(*(volatile float *)&short_reals[1] * 4);
    words[7] = ways[words[0] & 1](21) + ways[1](1);
    u64 before = __builtin_wasm_memory_size(0), grown = __builtin_wasm_memory_grow(0, 2);
    words[8] = grown == before; words[9] = __builtin_wasm_memory_size(0) - before;
    u8 *far = (u8 *)(before * 65536); far[65535] = 9; words[10] = far[65535];
    words[11] = __builtin_wasm_memory_grow(0, 70000) == (unsigned long)-1;
    vector = (lanes){ 1, 2, 3, 4 } + (lanes){ (u32)words[10], 1, 1, 1 }; words[12] = vector[0] * 1000 + vector[3];
}
__attribute__((export_name("outside"))) double outside(double at) { return *(volatile u8 *)(long long)at; }
'''
MOVED = 0 + 256 * 99 + 65536 * 110 + 16777216 * 7 + 4294967296 * 250
DUE = [MOVED, 54321, 95, 4000000000, 700, 5, 6, 42 + 3, 1, 2, 9, 1, 10005]
RUN = '''
const fs = require("fs");
WebAssembly.instantiate(fs.readFileSync(process.argv[1])).then(({ instance: { exports } }) => {
  exports.run();
  const outside = [-8, -(2 ** 24), 2 ** 31].map((at) => {
    try { return exports.outside(at); } catch (error) { return error.constructor.name; } });
  console.log(JSON.stringify([Array.from({ length: COUNT }, (_, at) => exports.words(at)), outside]));
});'''


UNPACK = r"""
#include "inflate.h"
#include <stdio.h>
static u8 packed[1 << 20];
int main(void) {
    u64 count = 0, length = fread(packed, 1, sizeof packed, stdin);
    u8 *plain = unpacked(packed, length, 67108864, &count);
    return plain ? fwrite(plain, 1, count, stdout) != count : 3;
}
"""


class Text(unittest.TestCase):
    def test_what_is_asked_gets_another_name(self):
        text = modules.prepared(TEXT)
        self.assertIn("call i64 @system_read(i32 0, ptr %p, i64 1)", text)
        self.assertIn("@system_rattle_arg(i64 0, ptr @system_read, i64 1)", text)
        self.assertIn('define i64 @"a::read"(ptr %p)', text)
        self.assertIn("define i32 @torchplan_main()", text)
        self.assertIn("declare void @llvm.trap()", text)

    def test_no_system_and_no_processor_is_named(self):
        text = modules.prepared(TEXT)
        self.assertIn("attributes #0 = { nounwind }", text)
        self.assertIn("attributes #1 = { cold nounwind }", text)
        self.assertNotIn("target ", text)

    def test_a_module_that_asks_for_more_is_refused(self):
        with self.assertRaisesRegex(modules.Changed, "asks for fork, which"):
            modules.prepared(TEXT + "declare i32 @fork()\n")

    def test_a_module_of_another_shape_is_refused(self):
        for part in ("define i32 @main", "target triple"):
            with self.assertRaises(modules.Changed):
                modules.prepared(TEXT.replace(part, "x").replace("target datalayout", "x"))

    def test_each_name_that_is_known_is_declared_in_the_header(self):
        with open(os.path.join(kit.SYSTEM, "system.h"), encoding="utf-8") as file:
            header = file.read()
        for name in modules.KNOWN - {"rattle_alloc", "rattle_realloc", "rattle_dealloc"}:
            self.assertIn(f"system_{name}(", header)


class Numbers(unittest.TestCase):
    def test_numbers_are_read_as_they_are_written(self):
        for number in [0, 1, 63, 64, 127, 128, 8191, 8192, 2**31 - 1, 2**32]:
            self.assertEqual(Reader(leb(number)).number(), number)
            self.assertEqual(Reader(signed_leb(number)).number(), number)
            self.assertEqual(signed_leb(number)[-1] & 64, 0)


HOST = """
const bytes = (text) => new TextEncoder().encode(text), text = (part) => new TextDecoder().decode(part), told = [];
const host = new Host(["torchplan", "plan"], { read: (name) => (name === "cave" ? bytes("abcdef") : null),
  hear: (line) => told.push(line) });
host.memory = { buffer: new ArrayBuffer(64) };
const memory = () => new Uint8Array(host.memory.buffer), { open, read, write, argument, exit } = host.functions();
memory().set(bytes("cave"));
const file = open(0, 4, 0), parts = [read(file, 8, 4), text(memory().slice(8, 12)), read(file, 8, 4), read(file, 8, 4)];
memory().set(bytes("out"));
const made = open(0, 3, 1);
memory().set(bytes("first"), 8);
write(made, 8, 5);
write(2, 8, 5);
memory().set(bytes("other"), 8);
write(made, 8, 5);
host.memory.buffer = new ArrayBuffer(128);
const words = [argument(1, 0, 4), argument(1, 0, 3), argument(2, 0, 9)];
let status = null;
try { exit(5); } catch (error) { status = error instanceof Ended ? error.status : error; }
console.log(JSON.stringify([parts, text(host.made.get("out").all()), told, words, status, write(9, 0, 1), read(9, 0, 1)]));
"""


@unittest.skipIf(shutil.which("node") is None, "no node is here, so the page's host isn't run")
class PageHost(unittest.TestCase):
    def test_what_a_host_answers(self):
        with open(os.path.join(TOOLS, "targets", "page", "host.js"), encoding="utf-8") as file:
            script = file.read() + HOST
        ran = subprocess.run(["node", "-"], input=script.encode(), stdout=subprocess.PIPE, check=True)
        parts, made, told, words, status, *none = json.loads(ran.stdout)
        self.assertEqual(parts, [4, "abcd", 2, 0])
        self.assertEqual(made, "firstother", "what was written stays, whatever comes of the memory")
        self.assertEqual((told, words, status, none), (["first"], [4, -2, -1], 5, [-1, -1]))


@unittest.skipIf(any(shutil.which(name) is None for name in ("rt", "node")), "no rt or no node is here")
class Systems(unittest.TestCase):
    def tried(self, *names):
        words = [os.path.join(TOOLS, "dev", "try-system"), "--only", *names]
        return subprocess.run(words, stdout=subprocess.PIPE, stderr=subprocess.STDOUT, text=True).stdout

    def test_what_a_page_gives_to_the_module(self):
        self.assertEqual(self.tried("torchplan.wasm"), "torchplan.wasm: ok\n1 system, 0 differ\n")

    def test_what_macos_gives_is_linked(self):
        names = ["torchplan-arm64-macos", "torchplan-x86_64-macos"]
        self.assertRegex(self.tried(*names), "".join(f"{name}: linked, .*\n" for name in names))


LACKING = [name for name in ("rt", "node") if shutil.which(name) is None]


@unittest.skipIf(shutil.which("cc") is None, "no C compiler is here, so the unpacking of the Windows program isn't run")
class Inflate(unittest.TestCase):
    """What the Windows program does to a file that is dropped on it."""

    def setUp(self):
        self.room = tempfile.TemporaryDirectory()
        self.addCleanup(self.room.cleanup)
        source, self.program = os.path.join(self.room.name, "a.c"), os.path.join(self.room.name, "a")
        with open(source, "w", encoding="utf-8") as file:
            file.write(UNPACK)
        words = ["cc", "-O1", "-I", kit.SYSTEM, source, os.path.join(kit.SYSTEM, "inflate.c"), "-o", self.program]
        subprocess.run(words, check=True)

    def unpacked(self, data):
        """The bytes; None where it refuses."""
        ran = subprocess.run([self.program], input=data, stdout=subprocess.PIPE)
        self.assertIn(ran.returncode, (0, 3))
        return ran.stdout if ran.returncode == 0 else None

    def test_all_that_zlib_packs(self):
        rng = random.Random(1)
        for number in range(40):
            data = rng.choice([rng.randbytes(5000), b"ab" * rng.randrange(9000), bytes(rng.choices(b"abcd", k=7000))])
            stream = zlib.compressobj(number % 10, zlib.DEFLATED, 31, 8, number % 5)
            self.assertEqual(self.unpacked(stream.compress(data) + stream.flush()), data)

    def test_what_is_damaged_is_refused_or_read(self):
        rng, whole = random.Random(2), gzip.compress(bytes(range(256)) * 20)
        self.assertIsNone(self.unpacked(whole[: len(whole) // 2]))
        self.assertIsNone(self.unpacked(b"\x1f\x8b\x08"))
        self.assertIsNone(self.unpacked(gzip.compress(bytes(70_000_000), 1)))
        for _ in range(60):
            data = bytearray(whole)
            data[rng.randrange(10, len(data))] ^= 1 << rng.randrange(8)
            self.unpacked(bytes(data))


@unittest.skipIf(LACKING, f"no {' and no '.join(LACKING)} is here, so nothing is compiled and run")
class Narrow(unittest.TestCase):
    def run_c(self, *flags):
        with tempfile.TemporaryDirectory() as room:
            path = lambda name: os.path.join(room, name)
            with open(path("a.c"), "w", encoding="utf-8") as file:
                file.write(C)
            target = ["--target=wasm64-unknown-unknown", "-mcpu=lime1", *flags]
            kit.clang(*target, "-O1", "-ffreestanding", "-w", "-c", path("a.c"), "-o", path("a.o"))
            link = [kit.program("ld.lld"), "-flavor", "wasm", "-mwasm64", "--no-entry"]
            kit.run(*link, "-o", path("wide.wasm"), path("a.o"))
            with open(path("wide.wasm"), "rb") as file:
                data = narrow.narrowed(file.read())
            with open(path("a.wasm"), "wb") as file:
                file.write(data)
            script = RUN.replace("COUNT", str(len(DUE)))
            ran = subprocess.run(["node", "-e", script, path("a.wasm")], stdout=subprocess.PIPE)
        return json.loads(ran.stdout)

    def test_every_kind_of_access(self):
        for flags in ([], ["-msimd128"]):
            words, outside = self.run_c(*flags)
            self.assertEqual(words, DUE)
            self.assertEqual(outside, ["RuntimeError"] * 3)


if __name__ == "__main__":
    unittest.main()

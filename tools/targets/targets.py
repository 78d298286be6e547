"""The program of one module, for each system: how it is compiled and linked. The module is compiled by the toolchain's
own clang everywhere. A page's program and those of macOS are linked by the toolchain's linker alone; those of Windows
and Linux by Debian's cross compilers, which bring the C libraries."""
import os

import kit
from narrow import narrowed

# Where the module says that no step comes after (a function that doesn't return), nothing is put, as in the program.
ALWAYS = ["-w", "-O3", "-mllvm", "-trap-unreachable", "-mllvm", "-no-trap-after-noreturn"]
# Division of more than 64 bits is written out, so that no function of a library is called for it.
WIDE = ["-mllvm", "-expand-div-rem-bits=64", "-mllvm", "-expand-fp-convert-bits=64"]
OWN_C = ["-O2", "-Wall", "-Wextra", "-ffreestanding", "-fno-builtin", "-fno-stack-protector", "-nostdinc"]
PAGE_STACK, PROGRAM_STACK = 16 << 20, 64 << 20


def source(name):
    return os.path.join(kit.SYSTEM, name)


def compiled(prepared, triple, room, *flags):
    """The objects of the module and of its way to memory. The module's lies beside its text, and is made once."""
    objects = [f"{prepared}.{triple}.o", os.path.join(room, f"{triple}-allocation.o")]
    for path, out in zip([prepared, source("allocation.ll")], objects):
        if path != prepared or not os.path.exists(out):
            kit.clang(f"--target={triple}", *flags, *ALWAYS, "-c", "-x", "ir", path, "-o", out)
    return objects


def own_c(name, triple, room, *flags):
    out = os.path.join(room, f"{triple}-{name}.o")
    kit.clang(f"--target={triple}", *flags, *OWN_C, "-c", source(name), "-o", out)
    return out


def page(prepared, room, out):
    """WebAssembly for a page: features that browsers have had since 2022, vectors of 128 bits among them."""
    triple, flags = "wasm64-unknown-unknown", ["-mcpu=lime1", "-msimd128", *WIDE]
    objects = compiled(prepared, triple, room, *flags)
    objects += [own_c(name, triple, room, *flags) for name in ("page.c", "heap.c")]
    objects.append(own_c("wide.c", triple, room, "-fwrapv", *flags))
    wide = os.path.join(room, "wide.wasm")
    kit.run(kit.program("ld.lld"), "-flavor", "wasm", "-mwasm64", "--no-entry", "--stack-first", "-z",
            f"stack-size={PAGE_STACK}", "--gc-sections", "--export-memory", "-o", wide, *objects)
    with open(wide, "rb") as file:
        data = narrowed(file.read())
    with open(out, "wb") as file:
        file.write(data)


def windows(prepared, room, out):
    """A console program for Windows 8 and later on x86_64, which needs no library beside Windows' own."""
    cross = "x86_64-w64-mingw32-gcc"
    kit.need(cross)
    objects = compiled(prepared, "x86_64-w64-windows-gnu", room, "-ffunction-sections")
    kit.run(cross, "-O2", "-s", "-static", "-Wall", "-Wextra", f"-Wl,--stack,{PROGRAM_STACK}", "-Wl,--gc-sections",
            "-Wl,--no-insert-timestamp", "-o", out, *map(source, ("windows.c", "drop.c", "inflate.c")),
            *objects, "-lshell32", "-lsynchronization")


def linux(cross, triple, *flags):
    """The way to a program for Linux that needs no C library where it runs."""

    def build(prepared, room, out):
        kit.need(cross)
        objects = compiled(prepared, triple, room, "-ffunction-sections", *flags)
        kit.run(cross, "-O2", "-s", "-static", "-Wall", "-Wextra", "-Wl,--gc-sections", "-Wl,--build-id=none", "-o",
                out, source("linux.c"), *objects)

    return build


def macos(processor):
    """The way to a program for macOS 11 and later. Nobody has run one."""

    def build(prepared, room, out):
        triple = f"{processor}-apple-macos11"
        objects = [*compiled(prepared, triple, room), own_c("macos.c", triple, room)]
        kit.run(kit.program("ld.lld"), "-flavor", "darwin", "-arch", processor, "-platform_version", "macos", "11.0",
                "11.0", "-dead_strip", "-no_uuid", "-o", out, *objects, source("libSystem.tbd"))

    return build


# What is built, by the name that it has in dist/ before it is packed.
TARGETS = {
    "torchplan.wasm": page,
    "torchplan.exe": windows,
    "torchplan-aarch64-linux": linux("aarch64-linux-gnu-gcc", "aarch64-unknown-linux-gnu"),
    "torchplan-x86_64-linux-static": linux("gcc", "x86_64-unknown-linux-gnu", "-march=x86-64-v2"),
    "torchplan-arm64-macos": macos("arm64"),
    "torchplan-x86_64-macos": macos("x86_64"),
}

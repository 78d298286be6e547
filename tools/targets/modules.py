"""The module of the proved program, as text for other systems than the one that it was lowered for.

Taken out are the names of that system and processor. What the module calls and doesn't define gets `system_` before its
name, so that no function of a C library is taken for it, and its `main` is torchplan_main. Nothing else is changed."""
import os
import re

import kit

# What a system gives (system/system.h). A call that isn't here would be linked to nothing, or to something else.
KNOWN = set("""__errno_location __sysv_signal __write __x86_get_cpuid_feature_leaf __xpg_strerror_r _exit abort
clock_gettime close free isatty lseek malloc open pthread_attr_destroy pthread_attr_init pthread_attr_setguardsize
pthread_attr_setstacksize pthread_create pthread_detach pthread_join pthread_self rattle_alloc rattle_arg
rattle_dealloc rattle_env rattle_env_at rattle_errno rattle_realloc rattle_set_errno read sched_yield statx syscall
write""".split())

# What the module says to processors of its own kind, and what stands for it: that a thread waits in a loop.
OF_PROCESSORS = {"llvm.x86.sse2.pause": "system_pause"}

DECLARED = re.compile(r'^declare [^@]*@("[^"]+"|[\w.$-]+)\(', re.MULTILINE)
OF_ONE_SYSTEM = re.compile(r'^target (?:datalayout|triple) = .*\n', re.MULTILINE)
OF_ONE_PROCESSOR = re.compile(r' ?"(?:target-cpu|probe-stack|stack-probe-size|rattle-sig|frame-pointer)"="[^"]*"')
ATTRIBUTES = re.compile(r"^attributes .*$", re.MULTILINE)
MAIN = "define i32 @main("


class Changed(Exception):
    """How the module differs from those that these scripts know, in one line."""


def asked(text):
    """The functions that the module calls and doesn't define, but for those of any processor's compiler."""
    names = set(DECLARED.findall(text)) - set(OF_PROCESSORS)
    return {name for name in names if not name.startswith("llvm.") or name.startswith("llvm.x86.")}


def prepared(text):
    """The text of a module for any 64-bit system whose numbers are little-endian."""
    names = asked(text)
    unknown = sorted(names - KNOWN)
    if unknown:
        raise Changed(f"the module asks for {', '.join(unknown)}, which no file of system/ gives")
    if text.count(MAIN) != 1 or not OF_ONE_SYSTEM.search(text):
        raise Changed("the module has no main, or names no target")
    text = OF_ONE_SYSTEM.sub("", text)
    text = ATTRIBUTES.sub(lambda line: OF_ONE_PROCESSOR.sub("", line[0]), text)
    text = text.replace(MAIN, "define i32 @torchplan_main(")
    for name, other in OF_PROCESSORS.items():
        text = text.replace(f"@{name}(", f"@{other}(")
    called = re.compile(rf"@({'|'.join(sorted(map(re.escape, names)))})(?![\w.$-])")
    return called.sub(r"@system_\1", text)


def prepare(module, room):
    """Writes the text of a module that is prepared into the folder, unless it is there; its path."""
    printed, path = os.path.join(room, "printed.ll"), os.path.join(room, "prepared.ll")
    if os.path.exists(path):
        return path
    kit.clang("-w", "-x", "ir", module, "-S", "-emit-llvm", "-Xclang", "-disable-llvm-passes", "-o", printed)
    with open(printed, encoding="utf-8") as file:
        text = prepared(file.read())
    with open(path, "w", encoding="utf-8") as file:
        file.write(text)
    os.remove(printed)
    return path

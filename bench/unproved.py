#!/usr/bin/env python3
"""bench/unproved.py CRATES < MODULE > MODULE

Makes of the module (LLVM's text) that `rt try` compiles one like that of a proved program, for bench/unproved.sh: without
the checks of `rt try`, with locals of structs and enums set to zero, and with the attributes of the functions in CRATES
(the folder of crates), as `#[inline(always)]`. An event takes about a tenth more instructions than in the proved program.
"""
import glob
import os
import re
import sys

BASE = 'nounwind "probe-stack"="inline-asm" "stack-probe-size"="3072" "target-cpu"="x86-64-v2"'
MARKED = r"((?:^[ \t]*#\[[^\n]*\]\n)+)[ \t]*(?:pub(?:\([^)]*\))? )?(?:const )?fn (\w+)"
# The numbers of the attributes that are added at the module's end.
PLAIN, ALWAYS, NEVER, COLD = 900, 901, 902, 903


def marked(crates):
    """The attribute of each function that has one, by its crate, its modules and its name."""
    found = {}
    for file in glob.glob(f"{crates}/*/src/**/*.rt", recursive=True):
        crate, _, *modules = os.path.relpath(file, crates)[:-3].split("/")
        modules = modules[:-1] if modules[-1] in ("lib", "main", "mod") else modules
        with open(file, encoding="utf-8") as text:
            for lines, name in re.findall(MARKED, text.read(), re.M):
                for word, number in (("#[cold]", COLD), ("#[inline(never)]", NEVER), ("#[inline(always)]", ALWAYS)):
                    if word in lines:
                        found[crate, *modules, name] = number
                        break
    return found


def attribute(found, name):
    """That of a function of the module, whose name has a type between its modules and its own."""
    words = re.sub(r"::<.*$", "", name).split("::")
    for end in range(len(words) - 1, 0, -1):
        if (*words[:end], words[-1]) in found:
            return found[(*words[:end], words[-1])]
    return PLAIN


def main():
    found, types = marked(sys.argv[1]), {}
    for line in sys.stdin:
        if line.startswith("define"):
            types = {}
            name = re.search(r'@"?([^"(]+)"?\(', line)[1]
            line = re.sub(r"\) #[02] \{", f") #{attribute(found, name)} {{", line)
        elif 'call void @"rattle-llvm-checks::' in line:
            continue
        elif local := re.match(r"  (%r\d+) = alloca (.)", line):
            types[local[1]] = local[2]
        elif filled := re.match(r"  call void @llvm.memset.p0.i64\(ptr (%r\d+), i8 -86, ", line):
            if types.get(filled[1]) != "[":
                continue
            line = line.replace("i8 -86", "i8 0")
        sys.stdout.write(line)
    for number, word in ((PLAIN, ""), (ALWAYS, "alwaysinline "), (NEVER, "noinline "), (COLD, "cold noinline ")):
        print(f"attributes #{number} = {{ {word}{BASE} }}")


main()

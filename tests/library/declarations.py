#!/usr/bin/env python3
"""tests/library/declarations.py: compares include/bracha.h with what the bindings declare of it, and the versions that are named.

No compiler does: a wrong type in bindings/rust/src/sys.rs or in the Python package would be found only when it crashes. Each function's
result and parameters are brought into the words of C; a pointer is a pointer. Prints what differs, and `N passed, M failed`."""

import os
import re
import sys

TOP = os.path.realpath(f"{os.path.dirname(os.path.realpath(__file__))}/../..")
RUST = {"u8": "uint8_t", "u16": "uint16_t", "u32": "uint32_t", "u64": "uint64_t", "i32": "int32_t", "usize": "size_t", "bool": "bool", "Handle": "handle"}
PYTHON = {"u8": "uint8_t", "u16": "uint16_t", "ctypes.c_uint32": "uint32_t", "u64": "uint64_t", "i32": "int32_t", "size": "size_t",
          "ctypes.c_bool": "bool", "None": "void", "pointer": "*", "text": "*"}
passed = failed = 0


def text_of(path: str) -> str:
    with open(f"{TOP}/{path}", encoding="utf-8") as file:
        return file.read()


def same(what: str, found: object, wanted: object) -> None:
    global passed, failed
    if found == wanted:
        passed += 1
    else:
        failed += 1
        print(f"{what}: {found}, and not {wanted}")


def of_c(parameter: str) -> str:
    if "*" in parameter or "[" in parameter:
        return "*"
    word = parameter.split()[0]
    return "handle" if word in ("bracha_core", "bracha_feeder", "bracha_toss") else word


def header() -> dict[str, list[str]]:
    """Each function of the header: its result, and its parameters."""
    text = re.sub(r"/\*.*?\*/", "", text_of("include/bracha.h"), flags=re.S)
    found = re.findall(r"^(\w+) (bracha_\w+)\(([^)]*)\);", text, re.M)
    return {name: [result, *(of_c(one.strip()) for one in words.split(",") if one.strip() != "void")] for result, name, words in found}


def rust() -> dict[str, list[str]]:
    found = re.findall(r"fn (bracha_\w+)\(([^)]*)\)(?: -> (\w+))?;", text_of("bindings/rust/src/sys.rs"))
    kind = lambda one: "*" if one.strip().startswith("*") else RUST[one.strip()]  # noqa: E731
    return {name: [RUST[result] if result else "void", *(kind(one.split(":")[1]) for one in words.split(",") if ":" in one)]
            for name, words, result in found}


def python() -> dict[str, list[str]]:
    package = f"{TOP}/bindings/python/bracha_core"
    text = "".join(text_of(f"bindings/python/bracha_core/{name}") for name in sorted(os.listdir(package)) if name.endswith(".py"))
    found = re.findall(r'declare\("(bracha_\w+)", ([^)]*)\)', text)
    return {name: [PYTHON[one.strip()] for one in words.split(",") if one.strip()] for name, words in found}


c = header()
for name, words in rust().items():
    same(f"sys.rs: {name}", words, c.get(name))
for name, words in python().items():
    wanted = c.get(name, [])
    # a handle that is passed by value is one pointer
    same(f"bracha_core: {name}", words, ["*" if word == "handle" else word for word in wanted])
same("sys.rs lacks", sorted(set(c) - set(rust())), [])
same("bracha_core lacks", sorted(set(c) - set(python())), ["bracha_abi"])  # it is called before any is declared

version = re.search(r'\.version\("([0-9.]*)', text_of("crates/command_line/src/tasks.rt"))
for path, pattern in (("bindings/rust/Cargo.toml", r'^version = "(.*)"'), ("bindings/python/pyproject.toml", r'^version = "(.*)"')):
    found = re.search(pattern, text_of(path), re.M)
    same(f"the version of {path}", found and found[1], version and version[1])
abi = re.search(r"#define BRACHA_ABI (\d+)u", text_of("include/bracha.h"))
for path, pattern in (("bindings/rust/src/fault.rs", r"pub const ABI: u32 = (\d+);"), ("bindings/python/bracha_core/_library.py", r"^ABI = (\d+)")):
    found = re.search(pattern, text_of(path), re.M)
    same(f"the interface of {path}", found and found[1], abi and abi[1])
statuses = {name: int(number) for name, number in re.findall(r"BRACHA_(\w+) = (-\d+)", text_of("include/bracha.h"))}
named = {name: int(number) for name, number in re.findall(r"^    ([A-Z_]+) = (-\d+)", text_of("bindings/python/bracha_core/_library.py"), re.M)}
same("the statuses of Python", named, {name: number for name, number in statuses.items() if name != "NOTHING"})
faults = {re.sub(r"(?<=[a-z])([A-Z])", r"_\1", name).upper(): int(number)
          for number, name in re.findall(r"(-\d+) => Fault::(\w+)", text_of("bindings/rust/src/fault.rs"))}
same("the statuses of Rust", faults, {name: number for name, number in statuses.items() if name not in ("NOTHING", "NO_ROOM")})
print(f"{passed} passed, {failed} failed")
sys.exit(failed > 0)

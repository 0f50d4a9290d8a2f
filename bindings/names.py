#!/usr/bin/env python3
"""Compares the names and numbers of tcap.h with those of the package tcap, the Rust crates and libtcap(3), its calls and
those of tcap_codec.h with theirs, and the layout of its structs (as `layout`, compiled from layout.c, prints it) with that
of the package:

    names.py LAYOUT     status 1 and a line for each difference
"""
import ctypes
import inspect
import pathlib
import re
import shlex
import subprocess
import sys
from enum import IntEnum

import tcap
from tcap import _c, _told, errors, values

TOP = pathlib.Path(__file__).resolve().parent.parent
COMMENTED = (TOP / "include" / "tcap.h").read_text()


def bare(source: str) -> str:
    """C without comments."""
    return re.sub(r"/\*.*?\*/", "", source, flags=re.S)


HEADER = bare(COMMENTED)
BOTH = HEADER + bare((TOP / "include" / "tcap_codec.h").read_text())
ENUMS: dict[str, tuple[type[IntEnum], str]] = {  # of tcap.h: that of the package, and how the names there begin
    "tcap_status": (values.Status, "TCAP_"),
    "tcap_state": (values.State, "TCAP_"),
    "tcap_termination": (values.Termination, "TCAP_"),
    "tcap_abort_reason": (values.AbortReason, "TCAP_"),
    "tcap_problem": (values.Problem, "TCAP_"),
    "tcap_abort_cause": (values.AbortCause, "TCAP_P_"),
    "tcap_drop_cause": (values.DropCause, "TCAP_DROP_"),
    "tcap_diagnostic": (values.Diagnostic, "TCAP_DIAGNOSTIC_"),
}
MODULES = {"tcap_problem": "problem", "tcap_abort_cause": "abort_cause", "tcap_diagnostic": "diagnostic"}
differences: list[str] = []


def compare(what: str, here: object, there: object) -> None:
    if here != there:
        differences.append(f"{what}: {here} in tcap.h, {there} there")


def numbers_of(enum: str, prefix: str) -> dict[str, int]:
    """The names and numbers of an enumeration of tcap.h, but the room that is too small: who calls the packages sees it never."""
    found = re.search(r"typedef enum \{([^}]*)\} " + enum + ";", HEADER)
    assert found, enum
    of_enum = {name[len(prefix) :]: int(value, 0) for name, value in re.findall(r"(\w+) = (\w+)", found.group(1))}
    return {name: number for name, number in of_enum.items() if name != "ROOM_TOO_SMALL"}


def constants_of(module: str) -> dict[str, int]:
    """The constants of a module of Rust."""
    source = (TOP / "rust" / "tcap" / "src" / "values.rs").read_text()
    found = re.search(r"pub mod " + module + r" \{(.*?)\n\}", source, re.S)
    assert found, module
    return {name: int(value, 0) for name, value in re.findall(r"const (\w+): u16 = (\w+);", found.group(1))}


def compare_layouts(layout: str) -> None:
    printed = subprocess.run([layout], capture_output=True, text=True, check=True).stdout.splitlines()
    structs: tuple[tuple[str, type[ctypes.Structure]], ...] = (
        ("tcap_output", _c.Output),
        ("tcap_limits", _c.Limits),
        ("tcap_ids", _c.Ids),
    )
    for struct, kind in structs:
        lines = [f"{struct} {ctypes.sizeof(kind)}"]
        for name, *_ in kind._fields_:
            part = getattr(kind, name)
            lines.append(f"{struct}.{name} {part.offset} {part.size}")
        compare(struct, [line for line in printed if re.match(struct + r"\b", line)], lines)


def kind_of(declared: str) -> str:
    """How a type of C, of ctypes or of Rust is passed."""
    if "*" in declared or declared.startswith(("POINTER", "LP_", "Option<", "c_void_p", "c_char_p")):
        return "pointer"
    for names, kind in (
        (("uint64_t", "size_t", "u64", "usize", "c_ulong"), "64"),
        (("uint32_t", "u32", "c_uint"), "u32"),
        (("int", "c_int", "tcap_status", "tcap_state", "tcap_termination", "tcap_abort_reason"), "int"),
        (("tcap_octets", "Given"), "octets"),
        (("tcap_code", "GivenCode"), "code"),
        (("void", "NoneType", "()"), "nothing"),
    ):
        if declared in names:
            return kind
    return declared


def c_signature(name: str) -> list[str]:
    """How tcap.h passes the arguments of a call, and then its answer."""
    header = re.sub(r"TCAP_MUST_CHECK|\s+", " ", BOTH)
    found = re.search(r"(\w+) (\*?)\b" + name + r"\((.*?)\);", header)
    assert found, name
    parts = [part.strip() for part in re.split(r",(?![^()]*\))", found.group(3))]
    passed = ["*" if "*" in part else part.removeprefix("const ").split(" ")[0] for part in parts if part != "void"]
    return [kind_of(part) for part in [*passed, found.group(2) or found.group(1)]]


def rust_signature(name: str, rust: str) -> list[str]:
    """The same of tcap-sys."""
    found = re.search(r"pub fn " + name + r"\((.*?)\)(?: -> (.*?))?;", rust, re.S)
    assert found, name
    passed = [part.split(":", 1)[1].strip() for part in found.group(1).split(",") if part.strip()]
    return [kind_of(part) for part in [*passed, found.group(2) or "()"]]


def compare_calls(rust: str) -> None:
    """What each call takes and answers."""
    for name, (answer, takes) in _c.CALLS.items():
        of_python = [kind_of(getattr(of, "__name__", "")) for of in [*takes, type(None) if answer is None else answer]]
        compare(f"{name} of the package", c_signature(name), of_python)
        compare(f"{name} of tcap-sys", c_signature(name), rust_signature(name, rust))


def compare_structs(rust: str) -> None:
    """The fields of the structs of tcap-sys, by name and type, against those of the package."""
    widths = {"usize": 8, "u64": 8, "u32": 4, "i32": 4, "c_int": 4, "u16": 2, "i16": 2, "u8": 1}
    widths |= {"tcap_octets": 16, "tcap_portion": 32, "tcap_code": 24, "*const u8": 8, "[u8; 4]": 4}
    structs: tuple[tuple[str, type[ctypes.Structure]], ...] = (
        ("tcap_output", _c.Output),
        ("tcap_limits", _c.Limits),
        ("tcap_octets", _c.Octets),
        ("tcap_code", _c.Code),
        ("tcap_portion", _c.Portion),
        ("tcap_ids", _c.Ids),
    )
    for struct, kind in structs:
        found = re.search(r"pub struct " + struct + r" \{(.*?)\n\}", rust, re.S)
        assert found, struct
        fields = [(name, widths[of]) for name, of in re.findall(r"pub (\w+): ([^,]+),", found.group(1))]
        of_package = [(name.rstrip("_"), getattr(kind, name).size) for name, *_ in kind._fields_]
        if fields != of_package:
            differences.append(f"{struct}: {fields} in tcap-sys, {of_package} in the package")


def default_limits() -> dict[str, int]:
    """The limits where a program sets none, by tcap.h."""
    fields = [name for name, *_ in _c.Limits._fields_ if name != "size"]
    found = re.search(r"#define TCAP_LIMITS \{sizeof\(tcap_limits\), ([^}]*)\}", HEADER)
    assert found
    return dict(zip(fields, map(int, found.group(1).split(", ")), strict=True))


def compare_limits() -> None:
    """The limits where a program sets none."""
    limits = default_limits()
    opened = inspect.signature(tcap.Engine.__init__).parameters
    compare("limits of the package", limits, {name: opened[name].default for name in limits})
    source = (TOP / "rust" / "tcap" / "src" / "engine.rs").read_text()
    default = re.search(r"impl Default for Limits \{(.*?)\n\}", source, re.S)
    assert default
    of_rust = {name: int(value) for name, value in re.findall(r"(\w+): ([\d_]+),", default.group(1))}
    compare("limits of the crate", limits, of_rust)


def letters(name: str) -> str:
    """A name as it is compared where languages write names in their own ways: TOO_LONG, TooLong."""
    return name.replace("_", "").lower()


def compare_classes(error: str) -> None:
    """By which class or variant each status is refused, and each kind told."""
    statuses = {number: letters(name) for name, number in numbers_of("tcap_status", "TCAP_").items() if number}
    compare("classes of statuses", statuses, {number: letters(of.__name__) for number, of in errors.CLASSES.items()})
    found = re.search(r"const ALL: \[Error; \d+\] = \[(.*?)\];", error, re.S)
    assert found
    compare("errors of Rust", statuses, dict(enumerate(map(letters, re.findall(r"Error::(\w+)", found.group(1))), 1)))
    kinds = {number: letters(name) for name, number in numbers_of("tcap_kind", "TCAP_").items()}
    compare("classes of outputs", kinds, {number: letters(of.__name__) for number, (of, _) in _told.KINDS.items()})


def prototypes(source: str) -> dict[str, str]:
    """The prototype of each call, with single spaces."""
    flat = re.sub(r"\s+", " ", re.sub(r"TCAP_MUST_CHECK|^ *#.*$", " ", source, flags=re.M))
    found = re.findall(r"((?:const )?\w+ \**)(tcap_[a-z_]+)(\((?:[^()]|\([^()]*\))*\);)", flat)
    return {name: start + name + rest for start, name, rest in found}


def page_prototypes(synopsis: str) -> dict[str, str]:
    """Those of a synopsis: .B sets words in bold, .BI its parts in bold and italic by turns, with no space between."""
    lines = [shlex.split(line) for line in synopsis.splitlines() if re.match(r"\.BI? ", line)]
    return prototypes("\n".join((" " if macro == ".B" else "").join(parts) for macro, *parts in lines))


def numbers_in(text: str) -> set[str]:
    """The numbers of a text, as 65,535, 2^62 and -128, and its ranges, as 1 to 65,535."""
    number = r"-?\b(?:2\^\d+|\d[\d,]*\d|\d)\b"
    return set(re.findall(number, text)) | set(re.findall(f"{number} to {number}", text))


def compare_numbers(page: str) -> None:
    """What libtcap(3) says of limits and constants has no number that tcap.h doesn't have beside the same name."""
    said: dict[str, set[str]] = {name: {f"{value:,}"} for name, value in default_limits().items()}
    for name, comment in re.findall(r"^ +(?:\w+ )?(\w+)[^\n/]*/\*(.*?)\*/", COMMENTED, re.M | re.S):
        said.setdefault(name, set()).update(numbers_in(re.sub(r"\s+\*?\s*", " ", comment)))
    items = re.findall(r"^\.TP\n\.BR? (.*)\n((?:[^.\n].*\n)+)", page, re.M)
    names = [re.findall(r"\w+", tags) for tags, _ in items]
    compare("limits of libtcap(3)", set(default_limits()), {name for tags in names for name in tags} & set(default_limits()))
    for tags, (_, text) in zip(names, items, strict=True):
        known = set[str]().union(*(said.get(name, set()) for name in tags))
        compare(f"numbers of {', '.join(tags)} in libtcap(3)", set(), numbers_in(text) - known)


def compare_page() -> None:
    """libtcap(3): the prototypes, and the numbers."""
    page = (TOP / "man" / "libtcap.3").read_text()
    there = page_prototypes(re.split(r"^\.SH DESCRIPTION", page, flags=re.M)[0])
    for name, prototype in (prototypes(HEADER) | {name: of for name, of in prototypes(BOTH).items() if name in there}).items():
        compare(f"{name} of libtcap(3)", prototype, there.get(name))
    compare("calls of libtcap(3)", set(), set(there) - set(prototypes(BOTH)))
    compare_numbers(page)


def main(layout: str) -> int:
    calls = set(prototypes(BOTH))
    rust = (TOP / "rust" / "tcap-sys" / "src" / "ffi.rs").read_text()
    compare("calls of the package", calls, set(_c.CALLS))
    compare("calls of tcap-sys", calls, set(re.findall(r"pub fn (tcap_\w+)\(", rust)))
    for enum, (kind, prefix) in ENUMS.items():
        numbers = numbers_of(enum, prefix)
        compare(enum, numbers, {member.name: int(member) for member in kind})
        if enum in MODULES:
            compare(f"{enum} of Rust", numbers, constants_of(MODULES[enum]))
    compare_layouts(layout)
    compare_structs(rust)
    compare_calls(rust)
    compare_limits()
    compare_classes((TOP / "rust" / "tcap" / "src" / "error.rs").read_text())
    compare_page()
    version = re.search(r"#define TCAP_VERSION 0x(([0-9a-f]{2})([0-9a-f]{2})([0-9a-f]{2}))u", HEADER)
    assert version
    dotted = ".".join(str(int(part, 16)) for part in version.groups()[1:])
    compare("TCAP_VERSION of the package", int(version.group(1), 16), _c.VERSION)
    compare("TCAP_VERSION of tcap-sys", True, f"TCAP_VERSION: u32 = 0x{version.group(1)};" in rust)
    for file, pattern in (
        ("c/Makefile", r"^VERSION = (\S+)"),
        ("python/pyproject.toml", r'^version = "(.*)"'),
        ("python/tcap/__init__.py", r'^__version__ = "(.*)"'),
        ("rust/tcap/Cargo.toml", r'^version = "(.*)"'),
        ("rust/tcap-sys/Cargo.toml", r'^version = "(.*)"'),
        ("rust/tcap-sys/build.rs", r'"tcap >= (\S+)"'),
        ("man/libtcap.3", r'"libtcap (\S+)"'),
    ):
        found = re.search(pattern, (TOP / file).read_text(), re.M)
        compare(f"version of {file}", dotted, found and found.group(1))
    compare("version of the library", dotted, ".".join(map(str, tcap.library_version())))
    print("\n".join([*differences, f"names: {len(calls)} calls, {len(ENUMS)} enumerations, {len(differences)} differences"]))
    return 1 if differences else 0


if __name__ == "__main__":
    sys.exit(main(sys.argv[1]))

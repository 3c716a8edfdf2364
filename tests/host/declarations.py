"""Writes a C file that compiles only if include/station.h declares what the crates export: the calls of station_c, the replies of calls.

Usage: python3 tests/host/declarations.py > FILE.c

Of each #[repr(C)] struct the file asserts the size and each field's offset, size and sign; each exported function is assigned to a
pointer of the type that its Rattle signature has in C. A name that only one of the two has, of a struct, a function or a parameter, is a
fault, said on standard error. A slice NAME is the parameters NAME and NAME_length in C.
"""
import pathlib
import re
import sys

ROOT = pathlib.Path(__file__).resolve().parents[2]
SIZES = {"u32": 4, "i32": 4, "usize": 8}
PARAMETERS = {"&[u8]": "const uint8_t *, size_t", "&mut [u8]": "uint8_t *, size_t", "u32": "uint32_t", "i32": "int32_t", "usize": "size_t"}


def c_name(struct):
    return "station_" + struct.lower()


def structs(source):
    """Each struct's name, and the names and types of its fields."""
    for name, body in re.findall(r"#\[repr\(C\)\]\s*(?:#\[derive\([^)]*\)\]\s*)?pub struct (\w+) \{(.*?)\}", source, re.S):
        yield name, re.findall(r"pub (\w+): (\w+),", body)


def functions(source):
    """Each exported function's name, the names and types of its parameters, and the type of its reply."""
    for name, parameters, reply in re.findall(r'#\[unsafe\(no_mangle\)\]\s*pub extern "C" fn (\w+)\((.*?)\)\s*->\s*(\w+)', source, re.S):
        yield name, re.findall(r"(\w+): ([^,]+?)\s*(?:,|$)", parameters.strip()), reply


def parameter_names(parameters):
    """The names that the parameters have in C."""
    for name, kind in parameters:
        yield name
        if kind.endswith("[u8]"):
            yield name + "_length"


def declarations(header):
    """The names of each declared function's parameters, by its name."""
    return {name: re.findall(r"(\w+)\s*(?:,|$)", parameters) for name, parameters in re.findall(r"\b(station_\w+)\(([^)]*)\);", header)}


def struct_lines(name, fields):
    """The assertions on a struct: by the C rules, each field stands at the next multiple of its size."""
    at, widest = 0, 1
    for field, kind in fields:
        size = SIZES[kind]
        at += -at % size
        yield f'_Static_assert(offsetof({c_name(name)}, {field}) == {at}, "offset of {name}.{field}");'
        yield f'_Static_assert(sizeof((({c_name(name)} *)0)->{field}) == {size}, "size of {name}.{field}");'
        sign = "< 0" if kind == "i32" else "> 0"
        yield f'_Static_assert((__typeof__((({c_name(name)} *)0)->{field}))-1 {sign}, "sign of {name}.{field}");'
        at, widest = at + size, max(widest, size)
    yield f'_Static_assert(sizeof({c_name(name)}) == {at + -at % widest}, "size of {name}");'


def main():
    source = "".join((ROOT / "crates" / name / "src/lib.rt").read_text(encoding="utf-8") for name in ("calls", "station_c"))
    header = re.sub(r"/\*.*?\*/", "", (ROOT / "include/station.h").read_text(encoding="utf-8"), flags=re.S)
    exported, declared = {name for name, _, _ in functions(source)}, set(declarations(header))
    replied, defined = {c_name(name) for name, _ in structs(source)}, set(re.findall(r"\}\s*(station_\w+);", header))
    for name in sorted((exported ^ declared) | (replied ^ defined)):
        where = "the crates have" if name in exported | replied else "include/station.h has"
        sys.exit(f"declarations: only {where} {name}")
    for name, parameters, _ in functions(source):
        if declarations(header)[name] != list(parameter_names(parameters)):
            sys.exit(f"declarations: the parameters of {name} have other names in include/station.h")
    lines = ["#include <station.h>", ""]
    for name, fields in structs(source):
        lines += [*struct_lines(name, fields), ""]
    for name, parameters, reply in functions(source):
        kind = PARAMETERS.get(reply) or c_name(reply)
        lines.append(f"{kind} (*const {name}_as_exported)({', '.join(PARAMETERS[kind] for _, kind in parameters)}) = {name};")
    print("\n".join(lines))


if __name__ == "__main__":
    main()

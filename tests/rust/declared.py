"""Compares what Rust and Rattle sources declare of the door with include/lischemur.h, on processors of 64 and of 32 bits.

    python3 tests/rust/declared.py

Each source's structs and functions are written down in C, type by type, and compiled behind the header: a field that lies elsewhere or a
parameter of another type does not compile. `usize` becomes `size_t`, which is the header's 64-bit count on 64 bits and is not on 32. The same
text with a slip must be refused, else comparing shows nothing. Then the crate's version, layout and targets are compared with the header's
and meter/parts'. Says how many declarations agree; the first that does not is shown and ends the run with status 1.
"""

import re
import sys
from pathlib import Path

sys.dont_write_bytecode = True
sys.path.insert(0, str(Path(__file__).resolve().parents[1] / "c"))
from header import ROOT, SUFFIX, Header, compilers, compiles, stop  # noqa: E402

PROGRAM = "tests/rust/declared.py"
TYPES = {"u8": "char", "u16": "uint16_t", "u32": "uint32_t", "u64": "uint64_t", "i64": "int64_t", "bool": "bool", "usize": "size_t", "Link": "uint16_t"}
STRUCTS = {"Record": "lischemur_record", "Reply": "lischemur_reply", "Marking": "lischemur_marking"}
FIELDS = {"rec": "record"}  # antt reserves the word record

# The sources, and how many structs and functions each is to declare.
SOURCES = {
    "bindings/rust": (["bindings/rust/src/record.rs", "bindings/rust/src/door.rs"], 3, 14),
    "crates/door_c": (["crates/heap/src/record.rt", "crates/door/src/reply.rt", "crates/door_c/src/lib.rt"], 3, 14),
}


def in_c(kind):
    """The C types that a type of Rust crosses as: a slice is a pointer and a count."""
    kind = kind.strip()
    if found := re.fullmatch(r"(?:&(mut )?|\*(mut |const ))\[(\w+)\]", kind):
        return [("" if found[1] else "const ") + TYPES[found[3]] + " *", "uint64_t"]
    if found := re.fullmatch(r"(?:&(mut )?|\*(mut|const) )(\w+)", kind):
        changes = found[1] or found[2] == "mut"
        return [("" if changes else "const ") + {**TYPES, **STRUCTS}[found[3]] + " *"]
    return [{**TYPES, **STRUCTS}[kind]]


def structs_of(text):
    """The structs that cross, as C and as assertions that they are the header's."""
    lines, found = [], 0
    for name, body in re.findall(r"#\[repr\(C\)\][^{}]*?struct (\w+) \{(.*?)\n\}", text, re.S):
        if name not in STRUCTS:
            continue
        fields, found = re.findall(r"(?:pub(?:\(crate\))? )?(\w+): (?:\[(\w+); (\d+)\]|(\w+)),", body), found + 1
        lines.append(f"struct {name} {{")
        for field, element, count, kind in fields:
            lines.append(f"    {in_c(element or kind)[0]} {FIELDS.get(field, field)}" + (f"[{count}];" if count else ";"))
        lines.append(f"}};\n_Static_assert(sizeof(struct {name}) == sizeof({STRUCTS[name]}), \"{name}\");")
        for field, *_ in fields:
            there, here = [f"__typeof__((({kind} *)0)->{FIELDS.get(field, field)})" for kind in (STRUCTS[name], f"struct {name}")]
            lines.append(f'_Static_assert(__builtin_types_compatible_p({there}, {here}), "{name}, {field}");')
            lines.append(f'_Static_assert(offsetof({STRUCTS[name]}, {FIELDS.get(field, field)}) == offsetof(struct {name}, {FIELDS.get(field, field)}), "{field}");')
    return lines, found


def functions_of(text, layout):
    """The functions, as prototypes in C by their plain names; a name with a layout's number has to have this one."""
    lines = {}
    for name, parameters, result in re.findall(r"fn (lischemur_\w+)\(([^()]*)\)\s*->\s*(\w+)", text):
        kinds = [c for p in parameters.split(",") if ":" in p for c in in_c(p.split(":")[1])]
        plain = name.removesuffix(f"{SUFFIX}{layout}")
        lines[plain] = f"{in_c(result)[0]} {plain}({', '.join(kinds)});"
    return lines


def compare(text, header, structs, functions):
    """Why a source's declarations are not the header's on some width, or nothing."""
    text = re.sub(r"//[^\n]*", "", text)
    laid, found = structs_of(text)
    called = functions_of(text, header.layout)
    if (found, len(called)) != (structs, functions):
        return f"{found} structs and {len(called)} functions were found, and not {structs} and {functions}"
    unknown = [name for name in called if name not in header.functions]
    if unknown:
        return f"the header does not declare {unknown[0]} with layout {header.layout}"
    for bits, command in compilers(PROGRAM).items():
        said = compiles(command, "\n".join(["#include <lischemur.h>", *laid, *called.values(), ""]))
        if said:
            return f"on {bits} bits: {said}"
    return None


def check_slips(text, header, counts):
    """A source with a slip is refused."""
    for old, new in (("len: u64", "len: usize"), ("pub in_use: u32,\n", "pub in_use: u64,\n"), ("words: u32)", "words: u64)"), ("pub cached: [u16; 4]", "pub cached: [u16; 5]")):
        if old not in text or compare(text.replace(old, new, 1), header, *counts) is None:
            stop(PROGRAM, f"{new.strip()} in place of {old.strip()} is not seen")


def check_crate(header):
    """The crate's version, its layout and how its names end are the header's; its targets are parts of meter/parts."""
    folder = ROOT / "bindings" / "rust"
    door, manifest = (folder / "src" / "door.rs").read_text(), (folder / "Cargo.toml").read_text()
    for what, here, there in (
        ("version", re.search(r'^version = "(.*)"$', manifest, re.M)[1], header.version),
        ("LAYOUT", re.search(r"LAYOUT: u32 = (\d+);", door)[1], str(header.layout)),
        ("the ending of names", re.search(rf'"({SUFFIX}\d+)"', door)[1], f"{SUFFIX}{header.layout}"),
    ):
        if here != there:
            stop(PROGRAM, f"bindings/rust has {what} {here}, and the header {there}")
    if re.findall(r'link_name = named!\("(\w+)"\)\]\s*pub\(crate\) fn (\w+)', door) != [(name, name) for name in header.functions]:
        stop(PROGRAM, "bindings/rust/src/door.rs does not link each function by the header's name, in the header's order")


def text_of(paths):
    """The text of these files, one behind the other."""
    return "\n".join((ROOT / path).read_text() for path in paths)


def main():
    """Compare everything."""
    header, declarations = Header(), 0
    for name, (paths, structs, functions) in SOURCES.items():
        said = compare(text_of(paths), header, structs, functions)
        if said:
            stop(PROGRAM, f"{name} declares something else than include/lischemur.h", *said.splitlines()[:8])
        declarations += structs + functions
    paths, structs, functions = SOURCES["bindings/rust"]
    check_slips(text_of(paths), header, (structs, functions))
    check_crate(header)
    print(f"{PROGRAM}: {declarations} declarations of Rust and Rattle are the header's, on 64 and on 32 bits")


main()

"""What include/lischemur.h declares, read from its text: the structs that cross the door, the functions, the numbers. For tests/c/layout and
tests/rust/declared.py, which also compile what they make of it, for processors of 64 and of 32 bits.
"""

import platform
import re
import shutil
import subprocess
import sys
import tempfile
from pathlib import Path

ROOT = Path(__file__).resolve().parents[2]
HEADER = ROOT / "include" / "lischemur.h"
SUFFIX = "_needs_library_of_layout_"

# The types that a field or a parameter may have, and their bytes: each the same on every processor.
SIZES = {"bool": 1, "char": 1, "uint16_t": 2, "uint32_t": 4, "uint64_t": 8, "int64_t": 8}

# The three headers that lischemur.h includes, for a compiler that has none.
FREESTANDING = {
    "stdint.h": "typedef __UINT16_TYPE__ uint16_t; typedef __UINT32_TYPE__ uint32_t; typedef __UINT64_TYPE__ uint64_t;\n"
    "typedef __INT64_TYPE__ int64_t; typedef __UINTPTR_TYPE__ uintptr_t;\n"
    "#define UINT32_C(n) n##u\n#define UINT64_C(n) n##ull\n#define UINT32_MAX UINT32_C(4294967295)\n",
    "stddef.h": "typedef __SIZE_TYPE__ size_t;\n#define offsetof(type, field) __builtin_offsetof(type, field)\n#define NULL ((void *)0)\n",
    "stdbool.h": "#define bool _Bool\n#define true 1\n#define false 0\n",
}


class Field:
    """A field of a struct: its C type, its name, how many there are (0 if it is no array), where it lies and how many bytes it has."""

    def __init__(self, kind, name, count, offset, size):
        self.kind, self.name, self.count, self.offset, self.size = kind, name, count, offset, size

    def __str__(self):
        return f"{self.offset} {self.kind} {self.name}" + (f"[{self.count}]" if self.count else "")


class Struct:
    """A struct: its name without lischemur_, its fields laid out as C does, and its bytes."""

    def __init__(self, name, declared, earlier):
        self.name, self.fields, end, widest = name, [], 0, 1
        for kind, field, count in declared:
            whole = earlier.get(kind)
            size, align = (whole.size, whole.align) if whole else (SIZES[kind],) * 2
            offset = -(-end // align) * align
            self.fields.append(Field(kind, field, count, offset, size * (count or 1)))
            end, widest = offset + self.fields[-1].size, max(widest, align)
        self.align, self.size = widest, -(-end // widest) * widest

    def __str__(self):
        return f"{self.name} {self.size} bytes: " + "; ".join(map(str, self.fields))


class Header:
    """The header's text, read."""

    def __init__(self, text=None):
        text = re.sub(r"/\*.*?\*/", " ", text or HEADER.read_text(), flags=re.S)
        self.version = re.search(r'^#define LISCHEMUR_VERSION "(.*)"$', text, re.M)[1]
        self.layout = int(re.search(r"^#define LISCHEMUR_LAYOUT (\d+)$", text, re.M)[1])
        self.structs = {}
        for name, body in re.findall(r"typedef struct lischemur_(\w+) \{(.*?)\} lischemur_\1;", text, re.S):
            declared = [(k, n, int(c or 0)) for k, n, c in re.findall(r"(\w+) (\w+)(?:\[(\d+)\])?;", body)]
            self.structs[f"lischemur_{name}"] = Struct(name, declared, self.structs)
        self.functions = {}
        for result, name, parameters in re.findall(r"^(\w+) (lischemur_\w+)\(\s*([^()]*)\);", text, re.M):
            kinds = [re.sub(r"\b\w+$", "", p.strip()).strip() for p in parameters.split(",")]
            self.functions[name] = f"{result} ({', '.join(kinds)})"


def stop(program, *lines):
    """Say what is wrong, and stop."""
    print(f"{program}: FAILED: {lines[0]}", *lines[1:], sep="\n    ", file=sys.stderr)
    sys.exit(1)


def compilers(program):
    """The compilers, by the bits of a pointer: gcc, and one for 32 bits."""
    narrow = [["arm-none-eabi-gcc", "-mcpu=cortex-m4", "-mthumb"], ["riscv64-unknown-elf-gcc", "-march=rv32imac", "-mabi=ilp32"]]
    if shutil.which("rt"):
        kit = Path(subprocess.run(["rt", "doc"], capture_output=True, text=True).stdout.strip()).parents[1]
        narrow += [[str(path), "--target=thumbv7em-none-eabi"] for path in kit.glob(f"on/{platform.machine()}/toolchain/bin/clang")]
    narrow.append(["gcc", "-m32", "-malign-double"])  # 64-bit numbers at multiples of 8, as on Arm and RISC-V
    for command in narrow:
        if shutil.which(command[0]) and compiles(command, "_Static_assert(sizeof(void *) == 4, \"\");") is None:
            return {64: ["gcc"], 32: command}
    stop(program, "there is no compiler for 32 bits here", "apt-get install gcc-arm-none-eabi, or put rt on the PATH, and run this again")


def compiles(command, text):
    """Nothing if a C text compiles, else what the compiler says."""
    with tempfile.TemporaryDirectory() as folder:
        source = Path(folder) / "source.c"
        source.write_text(text)
        include = ["-I" + str(HEADER.parent)]
        if "clang" in command[0]:
            include.append("-I" + folder)
            for name, body in FREESTANDING.items():
                (Path(folder) / name).write_text(body)
        done = subprocess.run(
            [*command, "-std=c11", "-ffreestanding", "-Wall", "-Werror", *include, "-fsyntax-only", str(source)], capture_output=True, text=True
        )
        return None if done.returncode == 0 else done.stdout + done.stderr

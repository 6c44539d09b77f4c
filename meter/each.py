"""Every part of meter/parts: its library runs on its board, goes into no image for another, and needs and ships what the header says. For meter/test.

Where a part's programs are missing, one line says what installs them, and what it would have run is named as not run.
"""

import os
import re
import subprocess

import board
import traces
from board import compile_command, emulate, fail, got, image, missing, parts, put, run

SMALL = (1, 30)  # damaged histories and their rounds, for a board with little memory
FLOATING = re.compile(r"\tv[a-z]+[0-9.]*\s|\tf(?:[ls]w|add|sub|mul|div|mv)[.a-z]*\s")  # an instruction on floating-point registers


def here():
    """The parts whose programs are here, and the names of those that are not run; says what installs those."""
    able, absent = [], []
    for part in parts():
        packages = missing(*part.tools)
        if packages:
            print(f"NOT RUN: {part.name} on {part.board}: apt-get install --no-install-recommends {packages}", flush=True)
        (absent if packages else able).append(part)
    return able, [part.name for part in absent]


def run_on_board(part, compare):
    """The rules' whole run and damage on a part's board, compared with the model. Returns how many lines are equal."""
    whole, whole_wanted = traces.WHOLE
    lines, wanted, refused = traces.damaged(*(SMALL if board.BOARDS[part.board][4] else ()))
    put("whole.frames", whole)
    put("damaged.frames", lines)
    emulate(image("whole-" + part.name, "whole.c", "trace.c", "kernel_ours.c", part=part, link=[part.library]), part=part)
    if refused < 10:
        fail(f"{part.name}: only {refused} requests met damage")
    equal = compare(f"{part.name}: the whole run", got("whole.answers"), whole_wanted)
    return equal + compare(f"{part.name}: the damaged histories", got("damaged.answers"), wanted) // 2


def check_links(able):
    """The library of a part links with an image for another only where architecture and float ABI are the same. Returns how many pairs were refused."""
    refused = 0
    for part in able:
        calls = os.path.join(board.OUT, f"calls-{part.name}.o")
        source = os.path.join(board.ROOT, "tests", "c", "old.c")
        run(f"compiling for {part.name}", *part.compiler, "-DHEADER=<lischemur.h>", "-I" + os.path.join(part.folder, "include"), "-c", source, "-o", calls)
        for other in (other for other in able if other.arm == part.arm):
            done = subprocess.run([*compile_command(part), "-Wl,-emain", calls, other.library, "-o", calls + ".elf"], capture_output=True, text=True)
            why = None
            if part.names != other.names:
                why = f"undefined reference to `lischemur_make_needs_library_of_layout_\\d+{part.names}'"
            elif (part.float == "hard") != (other.float == "hard"):
                why = "uses VFP register arguments"
            if why is None and done.returncode != 0:
                fail(f"an image for {part.name} does not link with the library of {other.name}", *done.stderr.splitlines()[:6])
            if why and (done.returncode == 0 or not re.search(why, done.stderr)):
                fail(f"an image for {part.name} and the library of {other.name}: the linker is to say {why}", *done.stderr.splitlines()[:6])
            refused += why is not None
    return refused


def check_needs(part):
    """What a library calls outside itself is said in the header, nothing of it is in the library, and it has no floating-point instruction."""
    with open(os.path.join(part.folder, "include", "lischemur.h")) as file:
        header = file.read()
    names = [line.split() for line in run("nm", part.binutils + "-nm", part.library).splitlines()]
    own = {words[-1] for words in names if len(words) == 3}
    needed = {words[1] for words in names if len(words) == 2 and words[0] == "U"} - own
    unsaid = [name for name in needed if not re.search(rf"\b{name}\b", header)]
    shipped = [name for name in own if re.match(r"_*(aeabi_|mem|u?div|clz)", name)]
    if unsaid or shipped:
        fail(f"{part.name}: the header does not say that the library needs {unsaid}, or the library has {shipped}")
    floating = [line for line in run("objdump", part.binutils + "-objdump", "-d", part.library).splitlines() if FLOATING.search(line)]
    if floating:
        fail(f"{part.name}: an instruction on floating-point registers", floating[0])


def check_parts(compare):
    """All of it. Returns a sentence on what was run."""
    able, absent = here()
    lines = sum(run_on_board(part, compare) for part in able)
    refused = check_links(able)
    for part in able:
        check_needs(part)
    beside = f"; NOT RUN, since programs are missing: {', '.join(absent)}" if absent else ""
    return f"{len(able)} parts ran the rules' whole run and damaged histories on their boards, {lines} lines equal the model's; {refused} libraries did not go into images for another part{beside}"

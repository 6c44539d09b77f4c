"""Images for the emulated boards: compiling them, running them, counting their instructions. For meter/test and meter/between.

A board reads and writes files in target/meter/run. Where a program is missing, `look_for_tools` says how to get it. What fails stops the
program with status 1.
"""

import os
import shutil
import subprocess
import sys

HERE = os.path.dirname(os.path.abspath(__file__))
ROOT = os.path.dirname(HERE)
OUT = os.path.join(ROOT, "target", "meter")
RUN = os.path.join(OUT, "run")
FIRMWARE = os.path.join(HERE, "firmware")
PROGRAM = "meter/" + os.path.basename(sys.argv[0])
COMMON = ["-std=gnu11", "-O2", "-Wall", "-Wextra", "-Werror"]

# The packages of Debian that have a program.
PACKAGES = {
    "cc": "gcc libc6-dev",
    "arm-none-eabi-gcc": "gcc-arm-none-eabi libnewlib-arm-none-eabi",
    "qemu-system-arm": "qemu-system-arm",
    "riscv64-unknown-elf-gcc": "gcc-riscv64-unknown-elf picolibc-riscv64-unknown-elf",
    "qemu-system-riscv32": "qemu-system-misc",
}

# The boards: where code and data lie, how long they are, and the words, the frames and the answers that an image has room for if not the usual.
MEGABYTE = 1 << 20
BOARDS = {
    "microbit": (0, 256 << 10, 0x20000000, 16 << 10, ["-DWORDS=1023u", "-DFRAMES=4096", "-DANSWERS=4096"]),
    "mps2-an385": (0, MEGABYTE, 0x20000000, MEGABYTE, []),
    "mps2-an386": (0, MEGABYTE, 0x20000000, MEGABYTE, []),
    "mps2-an500": (0, MEGABYTE, 0x20000000, MEGABYTE, []),
    "mps2-an505": (0x10000000, MEGABYTE, 0x38000000, MEGABYTE, []),
    "virt": (0x80000000, MEGABYTE, 0x80100000, MEGABYTE, []),
}


class Part:
    """A line of meter/parts: a processor and a float ABI, its library, its compiler and its board."""

    def __init__(self, line):
        self.cpu, self.float, self.names, self.rust, self.target, flags, self.board = line.split()
        self.flags = flags.split(",")
        self.name = f"{self.cpu}-{self.float}"
        self.folder = os.path.join(OUT, self.name)
        self.library = os.path.join(self.folder, "libdoor.a")
        self.arm = not self.cpu.startswith("rv32")
        self.binutils = "arm-none-eabi" if self.arm else "riscv64-unknown-elf"
        self.qemu = "qemu-system-arm" if self.arm else "qemu-system-riscv32"
        self.tools = [self.binutils + "-gcc", self.qemu]
        self.compiler = [self.tools[0], *self.flags, "-ffunction-sections", "-fdata-sections", *COMMON] + ([] if self.arm else ["--specs=picolibc.specs"])

    def emulator(self):
        """The command that runs an image, up to its name."""
        return [self.qemu, "-M", self.board, "-nographic", "-monitor", "none", "-serial", "none", *([] if self.arm else ["-bios", "none"]),
            "-semihosting-config", "enable=on,target=native"]

    def memory(self):
        """The linker's script for the part's board, and its name."""
        code, code_length, data, data_length, _ = BOARDS[self.board]
        path = os.path.join(RUN, self.board + ".ld")
        with open(path, "w") as file:
            file.write(f"MEMORY {{ CODE (rx) : ORIGIN = {code:#x}, LENGTH = {code_length:#x}\nDATA (rwx) : ORIGIN = {data:#x}, LENGTH = {data_length:#x} }}\n")
            file.write(f'INCLUDE "{os.path.join(FIRMWARE, "board.ld")}"\n')
        return path


def parts():
    """The parts of meter/parts."""
    with open(os.path.join(HERE, "parts")) as file:
        return [Part(line) for line in file if not line.startswith("#")]


M4 = parts()[[part.name for part in parts()].index("cortex-m4-soft")]


def fail(*lines):
    """Say what failed, and stop."""
    print(f"{PROGRAM}: FAILED:", *lines, sep="\n    ", file=sys.stderr)
    sys.exit(1)


def run(what, *command, **options):
    """Run a command to its end; anything but status 0 fails."""
    try:
        done = subprocess.run(command, capture_output=True, text=True, **options)
    except subprocess.TimeoutExpired:
        fail(f"{what} did not end in time")
    if done.returncode != 0:
        fail(f"{what} ended with status {done.returncode}", *(done.stdout + done.stderr).splitlines()[-30:])
    return done.stdout + done.stderr


def proved(name):
    """The command that runs a proved program, or nothing if it is not built."""
    path = os.path.join(ROOT, "crates", name, "out", name)
    return [path] if os.path.exists(path) else None


def missing(*tools):
    """The packages that are to be installed for programs, as one text; empty if all are here."""
    wanted = [PACKAGES[tool] for tool in dict.fromkeys(tools) if shutil.which(tool) is None]
    if not wanted and "arm-none-eabi-gcc" in tools and not os.path.exists(run("gcc", "arm-none-eabi-gcc", "-print-file-name=nano.specs").strip()):
        wanted = ["libnewlib-arm-none-eabi"]
    if not wanted and "riscv64-unknown-elf-gcc" in tools and not os.path.exists(run("gcc", "riscv64-unknown-elf-gcc", "-print-file-name=picolibc.specs").strip()):
        wanted = ["picolibc-riscv64-unknown-elf"]
    return " ".join(wanted)


def look_for_tools(*others):
    """Stop if a program that is needed is missing."""
    packages = missing(*M4.tools, *others)
    if packages:
        print(f"{PROGRAM}: programs are missing; this installs them:", file=sys.stderr)
        print("    apt-get install --no-install-recommends", packages, file=sys.stderr)
        sys.exit(1)


def image(name, *sources, part=M4, flags=(), link=(), built=None):
    """Compile and link an image for a part, with the header that meter/build left in a folder, the part's own if not said."""
    path = os.path.join(OUT, name + ".elf")
    run(f"compiling {name}", *compile_command(part, built), *flags, *files_of("files.c", "arm.c" if part.arm else "riscv.c", *sources), *link, "-o", path)
    return path


def compile_command(part, built=None):
    """The command that compiles and links sources for a part, up to its own flags and sources."""
    linker = ["-nostartfiles", "-Wl,--gc-sections", "-Wl,--no-warn-execstack", "-Wl,--no-warn-rwx-segments", "-T" + part.memory()]
    return [*part.compiler, "-I" + os.path.join(built or part.folder, "include"), *BOARDS[part.board][4], *linker]


def clear_files():
    """Make the folder of the board's files, with nothing in it."""
    shutil.rmtree(RUN, ignore_errors=True)
    os.makedirs(RUN)


def files_of(*sources):
    """The paths of sources, with those that every image has."""
    return [os.path.join(FIRMWARE, source) for source in ("text.c", *sources)]


def emulate(path, *options, part=M4):
    """Run an image on its part's board; it reads and writes files in RUN."""
    return run(os.path.basename(path), *part.emulator(), *options, "-kernel", path, cwd=RUN, timeout=100)


def put(name, data):
    """Write a file for the board to read."""
    with open(os.path.join(RUN, name), "wb") as file:
        file.write(data)


def got(name):
    """The lines of a file that the board wrote."""
    with open(os.path.join(RUN, name)) as file:
        return file.read().splitlines()


def counts(path, calls):
    """The answer and the instructions of each call."""
    put("calls", calls)
    said = emulate(path, "-icount", "shift=8")
    if said:
        fail("counting instructions", said)
    return [(int(line[:2], 16), int(line[2:], 16)) for line in got("counts")]


def grouped(number):
    """A number with its thousands set apart."""
    return f"{round(number):,}"


def code_of(path):
    """The bytes of code that a heap adds to an image: the image's, less those of one whose heap does nothing."""
    def text(file):
        return int(run("size", "arm-none-eabi-size", file).splitlines()[-1].split()[0])

    return text(path) - text(image("speed-none", "speed.c", "kernel_none.c"))

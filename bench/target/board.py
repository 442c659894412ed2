"""The C of a controller on emulated Cortex-M boards: built with gcc-arm-none-eabi and no library, run by qemu-system-arm."""
import os
import re
import shutil
import subprocess
from dataclasses import dataclass

from scripts.common.c_text import CText
from scripts.common.c_words import Form

HERE = os.path.dirname(os.path.abspath(__file__))
TOP = os.path.dirname(os.path.dirname(HERE))
PACKAGES = {"arm-none-eabi-gcc": "gcc-arm-none-eabi", "qemu-system-arm": "qemu-system-arm"}


@dataclass
class Board:
    """A machine of the emulator: its name, the processor for the compiler, and where its memory lies."""

    machine: str
    processor: str
    flash_at: str = "0"
    ram_at: str = "0x20000000"
    flash: str = "4M"
    ram: str = "4M"


BOARDS = {
    "m0": Board("microbit", "cortex-m0plus", flash="256K", ram="16K"),
    "m3": Board("mps2-an385", "cortex-m3"),
    "m4": Board("mps2-an386", "cortex-m4"),
    "m7": Board("mps2-an500", "cortex-m7"),
    "m33": Board("mps2-an505", "cortex-m33", "0x10000000", "0x38000000"),
}


def lacking():
    """The packages that must be installed first."""
    return [package for command, package in PACKAGES.items() if shutil.which(command) is None]


def write(folder, name, text):
    with open(os.path.join(folder, name), "w", encoding="ascii") as file:
        file.write(text)


def write_c(folder, controller):
    """mpc.h and mpc.c of a controller; answers the form."""
    form = Form(controller)
    text = CText("mpc", form)
    write(folder, "mpc.c", text.source())
    write(folder, "mpc.h", text.header(["on a board"]))
    return form


def write_states(folder, states):
    rows = "".join("    { " + ", ".join(map(str, state)) + " },\n" for state in states)
    write(folder, "states.h", f"static const int32_t states[][{len(states[0])}] = {{\n{rows}}};\n")


def build(folder, board, mains, optimise="-O2", defines=(), name="mpc"):
    """folder/program.elf of a controller's C under this name in the folder, and of these C files with a main."""
    b = BOARDS[board]
    with open(os.path.join(HERE, "arm.ld"), encoding="ascii") as file:
        script = file.read()
    for word, value in (("FLASH_AT", b.flash_at), ("FLASH_SIZE", b.flash), ("RAM_AT", b.ram_at), ("RAM_SIZE", b.ram)):
        script = script.replace(word, value)
    write(folder, "arm.ld", script)
    common = ["arm-none-eabi-gcc", "-mthumb", f"-mcpu={b.processor}", optimise, "-Wall", "-Wextra", "-ffreestanding", "-ffunction-sections", "-fdata-sections", f"-I{folder}", f"-I{HERE}", *defines]
    path = lambda name: os.path.join(folder, name)
    subprocess.run([*common, "-std=c99", "-c", path(name + ".c"), "-o", path(name + ".o")], check=True)
    link = ["-std=gnu99", "-nostdlib", "-T" + path("arm.ld"), os.path.join(HERE, "start.c"), *mains, path(name + ".o"), "-lgcc", "-Wl,--gc-sections"]
    subprocess.run([*common, *link, "-o", path("program.elf")], check=True)


def emulate(folder, board, *more, timeout=900):
    """What folder/program.elf prints, in lines, and what the emulator does."""
    command = ["qemu-system-arm", "-machine", BOARDS[board].machine, "-nographic", "-monitor", "none", "-serial", "none", "-semihosting-config", "enable=on,target=native"]
    got = subprocess.run([*command, *more, "-kernel", os.path.join(folder, "program.elf")], capture_output=True, text=True, timeout=timeout)
    return [line for line in (got.stdout + got.stderr).splitlines() if line]


def answers(lines):
    """For each line of main.c the answer and the sums."""
    signed = lambda v: v - 2**128 if v >> 127 else v
    return [(int(words[0]), [signed(int(word, 16)) for word in words[1:]]) for words in (line.split() for line in lines)]


def solve(folder, controller, states, board, optimise="-O2", straight=False):
    """What the C answers on a board from each state: 0 and the sums, or a coordinate outside. The straight C is there already."""
    is_wide = False if straight else write_c(folder, controller).is_wide
    write_states(folder, states)
    build(folder, board, [os.path.join(HERE, "main.c")], optimise, [f"-DWIDE={int(is_wide)}", f"-DSTRAIGHT={int(straight)}"])
    return answers(emulate(folder, board))


# ---- what a run costs


def sizes(folder, name="mpc"):
    """Bytes of flash of the C, and of RAM that it holds by itself."""
    got = subprocess.run(["arm-none-eabi-size", os.path.join(folder, name + ".o")], capture_output=True, text=True, check=True).stdout
    text, data, bss = (int(v) for v in got.splitlines()[1].split()[:3])
    return text + data, data + bss


def size_of(folder, symbol):
    """The bytes of a variable."""
    got = subprocess.run(["arm-none-eabi-nm", "-S", os.path.join(folder, "program.elf")], capture_output=True, text=True, check=True).stdout
    return int(re.search(rf"^\S+ (\S+) \S {symbol}$", got, re.M)[1], 16)


def stack_of(folder, board, optimise="-O2", name="mpc"):
    """The bytes of stack of NAME_solve, by the compiler."""
    source = os.path.join(folder, name + ".c")
    command = ["arm-none-eabi-gcc", "-mthumb", f"-mcpu={BOARDS[board].processor}", optimise, "-std=c99", "-ffreestanding", "-fstack-usage", f"-I{folder}", "-c", source, "-o", os.path.join(folder, "stack.o")]
    subprocess.run(command, check=True)
    with open(os.path.join(folder, "stack.su"), encoding="utf-8") as file:
        return int(re.search(rf":{name}_solve\t(\d+)\t", file.read())[1])


def counter(folder):
    """The plugin of the emulator that counts, built."""
    path = os.path.join(folder, "count.so")
    if not os.path.exists(path):
        subprocess.run([os.environ.get("CC", "cc"), "-O2", "-shared", "-fPIC", os.path.join(HERE, "count.c"), "-o", path], check=True)
    return path


def counts(folder, board, name="mpc"):
    """Instructions, and cycles by the Cortex-M4's table, of each call of NAME_solve in folder/program.elf."""
    elf = os.path.join(folder, "program.elf")
    symbols = {words[2]: int(words[0], 16) for words in (line.split() for line in subprocess.run(["arm-none-eabi-nm", elf], capture_output=True, text=True, check=True).stdout.splitlines()) if len(words) == 3}
    code = subprocess.run(["arm-none-eabi-objdump", "-d", elf], capture_output=True, text=True, check=True).stdout.splitlines()
    (back,) = [int(code[i + 1].split(":")[0], 16) for i, line in enumerate(code) if f"<{name}_solve>" in line and "\tbl" in line]
    lines = emulate(folder, board, "-plugin", f"{counter(folder)},entry={symbols[name + '_solve']},leave={back}", timeout=3600)
    return [tuple(int(v) for v in line.split()[1:]) for line in lines if line.startswith("run ")]

"""The code that an assembler makes of spellings: GNU's where it is installed, else llvm-mc."""
import os
import re
import shutil
import struct
import subprocess
import tempfile

# By architecture: the words that call each assembler, the better first, and the lines that a source begins with.
COMMANDS = {
    "arm64": ["aarch64-linux-gnu-as", "llvm-mc --triple=aarch64 --filetype=obj"],
    "m4": ["arm-none-eabi-as -mcpu=cortex-m4 -mfpu=fpv4-sp-d16", "llvm-mc --triple=thumbv7em-none-eabi -mcpu=cortex-m4 --filetype=obj"],
}
HEADS = {"arm64": [".text"], "m4": [".syntax unified", ".thumb", ".text"]}
ERROR = re.compile(r"^[^:]*:(\d+):(?:\d+:)? error", re.I | re.M)
# Each instruction stands in so many bytes of its own, with zeros behind it.
SLOT = 8


def command_of(arch):
    """The words that call the assembler of an architecture that is installed, if there is one."""
    for command in COMMANDS[arch]:
        if shutil.which(command.split()[0]):
            return command.split()
    return None


def text_of(elf):
    """The bytes of the section .text of an object file."""
    is_64 = elf[4] == 2
    sections, = struct.unpack_from("<Q" if is_64 else "<I", elf, 40 if is_64 else 32)
    size, count, names = struct.unpack_from("<HHH", elf, 58 if is_64 else 46)

    def section(place):
        at = sections + size * place
        name, = struct.unpack_from("<I", elf, at)
        return name, *struct.unpack_from("<QQ" if is_64 else "<II", elf, at + (24 if is_64 else 16))
    texts = section(names)[1]
    for name, start, length in map(section, range(count)):
        if elf[texts + name:].startswith(b".text\0"):
            return elf[start:start + length]
    return b""


def assembled(arch, spellings, folder):
    """The bytes of spellings that stand one after the other, or the places of those that are refused."""
    source, out = os.path.join(folder, "spellings.s"), os.path.join(folder, "spellings.o")
    head = HEADS[arch]
    with open(source, "w") as file:
        file.write("\n".join(head + [f"{spelling}\n.balign {SLOT}, 0" for spelling in spellings]) + "\n")
    told = subprocess.run(command_of(arch) + ["-o", out, source], capture_output=True, text=True)
    refused = {(int(line) - 1 - len(head)) // 2 for line in ERROR.findall(told.stderr)}
    if told.returncode and not refused:
        raise SystemExit(told.stderr)
    if refused:
        return b"", refused
    with open(out, "rb") as file:
        return text_of(file.read()), refused


def codes_of(arch, spellings):
    """The code of each spelling, and None where it is refused."""
    with tempfile.TemporaryDirectory() as folder:
        taken = dict(enumerate(spellings))
        while True:
            places = list(taken)
            code, refused = assembled(arch, list(taken.values()), folder)
            if not refused:
                break
            for place in refused:
                del taken[places[place]]
    found = {place: code[SLOT * slot:SLOT * slot + SLOT] for slot, place in enumerate(places)}
    return [found.get(place) for place in range(len(spellings))]

"""What the program answers to the checks that compare it with others."""
import os
import subprocess

PROGRAM = os.path.join(os.path.dirname(os.path.abspath(__file__)), "..", "bin", "slothy")


def called(*words):
    """A call of the program, with its status and what it wrote."""
    return subprocess.run([PROGRAM, *words], capture_output=True, text=True)


def state_left(arch, spelling, state, folder):
    """What an instruction leaves of a state, which is given by its lines: the value of each name, and the bytes of memory."""
    source, start = os.path.join(folder, "case.s"), os.path.join(folder, "state.txt")
    with open(source, "w") as file:
        file.write(f"slothy_start:\n        {spelling}\nslothy_end:\n")
    with open(start, "w") as file:
        file.write("".join(line + "\n" for line in state))
    told = called("run", source, "--state", start, "--arch", arch)
    told.check_returncode()
    values = dict(line.split(" = ") for line in told.stdout.splitlines())
    return values, bytes.fromhex("".join(value for name, value in values.items() if name.startswith("mem")))

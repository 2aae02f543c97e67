"""Libraries that let a call of a program fail (`refusing.c`, `failing.c`), and how many allocations a run makes."""
import os
import subprocess

TOP = os.path.dirname(os.path.dirname(os.path.abspath(__file__)))


def preloaded(folder, name):
    """The library of this name, compiled by the C compiler."""
    made = f"{folder}/{name}.so"
    subprocess.run(["cc", "-O1", "-shared", "-fPIC", "-nostdlib", "-o", made, f"{TOP}/.ci/{name}.c"], check=True)
    return made


def refusing(folder):
    """The library that refuses an allocation."""
    return preloaded(folder, "refusing")


def allocations(program, words, folder, library):
    """How many allocations a run makes."""
    reads, writes = os.pipe()
    given = {"LD_PRELOAD": library, "COUNTED": str(writes)}
    subprocess.run([program, *words], cwd=folder, env=given, pass_fds=[writes], capture_output=True, check=False)
    os.close(writes)
    with os.fdopen(reads) as count:
        return int(count.read() or 0)

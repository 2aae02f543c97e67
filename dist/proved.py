"""Builds the program or the library for C of what is proved, and keeps its assembly text, for dist/refresh and .ci/c-library.

The text is what the toolchain's clang makes of the module that it is handed, by the same words. What a build stands on is taken
as `rt ci` or an earlier check left it, and else proved first.
"""
import importlib.machinery
import importlib.util
import os
import shlex
import shutil
import subprocess
import sys
import tempfile

TOP = os.path.dirname(os.path.dirname(os.path.abspath(__file__)))
# Stands for the toolchain's clang: compiles to assembly text, which goes to the file `kept`, and then to an object: a library's as it
# is asked to, since that is tested, and a program's of the text, which is quicker.
CLANG = """#!/bin/bash
set -e
real=%s
kept=%s
for word; do
    case $word in
        -c) word=-S ;;
        *.o) object=$word word=$kept ;;
    esac
    words+=("$word")
done
"$real" "${words[@]}" -fno-addrsig -fno-verbose-asm
%s
"""
AS_ASKED, OF_TEXT = 'exec "$real" "$@"', 'exec "$real" "$1" -c -o "$object" "$kept"'


def toolchain():
    """The toolchain's library, by which what a check keeps is shared with the other checkouts on this machine, where `rt check` shares it."""
    found = os.path.realpath(shutil.which("rt") or sys.exit("there is no rt on the path"))
    if "rt" not in sys.modules:
        loader = importlib.machinery.SourceFileLoader("rt", found)
        sys.modules["rt"] = importlib.util.module_from_spec(importlib.util.spec_from_loader("rt", loader))
        loader.exec_module(sys.modules["rt"])
        if hasattr(sys.modules["rt"], "share_work"):
            sys.modules["rt"].share_work(is_alone=True)
    return sys.modules["rt"].rtlib


def crate_named(name):
    """The crate as the toolchain sees it, and the toolchain's library."""
    rtlib = toolchain()
    return next(it for it in rtlib.crates_below(TOP) if it.name == name), rtlib


def is_left_by_gate(crate):
    """Whether `rt ci` built the library, which leaves no stamp beside it, of the files that are there."""
    if not os.path.isdir(crate.rlib) or os.path.exists(f"{os.path.dirname(crate.rlib)}/stamp"):
        return False
    parts = ("src", "specs", "proofs")
    files = (f"{at}/{name}" for part in parts for at, _, names in os.walk(f"{crate.folder}/{part}") for name in names)
    return max(map(os.path.getmtime, files)) < os.path.getmtime(crate.rlib)


def watched(kit, folder, kept, makes_object):
    """A folder that stands for the toolchain's own, with the script CLANG in place of its clang."""
    os.mkdir(f"{folder}/bin")
    os.symlink(f"{kit}/toolchain/lib", f"{folder}/lib")
    for name in os.listdir(f"{kit}/toolchain/bin"):
        if name != "clang":
            os.symlink(f"{kit}/toolchain/bin/{name}", f"{folder}/bin/{name}")
    with open(f"{folder}/bin/clang", "w", encoding="ascii") as file:
        file.write(CLANG % (shlex.quote(f"{kit}/toolchain/bin/clang"), shlex.quote(kept), makes_object))
    os.chmod(f"{folder}/bin/clang", 0o755)
    return folder


def prove_below(crate):
    """Proves and builds the libraries below a crate, where they have changed."""
    with tempfile.TemporaryFile("w+", errors="replace") as log:
        for library in crate.below():
            library.out = log
            if library.build_rlib(["--jobs", "2"], anew=False):
                log.seek(0)
                sys.exit(f"{log.read()}\n{library.name} is not proved")


def build(name):
    """Builds a program, or out/libNAME.a of a library, and returns the file of its assembly text."""
    crate, rtlib = crate_named(name)
    kept, stamp = f"{crate.folder}/out/{name}.s", f"{crate.folder}/out/{name}.s.stamp"
    archive = f"out/lib{name}.a"
    if rtlib.text_of(stamp) == crate.stamp() and (not crate.is_static or os.path.exists(f"{crate.folder}/{archive}")):
        return kept
    is_left = all(map(is_left_by_gate, crate.below()))
    if not is_left:
        prove_below(crate)
    os.makedirs(f"{crate.folder}/out", exist_ok=True)
    with tempfile.TemporaryDirectory() as folder:
        words = crate.words(["--jobs", "2"], keeps=not is_left) + ([] if is_left else rtlib.KEPT)
        stands_in = watched(rtlib.KIT, folder, kept, AS_ASKED if crate.is_static else OF_TEXT)
        words += ["--toolchain", stands_in, "--backend", "llvm", "-o", archive if crate.is_static else f"{folder}/{name}.o"]
        how = {"stdout": subprocess.PIPE, "stderr": subprocess.STDOUT, "text": True}
        done = subprocess.run([rtlib.RATTLE, "build", *words], cwd=crate.folder, **how)
    if done.returncode != 0:
        sys.exit(done.stdout)
    with open(stamp, "w", encoding="ascii") as file:
        file.write(crate.stamp())
    return kept

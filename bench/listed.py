"""Shared-mime-info's own list of files and their types, and how many answers are right by it, for bench/lists and bench/clients."""
import glob
import os
import shutil
import subprocess
from typing import NamedTuple

WAYS = ("name", "content", "file")


class Row(NamedTuple):
    path: str
    kind: str
    fails: dict


def rows_of(folder):
    at = os.path.join(folder, "tests/mime-detection")
    with open(os.path.join(at, "list"), encoding="utf-8") as file:
        lines = [line.split() for line in file if line.strip() and not line.startswith("#")]
    for path, kind, *marks in lines:
        marks = "".join(marks).ljust(3, "o")
        yield Row(os.path.normpath(os.path.join(at, path)), kind, {way: mark == "x" for way, mark in zip(WAYS, marks)})


def make_database(folder, share, packages=()):
    """The database of the release, and of folders of further XML files, in a data directory, and its aliases."""
    os.makedirs(f"{share}/mime/packages")
    source = os.path.join(folder, "data/freedesktop.org.xml.in")
    shutil.copy(source, f"{share}/mime/packages/freedesktop.org.xml")
    for path in (path for folder in packages for path in sorted(glob.glob(f"{folder}/*.xml"))):
        shutil.copy(path, f"{share}/mime/packages")
    subprocess.run(["update-mime-database", "-n", f"{share}/mime"], env={**os.environ, "XDG_DATA_DIRS": share}, check=True)
    with open(f"{share}/mime/aliases", encoding="utf-8") as file:
        return dict(line.split() for line in file)


def wrong(rows, answers, way, aliases):
    """The rows that count and have another answer than the list says, each with its answer."""
    def name(kind):
        return aliases.get(kind, kind).lower()

    pairs = zip(rows, answers[way], strict=True)
    return [(row, answer) for row, answer in pairs if not row.fails[way] and name(answer) != name(row.kind)]


def print_counts(who, rows, answers, aliases):
    line = f"{who:24}"
    for way in WAYS:
        asked = sum(not row.fails[way] for row in rows)
        said = f"{asked - len(wrong(rows, answers, way, aliases))} of {asked}" if way in answers else "-"
        line += f"{said:>14}"
    print(line)


def print_heading(rows):
    print(f"{f'{len(rows)} rows':24}" + "".join(f"{way:>14}" for way in WAYS))

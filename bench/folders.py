"""Data directories that are made at random, of few types, letters and bytes, so that rules conflict and magic holds by chance."""
import os

FILES = 24
TYPES = ["t/a", "t/b", "t/c", "text/x-d", "inode/e", "text/plain", "application/octet-stream"]
LETTERS = "abAB."
PIECES = ["*", "?", "a*", "[a-b]", "[!a]", "[^.]", "[]]", "[b-a]", "[", "]", "\\", "\\*", *LETTERS]
WEIGHTS = ["50"] * 4 + ["0", "49", "60", "255"]
FLAGS = [""] * 4 + [":", ":cs", ":cs,zz", ":zz:cs"]
MALFORMED = ["50:t/a", "256:t/a:*", "50:t a:*", "50:t/a:", "t/a", "t/a  t/b", "t/a t/"]
ICONS = ["a", "b", "c-d"]
PRIORITIES = [0, 40, 50, 50, 79, 80, 80, 90, 4_294_967_295]
BYTES = b"aab\0\1"


# data directories

def text_of(dice, least, most, letters=LETTERS):
    return "".join(dice.choices(letters, k=dice.randint(least, most)))


def pattern_of(dice):
    """A literal, a suffix, or any pattern."""
    return dice.choice([
        lambda: text_of(dice, 1, 3),
        lambda: "*" + text_of(dice, 0, 3),
        lambda: text_of(dice, 1, 4, PIECES),
    ])()


def globs2_of(dice):
    """Rules, of which some give the same names several types, and markers that discard the rules of a type."""
    for _ in range(dice.randint(0, 10)):
        weight, flags = dice.choice(WEIGHTS), dice.choice(FLAGS)
        pattern = pattern_of(dice) if dice.random() < 0.9 else "__NOGLOBS__"
        for kind in dice.sample(TYPES, dice.choice([1, 1, 2, 3])):
            yield f"{weight}:{kind}:{pattern}{flags}"
            if dice.random() < 0.2:
                yield from twins_of(dice, kind, pattern)


def twins_of(dice, kind, pattern):
    """A pattern in small letters and in capitals, case-sensitive, and a rule that both may hide."""
    for spelling in (pattern.lower(), pattern.upper()):
        yield f"{dice.choice(WEIGHTS)}:{kind}:{spelling}:cs"
    yield f"{dice.choice(WEIGHTS)}:{kind}:{pattern}"


def pairs_of(dice, most):
    for _ in range(dice.randint(0, most)):
        yield " ".join(dice.sample(TYPES, 2))


def line_of(dice, indent):
    """A line of magic, with each of its parts or without it."""
    word = dice.choice([1, 1, 1, 2, 4])
    length = word * dice.randint(0, 4 // word)
    line = b"%d>" % indent if indent else b">"
    line += b"%d=%s%s" % (dice.choice([0, 0, 1, 2, 5, 126, 300]), length.to_bytes(2, "big"), bytes(dice.choices(BYTES, k=length)))
    if dice.random() < 0.3:
        line += b"&" + bytes(dice.choices(b"\xff\xff\xdf\x0f\0", k=length))
    line += b"~%d" % word if word > 1 else b""
    line += b"+%d" % dice.choice([0, 1, 2, 4, 200]) if dice.random() < 0.5 else b""
    return line + b"\n"


def magic_of(dice):
    yield b"MIME-Magic\0\n"
    for _ in range(dice.randint(0, 5)):
        yield f"[{dice.choice(PRIORITIES)}:{dice.choice(TYPES)}]\n".encode()
        if dice.random() < 0.05:
            yield b">0=__NOMAGIC__\n"
        indent = -1
        for _ in range(dice.randint(1, 4)):
            indent = dice.randint(0, indent + 1)
            yield line_of(dice, indent)


def lines_of(dice, lines):
    """The lines as a text; now and then one of them is malformed, or the last has no newline."""
    lines = list(lines)
    if dice.random() < 0.1:
        lines.insert(dice.randint(0, len(lines)), dice.choice(MALFORMED))
    end = "\n" if dice.random() < 0.9 else ""
    return ("\n".join(lines) + end).encode()


def make_directory(dice, folder):
    os.makedirs(f"{folder}/mime")
    files = {
        "globs2": lines_of(dice, globs2_of(dice)),
        "aliases": lines_of(dice, pairs_of(dice, 2)),
        "subclasses": lines_of(dice, pairs_of(dice, 12)),
        "magic": b"".join(magic_of(dice)),
    }
    for name, text in files.items():
        if dice.random() < 0.9:
            write(f"{folder}/mime/{name}", text)


def icons_of(dice):
    for kind in dice.sample(TYPES, dice.randint(0, 4)):
        yield f"{kind}:{dice.choice(ICONS)}"


def make_icons(dice, folder):
    """The icons of some types, which make_directory leaves out."""
    for name in ("icons", "generic-icons"):
        write(f"{folder}/mime/{name}", lines_of(dice, icons_of(dice)))


# files

def content_of(dice):
    length = dice.choice([0, 1, 2, 4, 8, 8, 127, 128, 129, 1_000])
    if dice.random() < 0.5:
        return bytes(dice.choices(BYTES, k=length))
    return (bytes(dice.choices(BYTES, k=8)) + b"a" * length)[:length]


def make_files(dice, folder):
    """Names, of which some can't be opened, and one is too long."""
    os.makedirs(folder)
    names = list(dict.fromkeys(text_of(dice, 1, 4) for _ in range(FILES)))
    for name in names:
        if name not in (".", "..") and dice.random() < 0.95:
            write(f"{folder}/{name}", content_of(dice))
    if dice.random() < 0.1:
        names.append("a" * 4_097)
    return [f"{folder}/{name}" for name in names]


def write(path, text):
    with open(path, "wb") as file:
        file.write(text)

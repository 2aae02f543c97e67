"""Names and contents to ask readers of caches for, made at random of the rules and the sections of a database, for bench/readers."""
import itertools
import re
import string

from reference import earliness, folded, regular

LETTERS = string.ascii_letters.encode()
KEYBOARD = [bytes([byte]) for byte in (string.ascii_letters + string.digits + "._-+~").encode()]
C_ENDINGS = (b".c", b".C", b".h")
LONGEST_NAME = 255
OTHER_WORDS = ["naïve", "ÉTÉ", "straße", "ПРИМЕР.Ж", "日本", "a b", ".", "x."]
LONGEST_START, LONGEST_CONTENT = 8_192, 65_536


def word(dice, least=1, most=8):
    return bytes(dice.choices(LETTERS, k=dice.randint(least, most)))


def mixed(dice, text):
    return bytes(dice.choice([byte, byte ^ 32]) if chr(byte).isalpha() and byte < 128 else byte for byte in text)


def spelled(dice, text):
    """A text as it is, in small letters, in capitals, or in both."""
    return dice.choice([text, text.lower(), text.upper(), mixed(dice, text)])


def filled(dice, pattern):
    """A name that a pattern matches, if it is spelled so."""
    def piece(found):
        text = found[0]
        if text == b"*":
            return word(dice, 0, 5)
        if text[:1] == b"\\":
            return text[1:]
        return dice.choice([byte for byte in KEYBOARD if regular(text).fullmatch(byte)] or [b""])

    return re.sub(rb"\*|\?|\\.|\[[!^]?.[^]]*\]", piece, pattern, flags=re.S)


def of_each_rule(dice, rules):
    """Each rule's pattern filled, in each of the four ways to spell it."""
    for rule in rules:
        name = filled(dice, rule.pattern)
        yield from (name, name.lower(), name.upper(), mixed(dice, name))


def of_endings(dice, endings, count):
    """Names that end in several endings."""
    for _ in range(count):
        yield word(dice) + b"".join(spelled(dice, ending) for ending in dice.choices(endings, k=dice.choice([2, 2, 3])))


def of_c_files(dice, endings, count):
    for _ in range(count):
        yield spelled(dice, word(dice)) + dice.choice([b"", spelled(dice, dice.choice(endings))]) + dice.choice(C_ENDINGS)


def beside(dice, rules, count):
    """Names that differ in a byte from one that a pattern matches."""
    for _ in range(count):
        name = filled(dice, dice.choice(rules).pattern)
        at = dice.randrange(len(name) + 1)
        yield name[:at] + dice.choice([b"", word(dice, 1, 1)]) + name[at + dice.choice([0, 1]):]


def without_a_match(dice):
    while True:
        yield dice.choice([word(dice), word(dice) + b"." + word(dice, 6, 9), dice.choice(OTHER_WORDS).encode() + word(dice, 0, 2)])


def is_file_name(name):
    return 0 < len(name) <= LONGEST_NAME and name not in (b".", b"..") and not re.search(rb"[/\0\n]", name)


def names_of(dice, rules, count):
    """That many names."""
    endings = [rule.pattern[1:] for rule in rules if earliness(rule.pattern) == 1]
    made = itertools.chain(
        of_each_rule(dice, rules),
        contested(dice, rules, count // 10),
        of_endings(dice, endings, count // 4),
        of_c_files(dice, endings, count // 20),
        beside(dice, rules, count // 10),
    )
    names = dict.fromkeys(name for name in made if is_file_name(name))
    names = dict.fromkeys(dice.sample(list(names), min(len(names), count * 19 // 20)))
    fresh = (name for name in without_a_match(dice) if is_file_name(name))
    while len(names) < count:
        names.setdefault(next(fresh))
    return list(names)


def contested(dice, rules, count):
    """Names that rules match whose folded pattern is that of another rule too."""
    alike = {}
    for rule in rules:
        alike.setdefault(folded(rule.pattern), set()).add((rule.kind, rule.pattern, rule.cased))
    patterns = [pattern for group in alike.values() if len(group) > 1 for _, pattern, _ in sorted(group)]
    names = (spelled(dice, filled(dice, dice.choice(patterns))) for _ in range(count))
    return [name for name in names if is_file_name(name)]


# contents

def filling(dice, length):
    kind = dice.choice(["text", "binary", "zero"])
    if kind == "text":
        return bytes(dice.choices(LETTERS + b"   \n", k=length))
    return dice.randbytes(length) if kind == "binary" else bytes(length)


def lines_below(dice, line):
    """The line and one below another, down to one without any."""
    while line:
        yield line
        line = dice.choice(line.children) if line.children else None


def by_section(dice, section):
    """A content with the values of some lines of a section, or None where it would be long."""
    made = bytearray()
    for line in lines_below(dice, dice.choice(section[2])):
        start = line.start + dice.randrange(min(line.range, 4) or 1)
        if start > LONGEST_START:
            return None
        made += filling(dice, max(0, start - len(made)))
        made[start : start + len(line.value)] = line.value
    return bytes(made + filling(dice, dice.choice([0, 1, 40, 400])))


def by_nothing(dice):
    """Text, bytes at random, or nothing."""
    length = dice.choice([0, 1, 20, 300, 5_000])
    return dice.choice([b"#!/bin/sh\n", b"<?xml version='1.0'?>\n", b""]) + filling(dice, length) if dice.random() < 0.9 else b""


def front_of(dice, path):
    with open(path, "rb") as file:
        return file.read(dice.choice([16, 300, 4_096, LONGEST_CONTENT]))


def contents_of(dice, sections, paths, count):
    """That many contents: half of sections, a quarter fronts of files, the others of neither."""
    made = []
    while len(made) < count:
        way = dice.choice(["section", "section", "file", "nothing"])
        if way == "section":
            made.append(by_section(dice, dice.choice(sections)))
        else:
            made.append(front_of(dice, dice.choice(paths)) if way == "file" else by_nothing(dice))
        if made[-1] is None:
            made.pop()
    return made

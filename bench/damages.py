"""Caches to be damaged, questions about them, and the comparison of the program's lines with those of the second reader."""
import itertools
import os
import random
import struct
import subprocess
import sys
import tempfile

from lookups import LOOKUPS, ExpectedLookup
from reader import ALIASES, GENERIC_ICONS, ICONS, MAGIC, PARENTS, Expected, Reader, elements, in_groups_reversed

TOP = os.path.dirname(os.path.dirname(os.path.abspath(__file__)))
ANSWERS = os.environ.get("ANSWERS", os.path.join(TOP, "crates/view_answers/out/view_answers"))
MIMELOOK = os.environ.get("MIMELOOK", os.path.join(TOP, "crates/mimelook/out/mimelook"))
# a cache of two rules, an alias, a subclass and a line of magic, of which texts are shared
SAMPLE = bytes.fromhex("""
    00010002 00000028 00000034 00000048 00000058 00000090 00000094 000000d0
    000000d4 000000d8 00000001 000000e4 000000dc 00000001 000000dc 00000040
    00000001 000000e0 00000001 000000e8 000000e0 00000032 00000001 00000060
    0000007a 00000001 0000006c 00000067 00000001 00000078 0000002e 00000001
    00000084 00000000 000000dc 00000032 00000000 00000001 00000003 000000a0
    00000028 000000dc 00000001 000000b0 00000000 00000001 00000001 00000002
    000000ec 00000000 00000000 00000000 00000000 00000000 00000000 742f6700
    742f6d00 742f6800 6d6b0000 1f8b0000
""")
# its one line of magic has an empty value and is its own child
SELF_CHILD = bytes.fromhex("""
    00010002 00000028 00000028 00000028 00000028 00000028 00000030 00000028
    00000028 00000028 00000000 00000000 00000001 00000080 0000003c 00000032
    0000006c 00000001 0000004c 00000000 00000001 00000001 00000000 0000006c
    00000000 00000001 0000004c 612f6200
""")
# how many of a list's entries are asked for, and the most bytes of caches in one run of the program
ASKED, BATCH = 4, 1 << 26
# a lookup in each order
LOOKUP_ORDERS = (b"type", b"type-magic-first", b"type-all-globs", b"type-content-only")


# lines of magic with masks, words and children, and names of the greatest length
ODD = {
    "magic": b"MIME-Magic\0\n[60:t/words]\n>0=\0\x04\1\2\3\4&\xff\xff\xf0\xff~2+3\n1>4=\0\x04wxyz~4\n"
    b"[50:t/masked]\n>2=\0\x03abc&\xdf\xdf\xff+5\n1>8=\0\x02ok\n2>1=\0\0\n1>9=\0\x08MaskMask&\xff\0\xff\0\xff\0\xff\0~4\n",
    "aliases": b"t/%s t/%s\nt/short t/long\n" % (b"a" * 253, b"b" * 253),
    "globs2": b"60:t/%s:*.%s\n50:t/g:[a-z]*.%s\n" % (b"b" * 253, b"c" * 253, b"c" * 240),
}


def cache_of(mimelook, directory):
    """The cache that the program builds of a directory."""
    with tempfile.TemporaryDirectory() as folder:
        path = os.path.join(folder, "mime.cache")
        subprocess.run([mimelook, "build", "-d", directory, "-o", path], check=True, capture_output=True)
        with open(path, "rb") as file:
            return file.read()


def cache_of_examples(mimelook):
    return cache_of(mimelook, f"{TOP}/examples/share")


def cache_of_odd(mimelook):
    with tempfile.TemporaryDirectory() as folder:
        os.mkdir(f"{folder}/mime")
        for name, text in ODD.items():
            with open(f"{folder}/mime/{name}", "wb") as file:
                file.write(text)
        return cache_of(mimelook, folder)


# questions

def spread(members):
    """At most some of a list's members, spread over it."""
    members = list(dict.fromkeys(members))
    return members[:: -(-len(members) // ASKED) or 1]


def names_in(reader, which):
    """The first texts of a list of pairs."""
    at = reader.lists[which]
    return spread(reader.text(*reader.numbers(at + 4 + 8 * place, 1)) for place in range(reader.list_at(at, 8)))


def name_for(pattern):
    """A name that a pattern matches, as it is or folded."""
    return b"".join(b"A" if admitted is None else bytes([max((byte for byte in admitted if byte < 127), default=65)]) for admitted in elements(pattern))


def contents_for(reader):
    """Contents in which the first line of a section holds, with its first child and so on, words as they stand and reversed."""
    count, _, first = reader.numbers(reader.lists[MAGIC], 3)
    for number, is_little in itertools.product(spread(range(count)), (False, True)):
        _, _, children, line = reader.numbers(first + 16 * number, 4)
        content = bytearray()
        while children:
            start, _, word, size, value, _, children, child = reader.numbers(line, 8)
            content.extend(bytes(max(0, start + size - len(content))))
            wanted = reader.cache[value:value + size]
            content[start:start + size] = in_groups_reversed(wanted, word) if is_little and word in (2, 4) else wanted
            line = child
        yield bytes(content)


def questions_of(cache):
    """Questions that lead to each list of an undamaged cache, to entries that are there and to others."""
    reader = Reader(cache)
    kinds = [*names_in(reader, PARENTS), *names_in(reader, ICONS), *names_in(reader, GENERIC_ICONS), b"t/g", b"x/none"]
    patterns = [pattern for _, _, pattern in reader.rules()]
    names = [name_for(pattern) for pattern in (*spread(patterns), *patterns[-1:])]
    contents = [*contents_for(reader), b"", bytes(300)]
    return [
        b"open", b"extent", b"rules",
        *(b"unalias " + kind for kind in dict.fromkeys([*names_in(reader, ALIASES), b"t/g", b"x/none", b"a" * 300])),
        *(call + kind for kind in dict.fromkeys(kinds) for call in (b"parents ", b"icon ", b"generic ")),
        *(call + content.hex().encode() for content in dict.fromkeys(contents) for call in (b"sniff ", b"sniff-big ")),
        *(call + name for name in dict.fromkeys([*names, *map(bytes.upper, names), b"", b"\0z", b"a\0.gz", b"a\0", b"z" * 300]) for call in (b"hits ", b"candidates ")),
    ]


def lookups_of(cache):
    """Lookups of names and contents in each order, of names that several rules match, and of types, in an undamaged cache."""
    reader = Reader(cache)
    kinds = list(dict.fromkeys([*names_in(reader, ALIASES), *names_in(reader, PARENTS), *names_in(reader, ICONS), b"t/g"]))
    patterns = [pattern for _, _, pattern in reader.rules()]
    often = spread(pattern for pattern in patterns if patterns.count(pattern) > 1)
    names = [name_for(pattern) for pattern in (*spread(patterns), *often)]
    contents = spread(content.hex().encode() for content in (*contents_for(reader), b"", b"text\n", bytes(300)))
    asked = [*((b"-", name) for name in names), *((content, b"\1") for content in contents), *itertools.product(contents[:2], names[-2:])]
    return [
        *(b" ".join((call, *words)) for words in dict.fromkeys(asked) for call in LOOKUP_ORDERS),
        *(b"isa %s %s" % pair for pair in itertools.product(kinds, (*kinds[-1:], b"text/plain", b"x/none"))),
        *(b"icons " + kind for kind in kinds),
    ]


# damages

def changed(cache, at, number):
    return cache[:at] + struct.pack(">I", number & 0xFFFFFFFF) + cache[at + 4:]


def some_place(cache, chance):
    """The place of a number: one of the header's, the first of a list's, or any."""
    if chance.random() < 0.3:
        return 4 * chance.randrange(1, 10)
    at = 4 * chance.randrange(len(cache) // 4)
    if chance.random() < 0.3:
        at = struct.unpack_from(">I", cache, 4 * chance.randrange(1, 10))[0] + 4 * chance.randrange(4)
    return at if at + 4 <= len(cache) else 4


def bytes_changed(cache, chance):
    damaged = bytearray(cache)
    for _ in range(chance.randint(1, 8)):
        damaged[chance.randrange(len(damaged))] = chance.choice((0, 1, 0x7F, 0xFF, chance.randrange(256)))
    return bytes(damaged)


def bit_turned(cache, chance):
    at = chance.randrange(len(cache))
    return cache[:at] + bytes([cache[at] ^ 1 << chance.randrange(8)]) + cache[at + 1:]


def cut(cache, chance):
    return cache[:chance.randrange(40, len(cache) + 1)]


def lengthened(cache, chance):
    return cache + bytes([chance.choice((0, 0x61))]) * chance.randint(1, 600)


def lists_swapped(cache, chance):
    left, right = (4 * chance.randrange(1, 10) for _ in range(2))
    one, other = (struct.unpack_from(">I", cache, at)[0] for at in (left, right))
    return changed(changed(cache, left, other), right, one)


def made_great(cache, chance):
    """A number made great, or a little greater or less."""
    at = some_place(cache, chance)
    old, = struct.unpack_from(">I", cache, at)
    great = (0xFFFFFFFF, 0x7FFFFFFF, 0x15555556, 0x08000001, len(cache), len(cache) - 4, len(cache) // 4)
    return changed(cache, at, chance.choice((*great, old + 1, old - 1, old * 2, old + 4, old ^ 0x100)))


def made_to_point(cache, chance):
    """A number made one that stands elsewhere in the cache, or the place of one."""
    elsewhere = 4 * chance.randrange(len(cache) // 4)
    return changed(cache, some_place(cache, chance), chance.choice((elsewhere, struct.unpack_from(">I", cache, elsewhere)[0])))


DAMAGES = (bytes_changed, bit_turned, cut, lengthened, lists_swapped, made_great, made_great, made_to_point, made_to_point)


def damaged(cache, chance):
    for _ in range(chance.choice((1, 1, 2, 3))):
        if len(cache) >= 40:
            cache = chance.choice(DAMAGES)(cache, chance)
    return cache


def damages_of(cache, count, seed):
    chance = random.Random(seed)
    for _ in range(count):
        yield damaged(cache, chance)


# the program beside the second reader

def batches(caches):
    """The caches in lists of so many bytes that a run takes them."""
    batch, size = [], 0
    for cache in caches:
        batch.append(cache)
        size += len(cache) + 4096
        if size > BATCH:
            yield batch
            batch, size = [], 0
    if batch:
        yield batch


def lines_of(program, caches, questions):
    """For each cache the program's lines, one a question."""
    with tempfile.TemporaryDirectory() as folder:
        paths = [os.path.join(folder, name) for name in ("caches", "questions")]
        with open(paths[0], "wb") as file:
            for cache in caches:
                file.write(struct.pack(">I", len(cache)) + cache)
        with open(paths[1], "wb") as file:
            file.write(b"".join(question + b"\n" for question in questions))
        ran = subprocess.run([program, *paths], stdout=subprocess.PIPE, timeout=3600, check=False)
    lines = ran.stdout.decode("ascii").splitlines()
    if ran.returncode or len(lines) != len(caches) * len(questions):
        sys.exit(f"{program}: status {ran.returncode}, {len(lines)} lines for {len(caches)} caches and {len(questions)} questions")
    return [lines[at:at + len(questions)] for at in range(0, len(lines), len(questions))]


def expected_of(cache, question):
    """What the second reader says of a question."""
    is_lookup = question.partition(b" ")[0].decode() in LOOKUPS
    return (ExpectedLookup if is_lookup else Expected)(cache, question)


def differences(program, caches, questions):
    """For each cache: the cache, the answers of the second reader, and for each question that is answered otherwise what differs."""
    for batch in batches(caches):
        for cache, lines in zip(batch, lines_of(program, batch, questions)):
            expected = [expected_of(cache, question) for question in questions]
            wrong = [(question, it.differs(line)) for question, it, line in zip(questions, expected, lines)]
            yield cache, [it.said for it in expected], [(question, what) for question, what in wrong if what]


def kind_of(said):
    """A fault without its numbers, or `an answer`."""
    words = said.partition(" and ")[0].split()
    faults = ("truncated", "version", "too large", "out of range", "long text", "budget spent", "too deep")
    return next((fault for fault in faults if " ".join(words).startswith(fault)), "an answer")

"""Lookups over a cache by the second reader, written from the rules of the checking order and of the order in which a cache is walked.

`ExpectedLookup` is what the program has to say of a lookup: the answer or the fault, how much of the content is read, and the most
that its meter may have counted (`bounds`).
"""
from reader import Reader, Refused, shown

LONGEST_NAME, HIGH_PRIORITY, SHORTEST_FRONT = 4096, 80, 128
OCTET_STREAM, TEXT_PLAIN, ZERO_SIZE = b"application/octet-stream", b"text/plain", b"application/x-zerosize"
LOOKUPS = ("type", "type-magic-first", "type-all-globs", "type-content-only", "isa", "icons")


def is_type_name(text):
    return 3 <= len(text) <= 255 and b"/" in text[1:-1] and not {text[0], text[-1]} & {47} and all(byte > 32 and byte != 58 for byte in text)


def is_by_itself(kind, base):
    """Whether a type is another, or a subclass of it whatever the cache says."""
    return kind == base or base == TEXT_PLAIN and kind.startswith(b"text/") or base == OCTET_STREAM and not kind.startswith(b"inode/")


def by_bytes(content):
    """The type of a content in which no section of magic holds."""
    if not content:
        return ZERO_SIZE
    return OCTET_STREAM if any(byte < 32 and byte not in (9, 10, 13) for byte in content[:SHORTEST_FRONT]) else TEXT_PLAIN


class Lookup(Reader):
    """A cache in which one type is looked up, and how much of the content was read."""

    def __init__(self, cache):
        self.read = 0
        super().__init__(cache)

    def kind_of(self, name, content, order):
        found = None
        if order == "content-only" or order == "magic-first" and content is not None:
            found = self.found_in(content)
            if order == "content-only" or found[1] is not None and found[1] >= HIGH_PRIORITY:
                return self.resolved(*found)
        types, kept = self.candidates(name) if order == "all-globs" else (self.glob_hits(name), None)
        kinds = [self.unalias(kind) for kind in types]
        if len(set(kinds)) == 1:
            return kinds[0]
        found = found or self.found_in(content)
        sniffed = self.resolved(*found)
        # where no section of magic holds, those that are kept are asked alone
        asked = kinds if found[1] is not None else kinds[:kept]
        if len(set(asked)) == 1:
            return asked[0]
        marks = set()
        return next((kind for kind in asked if self.leads_to(kind, sniffed, marks)), kinds[0]) if kinds else sniffed

    def resolved(self, kind, priority):
        """What was found in a content after its alias step; a type by the bytes alone has none."""
        return kind if priority is None else self.unalias(kind)

    def found_in(self, content):
        """A content's type before its alias step, and the priority of its section, or None where its bytes alone give the type."""
        if content is None:
            return OCTET_STREAM, None
        front = content[:max(SHORTEST_FRONT, self.extent())]
        self.read = len(front)
        return self.sniff(front, True) or (by_bytes(front), None)

    def leads_to(self, kind, base, marks):
        """Whether a type is the base or a subclass of it; the parents of a marked entry are not looked at again."""
        queue = [kind]
        for member in queue:
            if is_by_itself(member, base):
                return True
            found = self.parents_of(member, marks)
            queue += [self.unalias(parent) for parent in found[1]] if found else []
        return False

    def is_a(self, kind, base):
        kind, base = self.unalias(kind), self.unalias(base)
        return self.leads_to(kind, base, set())

    def icons_of(self, kind):
        kind = self.unalias(kind)
        icon, generic = self.icon(kind), self.generic_icon(kind)
        return icon if icon is not None else kind.replace(b"/", b"-"), generic if generic is not None else kind.partition(b"/")[0] + b"-x-generic"


def answered(lookup, call, word):
    """A lookup's answer as a line."""
    if call == "isa":
        return "yes" if lookup.is_a(*word.split(b" ", 1)) else "no"
    if call == "icons":
        return " ".join(map(shown, lookup.icons_of(word)))
    content, _, name = word.partition(b" ")
    return shown(lookup.kind_of(name, None if content == b"-" else bytes.fromhex(content.decode()), call.removeprefix("type").removeprefix("-")))


def bounds(name, cache, read):
    """The most nodes and bytes that a lookup may count, by three lengths."""
    nodes = 64 * (name + 2) + 16 * cache
    return nodes, 256 * nodes + 64 * (cache + 1) * (name + 1) + (read + 1) * cache


class ExpectedLookup:
    """What the program has to say of a cache and a lookup."""

    def __init__(self, cache, question):
        call, _, word = question.partition(b" ")
        call = call.decode()
        name = len(word.partition(b" ")[2]) if call.startswith("type") else 0
        self.read = self.records = 0
        self.most = bounds(name, len(cache), 0)
        if name > LONGEST_NAME:
            self.said, self.most = "name too long", (0, 0)
            return
        if not call.startswith("type") and not all(map(is_type_name, word.split(b" ", 1))):
            self.said, self.most = "no type", (0, 0)
            return
        lookup = None
        try:
            lookup = Lookup(cache)
            self.said = answered(lookup, call, word)
        except Refused as fault:
            self.said = str(fault)
        if lookup:
            self.read, self.records = lookup.read, len(cache) // 4 - lookup.records
            self.most = bounds(name, len(cache), self.read)

    def differs(self, line):
        """In what a line of the program differs, or nothing."""
        said, *numbers = line.rsplit(" ", 3)
        try:
            nodes, bytes_, read = (int(number.partition("=")[2]) for number in numbers)
        except ValueError:
            return f"{line!r} is no answer"
        if (said, read) != (self.said, self.read):
            return f"{said} after {read} bytes and not {self.said} after {self.read}"
        if nodes > self.most[0] or bytes_ > self.most[1]:
            return f"{said} with {nodes} nodes and {bytes_} bytes, above {self.most[0]} and {self.most[1]}"
        if nodes < self.records:
            return f"{said} with {nodes} nodes, fewer than the {self.records} records taken"
        return None

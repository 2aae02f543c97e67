"""A second reader of caches, written from the rules of the format mime.cache 1.2 and from those of the order in which a cache is walked
and a budget is taken; the program's code was not looked at. `.ci/damaged` and `bench/damage` hold the program to it.

A `Reader` has a cache's bytes, the budget that is left, and a method for each call of the program's reader. What stops a
call is a `Refused`, of which the text is the program's. What was taken of the budget gives the most that the program's meter
may have counted: `promised`.
"""
import struct

LIMIT = 268_435_456
LITERAL, SUFFIX, FULL = range(3)
CASED = 0x100
LEVELS = 64
CHARACTERS = 254
# by which one hit is preferred to another, one after another: its class, weight, length and flag
PREFERENCES = (lambda hit: -hit[0], lambda hit: hit[1] & 0xFF, lambda hit: hit[2], lambda hit: hit[1] & CASED)
ALIASES, PARENTS, LITERALS, TREE, GLOBS, MAGIC, NAMESPACES, ICONS, GENERIC_ICONS = range(9)

# The rules have a search for the name and then one for the folded name. The program makes one search where folding leaves the
# name alone, and takes the records of both at each entry: a decision of this project, which this reader follows.
ONE_SEARCH_FOR_BOTH = True


class Refused(Exception):
    """A fault, as the program names it."""


def out_of_range(at):
    return Refused(f"out of range at {at}")


def long_text(at):
    return Refused(f"long text at {at}")


def fold(text):
    """The text with the capitals A to Z as small letters; other bytes stay."""
    return bytes(byte + 32 if 65 <= byte <= 90 else byte for byte in text)


def class_of(pattern):
    """Literal without any of * ? [ \\; Suffix where a first * is the only one of them; else Full."""
    if not any(byte in b"*?[\\" for byte in pattern):
        return LITERAL
    if pattern[:1] == b"*" and not any(byte in b"*?[\\" for byte in pattern[1:]):
        return SUFFIX
    return FULL


def set_at(pattern, at):
    """The bytes that the set at `at` admits and where the pattern goes on, or None where the set has no end."""
    first = at + 1
    is_negated = pattern[first:first + 1] in (b"!", b"^")
    first += is_negated
    end = pattern.find(b"]", first + 1)
    if end < 0:
        return None
    admitted, inside = set(), pattern[first:end]
    while inside:
        if len(inside) >= 3 and inside[1:2] == b"-":
            admitted.update(range(inside[0], inside[2] + 1))
            inside = inside[3:]
        else:
            admitted.add(inside[0])
            inside = inside[1:]
    return (set(range(256)) - admitted if is_negated else admitted), end + 1


def elements(pattern):
    """The elements of a pattern: None for *, else the bytes that the element admits."""
    found, at = [], 0
    while at < len(pattern):
        byte, after = pattern[at:at + 1], at + 1
        if byte == b"*":
            found.append(None)
        elif byte == b"?":
            found.append(range(256))
        elif byte == b"\\" and after < len(pattern):
            found.append({pattern[after]})
            after += 1
        elif byte == b"[" and (it := set_at(pattern, at)):
            found.append(it[0])
            after = it[1]
        else:
            found.append({pattern[at]})
        at = after
    return found


def glob_matches(pattern, cased, name):
    """Whether the elements of the pattern match the name, both folded without the case-sensitive flag."""
    if not cased:
        pattern, name = fold(pattern), fold(name)
    # the lengths of the fronts of the name that the elements so far match
    ends = {0}
    for element in elements(pattern):
        if element is None:
            ends = set(range(min(ends), len(name) + 1))
        else:
            ends = {end + 1 for end in ends if end < len(name) and name[end] in element}
        if not ends:
            return False
    return len(name) in ends


def in_groups_reversed(text, word):
    return b"".join(text[at:at + word][::-1] for at in range(0, len(text), word))


class Reader:
    """A cache, and the budget that is left."""

    def __init__(self, cache):
        self.cache = cache
        self.records = self.value_bytes = 0
        if len(cache) < 40:
            raise Refused("truncated")
        major, minor = struct.unpack_from(">HH", cache)
        if (major, minor) != (1, 2):
            raise Refused(f"version {major}.{minor}")
        if len(cache) > LIMIT:
            raise Refused("too large")
        self.lists = struct.unpack_from(">9I", cache, 4)
        self.records, self.value_bytes = len(cache) // 4, len(cache)

    # what stands in the bytes

    def need(self, at, size, named):
        """Refuses with the offset `named` unless so many bytes lie in the cache; none need no place."""
        if size and at + size > len(self.cache):
            raise out_of_range(named)

    def numbers(self, at, count):
        self.need(at, 4 * count, at)
        return struct.unpack_from(f">{count}I", self.cache, at)

    def text(self, at):
        front = self.cache[at:at + 256]
        end = front.find(0)
        if end >= 0:
            return front[:end]
        raise long_text(at) if len(front) == 256 else out_of_range(at)

    def order(self, at, key):
        """Below, at or above 0 as the text is less than the key, equal or greater. The text is read to the first difference."""
        for place in range(256):
            if at + place >= len(self.cache):
                raise out_of_range(at)
            byte = self.cache[at + place]
            if byte == 0:
                return -1 if place < len(key) else 0
            if place == len(key) or byte > key[place]:
                return 1
            if byte < key[place]:
                return -1
        raise long_text(at)

    def list_at(self, at, size):
        """The count of a list of which the entries, of `size` bytes each, stand right after the count."""
        count, = self.numbers(at, 1)
        self.need(at + 4, count * size, at)
        return count

    # what is taken from the budget

    def take_record(self):
        if not self.records:
            raise Refused("budget spent")
        self.records -= 1

    def take_record_for_each(self, flags):
        for _ in flags:
            self.take_record()

    def take_value_bytes(self, count):
        if count > self.value_bytes:
            raise Refused("budget spent")
        self.value_bytes -= count

    # sorted lists

    @staticmethod
    def first_not_less(count, is_less):
        low, high = 0, count
        while low < high:
            middle = (low + high) // 2
            if is_less(middle):
                low = middle + 1
            else:
                high = middle
        return low

    def place_of(self, at, size, count, key):
        """The place of the first entry whose text is not less than the key, in the list at `at`."""
        return self.first_not_less(count, lambda place: self.order(self.numbers(at + 4 + size * place, 1)[0], key) < 0)

    def entry_of(self, at, key):
        """The place and the second number of a key's first entry in a list of pairs, or None."""
        count = self.list_at(at, 8)
        place = self.place_of(at, 8, count, key)
        if place == count:
            return None
        name, second = self.numbers(at + 4 + 8 * place, 2)
        return (place, second) if self.order(name, key) == 0 else None

    def unalias(self, kind):
        found = self.entry_of(self.lists[ALIASES], kind)
        return self.text(found[1]) if found else kind

    def icon(self, kind, which=ICONS):
        found = self.entry_of(self.lists[which], kind)
        return self.text(found[1]) if found else None

    def generic_icon(self, kind):
        return self.icon(kind, GENERIC_ICONS)

    def parents_of(self, kind, marks):
        """The place of a type's entry and its parents, none of them where the place is among the marks, or None."""
        found = self.entry_of(self.lists[PARENTS], kind)
        if not found:
            return None
        place, at = found
        if place in marks:
            return place, []
        types = []
        for number in range(self.list_at(at, 4)):
            self.take_record()
            types.append(self.text(*self.numbers(at + 4 + 4 * number, 1)))
        marks.add(place)
        return place, types

    # magic

    def extent(self):
        return self.numbers(self.lists[MAGIC], 3)[1]

    def sniff(self, content, is_little):
        """The type and the priority of the first section with a line that holds, or None."""
        count, _, first = self.numbers(self.lists[MAGIC], 3)
        self.need(first, 16 * count, first)
        for number in range(count):
            self.take_record()
            priority, kind, lines, first_line = self.numbers(first + 16 * number, 4)
            if self.some_line_holds(lines, first_line, 1, content, is_little):
                return self.text(kind), priority
        return None

    def some_line_holds(self, count, first, level, content, is_little):
        self.need(first, 32 * count, first)
        return any(self.line_holds(first + 32 * number, level, content, is_little) for number in range(count))

    def line_holds(self, at, level, content, is_little):
        self.take_record()
        start, reach, word, size, value, mask, children, first_child = self.numbers(at, 8)
        self.take_value_bytes(size)
        windows = range(start, min(start + reach, len(content) - size + 1))
        if not windows or not self.some_window_equals(content, windows, word, size, value, mask, is_little):
            return False
        if not children:
            return True
        if level == LEVELS:
            raise Refused("too deep")
        return self.some_line_holds(children, first_child, level + 1, content, is_little)

    def some_window_equals(self, content, windows, word, size, value, mask, is_little):
        """Whether the content at some of these offsets equals the value under the mask."""
        self.need(value, size, value)
        wanted, kept = self.cache[value:value + size], b"\xff" * size
        if mask:
            self.need(mask, size, mask)
            kept = self.cache[mask:mask + size]
        if is_little and word in (2, 4) and size % word == 0:
            wanted, kept = in_groups_reversed(wanted, word), in_groups_reversed(kept, word)
        return any(all(byte & keep == want & keep for byte, want, keep in zip(content[at:], wanted, kept)) for at in windows)

    # globs

    def glob_hits(self, name):
        """The types of the kept hits, in the order in which they were met."""
        return [self.text(kind) for *_, kind in self.kept(self.all_hits(name))]

    def candidates(self, name):
        """The types of all hits, the preferred first, else in the order in which they were met, and how many of them are kept."""
        hits = self.all_hits(name)
        by_preference = sorted(hits, key=lambda hit: tuple(-preferred(hit) for preferred in PREFERENCES))
        return [self.text(kind) for *_, kind in by_preference], len(self.kept(hits))

    @staticmethod
    def kept(hits):
        """Those that are preferred by each of the preferences in turn."""
        for preferred in PREFERENCES:
            most = max(map(preferred, hits), default=0)
            hits = [hit for hit in hits if preferred(hit) == most]
        return hits

    def all_hits(self, name):
        """Class, weight and flags, length and type of each rule that matches, in the order in which they are met."""
        folded, hits = fold(name), []
        searches = [(name, [CASED]), (folded, [0])]
        if ONE_SEARCH_FOR_BOTH and folded == name:
            searches = [(name, [CASED, 0])]
        for key, flags in searches:
            hits += self.literal_hits(key, flags)
        roots = self.numbers(self.lists[TREE], 2)
        for key, flags in searches:
            hits += self.tree_hits(roots, key, flags)
        return hits + self.list_hits(name)

    def literal_hits(self, key, taken):
        """Entries of the literal list that equal the key, with one of these flags: class, weight and flags, length, type."""
        at = self.lists[LITERALS]
        count = self.list_at(at, 12)
        for place in range(self.place_of(at, 12, count, key), count):
            self.take_record_for_each(taken)
            text, kind, flags = self.numbers(at + 4 + 12 * place, 3)
            if self.order(text, key) != 0:
                return
            if flags & CASED in taken:
                yield LITERAL, flags, len(key), kind

    def tree_hits(self, roots, key, taken):
        """Leaves below the characters of the key, from its last, with one of these flags; as literal_hits."""
        count, first = roots
        for length, character in enumerate(reversed(key), 1):
            if character == 0:
                return
            self.need(first, 12 * count, first)
            nodes = first
            place = self.first_not_less(count, lambda place: self.numbers(nodes + 12 * place, 1)[0] < character)
            if place == count:
                return
            found, count, first = self.numbers(first + 12 * place, 3)
            if found != character:
                return
            self.need(first, 12 * count, first)
            yield from self.leaves(count, first, length + 1, taken)

    def leaves(self, count, first, length, taken):
        """The leaves at the front of a block."""
        for number in range(count):
            self.take_record_for_each(taken)
            character, kind, flags = self.numbers(first + 12 * number, 3)
            if character:
                return
            if flags & CASED in taken:
                yield SUFFIX, flags, length, kind

    def list_hits(self, name):
        """Entries of the glob list that match; as literal_hits."""
        at = self.lists[GLOBS]
        hits = []
        for number in range(self.list_at(at, 12)):
            self.take_record()
            text, kind, flags = self.numbers(at + 4 + 12 * number, 3)
            pattern = self.text(text)
            if glob_matches(pattern, flags & CASED, name):
                hits.append((class_of(pattern), flags, len(pattern), kind))
        return hits

    # all rules

    def rules(self):
        """All rules: weight and flags, type, pattern."""
        rules = self.entries(self.lists[LITERALS])
        roots = self.numbers(self.lists[TREE], 2)
        rules += self.below(*roots, b"")
        return rules + self.entries(self.lists[GLOBS])

    def entries(self, at):
        found = []
        for number in range(self.list_at(at, 12)):
            self.take_record()
            text, kind, flags = self.numbers(at + 4 + 12 * number, 3)
            pattern = self.text(text)
            found.append((flags, self.text(kind), pattern))
        return found

    def below(self, count, first, ending):
        """The rules of a block of nodes: leaves, but for those among the roots, and what is below characters up to 255."""
        self.need(first, 12 * count, first)
        found = []
        for number in range(count):
            self.take_record()
            character, second, third = self.numbers(first + 12 * number, 3)
            if character == 0:
                if ending:
                    found.append((third, self.text(second), b"*" + ending))
            elif character <= 255:
                if len(ending) == CHARACTERS:
                    raise Refused("too deep")
                found += self.below(second, third, bytes([character]) + ending)
        return found


# a question's answer as a line, and what the program's meter may say of it

SEARCHES = {"unalias": 1, "icon": 1, "generic": 1, "parents": 2}
BESIDES = {"open": 1, "extent": 4, "sniff": 4, "sniff-big": 4, "hits": 4, "candidates": 4, "rules": 4}


def shown(text):
    if text is None:
        return "none"
    return '"%s"' % "".join(chr(byte) if 33 <= byte <= 126 and byte not in b'"\\' else f"\\x{byte:02X}" for byte in text)


def all_shown(texts):
    return "".join(" " + shown(text) for text in texts)


def shown_parents(reader, kind, marks):
    try:
        found = reader.parents_of(kind, marks)
    except Refused as fault:
        return str(fault)
    return f"entry {found[0]}:{all_shown(found[1])}" if found else "none"


def shown_answer(reader, call, word):
    if call == "open":
        return "opens"
    if call == "extent":
        return str(reader.extent())
    if call in ("unalias", "icon", "generic"):
        asked = {"unalias": reader.unalias, "icon": reader.icon, "generic": reader.generic_icon}[call]
        return shown(asked(word))
    if call == "parents":
        marks = set()
        return f"{shown_parents(reader, word, marks)} and {shown_parents(reader, word, marks)}"
    if call in ("sniff", "sniff-big"):
        found = reader.sniff(bytes.fromhex(word.decode()), call == "sniff")
        return f"{shown(found[0])} {found[1]}" if found else "none"
    if call == "hits":
        return "hits:" + all_shown(reader.glob_hits(word))
    if call == "candidates":
        types, kept = reader.candidates(word)
        return f"{kept} of:{all_shown(types)}"
    rules = reader.rules()
    return "rules:" + "".join(f" {flags & 0xFF}:{shown(kind)}:{shown(text)}{':cs' if flags & CASED else ''}" for flags, kind, text in rules)


class Expected:
    """What the program has to say of a cache and a question: the answer, and the records and value bytes left."""

    def __init__(self, cache, question):
        call, _, word = question.partition(b" ")
        call = call.decode()
        try:
            reader = Reader(cache)
        except Refused as fault:
            self.said, self.left, self.taken = str(fault), (0, 0), (0, 0)
            self.most = (1, 256)
            return
        full = reader.records, reader.value_bytes
        try:
            self.said = shown_answer(reader, call, word)
        except Refused as fault:
            self.said = str(fault)
        self.left = reader.records, reader.value_bytes
        self.taken = full[0] - reader.records, full[1] - reader.value_bytes
        self.most = promised(call, word, *self.taken)

    def differs(self, line):
        """In what a line of the program differs, or nothing."""
        said, *numbers = line.rsplit(" ", 4)
        try:
            nodes, bytes_, records, values = (int(number.partition("=")[2]) for number in numbers)
        except ValueError:
            return f"{line!r} is no answer"
        if said != self.said:
            return f"{said} and not {self.said}"
        if (records, values) != self.left:
            return f"{said} with {records} records and {values} value bytes left and not {self.left[0]} and {self.left[1]}"
        if nodes > self.most[0] or bytes_ > self.most[1]:
            return f"{said} with {nodes} nodes and {bytes_} bytes, above {self.most[0]} and {self.most[1]}"
        if nodes < self.taken[0]:
            return f"{said} with {nodes} nodes, fewer than the {self.taken[0]} records taken"
        return None


def promised(call, word, records, values):
    """The most nodes and bytes that a call may count that took so many records and value bytes."""
    searches = 2 * len(word) + 2 if call in ("hits", "candidates") else SEARCHES.get(call, 0)
    nodes = 29 * searches + 2 * records + BESIDES.get(call, 0)
    more = 256 * (len(word) + 1) * records if call in ("hits", "candidates") else (len(word) // 2 + 1) * values if call.startswith("sniff") else 0
    return nodes, 256 * nodes + more

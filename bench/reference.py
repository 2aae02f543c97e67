"""A reference for the types of files, small and slow, to compare the built program with.

It is written from the sentences of docs/DECISIONS.md and of the public specification, without the code of mimelook: a
pattern becomes a regular expression of Python, the rules that count are filtered one preference after another, and a
line of magic is tried at each of its offsets.
"""
import itertools
import os
import re

UNKNOWN, EMPTY, TEXT = "application/octet-stream", "application/x-zerosize", "text/plain"
CONTROL = re.compile(rb"[\0-\x08\x0b\x0c\x0e-\x1f]")


def is_type_name(text):
    return 3 <= len(text) <= 255 and b"/" in text[1:-1] and not re.search(rb"\A/|/\Z|[\0-\x20:]", text)


def is_pattern(text):
    return 1 <= len(text) <= 255 and not re.search(rb"[\0\n:]", text)


def folded(text):
    return bytes(byte + 32 if 65 <= byte <= 90 else byte for byte in text)


def set_at(pattern, at):
    """The regular expression of the set after the `[` before `at`, and where it ends; None where it has no end."""
    is_negated = pattern[at : at + 1] in (b"!", b"^")
    first = at + is_negated
    end = pattern.find(b"]", first + 1)
    if end < 0:
        return None
    members, taken = set(), first
    while taken < end:
        if pattern[taken + 1 : taken + 2] == b"-" and taken + 2 < end:
            members.update(range(pattern[taken], pattern[taken + 2] + 1))
            taken += 3
        else:
            members.add(pattern[taken])
            taken += 1
    matching = [byte for byte in range(256) if (byte in members) != is_negated]
    return b"[" + b"".join(b"\\x%02x" % byte for byte in matching) + b"]" if matching else b"(?!)", end + 1


def regular(pattern):
    """The pattern as a regular expression over bytes."""
    made, at = b"", 0
    while at < len(pattern):
        byte, at = pattern[at : at + 1], at + 1
        a_set = set_at(pattern, at) if byte == b"[" else None
        if a_set:
            piece, at = a_set
        elif byte == b"\\" and at < len(pattern):
            piece, at = re.escape(pattern[at : at + 1]), at + 1
        else:
            piece = {b"*": b".*", b"?": b"."}.get(byte, re.escape(byte))
        made += piece
    return re.compile(made, re.S)


def earliness(pattern):
    if not re.search(rb"[*?\[\\]", pattern):
        return 2
    return 1 if pattern[:1] == b"*" and not re.search(rb"[*?\[\\]", pattern[1:]) else 0


class Rule:
    def __init__(self, weight, kind, pattern, flags):
        self.weight, self.kind, self.pattern = weight, kind.decode(), pattern
        self.cased = b"cs" in flags.split(b",")
        self.preference = earliness(pattern), weight, len(pattern)
        self.regular = regular(pattern if self.cased else folded(pattern))

    def matches(self, name):
        return self.regular.fullmatch(name if self.cased else folded(name))

    def listed(self):
        """The line that `list` prints of it."""
        pattern = self.pattern if self.cased else folded(self.pattern)
        return b"%d:%s:%s%s" % (self.weight, self.kind.encode(), pattern, b":cs" if self.cased else b"")


def spellings(text):
    """The texts that differ from a text in small letters and capitals alone."""
    each = ([byte, byte - 32] if 97 <= byte <= 122 else [byte] for byte in folded(text))
    return map(bytes, itertools.product(*each))


def visible(rules):
    """The rules but for those of which, whatever the name, a case-sensitive one is preferred: it has that spelling, and no less weight."""
    greatest = {}
    for rule in rules:
        if rule.cased:
            greatest[rule.pattern] = max(rule.weight, greatest.get(rule.pattern, 0))

    def is_hidden(rule):
        if rule.cased or earliness(rule.pattern) == 0:
            return False
        return all(greatest.get(spelling, -1) >= rule.weight for spelling in spellings(rule.pattern))

    return [rule for rule in rules if not is_hidden(rule)]


def rules_of(text):
    """The rules that the lines of a globs2 spell, and the types of its markers."""
    rules, deleted = [], set()
    for line in text.split(b"\n"):
        fields = [] if line.startswith(b"#") else line.split(b":")
        if len(fields) < 3 or not re.fullmatch(rb"[0-9]+", fields[0]) or int(fields[0]) > 255:
            continue
        if is_type_name(fields[1]) and fields[2] == b"__NOGLOBS__":
            deleted.add(fields[1].decode())
        elif is_type_name(fields[1]) and is_pattern(fields[2]):
            rules.append(Rule(int(fields[0]), *fields[1:3], b"".join(fields[3:4])))
    return rules, deleted


def pairs_of(text):
    fields = [line.split(b" ") for line in text.split(b"\n") if not line.startswith(b"#")]
    return [(a.decode(), b.decode()) for a, b in (f for f in fields if len(f) == 2) if is_type_name(a) and is_type_name(b)]


HEAD = re.compile(rb"\[([0-9]+):([^\n]*)\]\n")
START = re.compile(rb"([0-9]*)>([0-9]+)=")
END = re.compile(rb"(?:~([0-9]+))?(?:\+([0-9]+))?\n")
MARKER = re.compile(rb">0=__NOMAGIC__\n|>0__NOMAGIC__\n|>0=\0\x0b__NOMAGIC__\n")


class Line:
    def __init__(self, start, size, word, value, mask):
        self.start, self.range, self.children = start, size, []
        if word in (2, 4) and len(value) % word == 0:
            value = b"".join(value[at : at + word][::-1] for at in range(0, len(value), word))
            mask = mask and b"".join(mask[at : at + word][::-1] for at in range(0, len(mask), word))
        self.mask = mask
        self.value = value if mask is None else bytes(a & b for a, b in zip(value, mask))

    def is_here(self, content):
        size, last = len(self.value), self.start + self.range - 1
        if self.mask is None:
            return content.find(self.value, self.start, min(len(content), last + size)) >= 0 if self.range else False
        windows = (content[at : at + size] for at in range(self.start, min(last, len(content) - size) + 1))
        return any(bytes(a & b for a, b in zip(window, self.mask)) == self.value for window in windows)

    def holds(self, content):
        return self.is_here(content) and (not self.children or any(child.holds(content) for child in self.children))


def sections_of(text):
    """The sections of a magic without faults and without ignored lines, and the types of its markers."""
    sections, deleted, at = [], set(), 12
    while at < len(text):
        head = HEAD.match(text, at)
        kind, lines, at = head[2].decode(), [], head.end()
        while at < len(text) and text[at : at + 1] != b"[":
            marker = MARKER.match(text, at)
            if marker:
                deleted.add(kind)
                at = marker.end()
                continue
            start = START.match(text, at)
            at = start.end() + 2
            length = int.from_bytes(text[at - 2 : at], "big")
            value, mask, at = text[at : at + length], None, at + length
            if text[at : at + 1] == b"&":
                mask, at = text[at + 1 : at + 1 + length], at + 1 + length
            end = END.match(text, at)
            at = end.end()
            line = Line(int(start[2]), int(end[2] or 1), int(end[1] or 1), value, mask)
            row = lines
            for _ in range(int(start[1] or 0)):
                row = row[-1].children
            row.append(line)
        if lines:
            sections.append((int(head[1]), kind, lines))
    return sections, deleted


def first_of_each(pairs):
    kept = {}
    for key, value in pairs:
        kept.setdefault(key, value)
    return kept


class Database:
    """What data directories say, the most preferred first."""

    def __init__(self, directories):
        self.rules, self.sections, aliases, self.parents = [], [], [], {}
        no_globs, no_magic = set(), set()
        for directory in directories:
            read = lambda name: read_or_empty(os.path.join(directory, "mime", name))
            rules, deleted = rules_of(read("globs2"))
            self.rules += [rule for rule in rules if rule.kind not in no_globs]
            no_globs |= deleted
            sections, deleted = sections_of(read("magic"))
            self.sections += [section for section in sections if section[1] not in no_magic]
            no_magic |= deleted
            aliases += pairs_of(read("aliases"))
            for kind, parent in pairs_of(read("subclasses")):
                self.parents.setdefault(kind, []).append(parent)
        self.sections.sort(key=lambda section: -section[0])
        self.aliases = first_of_each(aliases)

    def resolved(self, kind):
        return self.aliases.get(kind, kind)

    def kept(self, name):
        """The types of the rules that count for a name."""
        hits = [rule for rule in self.rules if rule.matches(name)]
        greatest = max((rule.preference for rule in hits), default=None)
        kept = [rule for rule in hits if rule.preference == greatest]
        kept = [rule for rule in kept if rule.cased] or kept
        return [self.resolved(rule.kind) for rule in kept]

    def first_section(self, content):
        return next((s for s in self.sections if any(line.holds(content) for line in s[2])), None)

    def sniffed(self, content):
        if content is None:
            return UNKNOWN
        section = self.first_section(content)
        if section:
            return self.resolved(section[1])
        if not content:
            return EMPTY
        return UNKNOWN if CONTROL.search(content[:128]) else TEXT

    def is_a(self, kind, base):
        seen, waiting = {kind}, [kind]
        while waiting:
            kind = waiting.pop(0)
            if kind == base or kind.startswith("text/") and base == TEXT:
                return True
            if base == UNKNOWN and not kind.startswith("inode/"):
                return True
            above = [self.resolved(parent) for parent in self.parents.get(kind, [])]
            waiting += [parent for parent in dict.fromkeys(above) if parent not in seen]
            seen.update(above)
        return False

    def answer(self, name, content, is_magic_first=False):
        """The type by the checking order; None is content that is not available."""
        section = self.first_section(content) if is_magic_first and content is not None else None
        if section and section[0] >= 80:
            return self.resolved(section[1])
        kept = self.kept(name)
        if len(set(kept)) == 1:
            return kept[0]
        sniffed = self.sniffed(content)
        return next((kind for kind in kept if self.is_a(kind, sniffed)), kept[0]) if kept else sniffed


def read_or_empty(path):
    if not os.path.exists(path):
        return b""
    with open(path, "rb") as file:
        return file.read()

"""What the library answers to Python over examples/share, and what it raises. The types are those of its text files by the specification."""
import errno
import gc
import os
import sys
import tempfile
import threading
import unittest
from ctypes import byref, c_size_t, create_string_buffer

sys.dont_write_bytecode = True
import mimelook
from mimelook import Answer, Cache, Fault, Hit, Icons, Order, Sniffed, Status, is_type_name, version

HERE = os.path.dirname(os.path.abspath(__file__))
EXAMPLES = os.path.join(HERE, "../../examples")
SHARE = os.path.join(EXAMPLES, "share")
VORBIS, THEORA = (b"OggS".ljust(28, b"\0") + kind for kind in (b"\x01vorbis", b"\x80theora"))
BY_NAME = {
    "notes.txt": "text/plain",
    "NOTES.TXT": "text/plain",
    "a.tar.gz": "application/x-compressed-tar",
    "a.c": "text/x-csrc",
    "a.C": "text/x-c++src",
    "GNUmakefile": "text/x-makefile",
    "gnumakefile": "application/octet-stream",
    "README.html": "text/html",
    "README": "text/x-readme",
    b"\xff.pdf": "application/pdf",
    "\udcff.pdf": "application/pdf",
    "": "application/octet-stream",
}


def cache_of_share():
    """The bytes of the cache of examples/share, as the library merges it."""
    texts = mimelook._texts_of(SHARE)
    directory = mimelook._Directory(*(mimelook._Slice(text, len(text)) for text in texts))
    cache, length = create_string_buffer(1 << 16), c_size_t()
    merge = mimelook._library.mimelook_merge
    merge.restype = mimelook._MergeReport
    report = merge(byref(directory), c_size_t(1), cache, c_size_t(len(cache)), byref(length))
    assert report.status == 0, report.status
    return cache.raw[: length.value]


class Answers(unittest.TestCase):
    @classmethod
    def setUpClass(cls):
        cls.cache = Cache.merged([SHARE])

    def test_names(self):
        for name, kind in BY_NAME.items():
            self.assertEqual(self.cache.type_of(name), kind, name)

    def test_names_and_contents(self):
        self.assertEqual(self.cache.type_of("a.ogg", THEORA), "video/ogg")
        self.assertEqual(self.cache.type_of("a.ogg", VORBIS), "audio/ogg")
        self.assertEqual(self.cache.type_of("a.ogg"), "audio/ogg")
        self.assertEqual(self.cache.type_of("x", b"%PDF-1.4"), "application/pdf")
        self.assertEqual(self.cache.type_of("x", b""), "application/x-zerosize")
        self.assertEqual(self.cache.type_of("x", bytearray(b"hi")), "text/plain")
        files = [("a.ogg", THEORA), ("a.ogg", None), (b"x", b"")]
        self.assertEqual(self.cache.types_of(files), ["video/ogg", "audio/ogg", "application/x-zerosize"])
        self.assertEqual(self.cache.types_of([]), [])

    def test_orders(self):
        self.assertEqual(self.cache.type_of("a.md", VORBIS), "text/markdown")
        self.assertEqual(self.cache.type_of("a.md", VORBIS, Order.MAGIC_FIRST), "audio/ogg")
        self.assertEqual(self.cache.type_of("a.md", b"%PDF-1.4", Order.MAGIC_FIRST), "text/markdown")
        tar = "application/x-compressed-tar"
        self.assertEqual(self.cache.look_up("a.tar.gz"), Answer(tar, 0))
        self.assertEqual(self.cache.look_up("a.tar.gz", None, Order.ALL_GLOBS), Answer(tar, 1029))
        self.assertEqual(self.cache.type_of("a.tar.gz", b"%PDF-1.4", Order.ALL_GLOBS), tar)

    def test_wanted(self):
        self.assertEqual(self.cache.look_up("a.md"), Answer("text/markdown", 0))
        self.assertEqual(self.cache.look_up("x"), Answer("application/octet-stream", 1029))
        self.assertEqual(self.cache.look_up("a.ogg"), Answer("audio/ogg", 1029))
        self.assertEqual(self.cache.look_up("x", b"hi"), Answer("text/plain", 0))

    def test_files(self):
        with open(f"{EXAMPLES}/../dist/expected", encoding="ascii") as file:
            rows = [line.rstrip("\n").split(": ") for line in file]
        self.assertEqual(len(rows), 6)
        for path, kind in rows:
            self.assertEqual(self.cache.type_of_file(f"{EXAMPLES}/../{path}"), kind, path)

    def test_what_is_no_file(self):
        self.assertEqual(self.cache.type_of_file("/nowhere/a.txt"), "text/plain")
        with self.assertRaises(FileNotFoundError):
            self.cache.type_of_file("/nowhere/a")
        with tempfile.TemporaryDirectory() as folder:
            pipe = os.path.join(folder, "pipe")
            os.mkfifo(pipe)
            with self.assertRaises(OSError) as raised:
                self.cache.type_of_file(pipe)
            self.assertEqual(raised.exception.errno, errno.EINVAL)

    def test_hits(self):
        rows = {
            "README.html": [Hit("text/html", 50, False, True), Hit("text/x-readme", 50, False, False)],
            "a.ogg": [Hit("audio/ogg", 50, False, True), Hit("video/ogg", 50, False, True)],
            "a.tar.gz": [Hit("application/x-compressed-tar", 50, False, True), Hit("application/gzip", 50, False, False)],
            "a.C": [Hit("text/x-c++src", 50, True, True), Hit("text/x-csrc", 50, False, False)],
            b"a.jpg~": [Hit("application/x-trash", 10, False, True)],
            "x": [],
        }
        for name, hits in rows.items():
            self.assertEqual(self.cache.hits(name), hits, name)
        with self.assertRaises(Fault) as raised:
            self.cache.hits("a" * 4097)
        self.assertEqual(raised.exception.status, Status.NAME_TOO_LONG)

    def test_sniff(self):
        self.assertEqual(self.cache.sniff(b"PK\3\4"), Sniffed("application/zip", 40, True))
        self.assertEqual(self.cache.sniff(THEORA), Sniffed("video/ogg", 80, True))
        self.assertEqual(self.cache.sniff(b"hi"), Sniffed("text/plain", 0, False))
        self.assertEqual(self.cache.sniff(b"\0\1"), Sniffed("application/octet-stream", 0, False))

    def test_is_a(self):
        self.assertTrue(self.cache.is_a("text/x-markdown", "text/plain"))
        self.assertTrue(self.cache.is_a("audio/ogg", "application/ogg"))
        self.assertFalse(self.cache.is_a("application/ogg", "audio/ogg"))

    def test_parents(self):
        self.assertEqual(self.cache.parents("application/x-compressed-tar"), ["application/gzip"])
        self.assertEqual(self.cache.parents("text/html"), [])

    def test_unalias(self):
        self.assertEqual(self.cache.unalias("image/pjpeg"), "image/jpeg")
        self.assertEqual(self.cache.unalias("text/html"), "text/html")

    def test_icons(self):
        self.assertEqual(self.cache.icons("application/x-core"), Icons("application-x-core-dump", "application-x-generic"))
        self.assertEqual(self.cache.icons("application/x-pdf"), Icons("application-pdf", "x-office-document"))

    def test_type_names(self):
        self.assertTrue(is_type_name("text/plain"))
        self.assertFalse(is_type_name("text"))

    def test_version(self):
        with open(f"{HERE}/pyproject.toml", encoding="utf-8") as file:
            self.assertIn(f'version = "{version()}"', file.read())

    def test_threads(self):
        answers = []

        def ask():
            answers.extend(self.cache.type_of(name) == kind for _ in range(200) for name, kind in BY_NAME.items())

        threads = [threading.Thread(target=ask) for _ in range(8)]
        for thread in threads:
            thread.start()
        for thread in threads:
            thread.join()
        self.assertEqual(answers, [True] * (8 * 200 * len(BY_NAME)))


class Caches(unittest.TestCase):
    def test_file(self):
        with tempfile.TemporaryDirectory() as folder:
            path = os.path.join(folder, "mime.cache")
            with open(path, "wb") as file:
                file.write(cache_of_share())
            cache = Cache.open(path)
        self.assertEqual(cache.type_of("a.md"), "text/markdown")

    def test_bytes_are_kept(self):
        data = bytearray(cache_of_share())
        cache = Cache(data)
        data[:] = bytes(len(data))
        del data
        gc.collect()
        self.assertEqual(cache.type_of("a.md"), "text/markdown")

    def test_closed(self):
        data = cache_of_share()
        with Cache(data) as cache, Cache(data) as other, Cache.merged([SHARE]) as merged:
            cache.close()
            self.assertEqual(other.type_of("a.md"), "text/markdown")
        for closed in (cache, other, merged):
            for call, *words in ((closed.type_of, "a.md"), (closed.sniff, b"hi"), (closed.hits, "x"), (closed.parents, "text/html")):
                with self.assertRaises(Fault) as raised:
                    call(*words)
                self.assertEqual(raised.exception.status, Status.NOT_OPEN)
            closed.close()

    def test_many_are_opened(self):
        data = cache_of_share()
        for _ in range(10_000):
            Cache(data).type_of("a.md")

    def test_many_directories_are_opened(self):
        for _ in range(1_000):
            Cache.merged([SHARE]).type_of("a.md")

    def test_closed_while_others_ask(self):
        """Each call answers from what was open, or says that nothing is; none reads what was closed."""
        for _ in range(50):
            answers, cache = [], Cache.merged([SHARE])

            def ask(cache=cache, answers=answers):
                try:
                    while True:
                        answers.append([hit.type for hit in cache.hits("a.tar.gz")])
                except Fault as fault:
                    answers.append(fault.status)

            threads = [threading.Thread(target=ask) for _ in range(4)]
            for thread in threads:
                thread.start()
            cache.close()
            for thread in threads:
                thread.join()
            rules = ["application/x-compressed-tar", "application/gzip"]
            self.assertEqual([it for it in answers if it not in (rules, Status.NOT_OPEN)], [])
            self.assertEqual(answers.count(Status.NOT_OPEN), 4)

    def test_questions_of_many(self):
        """The answers are the same, however many were asked before."""
        cache = Cache.merged([SHARE])
        for _ in range(500):
            for name, kind in BY_NAME.items():
                self.assertEqual(cache.type_of(name), kind, name)
            self.assertEqual(cache.type_of("x", b"%PDF-1.4"), "application/pdf")
            self.assertEqual(cache.type_of("a.ogg", THEORA), "video/ogg")

    def test_directories(self):
        with tempfile.TemporaryDirectory() as folder:
            os.mkdir(f"{folder}/mime")
            with open(f"{folder}/mime/globs2", "wb") as file:
                file.write(b"60:t/own:*.md\n")
            self.assertEqual(Cache.merged([folder, SHARE]).type_of("a.md"), "t/own")
        self.assertEqual(Cache.merged([]).type_of("a.md"), "application/octet-stream")

    def test_magic_is_refused(self):
        with tempfile.TemporaryDirectory() as folder:
            os.mkdir(f"{folder}/mime")
            with open(f"{folder}/mime/magic", "wb") as file:
                file.write(b"MIME-Magic\0\n[50:t/a]\n>0=\0")
            with self.assertRaises(Fault) as raised:
                Cache.merged([SHARE, folder])
            fault = raised.exception
            self.assertEqual((fault.status, fault.directory, fault.offset), (Status.BAD_MAGIC, folder, 25))
            self.assertIn(folder, str(raised.exception))


class Faults(unittest.TestCase):
    def faults(self, status, offset, call, *words):
        with self.assertRaises(Fault) as raised:
            call(*words)
        self.assertEqual((raised.exception.status, raised.exception.offset), (status, offset))
        self.assertTrue(str(raised.exception))

    def test_headers(self):
        self.faults(Status.TRUNCATED, 0, Cache, b"")
        self.faults(Status.VERSION, 0, Cache, b"\0\1\0\3" + bytes(36))

    def test_records(self):
        cache = Cache(b"\0\1\0\2" + b"\xff" * 36)
        self.faults(Status.OUT_OF_RANGE, 0xFFFFFFFF, cache.type_of, "x")

    def test_words(self):
        cache = Cache.merged([SHARE])
        self.faults(Status.NAME_TOO_LONG, 0, cache.type_of, "a" * 4097)
        self.faults(Status.NOT_A_TYPE, 0, cache.is_a, "text", "text/plain")
        self.faults(Status.UNKNOWN_ORDER, 0, cache.type_of, "x", None, 99)


if __name__ == "__main__":
    unittest.main()

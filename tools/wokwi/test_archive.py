#!/usr/bin/env python3
"""Tests of archive.py: which archives are read, which are refused and with which sentence, and that nothing is written then."""
import io
import os
import stat
import struct
import sys
import tempfile
import unittest
import zipfile

HERE = os.path.dirname(os.path.abspath(__file__))
sys.path[:0] = [HERE]
import archive

DIAGRAM = b'{"version": 1, "parts": [], "connections": []}'
MANY = archive.MOST_ENTRIES + 1
CENTRAL, LOCAL = b"PK\1\2", b"PK\3\4"


def packed(
    *files: tuple[str | zipfile.ZipInfo, bytes], method: int = zipfile.ZIP_DEFLATED, comment: bytes = b""
) -> bytes:
    """An archive of these files, as Python's library writes it."""
    out = io.BytesIO()
    with zipfile.ZipFile(out, "w", method) as made:
        for name, data in files:
            made.writestr(name, data)
        made.comment = comment
    return out.getvalue()


def entry(name: str, mode: int) -> zipfile.ZipInfo:
    """A head of an entry with a mode of Unix."""
    made = zipfile.ZipInfo(name)
    made.external_attr = mode << 16
    return made


def patched(data: bytes, mark: bytes, at: int, value: bytes) -> bytes:
    """An archive with other bytes `at` bytes after the first such mark."""
    start = data.index(mark) + at
    return data[:start] + value + data[start + len(value) :]


def unflagged(data: bytes) -> bytes:
    """An archive that does not say of its first name that it is UTF-8."""
    return patched(patched(data, CENTRAL, 8, b"\0\0"), LOCAL, 6, b"\0\0")


def with_entries(data: bytes, count: int) -> bytes:
    """An archive whose end tells another count of entries."""
    return patched(data, archive.END, 10, struct.pack("<H", count))


ONE = packed(("diagram.json", DIAGRAM), ("sketch.ino", b"void setup() {}\n" * 20))
BOMB = packed(("a", bytes(archive.MOST_BYTES // 2)), ("b", bytes(archive.MOST_BYTES // 2 + 1)))
# By a name: the archive, and the sentence with which it is refused.
REFUSED = {
    "no archive": (b"no archive, but long enough to be looked at", "it is no ZIP archive"),
    "nothing": (b"", "it is no ZIP archive"),
    "a name above": (packed(("a/../../x.hex", b"")), "a/../../x.hex: this name leads out of the archive's folder"),
    "a name above with backslashes": (
        packed(("..\\x.hex", b"")),
        "..\\x.hex: this name leads out of the archive's folder",
    ),
    "a folder above": (packed(("../", b"")), "../: this name leads out of the archive's folder"),
    "a name from the root": (packed(("/etc/x", b"")), "/etc/x: this name leads out of the archive's folder"),
    "a name on a drive": (packed(("C:\\x", b"")), "C:\\x: this name leads out of the archive's folder"),
    "a name with a control character": (
        packed(("a\x1b[2J/../x", b"")),
        "a?[2J/../x: this name leads out of the archive's folder",
    ),
    "no name": (
        packed(("./", b""), ("x", b"")).replace(b"./", b"..", 9),
        "..: this name leads out of the archive's folder",
    ),
    "a file that is the folder": (packed((".", b"x")), ".: this is no name of a file"),
    "a long name": (packed(("n" * 256, b"")), "n" * 80 + "..: this name has more than 255 bytes"),
    "a link": (
        packed((entry("script.txt", stat.S_IFLNK | 0o777), b"/etc/passwd")),
        "script.txt: this is a link, and only files are taken",
    ),
    "a link to a folder": (
        packed((entry("lib/", stat.S_IFLNK | 0o777), b"")),
        "lib/: this is a link, and only files are taken",
    ),
    "a pipe": (packed((entry("pipe", stat.S_IFIFO | 0o644), b"")), "pipe: this is neither a file nor a folder"),
    "a device": (packed((entry("null", stat.S_IFCHR | 0o666), b"")), "null: this is neither a file nor a folder"),
    "twice": (packed(("a.hex", b"1"), ("./a.hex", b"2")), "./a.hex: this file is there twice"),
    "a file and a folder": (packed(("a", b""), ("a/b", b"")), "a: this is a file and a folder"),
    "too many files": (
        packed(*((f"f{n}", b"") for n in range(MANY)), method=0),
        f"the archive has {MANY} files and folders, and 1000 is the most",
    ),
    "too much": (BOMB, "unpacked, the archive has more than 64 MiB"),
    "more than it says": (
        patched(patched(BOMB, LOCAL, 22, struct.pack("<I", 9)), CENTRAL, 24, struct.pack("<I", 9)),
        "a: this file is damaged",
    ),
    "encrypted": (patched(ONE, CENTRAL, 8, b"\1\0"), "diagram.json: this file is encrypted"),
    "another method": (
        packed(("a", b"a" * 99), method=zipfile.ZIP_LZMA),
        "a: this file is packed by method 14, and only 0 and 8 are read",
    ),
    "another sum": (patched(ONE, CENTRAL, 16, b"\0\0\0\0"), "diagram.json: this file is damaged"),
    "another name in its head": (patched(ONE, LOCAL, 30, b"Diagram"), "diagram.json: this file is damaged"),
    "no head": (patched(ONE, LOCAL, 0, b"PK\7\7"), "diagram.json: this file is damaged"),
    "damaged data": (patched(ONE, LOCAL, 42, b"\xff\xff\xff\xff"), "diagram.json: this file is damaged"),
    "a damaged list": (patched(ONE, CENTRAL, 0, b"PK\7\7"), "the archive is damaged"),
    "without its beginning": (ONE[7:], "the archive is damaged"),
    "ZIP64": (with_entries(ONE, 0xFFFF), "it is a ZIP64 archive, which is not read"),
    "a long list": (
        patched(ONE, archive.END, 12, struct.pack("<I", (1 << 20) + 1)),
        "the archive's list of its files has more than 1 MiB",
    ),
    "a large file": (bytes(archive.MOST_BYTES + 1), "the archive has more than 64 MiB"),
}
# By a name: the archive, and the paths that are read of it.
TAKEN = {
    "flat": (ONE, ["diagram.json", "sketch.ino"]),
    "not packed": (packed(("diagram.json", DIAGRAM), method=0), ["diagram.json"]),
    "with a folder and a comment": (
        packed(("p/", b""), ("p/diagram.json", DIAGRAM), comment=b"of Wokwi"),
        ["p/diagram.json"],
    ),
    "with modes of Unix": (
        packed((entry("p/", stat.S_IFDIR | 0o755), b""), (entry("p/a.hex", stat.S_IFREG | 0o644), b"")),
        ["p/a.hex"],
    ),
    "behind another file": (b"#!/bin/sh\n" + ONE, ["diagram.json", "sketch.ino"]),
    "with backslashes": (packed(("p\\", b""), ("p\\a.hex", b"1")), ["p/a.hex"]),
    "in UTF-8": (packed(("blink \u00e9.ino", b"")), ["blink \u00e9.ino"]),
    "in UTF-8 without its flag": (unflagged(packed(("blink \u00e9.ino", b""))), ["blink \u00e9.ino"]),
    "in the letters of the first PC": (
        unflagged(packed(("\u00e9", b""))).replace("\u00e9".encode(), b"\xe9\x80"),
        ["\u0398\u00c7"],
    ),
    "at its limit of names": (
        packed(*((f"f{n}", b"") for n in range(archive.MOST_ENTRIES)), method=0),
        [f"f{n}" for n in range(archive.MOST_ENTRIES)],
    ),
    "nothing in it": (packed(), []),
}


class Archives(unittest.TestCase):
    def setUp(self) -> None:
        work = tempfile.TemporaryDirectory()
        self.addCleanup(work.cleanup)
        self.work = work.name

    def put(self, data: bytes, name: str = "lab.zip") -> str:
        path = os.path.join(self.work, name)
        with open(path, "wb") as file:
            file.write(data.rstrip(b"\0"))
            file.truncate(len(data))
        return path

    def test_each_is_refused_with_its_sentence_and_nothing_is_written(self) -> None:
        for name, (data, sentence) in REFUSED.items():
            with self.subTest(name):
                path = self.put(data)
                with self.assertRaises(archive.ArchiveFault) as caught:
                    archive.unpack(path, os.path.join(self.work, "into"))
                self.assertEqual(str(caught.exception), sentence)
                self.assertEqual(os.listdir(self.work), ["lab.zip"])

    def test_others_are_read(self) -> None:
        for name, (data, paths) in TAKEN.items():
            with self.subTest(name):
                self.assertEqual([path for path, _ in archive.read(self.put(data))], paths)
        self.assertEqual(dict(archive.read(self.put(ONE)))["diagram.json"], DIAGRAM)

    def test_every_cut_and_every_changed_byte_is_read_or_refused(self) -> None:
        for at in range(len(ONE)):
            for data in (ONE[:at], ONE[:at] + bytes([ONE[at] ^ 0x55]) + ONE[at + 1 :]):
                try:
                    for path, _ in archive.read_open(io.BytesIO(data)):
                        self.assertNotIn("..", path.split("/"))
                except archive.ArchiveFault:
                    pass

    def test_the_project_is_the_folder_of_the_diagram(self) -> None:
        cases = [
            (("diagram.json", "sketch.ino"), "lab", ["diagram.json", "sketch.ino"]),
            (("blink/diagram.json", "blink/src/a.c", "README"), "blink", ["diagram.json", "src/a.c"]),
            (
                ("a/b/diagram.json", "a/diagram.json", "__MACOSX/a/._diagram.json"),
                "a",
                ["b/diagram.json", "diagram.json"],
            ),
            (("blink/blink.ino", "__MACOSX/x"), "blink", ["blink.ino"]),
            (("a.ino", "b/c.h"), "lab", ["a.ino", "b/c.h"]),
        ]
        for n, (names, project, kept) in enumerate(cases):
            folder = archive.unpack(
                self.put(packed(*((name, b"x") for name in names))), os.path.join(self.work, str(n))
            )
            self.assertEqual(os.path.basename(folder), project)
            found = [
                os.path.relpath(os.path.join(at, name), folder) for at, _, files in os.walk(folder) for name in files
            ]
            self.assertEqual(sorted(found), kept)

    def test_what_is_an_archive(self) -> None:
        self.assertTrue(archive.is_archive(self.put(ONE, "A.ZIP")))
        self.assertFalse(archive.is_archive(self.put(ONE, "A.hex")))
        self.assertFalse(archive.is_archive(os.path.join(self.work, "none.zip")))


if __name__ == "__main__":
    unittest.main()

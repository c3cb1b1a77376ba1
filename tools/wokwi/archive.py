"""A project in a ZIP archive, as Wokwi's editor saves one: reads it with limits, and finds the project's folder in it.

tools/web/page/archive.js reads archives by the same rules and with the same sentences."""

import os
import re
import struct
import zipfile
import zlib
from typing import BinaryIO

MOST_BYTES = 64 << 20  # of the archive, and of all its files unpacked
MOST_ENTRIES = 1000  # files and folders
MOST_NAME = 255  # bytes of a file's name with its path
MOST_LIST = 1 << 20  # bytes of the archive's list of its entries
ENCRYPTED = 1  # a flag of an entry
END, END_ROOM = b"PK\5\6", 22 + 0xFFFF  # the mark of an archive's end, and how long its end may be
UTF8 = 0x800  # a flag of an entry: its name is UTF-8
PLAIN, DEFLATED = 0, 8  # the methods that are read
KIND, REGULAR, FOLDER, LINK = 0o170000, 0o100000, 0o040000, 0o120000  # what a mode of Unix says that an entry is


class ArchiveFault(Exception):
    """Why an archive is not taken, as a sentence."""


def shown(name: str) -> str:
    """A name of an archive as it may be shown: control characters are `?`, and a long name is cut."""
    text = re.sub("[\x00-\x1f\x7f-\x9f\ud800-\udfff]", "?", name)
    return text if len(text) <= 80 else text[:80] + ".."


def is_archive(path: str) -> bool:
    """Whether a path is that of a file whose name ends with .zip."""
    return path.lower().endswith(".zip") and os.path.isfile(path)


def name_of(entry: zipfile.ZipInfo) -> str:
    """The entry's name. One without the flag of UTF-8 is UTF-8 all the same where it can be, as macOS writes it."""
    name = entry.orig_filename
    if entry.flag_bits & UTF8:
        return name
    try:
        return name.encode("cp437").decode("utf-8")
    except UnicodeError:
        return name


def path_of(name: str) -> str:
    """The path in the archive's folder, "" for that folder itself. Raises ArchiveFault for a name that leads out of it."""
    path = name.replace("\\", "/")
    steps = path.split("/")
    if path.startswith("/") or re.match("[A-Za-z]:", path) or ".." in steps:
        raise ArchiveFault(f"{shown(name)}: this name leads out of the archive's folder")
    if "\0" in name or not name:
        raise ArchiveFault(f"{shown(name)}: this is no name of a file")
    if len(path.encode("utf-8", "replace")) > MOST_NAME:
        raise ArchiveFault(f"{shown(name)}: this name has more than {MOST_NAME} bytes")
    return "/".join(step for step in steps if step not in ("", "."))


def kind_of(entry: zipfile.ZipInfo, name: str) -> int:
    """REGULAR or FOLDER. Raises ArchiveFault for a link, and for what is neither."""
    kind = entry.external_attr >> 16 & KIND
    if kind == LINK:
        raise ArchiveFault(f"{shown(name)}: this is a link, and only files are taken")
    if kind not in (0, REGULAR, FOLDER):
        raise ArchiveFault(f"{shown(name)}: this is neither a file nor a folder")
    return FOLDER if name.endswith(("/", "\\")) or kind == FOLDER else REGULAR


def unpacked(archive: zipfile.ZipFile, entry: zipfile.ZipInfo, name: str, room: int) -> bytes:
    """An entry's bytes, at most `room`. Raises ArchiveFault where it is damaged, has more, or is packed in another way."""
    if entry.flag_bits & ENCRYPTED:
        raise ArchiveFault(f"{shown(name)}: this file is encrypted")
    if entry.compress_type not in (PLAIN, DEFLATED):
        raise ArchiveFault(
            f"{shown(name)}: this file is packed by method {entry.compress_type}, and only 0 and 8 are read"
        )
    if entry.file_size > room:
        raise ArchiveFault(f"unpacked, the archive has more than {MOST_BYTES >> 20} MiB")
    try:
        with archive.open(entry) as file:
            data = file.read(room + 1)
    except (
        zipfile.BadZipFile,
        zlib.error,
        EOFError,
        OSError,
        RuntimeError,
        NotImplementedError,
        ValueError,
        struct.error,
    ):
        raise ArchiveFault(f"{shown(name)}: this file is damaged") from None
    if len(data) != entry.file_size:
        raise ArchiveFault(f"{shown(name)}: this file is damaged")
    return data


def read(path: str) -> list[tuple[str, bytes]]:
    """The files of an archive, each with its path in the archive's folder. Nothing is written.

    Raises ArchiveFault for what is no archive, is damaged, is too large, or has a name that leads out of its folder."""
    try:
        if os.path.getsize(path) > MOST_BYTES:
            raise ArchiveFault(f"the archive has more than {MOST_BYTES >> 20} MiB")
        with open(path, "rb") as file:
            return read_open(file)
    except OSError as fault:
        raise ArchiveFault(str(fault.strerror)) from None


def look_at_end(file: BinaryIO) -> None:
    """Raises ArchiveFault where the archive's end is missing, or says that there are too many entries to look at."""
    start = file.seek(max(0, file.seek(0, os.SEEK_END) - END_ROOM))
    tail = file.read()
    at = tail.rfind(END, 0, max(0, len(tail) - 22 + len(END)))
    if at < 0:
        raise ArchiveFault("it is no ZIP archive")
    count, size, offset = struct.unpack_from("<HII", tail, at + 10)
    if count == 0xFFFF or 0xFFFFFFFF in (size, offset):
        raise ArchiveFault("it is a ZIP64 archive, which is not read")
    if count > MOST_ENTRIES:
        raise ArchiveFault(f"the archive has {count} files and folders, and {MOST_ENTRIES} is the most")
    if size > MOST_LIST:
        raise ArchiveFault(f"the archive's list of its files has more than {MOST_LIST >> 20} MiB")
    if start + at < size + offset:
        raise ArchiveFault("the archive is damaged")


def read_open(file: BinaryIO) -> list[tuple[str, bytes]]:
    """As `read`, of a file that is open."""
    look_at_end(file)
    try:
        archive = zipfile.ZipFile(file)
    except (zipfile.BadZipFile, OSError, NotImplementedError, ValueError, struct.error):
        raise ArchiveFault("the archive is damaged") from None
    with archive:
        files: dict[str, bytes] = {}
        folders: set[str] = set()
        room = MOST_BYTES
        for entry in archive.infolist():
            name = name_of(entry)
            at, kind = path_of(name), kind_of(entry, name)
            above = ["/".join(at.split("/")[:n]) for n in range(1, at.count("/") + 1)]
            folders.update(above if kind == REGULAR else [*above, at])
            if kind == REGULAR:
                if not at:
                    raise ArchiveFault(f"{shown(name)}: this is no name of a file")
                if at in files:
                    raise ArchiveFault(f"{shown(name)}: this file is there twice")
                files[at] = unpacked(archive, entry, name, room)
                room -= len(files[at])
    both = next((it for it in files if it in folders), None)
    if both is not None:
        raise ArchiveFault(f"{shown(both)}: this is a file and a folder")
    return list(files.items())


def is_hidden(path: str) -> bool:
    """Whether a path is of what an archive has beside the project: names that begin with a dot, and what macOS adds."""
    return any(step.startswith(".") or step in ("__MACOSX", "node_modules") for step in path.split("/"))


def base_of(paths: list[str]) -> str:
    """The project's folder among these paths, "" or ending with "/": that of the least deep diagram.json, else the one that has all."""
    kept = [path for path in paths if not is_hidden(path)]
    diagrams = sorted(
        (path for path in kept if path.split("/")[-1] == "diagram.json"), key=lambda path: (path.count("/"), path)
    )
    if diagrams:
        return diagrams[0][: -len("diagram.json")]
    tops = {path.split("/")[0] + "/" if "/" in path else "" for path in kept}
    return tops.pop() if len(tops) == 1 else ""


def unpack(path: str, into: str) -> str:
    """Writes the project of an archive below the folder `into`, and returns the project's folder. It has the name of its folder in
    the archive, else the archive's own. Raises ArchiveFault, before anything is written, and OSError."""
    files = read(path)
    base = base_of([at for at, _ in files])
    folder = os.path.join(into, base.rstrip("/").split("/")[-1] or os.path.splitext(os.path.basename(path))[0])
    os.makedirs(folder)
    for at, data in files:
        if at.startswith(base) and not any(step == "__MACOSX" for step in at.split("/")):
            made = os.path.join(folder, at[len(base) :])
            os.makedirs(os.path.dirname(made), exist_ok=True)
            with open(made, "wb") as file:
                file.write(data)
    return folder

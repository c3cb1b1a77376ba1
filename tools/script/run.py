#!/usr/bin/env python3
"""Runs the program in the caller's place:  run.py ROOT KIND PROGRAM WORDS

Standard input and output are the caller's, and so is the status. On standard error come what the program says, with the
control characters of names as `?`, and then sentences of tell.py. A report is asked for where the words ask for none."""
import os
import signal
import subprocess
import sys
import threading

import pages
import tell
import words

# until the program runs, Ctrl-C ends this as it ends any program
if signal.getsignal(signal.SIGINT) is signal.default_int_handler:
    signal.signal(signal.SIGINT, signal.SIG_DFL)
ENDING = (signal.SIGINT, signal.SIGTERM, signal.SIGHUP)
SLOW_US = 100_000


def say(text):
    try:
        os.write(2, b"mudflatjar: " + tell.controls_hidden(os.fsencode(text)) + b"\n")
    except OSError:
        pass


class Pipe:
    """What a child writes into a pipe, read to its end."""

    def __init__(self):
        self.reads, self.writes = os.pipe()
        os.set_inheritable(self.writes, True)
        self.bytes = b""

    def read(self):
        os.close(self.writes)
        self.thread = threading.Thread(target=self.drain, daemon=True)
        self.thread.start()

    def drain(self):
        while True:
            more = os.read(self.reads, 65536)
            if not more:
                return
            self.bytes += more

    def whole(self):
        self.thread.join()
        return self.bytes


def with_report(given, number):
    """The words with the report going to the descriptor: where they name none, or `-`. Whether it was `-`, or None
    where the words stay as they are."""
    end = words.end_of_options(given)
    if given[0] not in pages.commands() or "--report" not in pages.commands()[given[0]].options or not os.path.exists("/dev/fd"):
        return given, None
    named = [it for it in range(1, end) if given[it] == "--report" or given[it].startswith("--report=")]
    if not named:
        return [given[0], f"--report=/dev/fd/{number}", *given[1:]], False
    at = named[0]
    if len(named) == 1 and given[at] == "--report=-":
        return [*given[:at], f"--report=/dev/fd/{number}", *given[at + 1 :]], True
    if len(named) == 1 and given[at : at + 2] == ["--report", "-"] and at + 1 < end:
        return [*given[:at], f"--report=/dev/fd/{number}", *given[at + 2 :]], True
    return given, None


def start(program, given, said):
    """The child, which gets all descriptors of the caller, and the signals that came. One that would end us ends it."""
    children, ended_by = [], []

    def end(number, _):
        ended_by.append(number)
        for child in children:
            child.terminate()

    for it in ENDING:
        if signal.getsignal(it) != signal.SIG_IGN:
            signal.signal(it, end)
    children.append(subprocess.Popen([program, *given], stderr=said.writes, close_fds=False, restore_signals=False))
    if ended_by:
        children[0].terminate()
    return children[0], ended_by


def end_by(number):
    """Ends as a program that the signal ended."""
    if number != signal.SIGKILL:
        signal.signal(number, signal.SIG_DFL)
    os.kill(os.getpid(), number)
    sys.exit(128 + number)


def write_out(text):
    """Writes on standard output; whether that went well."""
    try:
        while text:
            text = text[os.write(1, text) :]
        return True
    except OSError:
        return False


def slow(given):
    options, _ = words.parts(given)
    us = (options.get("--us") or [""])[0] or ""
    return us.isdigit() and SLOW_US < int(us) <= words.LONGEST


def after(status, said, report, given):
    """The sentences after a run."""
    line = said.decode("utf-8", "surrogateescape").rstrip("\n")
    if status == 0 and report:
        yield from tell.left_out(report.decode("utf-8", "replace"), words.firmware(given))
        for folder in words.folders(given) if given[0] == "run" else ():
            yield from tell.of_chips(folder)
    elif status == 2 and line == "words not understood":
        yield from words.sentences(given)
    elif status == 3:
        yield from tell.refused(line)
    elif status in (4, 5):
        yield from tell.unread(given)
        yield from tell.missing(line)
    elif status == 6:
        yield from tell.unwritten(given)


def report_of(given):
    """The report that the words name, if it is a file."""
    options, _ = words.parts(given)
    file = (options.get("--report") or [None])[0]
    if given[0] in ("run", "replay") and file and os.path.isfile(file):
        with open(file, "rb") as it:
            return it.read(1_048_576)
    return b""


def main(root, kind, program, *given):
    asked = [*given]
    given = words.with_micros(asked)
    if kind == "hidden":
        os.execv(sys.executable, [sys.executable, "-B", f"{root}/tools/script/unproved.py", "--run", *given])
    for it in words.overwrites(given):
        say(f"warning: {it}")
    if kind == "tried":
        say("this program is not proved: run the same words without --try for one that is")
    if kind == "checked":
        say("this program is not proved and is some 500 times slower than the proved one" + (": of so long a run, minutes or hours" if slow(given) else ""))
    report, said = Pipe(), Pipe()
    told, is_shown = with_report(given, report.writes)
    child, ended_by = start(program, told, said)
    report.read()
    said.read()
    status = child.wait()
    line, text = said.whole(), report.whole()
    if is_shown and text and not write_out(text) and status == 0:
        status, line = 6, b"write failed\n"
    try:
        os.write(2, tell.controls_hidden(line[:-1], lines=not 2 <= status <= 7) + line[-1:] if line else b"")
    except OSError:
        pass
    if ended_by:
        end_by(ended_by[0])
    if status < 0:
        end_by(-status)
    for it in after(status, line, report_of(given) if is_shown is None else text, asked if status == 2 else given):
        say(it)
    return status


if __name__ == "__main__":
    sys.exit(main(*sys.argv[1:]))

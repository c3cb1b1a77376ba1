#!/usr/bin/env python3
"""Runs a Python file of tools/ with the words as they are:  tool.py FILE COMMAND WORDS

A signal that ends this ends all that the file began."""
import contextlib
import os
import signal
import subprocess
import sys

import run

OLDEST = (3, 11)  # tomllib
GRACE = 5  # seconds


def too_old(file, version):
    """What is said where Python is older than a tool needs. The checks look themselves."""
    if version[:2] >= OLDEST or os.path.samefile(os.path.dirname(file), os.path.dirname(__file__)):
        return None
    return f"this needs Python {'.'.join(map(str, OLDEST))} or later, and python3 is {'.'.join(map(str, version[:2]))}"


def main(file, *call):
    fault = too_old(file, sys.version_info)
    if fault:
        run.say(fault)
        return 1
    begun, ended_by = [], []

    def tell(number):
        for child in begun:
            with contextlib.suppress(ProcessLookupError):
                os.killpg(child.pid, number)

    def end(number, _):
        ended_by.append(number)
        tell(signal.SIGINT)  # by which the tools remove what they made for themselves
        signal.alarm(GRACE)

    for it in run.ENDING:
        if signal.getsignal(it) != signal.SIG_IGN:
            signal.signal(it, end)
    signal.signal(signal.SIGALRM, lambda *_: tell(signal.SIGKILL))
    whole = [sys.executable, "-B", file, *call[1:]]
    begun.append(subprocess.Popen(whole, close_fds=False, start_new_session=True, preexec_fn=lambda: signal.signal(signal.SIGINT, signal.SIG_DFL)))
    if ended_by:
        tell(signal.SIGINT)
    status = begun[0].wait()
    if ended_by:
        tell(signal.SIGKILL)
        run.end_by(ended_by[0])
    if status < 0:
        run.end_by(-status)
    return status


if __name__ == "__main__":
    sys.exit(main(*sys.argv[1:]))

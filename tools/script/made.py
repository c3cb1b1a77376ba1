"""What builds a program has in common: the folder in which it is kept, its sources' sum, and work that ends with us."""
import contextlib
import fcntl
import os
import pathlib
import shutil
import signal
import subprocess
import sys
import time

import words

ROOT = pathlib.Path(__file__).resolve().parents[2]
CRATE = ROOT / "crates/sim_main"
SOURCES = ROOT / "tools/script/sources.sh"

# Ctrl-C ends us as it ends any program, where work of ours does not say otherwise.
if signal.getsignal(signal.SIGINT) is signal.default_int_handler:
    signal.signal(signal.SIGINT, signal.SIG_DFL)


def say(text):
    print(f"mudflatjar: {text}", file=sys.stderr, flush=True)


def stop(text, status=1):
    say(text)
    sys.exit(status)


def sources(*asked):
    return subprocess.run([str(SOURCES), *asked], stdout=subprocess.PIPE, stdin=subprocess.DEVNULL, check=True).stdout.decode().strip()


def kit():
    """The toolchain's one-line identity. Ends with a sentence where there is none."""
    if not shutil.which("rt"):
        also = "; ./mudflatjar --released runs the program in dist/" if os.access(ROOT / "dist/mudflatjar", os.X_OK) else ""
        stop(f"the toolchain is not there: no rt is on the path. README.md, \"Build it yourself\", says where it comes from{also}")
    ran = subprocess.run(["rt", "version"], stdout=subprocess.PIPE, stderr=subprocess.DEVNULL, stdin=subprocess.DEVNULL)
    return ran.stdout.decode("utf-8", "replace").strip() or "an unknown kit"


def commit():
    """The commit at hand, or nothing where there is no git."""
    if not shutil.which("git"):
        return ""
    ran = subprocess.run(["git", "-C", str(ROOT), "-c", "safe.directory=*", "rev-parse", "--verify", "-q", "HEAD"], stdout=subprocess.PIPE, stderr=subprocess.DEVNULL, stdin=subprocess.DEVNULL)
    return ran.stdout.decode().strip()


@contextlib.contextmanager
def alone(kept, what):
    """Holds a lock in the folder: a second call waits for the first. Gives whether it had to."""
    try:
        os.makedirs(kept, exist_ok=True)
        lock = open(f"{kept}/{what}.lock", "w")
    except OSError as error:
        stop(f"{kept}, where the program is to be kept: {error.strerror}")
    with lock:
        has_waited = False
        try:
            fcntl.flock(lock, fcntl.LOCK_EX | fcntl.LOCK_NB)
        except BlockingIOError:
            has_waited = True
            say("another call is at this work; waiting for it")
            fcntl.flock(lock, fcntl.LOCK_EX)
        yield has_waited


def is_fresh(program):
    """Whether the program was made of the sources as they are."""
    try:
        with open(f"{program}.made", encoding="utf-8") as it:
            return os.access(program, os.X_OK) and f"sources {sources('sum')}\n" in it
    except OSError:
        return False


class Stamp:
    """The sum of the sources before the work, and the time at which it was taken."""

    def __init__(self):
        self.time, self.sum = time.time(), sources("sum")

    def write(self, program, made_from, **more):
        """Puts the program in its place in one move, with the file that says of what it was made. A program that runs goes on."""
        if sources("sum") != self.sum:
            say("sources changed while the program was made, so the next call makes it again")
        new = f"{program}.new"
        if made_from:
            shutil.copyfile(made_from, new)
            os.chmod(new, 0o755)
            os.replace(new, program)
        with open(new, "w", encoding="utf-8") as it:
            it.write("".join(f"{name} {value}\n" for name, value in {"sources": self.sum, **more}.items() if value))
        os.utime(new, (self.time, self.time))
        os.replace(new, f"{program}.made")


def stop_on_mistakes(call):
    """Ends before the work, with the program's own line and status, where the program would not understand the words of
    the call: `mudflatjar --built COMMAND WORDS`."""
    if len(call) > 2 and words.are_wrong(call[2:]):
        print("words not understood", file=sys.stderr)
        for it in words.sentences(call[2:]):
            say(it)
        sys.exit(2)


def go_on(call):
    """Runs the call in the place of this process."""
    if call:
        os.execv(call[0], call)


class Work:
    """A command with its output in a log. It and all that it began end where we are ended; `left` says what stays then."""

    left = ""

    def __init__(self, call, log, **how):
        self.log = open(log, "ab")
        self.child = subprocess.Popen(call, stdin=subprocess.DEVNULL, stdout=self.log, stderr=subprocess.STDOUT, start_new_session=True, **how)
        self.before = {it: signal.signal(it, self.ended) for it in (signal.SIGINT, signal.SIGTERM, signal.SIGHUP) if signal.getsignal(it) != signal.SIG_IGN}

    def end(self):
        for number in (signal.SIGTERM, signal.SIGKILL):
            with contextlib.suppress(ProcessLookupError):
                os.killpg(self.child.pid, number)
            with contextlib.suppress(subprocess.TimeoutExpired):
                self.child.wait(5)

    def ended(self, number, _):
        self.end()
        say(f"stopped{self.left}")
        signal.signal(number, signal.SIG_DFL)
        os.kill(os.getpid(), number)

    def is_running(self, seconds):
        """Waits for so long, and says whether it still runs."""
        try:
            self.child.wait(seconds)
            return False
        except subprocess.TimeoutExpired:
            return True

    def status(self):
        # a wait without an end would hold the lock that `ended` needs
        while self.is_running(1):
            pass
        status = self.child.returncode
        for it, was in self.before.items():
            signal.signal(it, was)
        self.log.close()
        return status


def adopt(program, wanted):
    """Takes the program of a gate, of sources with that sum, as the one that ./mudflatjar runs."""
    stamp = Stamp()
    if stamp.sum == wanted:
        os.makedirs(ROOT / "target", exist_ok=True)
        stamp.write(str(ROOT / "target/mudflatjar"), program, kit=kit(), commit=commit())


def note_gate(wanted):
    """Notes that the gate passed on it."""
    file = ROOT / "target/mudflatjar.made"
    text, seen = file.read_text(encoding="utf-8"), file.stat().st_mtime
    if f"sources {wanted}\n" in text:
        file.write_text("".join(it for it in text.splitlines(True) if not it.startswith("gate ")) + f"gate {wanted}\n", encoding="utf-8")
        os.utime(file, (seen, seen))


if __name__ == "__main__":
    if sys.argv[1:2] == ["adopt"] and len(sys.argv) == 4:
        adopt(*sys.argv[2:])
    elif sys.argv[1:2] == ["gate"] and len(sys.argv) == 3:
        note_gate(sys.argv[2])
    else:
        sys.exit("made.py adopt PROGRAM SUM, made.py gate SUM: for .ci/run")

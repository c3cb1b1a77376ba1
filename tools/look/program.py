"""Runs of the program. PROGRAM names it; else it is the built one, target/mudflatjar, or ./mudflatjar, which builds it."""
import os
import subprocess
import sys
import tempfile
import threading

HERE = os.path.dirname(os.path.abspath(__file__))


class Refused(Exception):
    """The program ended with another status than 0, and has said why on standard error."""

    def __init__(self, status):
        super().__init__(status)
        self.status = status


def program():
    root = os.path.join(HERE, "..", "..")
    built = os.path.join(root, "target", "mudflatjar")
    return os.environ.get("PROGRAM") or (built if os.access(built, os.X_OK) else os.path.join(root, "mudflatjar"))


def run(folder, us, script=None, read=None, quiet=False, budget=None):
    """(what was sent, the report, what `read` made of the wave). `read` gets the wave as a stream while the program writes it."""
    with tempfile.TemporaryDirectory() as box:
        words = [program(), "run", "--us", str(us), "--report", os.path.join(box, "report")]
        words += ["--script", script] if script else []
        words += ["--budget", str(budget)] if budget else []
        if read is None:
            return *finished(words, folder, box, quiet), None
        receiving, sending = os.pipe()
        answer = []
        reader = threading.Thread(target=lambda: answer.append(read_all(receiving, read)))
        reader.start()
        try:
            sent, report = finished(words + ["--vcd", f"/dev/fd/{sending}"], folder, box, quiet, sending)
        finally:
            reader.join()
        if isinstance(answer[0], Exception):
            raise answer[0]
        return sent, report, answer[0]


def read_all(receiving, read):
    with os.fdopen(receiving, "rb", buffering=1 << 20) as stream:
        try:
            return read(stream)
        except Exception as error:              # told to who asked for the run; the rest is read so that the program ends
            while stream.read(1 << 20):
                pass
            return error


def finished(words, folder, box, quiet, pipe=None):
    """Waits for the program; `pipe` is the end of a pipe that it is handed, and that is closed here."""
    try:
        child = subprocess.Popen([*words, "--", folder], stdout=subprocess.PIPE, stderr=subprocess.DEVNULL if quiet else None,
                                 pass_fds=() if pipe is None else (pipe,))
    except OSError as error:
        sys.exit(f"look: {words[0]}: {error.strerror} (PROGRAM names the program)")
    finally:
        if pipe is not None:
            os.close(pipe)
    sent, _ = child.communicate()
    if child.returncode:
        raise Refused(child.returncode)
    with open(os.path.join(box, "report"), encoding="ascii", errors="replace") as file:
        return sent, file.read()


class ShorterRuns:
    """Reports of shorter runs. A run that is shorter has the same beginning, so its report is the state at its end."""

    def __init__(self, folder, script, most, budget=None):
        self.folder, self.script, self.left, self.known, self.budget = folder, script, most, {}, budget

    def report(self, us):
        """The report after `us` microseconds; None where no run is left."""
        return self.both(us)[1]

    def sent(self, us):
        """How many bytes were sent after `us` microseconds; None where no run is left."""
        sent = self.both(us)[0]
        return None if sent is None else len(sent)

    def both(self, us):
        if us not in self.known:
            if self.left == 0:
                return None, None
            self.left -= 1
            self.known[us] = run(self.folder, us, self.script, quiet=True, budget=self.budget)[:2]
        return self.known[us]

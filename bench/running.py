"""One run of the program, with what it cost. Both scripts of this folder use it; it needs Python's standard library alone."""

import os
import re
import signal
import subprocess
import tempfile
import threading

HERE = os.path.dirname(os.path.abspath(__file__))
PROGRAM = os.path.join(os.path.dirname(HERE), "parcub")
STATUS = {0: "SAFE", 1: "UNSAFE", 2: "UNSAFE WITH CRASHES", 3: "UNKNOWN"}


class Run:
    """What a run answered: its status, its text, its processor seconds and its greatest memory in bytes."""

    def __init__(self, status, text, seconds, memory):
        self.status = status
        self.text = text
        self.seconds = seconds
        self.memory = memory

    def verdict(self):
        """The verdict, or why there is none."""
        if self.status is None:
            return "over the time limit"
        if self.status == 3:
            return self.text.split("\n", 1)[0]
        return STATUS.get(self.status, "status %d: %s" % (self.status, self.text.strip()))

    def size(self):
        """The cubes of a certificate, the steps of a trace, or the nodes of a journal, with the word for them."""
        if self.status == 0:
            found = re.search(r"^cubes (\d+)$", self.text, re.M)
            return "%s cubes" % found.group(1) if found else ""
        if self.status in (1, 2):
            return "%d steps" % len(re.findall(r"^step ", self.text, re.M))
        if self.status == 3:
            return "%d nodes" % len(re.findall(r"^(?:root|new) ", self.text, re.M))
        return ""


def run(program, words, limit):
    """Runs the program on the words. Where it takes longer than the limit in seconds, it is ended and has no status."""
    with tempfile.TemporaryFile() as out:
        process = subprocess.Popen([program] + words, stdout=out, stderr=subprocess.DEVNULL, start_new_session=True)
        late = threading.Event()

        def end():
            late.set()
            os.killpg(process.pid, signal.SIGKILL)

        timer = threading.Timer(limit, end)
        timer.start()
        _, waited, usage = os.wait4(process.pid, 0)
        timer.cancel()
        process.returncode = os.waitstatus_to_exitcode(waited)
        out.seek(0)
        text = out.read().decode("ascii", "replace")
    status = None if late.is_set() else process.returncode
    return Run(status, text, usage.ru_utime + usage.ru_stime, usage.ru_maxrss * 1024)


def make_ready(program, example):
    """A first run that is not measured: ./parcub builds the program where it is missing."""
    status = subprocess.run([program, "print", example], stdout=subprocess.DEVNULL).returncode
    if status != 0:
        raise SystemExit("%s print %s ends with status %d" % (program, example, status))

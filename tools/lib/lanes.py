"""Runs checks side by side, each once memory has room for it, and for no longer than it may take.

Beside `rt ci`, which plans no memory where RT_JOBS is set, the lanes are gentle: one check at a time, of the lowest priority, which
gives way where memory runs short. Else as many run as there are processors, and where memory runs short the youngest gives way.
"""
import contextlib
import os
import resource
import signal
import subprocess
import tempfile
import threading
import time
from concurrent.futures import CancelledError
from dataclasses import dataclass

import kit

# So much memory is free when a check begins, which may come to hold most of it, and so much while checks run, in bytes.
ROOM_BYTES = 5_000_000_000
LEAST_BYTES = 1_000_000_000
# So often memory is looked at, in seconds.
BLINK = 1.0


@dataclass(eq=False)
class Run:
    """A run of a check."""

    process: object
    ended: str = ""  # why it was ended: for memory, or too late
    status: int = 0
    seconds: float = 0.0  # of processor
    peak: int = 0  # bytes
    text: str = ""

    def end(self, why):
        self.ended = why
        # (not by Popen's own way, which takes the status that is waited for)
        with contextlib.suppress(ProcessLookupError):
            os.kill(self.process.pid, signal.SIGKILL)


class Lanes:
    """What checks run, the youngest last, each gentle that begins while `is_gentle` holds. Once closed, they are ended, and no other
    begins: who asks for one is cancelled."""

    def __init__(self, is_gentle=False):
        self.is_gentle, self.is_closed, self.running, self.changed = is_gentle, False, [], threading.Condition()
        threading.Thread(target=self.keep, daemon=True).start()

    def close(self):
        with self.changed:
            self.is_closed = True
            for it in self.running:
                it.end("closed")
            self.changed.notify_all()

    def keep(self):
        """Ends the youngest check where memory runs short, but for the last one that is not gentle."""
        while not self.is_closed:
            time.sleep(BLINK)
            with self.changed:
                self.changed.notify_all()
                living = [it for it in self.running if not it.ended]
                if len(living) > (0 if self.is_gentle else 1) and kit.free() < LEAST_BYTES:
                    living[-1].end("memory")

    def has_room(self):
        if self.is_closed or not self.running and not self.is_gentle:
            return True
        return len(self.running) < (1 if self.is_gentle else kit.lanes()) and kit.free() >= ROOM_BYTES

    def run(self, words, folder, limit):
        """Runs a check in the folder, which has so many seconds of processor. What was ended for memory is run again: as often as it
        made room for others, and once where the system ended it. The seconds are those of all its runs."""
        seconds, was_killed = 0.0, False
        while True:
            with tempfile.TemporaryFile() as said:
                run = self.run_once(words, folder, limit, said)
                said.seek(0)
                run.text = said.read().decode(errors="replace")
            if self.is_closed:
                raise CancelledError
            run.seconds = seconds = seconds + run.seconds
            by_system = run.status == -signal.SIGKILL and not run.ended
            if not (run.ended == "memory" or by_system and not was_killed):
                return run
            was_killed = was_killed or by_system

    def run_once(self, words, folder, limit, said):
        how = {"cwd": folder, "stdin": subprocess.DEVNULL, "stdout": said, "stderr": subprocess.STDOUT}
        with self.changed:
            self.changed.wait_for(self.has_room)
            if self.is_closed:
                raise CancelledError
            run = Run(subprocess.Popen([*(["nice", "-n", "19"] if self.is_gentle else []), *words], **how))
            self.running.append(run)
        resource.prlimit(run.process.pid, resource.RLIMIT_CPU, (int(limit), int(limit) + 5))
        _, status, usage = os.wait4(run.process.pid, 0)
        with self.changed:
            self.running.remove(run)
            self.changed.notify_all()
        run.status = run.process.returncode = os.waitstatus_to_exitcode(status)
        run.seconds, run.peak = usage.ru_utime + usage.ru_stime, usage.ru_maxrss * 1024
        run.ended = "late" if run.status == -signal.SIGXCPU else run.ended
        return run

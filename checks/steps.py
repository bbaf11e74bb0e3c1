"""How many steps a command takes, as its `--most-work` tells it, and how long a step is. Used by hostile_documents.py and everyday_work.py."""
import os
import re
import resource
import subprocess
import tempfile

LEAST, MOST = 1000, 1000000000
REFUSED = re.compile(r"^work 1 TooMuch$", re.M)


class Run:
    """What a run of the program took, and what it told."""

    def __init__(self, program, words, folder, seconds):
        def bounded():
            resource.setrlimit(resource.RLIMIT_CPU, (seconds, seconds))
            resource.setrlimit(resource.RLIMIT_AS, (2 << 30, 2 << 30))

        with tempfile.TemporaryFile() as told:
            ran = subprocess.Popen([program, *words], cwd=folder, stdout=subprocess.DEVNULL, stderr=told, preexec_fn=bounded)
            _, status, used = os.wait4(ran.pid, 0)
            ran.returncode = status
            told.seek(0)
            self.told = told.read().decode(errors="replace").strip()
        self.seconds = used.ru_utime + used.ru_stime
        self.megabytes = used.ru_maxrss / 1024
        self.ended = os.WIFEXITED(status)
        self.refused = bool(REFUSED.search(self.told))


def run(program, words, folder, most=None, seconds=20):
    """Runs a command, with so many steps where a number is given."""
    return Run(program, words + (["--most-work", str(most)] if most else []), folder, seconds)


def least_steps(program, words, folder, most=MOST, part=0.0):
    """The fewest steps by which a command isn't refused for them, at most by so great a part of it too many; none where `most` steps don't do."""
    if run(program, words, folder, most).refused:
        return None
    low, high = LEAST - 1, most
    while high - low > max(1, part * high):
        middle = max(LEAST, (low + high) // 2 if high < 4 * low else int((low * high) ** 0.5))
        if run(program, words, folder, middle).refused:
            low = middle
        else:
            high = middle
    return high

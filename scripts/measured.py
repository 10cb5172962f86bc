"""Runs commands, and tells how each ended and what it took: the seconds of processor, and the most memory.

    with measured.Runner() as runner:
        ran = runner.run([program, "copy", *words], output=path)
        print(ran.status, ran.seconds, ran.peak)
"""

import json
import os
import shutil
import subprocess
import sys
from dataclasses import dataclass

# Runs the words of each line, and answers with the status, the seconds of processor and the peak of memory. A process
# begins with the peak of the one that starts it, so this one is small, and starts the command by itself: each module
# that it had besides would be told of as memory of the command.
STARTER = """
import json, os, signal, sys
WRITTEN = os.O_WRONLY | os.O_CREAT | os.O_TRUNC
for line in sys.stdin:
    words, output, error, limit = json.loads(line)
    child = os.fork()
    if not child:
        try:
            for number, path, how in ((0, os.devnull, os.O_RDONLY), (1, output, WRITTEN), (2, error, WRITTEN)):
                os.dup2(os.open(path, how, 0o666), number)
            # (Python ignores these, and so would what it starts)
            for number in (signal.SIGPIPE, signal.SIGXFSZ):
                signal.signal(number, signal.SIG_DFL)
            os.execv(words[0], words)
        finally:
            os._exit(127)
    signal.signal(signal.SIGALRM, lambda *_: os.kill(child, signal.SIGKILL))
    signal.alarm(limit)
    _, status, used = os.wait4(child, 0)
    signal.alarm(0)
    told = os.waitstatus_to_exitcode(status), used.ru_utime + used.ru_stime, used.ru_maxrss * 1024
    print(json.dumps(told), flush=True)
"""


@dataclass
class Ran:
    """How a command ended, the seconds of processor that it took, and the most bytes of memory. These are no less than
    the process has that starts it, some 7 MB."""

    status: int
    seconds: float
    peak: int


class Runner:
    """The small process that starts commands. It ends where its block does."""

    def __enter__(self):
        # (without modules that a user's own settings bring, for the same reason)
        words = [sys.executable, "-I", "-S", "-c", STARTER]
        self.process = subprocess.Popen(words, stdin=subprocess.PIPE, stdout=subprocess.PIPE, text=True)
        return self

    def __exit__(self, *_):
        self.process.stdin.close()
        self.process.wait()
        self.process.stdout.close()

    def run(self, words, output=os.devnull, error=os.devnull, limit=0):
        """Runs a command without input, whose output goes to these files. It is ended after so many seconds by the
        clock, unless these are 0; the status of one that can't be run is 127."""
        asked = [shutil.which(words[0]) or words[0], *words[1:]], output, error, limit
        self.process.stdin.write(json.dumps(asked) + "\n")
        self.process.stdin.flush()
        return Ran(*json.loads(self.process.stdout.readline()))

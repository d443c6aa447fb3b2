"""Makes a list of lines that shows a difference as short as it can, in bounded time."""
import threading
import time

from cards import RESET_LINES
from programs import Program


class Tester:
    """Two programs that are brought back to their first state, by lines, before each try."""

    def __init__(self, left, right, patience):
        self.commands = (left, right)
        self.patience = patience
        self.programs = None

    def _start(self):
        self.stop()
        self.programs = [Program(command, self.patience) for command in self.commands]

    def stop(self):
        for program in self.programs or ():
            program.stop()
        self.programs = None

    def answers(self, lines):
        """The answers of both programs, each until it ends."""
        if self.programs is None:
            self._start()
        text = b"\n".join(list(RESET_LINES) + list(lines)) + b"\n"
        count = len(RESET_LINES) + len(lines)
        out = [[], []]

        def ask(side):
            program = self.programs[side]
            writer = threading.Thread(target=program.write, args=(text,), daemon=True)
            writer.start()
            for _ in range(count):
                answer = program.read()
                out[side].append(answer)
                if answer is None:
                    break
            writer.join()

        threads = [threading.Thread(target=ask, args=(side,)) for side in (0, 1)]
        for thread in threads:
            thread.start()
        for thread in threads:
            thread.join()
        if any(answers[-1] is None for answers in out):
            self.stop()
        return [answers[len(RESET_LINES):] for answers in out]

    def first_difference(self, lines):
        left, right = self.answers(lines)
        for at in range(len(lines)):
            a = left[at] if at < len(left) else None
            b = right[at] if at < len(right) else None
            if a != b or a is None:
                return at, a, b
        return None


def shrink(tester, lines, seconds):
    """Lines that show a difference at their end, and the two answers; None if the difference does not come again."""
    until = time.monotonic() + seconds
    found = tester.first_difference(lines)
    if found is None:
        return None
    lines = list(lines[:found[0] + 1])
    size = max(1, len(lines) // 2)
    while time.monotonic() < until:
        shorter = False
        at = 0
        while at < len(lines) - 1 and time.monotonic() < until:
            trial = lines[:at] + lines[at + size:] if at + size < len(lines) else lines[:at] + lines[-1:]
            again = tester.first_difference(trial)
            if again is not None:
                found = again
                lines = trial[:found[0] + 1]
                shorter = True
            else:
                at += size
        if size > 1:
            size = max(1, size // 2)
        elif not shorter:
            break
    return lines, found[1], found[2]

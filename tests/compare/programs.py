"""Two programs fed with the same lines."""
import collections
import shlex
import subprocess
import tempfile
import threading
import time


class Failure(Exception):
    """The comparison failed. The text says how."""


class Difference(Exception):
    """Two answers differ, or one is missing. `index` counts all lines sent."""

    def __init__(self, index, left, right):
        super().__init__("line %d" % index)
        self.index = index
        self.left = left
        self.right = right


LATER_PATIENCE = 60  # seconds for each answer after the first: a program may be slow to start, not to answer


class Program:
    """A program that answers one line for each line. An answer of None: it ended before."""

    def __init__(self, command, patience):
        self.command = command
        self.patience = patience
        self.errors = tempfile.TemporaryFile()
        self.process = subprocess.Popen(shlex.split(command), stdin=subprocess.PIPE, stdout=subprocess.PIPE,
                                        stderr=self.errors, bufsize=1 << 18)
        self.silent = False
        self.closed = False
        self.waiting_since = None  # for an answer
        self.writing_since = None  # to a program that reads no more
        threading.Thread(target=self._watch, daemon=True).start()

    def _watch(self):
        """Ends the program if it lets us wait too long."""
        while self.process.poll() is None:
            for since in (self.waiting_since, self.writing_since):
                if since is not None and time.monotonic() - since > self.patience:
                    self.silent = True
                    self.process.kill()
                    return
            time.sleep(0.5)

    def write(self, data):
        self.writing_since = time.monotonic()
        try:
            self.process.stdin.write(data)
            self.process.stdin.flush()
        except (BrokenPipeError, ValueError):
            pass
        self.writing_since = None

    def read(self):
        self.waiting_since = time.monotonic()
        line = self.process.stdout.readline()
        self.answered()
        return line[:-1] if line.endswith(b"\n") else None

    def answered(self):
        self.waiting_since = None
        self.patience = min(self.patience, LATER_PATIENCE)

    def close_input(self):
        try:
            self.process.stdin.close()
        except BrokenPipeError:
            pass

    def end(self):
        """Closes the input and waits. Gives the exit status."""
        self.close_input()
        self.waiting_since = time.monotonic()
        while self.process.stdout.read(1 << 16):
            pass
        status = self.process.wait()
        self.waiting_since = None
        self.closed = True
        return status

    def stop(self):
        if self.process.poll() is None:
            self.process.kill()
        self.process.wait()

    def last_words(self):
        self.errors.seek(0)
        text = self.errors.read().decode("utf-8", "replace")
        out = "no answer for %d seconds\n" % self.patience if self.silent else ""
        return out + (text if len(text) < 4000 else text[:4000] + "\n..")


class Pair:
    """The right program is asked line by line, so that its answers can steer; the left one gets the same lines in batches and is
    compared as its answers come."""

    BATCH = 64
    CHUNK = 24  # answers of so many lines fit a pipe

    def __init__(self, left, right, patience):
        self.left = Program(left, patience)
        self.right = Program(right, patience)
        self.lines = []          # all lines sent
        self.marks = [0]         # where episodes start
        self.pending = []        # not yet handed to the left program
        self.expected = collections.deque()  # the right program's answers not yet compared
        self.compared = 0
        self.answers = collections.deque()
        self.ready = threading.Condition()
        self.left_ended = False
        threading.Thread(target=self._collect, daemon=True).start()

    def _collect(self):
        while True:
            line = self.left.process.stdout.readline()
            with self.ready:
                if not line.endswith(b"\n"):
                    self.left_ended = True
                    self.ready.notify()
                    return
                self.answers.append(line[:-1])
                self.ready.notify()

    def mark(self):
        """An episode starts here."""
        self.marks.append(len(self.lines))

    def ask(self, line):
        return self.ask_all([line])[0]

    def ask_all(self, lines):
        out = []
        for start in range(0, len(lines), self.CHUNK):
            part = lines[start:start + self.CHUNK]
            text = b"\n".join(part) + b"\n"
            self.right.write(text)
            for line in part:
                answer = self.right.read()
                self.lines.append(line)
                self.expected.append(answer)
                out.append(answer)
                if answer is None:
                    self.pending.append(text)
                    self._hand_over()
                    self.settle()
                    raise Difference(len(self.lines) - 1, b"(an answer)", None)
            self.pending.append(text)
            if len(self.pending) >= self.BATCH:
                self._hand_over()
        return out

    def ask_unended(self, line):
        """The last line of all, without a line end."""
        self._hand_over()
        self.lines.append(line)
        for program in (self.right, self.left):
            program.write(line)
            program.close_input()
        self.expected.append(self.right.read())
        self.settle()

    def _hand_over(self):
        if self.pending:
            self.left.write(b"".join(self.pending))
            self.pending = []
        self._compare(wait=False)

    def settle(self):
        """Waits for all answers of the left program."""
        self._hand_over()
        self._compare(wait=True)

    def _compare(self, wait):
        while self.expected:
            with self.ready:
                while not self.answers and not self.left_ended:
                    if not wait:
                        return
                    self.left.waiting_since = time.monotonic()
                    self.ready.wait()
                self.left.answered()
                left = self.answers.popleft() if self.answers else None
            right = self.expected.popleft()
            if left is None or left != right:
                raise Difference(self.compared, left, right)
            self.compared += 1

    def end(self):
        self.settle()
        for side, program in (("left", self.left), ("right", self.right)):
            program.close_input()
        for side, program in (("left", self.left), ("right", self.right)):
            status = program.process.wait()
            if status != 0:
                raise Failure("the %s program ended with status %d\n%s" % (side, status, program.last_words()))
        if self.answers:
            raise Failure("the left program wrote lines that nobody asked for")
        if self.right.process.stdout.read(1):
            raise Failure("the right program wrote lines that nobody asked for")

    def stop(self):
        self.left.stop()
        self.right.stop()


def whole_run(command, text, patience):
    """Runs a program over a text. Gives its output lines, its exit status and what it said on the error stream."""
    done = subprocess.run(shlex.split(command), input=text, stdout=subprocess.PIPE, stderr=subprocess.PIPE, timeout=patience)
    lines = done.stdout.split(b"\n")
    if lines and lines[-1] == b"":
        lines.pop()
    else:
        lines[-1] += b" (no line end)"
    return lines, done.returncode, done.stderr.decode("utf-8", "replace")

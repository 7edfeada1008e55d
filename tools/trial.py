"""What the unproved program answers: many cases over one build, by the toolchain's trial run."""
import hashlib
import os
import pathlib
import re
import subprocess
import sys
import tempfile
from typing import NamedTuple

TOP = pathlib.Path(__file__).resolve().parent.parent


class Answer(NamedTuple):
    """The exit code of a run, and what it wrote."""

    status: int
    out: bytes
    err: bytes


def answers(cases):
    """The answer to each case, which is its words and its standard input, in their order.

    It is None where the trial run had none, as past its limit of 1 MiB of output or where the build failed; what the
    toolchain said then goes to standard error.
    """
    with tempfile.TemporaryDirectory(prefix="cases-") as folder:
        names = ["case%04d" % i for i in range(len(cases))]
        for name, (words, given) in zip(names, cases):
            pathlib.Path(folder, name).write_bytes(given)
            pathlib.Path(folder, name + ".args").write_bytes(b"".join(word + b"\n" for word in words))
        crate = TOP / "crates" / "vex_tool"
        run = subprocess.run(["rt", "try", "--cases", folder], cwd=crate, stdin=subprocess.DEVNULL, capture_output=True)
    found = [answer_in(run.stdout, run.stderr, names, i) for i in range(len(names))]
    if None in found:
        sys.stderr.buffer.write(run.stderr[-4000:])
    return found


def answer_in(out, err, names, i):
    """The answer to one case in what a trial run wrote.

    On standard output the text of each case stands after a line with its name; on standard error a line with its
    status after what the case wrote there.
    """
    end = b"\n== %s\n" % names[i + 1].encode() if i + 1 < len(names) else b""
    begun = (b"\n" + out).split(b"\n== %s\n" % names[i].encode(), 1)
    ended = re.search(rb"(?:^case=(?!%b\b).*\n)?((?:(?!case=).*\n)*)case=%b run=ended status=(\d+)" % (
        names[i].encode(), names[i].encode()), err, re.MULTILINE)
    if len(begun) < 2 or not ended:
        return None
    text = begun[1]
    if end:
        # The line end before the next name is that of the text, where there is one.
        text = (b"\n" + text).split(end, 1)[0][1:]
        text += b"\n" if text else b""
    return Answer(int(ended[2]), text, ended[1])


def key_of(words, given):
    """The name of a case's files among known answers."""
    return hashlib.sha256(b"".join(b"%d %b" % (len(word), word) for word in words) + b"\n" + given).hexdigest()


class Known:
    """A folder with a stand-in for the program: it answers what is known, and notes each call that isn't."""

    def __init__(self, folder):
        self.folder = pathlib.Path(folder)
        self.unknown = self.folder / "unknown"
        self.unknown.mkdir(parents=True)

    def write_stand_in(self, path):
        """Writes the stand-in, which is called as the program is."""
        path.write_text("#!%s\nimport sys\nsys.path.insert(0, %r)\nimport trial\ntrial.play(%r)\n" % (
            sys.executable, str(TOP / "tools"), str(self.folder)))
        path.chmod(0o755)

    def learn(self):
        """Answers the calls that were noted, in one trial run, and returns how many there were."""
        calls = sorted(self.unknown.iterdir())
        cases = []
        for call in calls:
            words, given = call.read_bytes().split(b"\n\n", 1)
            cases.append(([bytes.fromhex(word.decode()) for word in words.split(b" ")[1:]], given))
        for call, answer in zip(calls, answers(cases) if cases else []):
            if answer:
                head = b"%d %d\n" % (answer.status, len(answer.out))
                (self.folder / call.name).write_bytes(head + answer.out + answer.err)
            call.unlink()
        return len(calls)


def play(folder):
    """Answers a call in the program's place, or notes it; it then writes nothing and ends well, so that the caller
    goes on to its next call.
    """
    words, given = [os.fsencode(word) for word in sys.argv[1:]], sys.stdin.buffer.read()
    known = pathlib.Path(folder, key_of(words, given))
    if not known.exists():
        noted = b"".join(b" " + word.hex().encode() for word in words) + b"\n\n" + given
        pathlib.Path(folder, "unknown", known.name).write_bytes(noted)
        return
    head, text = known.read_bytes().split(b"\n", 1)
    status, length = map(int, head.split())
    sys.stdout.buffer.write(text[:length])
    sys.stdout.buffer.flush()
    sys.stderr.buffer.write(text[length:])
    sys.exit(status)

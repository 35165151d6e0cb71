#!/usr/bin/env python3
"""Run the program over real files and streams that fail, and compare its status and what it writes.

Among the files are a folder, a name below a file, a name that is too long for the host, and files of 1,048,576
bytes and of one more. Among the streams are a full device, a pipe whose reader is gone, and a closed descriptor.
Each run has its status, and each stream that is still read has its bytes.

    streams.py [--program PATH]

Without `--program` it runs the script `distai`, which has to pass each status on. The last line is
`N passed, M failed`.
"""

import argparse
import os
import pathlib
import signal
import subprocess
import sys
import tempfile

SCRIPT = pathlib.Path(__file__).resolve().parent.parent / "distai"

MOST = 1_048_576

TWO_FLAGS = b"""relation a
relation b
after init { a := false; b := true }
action t = { require ~a; a := true; b := false }
export t
invariant [excl] ~(a & b)
"""

REPORT = b"invariant [d1] a | b\ninvariant [d2] ~a | ~b\nFOUND\n"

BAD_WORD = b"distai: word 4: E02 value out of range\n"

FULL, GONE, CLOSED = "a full device", "a pipe without a reader", "a closed descriptor"

LONG_NAME = "n" * 300


def unreadable(name):
    return name.encode() + b": cannot be read\n"


# Words, what `out` and `err` are where they are not read here, the status, and what is read from each.
RUNS = [
    ("infer ab.ivy", {}, 0, REPORT, b""),
    ("infer ab.ivy --lits 1", {}, 1, b"NOT FOUND excl\n", b""),
    ("infer gone.ivy", {}, 3, b"", unreadable("gone.ivy")),
    ("infer folder.ivy", {}, 3, b"", unreadable("folder.ivy")),
    ("infer ab.ivy/name", {}, 3, b"", unreadable("ab.ivy/name")),
    (f"infer {LONG_NAME}", {}, 3, b"", unreadable(LONG_NAME)),
    ("infer loop.ivy", {}, 3, b"", unreadable("loop.ivy")),
    ("infer longest.ivy", {}, 0, b"FOUND\n", b""),
    ("infer too_long.ivy", {}, 2, b"", b"too_long.ivy: E44 file longer than 1048576 bytes\n"),
    ("infer /dev/zero", {}, 2, b"", b"/dev/zero: E44 file longer than 1048576 bytes\n"),
    *(
        run
        for stream in (FULL, GONE, CLOSED)
        for run in (
            ("infer ab.ivy", {"out": stream}, 4, None, b""),
            ("space ab.ivy", {"out": stream}, 4, None, b""),
            ("infer ab.ivy", {"err": stream}, 0, REPORT, None),
            ("infer ab.ivy --lits 9", {"err": stream}, 4, b"", None),
            ("infer ab.ivy --lits 9", {"out": stream}, 2, None, BAD_WORD),
            ("infer gone.ivy", {"err": stream}, 4, b"", None),
            ("infer gone.ivy", {"out": stream}, 3, None, unreadable("gone.ivy")),
            ("infer too_long.ivy", {"err": stream}, 4, b"", None),
        )
    ),
    ("infer ab.ivy", {"out": FULL, "err": FULL}, 4, None, None),
    ("infer gone.ivy", {"out": GONE, "err": GONE}, 4, None, None),
]


def write_files(folder):
    (folder / "ab.ivy").write_bytes(TWO_FLAGS)
    (folder / "folder.ivy").mkdir()
    (folder / "loop.ivy").symlink_to("loop.ivy")
    (folder / "longest.ivy").write_bytes(b"#" * MOST)
    (folder / "too_long.ivy").write_bytes(b"#" * (MOST + 1))


def descriptor(stream):
    """A descriptor that fails, to be handed to the program."""
    if stream == FULL:
        return os.open("/dev/full", os.O_WRONLY)
    if stream == GONE:
        reader, writer = os.pipe()
        os.close(reader)
        return writer
    return None


def run(program, words, streams, folder):
    """The status, and the bytes of each stream that is read."""
    given = {name: descriptor(stream) for name, stream in streams.items()}
    closed = [number for name, number in (("out", 1), ("err", 2)) if streams.get(name) == CLOSED]

    def in_child():
        # Python ignores this signal for its own sake; the program gets the host's default.
        signal.signal(signal.SIGPIPE, signal.SIG_DFL)
        for number in closed:
            os.close(number)

    pipe = subprocess.PIPE
    done = subprocess.run(
        [program, *words.split()],
        cwd=folder,
        stdin=subprocess.DEVNULL,
        stdout=pipe if given.get("out") is None else given["out"],
        stderr=pipe if given.get("err") is None else given["err"],
        preexec_fn=in_child,
        timeout=120,
    )
    for opened in given.values():
        if opened is not None:
            os.close(opened)
    return done.returncode, done.stdout, done.stderr


def main():
    parser = argparse.ArgumentParser(description=__doc__, formatter_class=argparse.RawDescriptionHelpFormatter)
    parser.add_argument("--program", default=SCRIPT, type=pathlib.Path)
    program = parser.parse_args().program.resolve()
    passed = failed = 0
    with tempfile.TemporaryDirectory() as name:
        folder = pathlib.Path(name)
        write_files(folder)
        for words, streams, status, out, err in RUNS:
            found = run(program, words, streams, folder)
            wanted = (status, out, err)
            # Nothing is read from a stream that fails.
            if all(want in (None, have) for want, have in zip(wanted, found)):
                passed += 1
            else:
                failed += 1
                print(f"FAIL {words} {streams or ''}: wanted {wanted}, got {found}")
    print(f"{passed} passed, {failed} failed")
    return 0 if passed and not failed else 1


if __name__ == "__main__":
    sys.exit(main())

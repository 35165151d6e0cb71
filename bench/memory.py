#!/usr/bin/env python3
"""Refuse memory to the program, one request after another, and compare what it answers.

For each list of words below the program is run again and again. In run number N its Nth request for memory is
refused, until a run makes fewer requests than N. The status has to be the one that the words have with ample
memory, or 5; each output has to hold a first part of its text, and the whole text where the status isn't 5. Each run
has a line that says so.

    memory.py --program PATH [--last N] [--only TEXT]
    memory.py --kit [--first N] [--last N] [--only TEXT]

With `--program` a few lines of C, built with `cc` and loaded before the program, refuse the memory. That takes
milliseconds a run. With `--kit` the kit's `rt try --fail-alloc N` does, which builds the program from its sources in
each run and takes some 20 seconds for it; it doesn't tell how many requests there are, so `--last` ends it (at 20,
if it isn't given). The last line is `N passed, M failed`.
"""

import argparse
import os
import pathlib
import subprocess
import sys
import tempfile

CRATE = pathlib.Path(__file__).resolve().parent.parent / "crates" / "distai"

# Requests are counted from 1. The last line of the note is how many there were.
REFUSER = r"""
#define _GNU_SOURCE
#include <dlfcn.h>
#include <errno.h>
#include <fcntl.h>
#include <stdio.h>
#include <stdlib.h>
#include <unistd.h>

static unsigned long requests, refused;

__attribute__((constructor)) static void begin(void) {
    const char *number = getenv("REFUSED_REQUEST");
    refused = number ? strtoul(number, 0, 10) : 0;
    requests = 0;
}

static int is_refused(void) {
    if (++requests != refused) return 0;
    errno = ENOMEM;
    return 1;
}

void *malloc(size_t size) {
    static void *(*next)(size_t);
    if (!next) next = (void *(*)(size_t))dlsym(RTLD_NEXT, "malloc");
    return is_refused() ? 0 : next(size);
}

void *realloc(void *old, size_t size) {
    static void *(*next)(void *, size_t);
    if (!next) next = (void *(*)(void *, size_t))dlsym(RTLD_NEXT, "realloc");
    return is_refused() ? 0 : next(old, size);
}

__attribute__((destructor)) static void end(void) {
    char text[32];
    const char *note = getenv("REQUESTS_NOTE");
    int file = note ? open(note, O_WRONLY | O_CREAT | O_TRUNC, 0600) : -1;
    if (file < 0) return;
    int length = snprintf(text, sizeof text, "%lu\n", requests);
    if (write(file, text, length) != length) _exit(99);
    close(file);
}
"""

TWO_FLAGS = b"""relation a
relation b
after init { a := false; b := true }
action t = { require ~a; a := true; b := false }
export t
invariant [excl] ~(a & b)
"""

LOCK = b"""type client
type server
relation link(X:client, Y:server)
relation semaphore(X:server)
after init { semaphore(W) := true; link(X,Y) := false }
action connect(x:client, y:server) = { require semaphore(y); link(x,y) := true; semaphore(y) := false }
action disconnect(x:client, y:server) = { require link(x,y); link(x,y) := false; semaphore(y) := true }
export connect
export disconnect
invariant [safety] link(X,Y) & link(Z,Y) -> X = Z
"""

FILES = {"ab.ivy": TWO_FLAGS, "lock.ivy": LOCK, "token.ivy": b"relation p q"}

COUNTS = b"""types 2
shapes 6
atoms 3
templates 34
bound client 3
bound server 2
ground 20
moves 32
"""

# Words, and the status, `out` and `err` that answer them.
ROWS = [
    ("infer ab.ivy --lits 2", 0, b"invariant [d1] a | b\ninvariant [d2] ~a | ~b\nFOUND\n", b""),
    ("infer ab.ivy --lits 1", 1, b"NOT FOUND excl\n", b""),
    ("space lock.ivy --vars client=2,server=1 --lits 2", 0, COUNTS, b""),
    ("infer lock.ivy --vars node=1", 2, b"", b"distai: word 4: E03 unknown type\n"),
    ("infer token.ivy", 2, b"", b"token.ivy:1:12: E12 unexpected token\n"),
    ("infer ab.ivy --lits 9", 2, b"", b"distai: word 4: E02 value out of range\n"),
    ("infer gone.ivy", 3, b"", b"gone.ivy: cannot be read\n"),
]


def build_refuser(folder):
    source, library = folder / "refuser.c", folder / "refuser.so"
    source.write_text(REFUSER)
    subprocess.run(["cc", "-shared", "-fPIC", "-O1", "-o", library, source, "-ldl"], check=True)
    return library


def run_program(program, library, folder, words, number):
    """The status, the two outputs, and how many requests there were."""
    note = folder / "note"
    note.unlink(missing_ok=True)
    given = {**os.environ, "LD_PRELOAD": str(library), "REFUSED_REQUEST": str(number), "REQUESTS_NOTE": str(note)}
    done = subprocess.run([program, *words.split()], cwd=folder, env=given, capture_output=True, timeout=120)
    requests = int(note.read_text()) if note.exists() else None
    return done.returncode, done.stdout, done.stderr, requests


def run_kit(folder, words, number):
    """The same by the kit, which adds lines of its own to standard error."""
    data = [part for name in FILES for part in ("--data", f"{name}={folder / name}")]
    done = subprocess.run(
        ["rt", "try", "--fail-alloc", str(number), *data, "--", *words.split()], cwd=CRATE, capture_output=True
    )
    lines = done.stderr.splitlines(keepends=True)
    kit = (b"allocations:", b"checked:", b"run=", b"rt:")
    return done.returncode, done.stdout, b"".join(line for line in lines if not line.startswith(kit)), None


def fault(row, status, out, err):
    """What is wrong with the run, or None."""
    _, wanted, out_text, err_text = row
    if status not in (wanted, 5):
        return f"status {status} is neither {wanted} nor 5"
    if not out_text.startswith(out):
        return f"out is no first part of its text: {out!r}"
    if not err_text.startswith(err):
        return f"err is no first part of its text: {err!r}"
    if status == wanted and (out, err) != (out_text, err_text):
        return f"status {status}, and {out!r} and {err!r} aren't whole"
    return None


def run_row(row, one_run, numbers):
    """Runs the row until it makes fewer requests; how many runs passed and failed."""
    passed = failed = 0
    for number in numbers:
        status, out, err, requests = one_run(row[0], number)
        ended = requests is not None and requests < number
        what = f"all {requests} requests granted" if ended else f"request {number} refused"
        wrong = "no request was seen" if requests == 0 else fault(row, status, out, err)
        if wrong is None:
            passed += 1
            parts = f"out {len(out)} of {len(row[2])} bytes, err {len(err)} of {len(row[3])}"
            print(f"{row[0]}: {what}: status {status}, {parts}")
        else:
            failed += 1
            print(f"FAIL {row[0]}: {what}: {wrong}")
        if ended:
            break
    return passed, failed


def main():
    parser = argparse.ArgumentParser(description=__doc__, formatter_class=argparse.RawDescriptionHelpFormatter)
    parser.add_argument("--program", type=pathlib.Path)
    parser.add_argument("--kit", action="store_true")
    parser.add_argument("--first", type=int, default=1)
    parser.add_argument("--last", type=int)
    parser.add_argument("--only", default="")
    given = parser.parse_args()
    if (given.program is None) != given.kit:
        parser.error("give either --program or --kit")
    last = given.last or (20 if given.kit else 100_000)
    passed = failed = 0
    with tempfile.TemporaryDirectory() as name:
        folder = pathlib.Path(name)
        for file, text in FILES.items():
            (folder / file).write_bytes(text)
        if given.kit:
            one_run = lambda words, number: run_kit(folder, words, number)
        else:
            library, program = build_refuser(folder), given.program.resolve()
            one_run = lambda words, number: run_program(program, library, folder, words, number)
        for row in ROWS:
            if given.only in row[0]:
                more, less = run_row(row, one_run, range(given.first, last + 1))
                passed, failed = passed + more, failed + less
    print(f"{passed} passed, {failed} failed")
    return 0 if passed and not failed else 1


if __name__ == "__main__":
    sys.exit(main())

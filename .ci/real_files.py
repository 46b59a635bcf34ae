#!/usr/bin/env python3
"""Runs the program on real files of every kind, since no contract says what the system gives for a name: real_files.py [PROGRAM..].

`check` reads a policy whose last line is its only rule, so what it prints shows whether the file was read to its end: files of 0 and 1 bytes, around the
size of a piece, and around the greatest size; a FIFO that is written once, whole and in two parts with a pause; a directory, a name that is not there, a
file in place of a directory, and a link that leads to itself. A second opening of the FIFO would wait for another writer, so that the program would not
end. The programs are those of `.ci/examples.py`.
"""
import os
import subprocess
import sys
import tempfile
import threading
import time

sys.dont_write_bytecode = True

from sessions import TOP, programs

HEAD = b"sandbox-policy 1\npolicy web\n"
RULE = b"allow ping when cookie is 12345"
PRINTED = b"allow ping when cookie is 0x3039\n"
LARGEST = 4 * 1024 * 1024
SECONDS = 20


def policy(size):
    """A policy of this many bytes, whose rule comes last."""
    return HEAD + b"#" * (size - len(HEAD) - len(RULE) - 1) + b"\n" + RULE


def regular(content):
    """Makes a file with this content."""

    def make(path):
        with open(path, "wb") as file:
            file.write(content)

    return make


def written_once(*parts):
    """Makes a FIFO that is opened for writing once, and gets these parts, with a pause between them."""

    def make(path):
        os.mkfifo(path)

        def write():
            with open(path, "wb", buffering=0) as fifo:
                for part in parts:
                    fifo.write(part)
                    time.sleep(0.2)

        threading.Thread(target=write, daemon=True).start()

    return make


def in_a_file(path):
    """Makes a file where the folder of the name should be."""
    regular(b"")(os.path.dirname(path))


SMALL = policy(100)

# What is made, the name that the program gets, its exit status, and what is printed in part, to standard output if the status is 0 and else to standard
# error.
CASES = [
    ("0 bytes", regular(b""), "policy", 3, b"policy line 1 fault 2: "),
    ("1 byte", regular(b"x"), "policy", 3, b"policy:1:1\nx\n^\n"),
    ("100 bytes", regular(SMALL), "policy", 0, PRINTED),
] + [("%d bytes" % size, regular(policy(size)), "policy", 0, PRINTED) for size in (16383, 16384, 16385, 65535, 65536, 65537, LARGEST - 1, LARGEST)] + [
    ("%d bytes" % (LARGEST + 1), regular(policy(LARGEST + 1)), "policy", 7, b"sandbox: file 1 too long: policy has more than 4194304 bytes"),
    ("a FIFO that is written once", written_once(SMALL), "policy", 0, PRINTED),
    ("a FIFO that is written in two parts", written_once(SMALL[:50], SMALL[50:]), "policy", 0, PRINTED),
    ("a FIFO of 65,537 bytes", written_once(policy(65537)), "policy", 0, PRINTED),
    ("a directory", os.mkdir, "policy", 8, b"sandbox: read fault in file 1: policy cannot be read: it is a directory\n"),
    ("a file in place of a directory", in_a_file, "folder/policy", 8, b"sandbox: read fault in file 1: folder/policy cannot be read: a part of its path is no directory\n"),
    ("a link to itself", lambda path: os.symlink("policy", path), "policy", 8, b"sandbox: read fault in file 1: policy cannot be read: its path has too many links\n"),
    ("a name that is not there", lambda path: None, "policy", 6, b"sandbox: missing file 1: policy does not exist"),
]


def faults_of(case, program):
    """What is wrong in a run of a case."""
    _, make, name, status, part = case
    with tempfile.TemporaryDirectory() as folder:
        make(os.path.join(folder, name))
        try:
            ran = subprocess.run([program, "check", name], cwd=folder, stdin=subprocess.DEVNULL, capture_output=True, timeout=SECONDS)
        except subprocess.TimeoutExpired:
            return ["it does not end"]
    printed, other = (ran.stdout, ran.stderr) if status == 0 else (ran.stderr, ran.stdout)
    found = []
    if ran.returncode != status:
        found.append("exit status %d and not %d" % (ran.returncode, status))
    if part not in printed:
        found.append("%r is not in %r" % (part, printed[:400]))
    if other:
        found.append("this is printed too: %r" % other[:400])
    return found


def main():
    faults = []
    for program in programs(sys.argv[1:]):
        if not os.access(program, os.X_OK):
            sys.exit("real_files: there is no program %s: run `rt ci` or ./sandbox first" % program)
        for case in CASES:
            faults += ["%s (by %s): %s" % (case[0], os.path.relpath(program, TOP), fault) for fault in faults_of(case, program)]
    for fault in faults:
        print("real_files: " + fault, file=sys.stderr)
    if faults:
        sys.exit(1)
    print("real_files: %d kinds of files are read as they should be" % len(CASES))


if __name__ == "__main__":
    main()

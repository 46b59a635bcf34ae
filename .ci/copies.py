"""Copies of a crate and of the libraries below it, in which `rt` works while it works elsewhere in the repository: one `rt` keeps others out
of the folders of all crates that it reads."""
import contextlib
import fcntl
import os
import shutil
import subprocess
import tempfile

from graph import TOP, below, crate_lines, name_in

CRATES = os.path.join(TOP, "crates")
PARTS = ("src", "specs", "proofs", "must-fail", "mutations")


def link(source, target):
    """A hard link, which costs no room, or a copy where there is none to be had."""
    try:
        os.link(source, target)
    except OSError:
        shutil.copy2(source, target)


@contextlib.contextmanager
def held(crate):
    """Keeps each `rt` out of a crate's folder, as `rt` itself does."""
    folder = os.open(os.path.join(CRATES, crate), os.O_RDONLY)
    try:
        fcntl.flock(folder, fcntl.LOCK_EX)
        yield
    finally:
        os.close(folder)


def put_sources(room, crates):
    shutil.copy(os.path.join(TOP, "HANDLES"), room)
    with open(os.path.join(room, "crates.txt"), "w", encoding="utf-8") as file:
        file.writelines(line for line in crate_lines() if name_in(line) in crates)
    for crate in crates:
        for part in PARTS:
            source = os.path.join(CRATES, crate, part)
            if os.path.isdir(source):
                shutil.copytree(source, os.path.join(room, "crates", crate, part))


def put_library(room, crate):
    """Puts the built library of a crate. Its files are linked: `rt` removes them before it builds the library again."""
    source = os.path.join(CRATES, crate, "out", "rlib")
    with held(crate):
        if os.path.isdir(source):
            shutil.copytree(source, os.path.join(room, "crates", crate, "out", "rlib"), copy_function=link, symlinks=True)


def put_kept(room, crate):
    """Puts what checks of a crate kept."""
    source = os.path.join(CRATES, crate, "out", "incremental")
    with held(crate):
        if os.path.isdir(source):
            shutil.copytree(source, os.path.join(room, "crates", crate, "out", "incremental"), symlinks=True)


@contextlib.contextmanager
def copy_of(uses, crate):
    """The folder of a crate in a copy, which has what checks of the crate kept and the built libraries below it."""
    with tempfile.TemporaryDirectory(prefix="copy-of-%s-" % crate) as room:
        put_sources(room, below(uses, crate))
        for name in below(uses, crate):
            put_library(room, name)
        put_kept(room, crate)
        yield os.path.join(room, "crates", crate)


def take_back(folder, crate):
    """Puts the folder out/ of a copy of a crate in the place of that of the repository, which is removed last."""
    made, home = os.path.join(folder, "out"), os.path.join(CRATES, crate, "out")
    if not os.path.isdir(made):
        return
    os.makedirs(os.path.join(TOP, "out"), exist_ok=True)
    with tempfile.TemporaryDirectory(prefix="aside-", dir=os.path.join(TOP, "out")) as aside:
        shutil.move(made, os.path.join(aside, "new"))
        with held(crate):
            if os.path.isdir(home):
                os.rename(home, os.path.join(aside, "old"))
            os.rename(os.path.join(aside, "new"), home)


def rt(folder, *words):
    """Runs `rt` in a folder. Returns its status, and the lines that it printed."""
    both = {"stdout": subprocess.PIPE, "stderr": subprocess.STDOUT, "errors": "replace"}
    ran = subprocess.run(["rt", *words], cwd=folder, stdin=subprocess.DEVNULL, **both)
    return ran.returncode, ran.stdout.rstrip("\n").split("\n")

#!/usr/bin/env python3
"""Builds the library for C, and runs what links it: library.py [CALLS].

- The header is compiled alone as C and as C++. The library exports the functions of the header and nothing else, and keeps nothing that can be written.
- bindings/c/client.c prints what bindings/c/client.expected has.
- .ci/fuzz.c makes CALLS calls of all functions with random numbers under the address sanitizer, a million if left out.
- .ci/allocations.c has each allocation fail in turn, under the address sanitizer, and calls that promise to make none.
- The tests of bindings/rust pass.
- The commands that README shows build the broker of bindings/broker and serve a target that overwrites its channel. The broker also serves one that is killed. Then its steps are compared with the plan
  (.ci/planned.c), and so are those of three brokers that are changed: each of these has to be found out.

Warnings are errors. A compiler that is not there is an error too, unless SB_SKIP_TOOLS is 1; `.ci/tools` installs it. Where the system has no memfd_create,
openat2 or seccomp, which the target is confined by, the broker is built and not run.
"""
import ctypes
import os
import re
import shutil
import signal
import subprocess
import sys
import tempfile
import time

TOP = os.path.dirname(os.path.dirname(os.path.realpath(__file__)))
FLAGS = ["-Wall", "-Wextra", "-Werror", "-O2", "-g"]
C = ["cc", "-std=c11", *FLAGS]


def run(*command, **more):
    """Runs a command, which has to end with 0, and returns what it printed."""
    ended = subprocess.run(command, stdout=subprocess.PIPE, text=True, check=False, **more)
    if ended.returncode:
        sys.exit("library: %s ended with %d\n%s" % (" ".join(command), ended.returncode, ended.stdout))
    return ended.stdout


def refused_calls():
    """The system calls that the broker of two processes needs and that this system has not."""
    libc = ctypes.CDLL(None, use_errno=True)
    action, how = ctypes.c_uint32(0x00050000), (ctypes.c_uint64 * 3)(os.O_PATH, 0, 0)
    tried = {
        "memfd_create": libc.syscall(319, b"probe", 1),
        "openat2": libc.syscall(437, -100, b".", how, ctypes.sizeof(how)),
        "seccomp": libc.syscall(317, 2, 0, ctypes.byref(action)),
    }
    for name in ("memfd_create", "openat2"):
        if tried[name] >= 0:
            os.close(tried[name])
    return [name for name, result in tried.items() if result < 0]


# How a broker that does not make its steps as planned differs from bindings/broker/broker.c.
HOSTS = {
    "loads a word twice": ("            values[i] = atomic_load(&at[i]);", "            values[i] = atomic_load(&at[i]);\n            values[i] = atomic_load(&at[i]);"),
    "stores one word less": ("        for (size_t i = 0; i < written; i++) {", "        for (size_t i = 0; i + 1 < written; i++) {"),
    "tells what it did not find": ("    require(sb_worker_after(&b->worker, found), \"after\");", "    require(sb_worker_after(&b->worker, step.kind == SB_EXCHANGE ? 3 : READY), \"after\");"),
}
WRAPPED = ["plan", "after", "loaded", "stored", "reply"]


def killed_target(command):
    """Runs a broker and kills its target after half a second. It has to serve on, and to end as it does else."""
    with subprocess.Popen(command, stdout=subprocess.PIPE, text=True) as served:
        time.sleep(0.5)
        with open("/proc/%d/task/%d/children" % (served.pid, served.pid), encoding="ascii") as children:
            for child in children.read().split():
                os.kill(int(child), signal.SIGKILL)
        printed = served.communicate()[0]
    if served.returncode:
        sys.exit("library: a broker whose target was killed ended with %d\n%s" % (served.returncode, printed))


def planned_hosts(folder, libraries, command):
    """The steps of the broker are those that were planned, and a broker that makes others is found out."""
    with open(os.path.join(TOP, "bindings/broker/broker.c"), encoding="utf-8") as file:
        source = file.read()
    wraps = ["-Wl,--wrap=sb_worker_" + name for name in WRAPPED]
    for what, (old, new) in {"": ("", ""), **HOSTS}.items():
        if source.count(old) != 1 and what:
            sys.exit("library: bindings/broker/broker.c has no place for a host that %s" % what)
        path, program = os.path.join(folder, "host.c"), os.path.join(folder, "host")
        with open(path, "w", encoding="utf-8") as file:
            file.write(source.replace(old, new) if what else source)
        run(*C, *wraps, "-include", os.path.join(TOP, ".ci/planned.h"), "-I", folder, "-I", os.path.join(TOP, "bindings/broker"), "-c", "-o", program + ".o", path)
        run(*C, *wraps, "-I", folder, "-o", program, program + ".o", os.path.join(TOP, ".ci/planned.c"), *libraries)
        ended = subprocess.run([program, *command[1:-1], "0.5"], stdout=subprocess.DEVNULL, stderr=subprocess.PIPE, text=True, check=False)
        if ended.returncode != (5 if what else 0):
            sys.exit("library: the steps of a host that %s ended with %d\n%s" % (what or "makes them as planned", ended.returncode, ended.stderr))


def shown_commands(folder):
    """The commands of README's block that begins with ./sandbox-lib, with another folder."""
    with open(os.path.join(TOP, "README.md"), encoding="utf-8") as file:
        block = re.search(r"(?m)^    \./sandbox-lib library\n(?:    .*\n)+", file.read())
    if not block:
        sys.exit("library: README shows no commands that begin with ./sandbox-lib library")
    return [re.sub(r"(?<![\w/-])library(?=[/ ]|$)", folder, line.strip()) for line in block[0].splitlines()]


def broker(folder, libraries):
    """Builds the broker of two processes, and runs it: it ends with 0 only if nothing else was granted and each honest call had its own reply."""
    source = os.path.join(TOP, "bindings/broker")
    for name in ("broker", "target"):
        run(*C, "-pthread", "-I", folder, "-o", os.path.join(folder, "with-warnings"), os.path.join(source, name + ".c"), *libraries)
    *building, running = shown_commands(folder)
    for command in building:
        run("bash", "-c", command, cwd=TOP)
    with open(os.path.join(folder, "root/secret/key.txt"), "w", encoding="utf-8") as file:
        file.write("key")
    refused = refused_calls()
    if refused:
        return "the broker was built and not run, since this system has no " + " or ".join(refused)
    run("bash", "-c", running, cwd=TOP)
    command = [os.path.join(folder, "broker"), os.path.join(source, "tab.policy"), os.path.join(folder, "root"), os.path.join(folder, "target"), "1"]
    killed_target(command)
    planned_hosts(folder, libraries, command)
    return "the broker granted what its policy allows, and made its steps as planned"


def exported(library, header):
    """The library exports the functions of the header, asks for memory and for three functions that move it, and has no data that can be written."""
    with open(header, encoding="utf-8") as file:
        declared = set(re.findall(r"(?m)^\w+ (sb_\w+)\(", file.read()))
    symbols = [line.split()[-2:] for line in run("nm", "--extern-only", library).splitlines() if len(line.split()) > 1]
    defined = {name for kind, name in symbols if kind != "U"}
    asked = {name for kind, name in symbols if kind == "U"} - defined
    if defined != declared:
        sys.exit("library: exported and not declared: %s; declared and not exported: %s" % (sorted(defined - declared), sorted(declared - defined)))
    if asked - {"memcpy", "memmove", "memset", "memcmp", "rattle_alloc", "rattle_realloc", "rattle_dealloc"}:
        sys.exit("library: it needs %s" % sorted(asked))
    for section, size in re.findall(r"(?m) (\.data|\.bss)\S* +\w+ +\w+ +\w+ +(\w+)", run("readelf", "--sections", "--wide", library).replace(".data.rel.ro", ".rodata")):
        if int(size, 16):
            sys.exit("library: it keeps data that can be written: %s" % section)


def main():
    missing = [tool for tool in ("cc", "c++", "cargo", "nm") if not shutil.which(tool)]
    if missing:
        if os.environ.get("SB_SKIP_TOOLS") == "1":
            print("library: skipped, there is no %s" % " or ".join(missing))
            return
        sys.exit("library: there is no %s; .ci/tools installs what is missing" % " or ".join(missing))
    calls = sys.argv[1] if len(sys.argv) > 1 else "1000000"
    with tempfile.TemporaryDirectory() as folder:
        run(os.path.join(TOP, "sandbox-lib"), folder)
        header = os.path.join(folder, "sandbox_broker.h")
        run(*C, "-fsyntax-only", "-x", "c", header)
        run("c++", *FLAGS, "-fsyntax-only", "-x", "c++", header)
        libraries = [os.path.join(folder, name) for name in ("libsb_c.a", "liblibc_c.a")]
        exported(libraries[0], header)
        client = os.path.join(folder, "client")
        run(*C, "-I", folder, "-o", client, os.path.join(TOP, "bindings/c/client.c"), *libraries)
        printed = run(client)
        with open(os.path.join(TOP, "bindings/c/client.expected"), encoding="utf-8") as expected:
            if printed != expected.read():
                sys.exit("library: bindings/c/client.c prints another text than client.expected:\n" + printed)
        for name in ("fuzz", "allocations"):
            run(*C, "-fsanitize=address,undefined", "-fno-sanitize-recover=all", "-Wl,--wrap=malloc", "-Wl,--wrap=realloc", "-I", folder,
                "-o", os.path.join(folder, name), os.path.join(TOP, ".ci", name + ".c"), *libraries)
        fuzzed = run(os.path.join(folder, "fuzz"), calls).strip()
        failed = run(os.path.join(folder, "allocations")).splitlines()[-1]
        brokered = broker(folder, libraries)
        run("cargo", "test", "--quiet", "--offline", "--target-dir", os.path.join(folder, "cargo"), cwd=os.path.join(TOP, "bindings/rust"),
            env={**os.environ, "SANDBOX_BROKER_LIB": folder, "RUSTFLAGS": "-D warnings"})
        print("library: client.c prints what is expected, the fuzzer made %s, %s, %s, and the tests of bindings/rust pass" % (fuzzed, failed, brokered))


main()

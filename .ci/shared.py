"""What the checks share: the places of things, answers of the program, how a difference is shown, and the definitions of specs/."""
import contextlib
import difflib
import functools
import os
import random
import re
import socket
import subprocess
import sys
import tempfile
import time
from pathlib import Path

TOP = Path(__file__).resolve().parent.parent
LAUNCHER = TOP / "dccp"
BRIDGE = TOP / "dccp_bridge"
PROGRAM = TOP / "crates" / "dccp" / "out" / "dccp"
BRIDGE_PROGRAM = TOP / "crates" / "dccp_bridge" / "out" / "dccp_bridge"
EXAMPLES = TOP / "examples"
sys.path.insert(0, str(TOP / "tools"))


def answer(words, *pieces, program=LAUNCHER):
    """What the program writes for these words and the pieces of an input; after that what the second program writes on standard error of its
    words or its input; last a line with its status, where that is not 0."""
    with tempfile.TemporaryFile() as output, tempfile.TemporaryFile() as errors:
        run = subprocess.Popen([program, *words], stdin=subprocess.PIPE, stdout=output, stderr=errors)
        # A program that refuses its input leaves the rest of it unread.
        with contextlib.suppress(BrokenPipeError):
            for piece in pieces:
                run.stdin.write(piece)
        with contextlib.suppress(BrokenPipeError):
            run.stdin.close()
        status = run.wait()
        output.seek(0)
        errors.seek(0)
        said = output.read()
        if program in (BRIDGE, BRIDGE_PROGRAM):
            # What the launcher prints while it builds is not the program's.
            said += b"".join(it for it in errors.readlines() if it.startswith((b"usage: ", b"line ", b"capture ", b"skipped ")))
    return said + b"status %d\n" % status if status else said


@functools.cache
def program():
    """The program itself, for a check that the launcher would be in the way of. It is built first where it has to be."""
    subprocess.run([LAUNCHER, "run"], stdin=subprocess.DEVNULL, stdout=subprocess.DEVNULL, check=False)
    return PROGRAM


@functools.cache
def bridge_program():
    """The second program itself, in the same way."""
    subprocess.run([BRIDGE, "seed", "--seed", "0", "--events", "1"], stdin=subprocess.DEVNULL, stdout=subprocess.DEVNULL, check=False)
    return BRIDGE_PROGRAM


def example(name):
    """The file of this name in examples/, in whichever folder it is."""
    return next(EXAMPLES.glob(f"*/{name}"))


def compare(wanted, found):
    """Prints where two texts differ."""
    texts = [it.decode(errors="backslashreplace").splitlines() for it in (wanted, found)]
    for line in difflib.unified_diff(*texts, "wanted", "found", lineterm="", n=0):
        print(line)


def last_lines(text, count):
    """The last lines of a text."""
    return b"".join(text.splitlines(keepends=True)[-count:])


def definitions(crate):
    """Each definition of the crate's specs/ as its name and its text, comments left out."""
    for path in sorted((TOP / "crates" / crate / "specs").glob("*.antt")):
        text = re.sub(r"^ *--.*\n|^(?:pub )?(?:mod|use) .*\n", "", path.read_text(encoding="utf-8"), flags=re.M)
        for part in re.split(r"^(?=pub |abbrev |unfoldable )", text, flags=re.M):
            name = re.match(r"(?:(?:abbrev|unfoldable|pub|record|data) )+(\w+) ?[:({]", part)
            if name:
                yield name[1], " ".join(part.split())


# How C is compiled so that it stops where its behaviour is not defined, or memory is not its own.
CLEAN = ["-g", "-fsanitize=address,undefined", "-fno-sanitize-recover"]
# How a program is run so that it fails if it reads or leaves memory that it should not.
WATCHED = ["valgrind", "--quiet", "--leak-check=full", "--show-leak-kinds=all", "--errors-for-leak-kinds=all", "--error-exitcode=99"]


def said(*words, **how):
    """What a command says, and a line with its status where that is not 0."""
    found = subprocess.run(words, stdout=subprocess.PIPE, stderr=subprocess.STDOUT, text=True, errors="replace", **how)
    return found.stdout + (f"status {found.returncode}\n" if found.returncode else "")


def free_port():
    """A port that nobody has, below those that the system hands to clients."""
    with socket.socket(socket.AF_INET, socket.SOCK_DGRAM) as it:
        while True:
            port = random.randrange(20_000, 30_000)
            with contextlib.suppress(OSError):
                it.bind(("127.0.0.1", port))
                return str(port)


def install_library(room):
    """Installs the library under a folder, and says whether it is there. DCCP_ARCHIVE names one that is built, else it is proved first."""
    found = said(TOP / "tools" / "library", room, *filter(None, [os.environ.get("DCCP_ARCHIVE")]))
    is_there = (Path(room) / "lib" / "libdccp.a").exists()
    if not is_there:
        print(f"{found}the library was not installed: nothing was tried")
    return is_there


def ended(program, seconds):
    """What a program said, which is stopped where it does not end in so many seconds."""
    try:
        return program.communicate(timeout=seconds)[0]
    except subprocess.TimeoutExpired:
        program.terminate()
        return program.communicate()[0]


def beside(server, *clients):
    """Runs programs beside a server that is stopped at last, if it has not ended, and gives what each said."""
    how = {"stdout": subprocess.PIPE, "stderr": subprocess.STDOUT, "text": True}
    with subprocess.Popen(server, **how) as serving:
        time.sleep(0.3)
        begun = [subprocess.Popen(it, **how) for it in clients]
        found = [ended(it, 60) for it in begun]
        return [*found, ended(serving, 4)]

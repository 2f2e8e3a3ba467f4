"""Reads crates.txt, the map of crates/."""
import shutil
from pathlib import Path

TOP = Path(__file__).resolve().parent.parent


def lines():
    """Yields for each line of the map its crate, the kinds that it names, mostly none, and the crates that it uses."""
    for line in (TOP / "crates.txt").read_text(encoding="utf-8").splitlines():
        front, colon, rest = line.partition("#")[0].partition(":")
        if colon:
            name, *kind = front.split()
            yield name, kind, rest.split()


def libraries():
    """Returns for each crate of the map, in its order, what it uses: crates of the map and libraries of the toolchain."""
    return {name: used for name, _, used in lines()}


def is_static(crate):
    """Returns whether a crate is a static library."""
    return any(name == crate and kind == ["staticlib"] for name, kind, _ in lines())


def program_of(crate):
    """Returns a crate and the crates of the map below it, each with what it uses."""
    every = libraries()
    needed, more = set(), {crate}
    while more:
        needed |= more
        more = {it for name in more for it in every[name] if it in every} - needed
    return {name: used for name, used in every.items() if name in needed}


def newest_source(crate):
    """Returns when a source of a crate or of one below it was last changed, as seconds of the system."""
    return max(it.stat().st_mtime for name in program_of(crate) for it in (TOP / "crates" / name / "src").rglob("*.rt"))


def copy_to(room, needed):
    """Makes a repository of these crates, without their must-fail edits."""
    for crate in needed:
        shutil.copytree(TOP / "crates" / crate, room / "crates" / crate, ignore=shutil.ignore_patterns("out", "must-fail"))
    lines = [" ".join([f"{crate}:", *used]) + "\n" for crate, used in needed.items()]
    (room / "crates.txt").write_text("".join(lines), encoding="utf-8")
    shutil.copyfile(TOP / "HANDLES", room / "HANDLES")

"""What is left to prove of a program, and about how long it takes."""
import os
import re
import shutil
import sys
from pathlib import Path

from crates import TOP
from machine import free_memory, processors


def store():
    """Returns the folder beside the toolchain in which rt keeps what it proved."""
    rt = shutil.which("rt")
    if not rt:
        sys.exit("the toolchain's rt is not on the path")
    return Path(rt).resolve().parent.parent.parent / "rattle-kept"


def is_ours(name, crates):
    """Returns whether a name in the store is of what was proved of one of these crates, or of its tests."""
    return any(re.fullmatch(rf"(?:proof|tests)-{crate}-[0-9a-f]{{64}}(?:/.*)?", name) for crate in crates)


def was_proved(crate):
    """Returns whether rt has kept a proof of any state of a crate on this machine."""
    return store().is_dir() and any(is_ours(it, [crate]) for it in os.listdir(store()))


def seconds_of_crates():
    """Returns the processor seconds that tools/seconds.txt gives for a first check of each crate."""
    lines = (TOP / "tools" / "seconds.txt").read_text(encoding="utf-8")
    return {crate: int(seconds) for crate, seconds in re.findall(r"^(\w+) (\d+)$", lines, flags=re.M)}


def standing(needed, proved):
    """Says how many crates are left of those needed, and which are being proved: those whose libraries are, as many as there are processors."""
    left = [it for it in needed if it not in proved]
    begun = [it for it in left if all(below in proved or below not in needed for below in needed[it])]
    return f"{len(left)} of {len(needed)} are left" + (f", at {', '.join(begun[:processors()])}" if begun else "")


def chain_of(needed, weight):
    """Returns the heaviest chain of crates, each of which uses the one before, and what it weighs."""
    best = {}
    for crate, below in needed.items():
        under = max((best[it] for it in below if it in best), key=lambda it: it[0], default=(0, []))
        best[crate] = (under[0] + weight(crate), [*under[1], crate])
    return max(best.values(), key=lambda it: it[0], default=(0, []))


# From how many processor seconds on a crate of the longest chain is proved with nothing beside.
HEAVY = 200


def heaviest_of(needed, seconds):
    """Returns the heavy crates of the longest chain, lowest first, without the one at its end."""
    *chain, _ = chain_of(needed, lambda crate: seconds.get(crate, 60))[1]
    return [it for it in chain if seconds.get(it, 60) >= HEAVY]


def is_above(needed, crate, other):
    """Returns whether a crate uses another, itself or by a crate below it."""
    return other in needed[crate] or any(is_above(needed, it, other) for it in needed[crate] if it in needed)


def beside(needed, crate, later):
    """Returns the crates that neither use a crate nor are below it, in the map's order: those that a later crate waits for, and the others."""
    others = [it for it in needed if it != crate and not is_above(needed, it, crate) and not is_above(needed, crate, it)]
    sooner = [it for it in others if is_above(needed, later, it)]
    return sooner, [it for it in others if it not in sooner]


# How much memory a proof takes at most, in bytes.
MEMORY = 4 * 2**30


def lanes():
    """Returns how many proofs may run beside one another: one for each processor that has memory for one."""
    return min(processors(), free_memory() // MEMORY)


def lanes_beside():
    """Returns how many crates are proved beside a heavy one: as many as it leaves processors, if memory allows. rt gives a crate that nothing
    else is ready beside half of the processors, at least one and at most four."""
    return max(0, lanes() - max(1, min(4, processors() // 2)))


def minutes_left(needed, proved, seconds):
    """Says about how many minutes the rest takes: its longest chain, or all of it shared by the processors."""

    def weight(crate):
        return 0 if crate in proved else seconds.get(crate, 60)

    rest = max(chain_of(needed, weight)[0], sum(map(weight, needed)) / processors())
    return f"about {rest / 60:.0f} minutes more" if rest >= 90 else "about a minute more"

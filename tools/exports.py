"""Reads the sources of the library for C: what it exports, with types."""
import re
from functools import cache

from crates import TOP

SOURCE = TOP / "crates" / "dccp_c" / "src"


@cache
def sources():
    """Returns each file of the library for C: its module, as a path in the crate, and its text."""
    files = [(path, path.relative_to(SOURCE).with_suffix("").parts) for path in sorted(SOURCE.rglob("*.rt"))]
    return [("::".join(("crate", *parts)), path.read_text(encoding="utf-8")) for path, parts in files]


def exports():
    """Yields each export: its module, its name, its parameters with their types, and its result."""
    for module, text in sources():
        for name, inside, result in re.findall(r'pub extern "C" fn (\w+)\(([^)]*)\)(?: -> (\w+))?', text):
            yield module, name, [tuple(it.split(": ")) for it in re.split(r",\s*", inside.strip()) if it], result


@cache
def structs():
    """Returns for each public struct its module and its public fields with their types, or None in their place where it has others, too."""
    found = {}
    for module, text in sources():
        for name, inside in re.findall(r"^pub struct (\w+) \{\n(.*?)^\}", text, flags=re.M | re.S):
            fields = re.findall(r"^    (?!//)(\w[^:\n]*): ([^\n]+),$", inside, flags=re.M)
            is_open = all(place.startswith("pub ") for place, _ in fields)
            found[name] = module, [(place.removeprefix("pub "), field) for place, field in fields] if is_open else None
    return found

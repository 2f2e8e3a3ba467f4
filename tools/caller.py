"""Writes the program by which tools/unproved compiles the library for C: it calls each export."""
import re
import sys

from exports import SOURCE, exports, sources, structs

NUMBERS = ("u8", "u16", "u32", "u64", "usize")


def length(written):
    """Returns the length of an array as the program names it: a number, or a constant of another crate with its path."""
    if written.isdigit():
        return written
    for _, text in sources():
        if found := re.search(rf"^use ([\w:]+)::(?:\{{[^}}]*\b)?{written}\b", text, flags=re.M):
            return f"{found[1]}::{written}"
    sys.exit(f"unproved: no source of {SOURCE.parent.name} imports the constant {written}")


def value(field):
    """Returns some value of a type of an export or a struct, and ends where it knows none."""
    if field in NUMBERS:
        return "0"
    if field == "bool":
        return "false"
    if array := re.fullmatch(r"\[(\w+); (\w+)\]", field):
        return f"[{value(array[1])}; {length(array[2])}]"
    module, fields = structs().get(field, (None, None))
    if not module:
        sys.exit(f"unproved: no value is known of the type {field}, which an export of {SOURCE.parent.name} takes")
    if fields is None:
        return f"{module}::{field}::none(alloc)"
    return f"{module}::{field} {{ {', '.join(f'{place}: {value(it)}' for place, it in fields)} }}"


def lent(place, field):
    """Returns the value that a call binds for a parameter, as a statement, and how it passes that."""
    if field == "Global":
        return "", "alloc"
    if several := re.fullmatch(r"&\[(\w+)\]", field):
        return f"    let {place} = [{value(several[1])}];\n", f"&{place}[..]"
    if one := re.fullmatch(r"&(mut )?(\w+)", field):
        changed = one[1] or ""
        return f"    let {changed}{place} = {value(one[2])};\n", f"&{changed}{place}"
    return "", value(field)


def calls():
    """Yields for each export a function of the program, which calls it."""
    for module, name, fields, _ in exports():
        lends = [lent(*it) for it in fields]
        bound, passed = "".join(it for it, _ in lends), ", ".join(it for _, it in lends)
        yield f"fn call_{name}(alloc: Global) {{\n{bound}    let _ = {module}::{name}({passed});\n}}\n"


def program():
    """Returns the root of the library for C with a main that calls each export."""
    root = (SOURCE / "lib.rt").read_text(encoding="utf-8")
    called = "".join(f"    call_{name}(alloc);\n" for _, name, _, _ in exports())
    main = f"fn main(runtime: HostRuntime) {{\n    let alloc = runtime.alloc();\n{called}}}\n"
    return root.replace("#![tactic(auto)]\n", "#![tactic(auto)]\nuse std::alloc::Global;\n", 1) + "".join(calls()) + main

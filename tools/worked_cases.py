"""Writes the worked cases of docs/CASES.md that have words and an input from examples/ to crates/tests_tool/src/worked.rt, since the
toolchain cannot include a file in a test. `.ci/worked` compares the two."""
import re
from pathlib import Path

TOP = Path(__file__).resolve().parent.parent
TABLES = TOP / "crates" / "tests_tool" / "src" / "worked.rt"
EXAMPLES = TOP / "examples"
WIDTH = 200

# Played over streams of 1, 7 and 4,096 bytes a call, and of 4,096 alone.
IN_PIECES = """usual_connection_with_data mandatory_before_nothing options_passed_over option_faults coverage_too_large""".split()
WHOLE = """empty comments_alone no_such_frame handshake open_both_ways number_wrap server_number_wrap older_request_last
    data_in_request server_order_wins mandatory_unshared crossing_changes crossing_changes_halfway late_changes late_confirm nothing_shared invalid_value
    vector_of_received full_run_of_64 floor_rises_by_record window_of_ccid_two refused_calls_and_closing
    repeated_request vector_cut_at_253 short_numbers short_numbers_not_allowed usual_connection_of_version_two three_openings
    twelve_events eight_seeds last_seeds two_flows full_listener nonces_checked marked_first one_place_buffer""".split()

HEAD = '''//! The worked cases that have words and an input, one after another over the tool's one call. `tools/worked_cases.py`
//! writes these texts from examples/, where the cases are described.
use crate::calls::Tool;
use crate::cases::{Way, cases_come};
use std::test::Fail;

'''

FOOT = '''#[test]
fn worked_cases_in_pieces(rt: HostRuntime) -> Result<(), Fail> {
    cases_come(&rt, rt.alloc(), (Tool::Dccp, Way::InPieces), IN_PIECES)
}

#[test]
fn worked_cases(rt: HostRuntime) -> Result<(), Fail> {
    cases_come(&rt, rt.alloc(), (Tool::Dccp, Way::Whole), WHOLE)
}
'''


def inputs(text):
    """The words and the lines of each input of a file. Empty lines are in place of what comes before it, as `.ci/example` has them."""
    starts = list(re.finditer(r"^# (run|ecn|(?:replay|campaign|listen) .*)$", text, re.M))
    if not starts:
        yield "run", text
    for start, end in zip(starts, [*(it.start() for it in starts[1:]), len(text)]):
        yield start[1], "\n" * text[: start.start()].count("\n") + text[start.start() : end]


def answers(text, words):
    """The front of the answers that belongs to the next input, and what is left. A line that is refused ends its input's answer."""
    ends = {"run": r"^end server .*\n", "replay": r"^end .*\n"}.get(words.split()[0], r"\Z")
    end = re.search(rf"{ends}|^line .*\n", text, re.M).end()
    return text[:end], text[end:]


def literal(text):
    """A text as a literal, as many of its lines on one as fit: rt sets memory aside by the lines of a crate."""
    spelled = re.sub("^ ", r"\\x20", text.replace("\\", "\\\\").replace('"', '\\"'), flags=re.M)
    rows = [""]
    for piece in re.findall(r"\n{1,40}|.+\n?", spelled):
        piece = piece.replace("\n", "\\n")
        if len(rows[-1]) + len(piece) > WIDTH:
            rows.append("")
        rows[-1] += piece
    return '"\\\n' + "\\\n".join(it for it in rows if it) + '"'


def case_of(words, given, told):
    """A case as the tests have it. Its marks are nowhere else in it."""
    assert not re.search("~ |=> ", given + told), words
    status = "Input" if re.search(r"^line ", told, re.M) else "Done"
    return f"~ {words.replace(' ', ',')}\n{given}=> {status}\n{told}"


def cases(stem):
    """The cases of a file of examples/."""
    path = next(it for it in sorted(EXAMPLES.glob(f"*/{stem}.*")) if it.suffix in (".schedule", ".replay", ".campaign", ".listen", ".ecn"))
    told = path.with_suffix(".expected").read_bytes().decode()
    for words, given in inputs(path.read_bytes().decode()):
        own, told = answers(told, words)
        yield case_of(words, given, own)


def table(name, stems):
    return f"const {name}: &str = {literal(''.join(it for stem in stems for it in cases(stem)))};\n\n"


def tables():
    """The text of worked.rt."""
    return "".join((
        HEAD,
        "// Data with one packet that is overtaken, and options in a Request, in pieces of any length.\n",
        table("IN_PIECES", IN_PIECES),
        "// All others.\n",
        table("WHOLE", WHOLE),
        FOOT,
    ))


if __name__ == "__main__":
    TABLES.write_text(tables(), encoding="utf-8")

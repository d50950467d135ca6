#!/usr/bin/env python3
"""Writes every list of the answers from answers.toml, each between the two marks of its file. With --check it writes
nothing, and fails where a file has another list."""

import sys
import textwrap
import tomllib
from pathlib import Path

TOP = Path(__file__).resolve().parent.parent
BEGIN, END = (f"{mark}: made by tools/answers.py from answers.toml" for mark in ("begin", "end"))

RUST = """\
pub enum Refusal {{
{variants}}}

impl Refusal {{
    /// Every refusal, in the order of the tests.
    pub const ALL: [Refusal; {count}] = [
{names}    ];

    /// What is wrong, in a few words. The refusal's own text is this and what to do.
    const fn fault(self) -> &'static str {{
        match self {{
{fault}        }}
    }}

    /// What to do when the library gives it, the first thing first.
    #[must_use]
    pub const fn what_to_do(self) -> &'static str {{
        match self {{
{advice}        }}
    }}

    /// When the library gives it, in sentences.
    #[must_use]
    pub const fn given_when(self) -> &'static str {{
        match self {{
{when}        }}
    }}
}}"""


def capitals(answer):
    return answer["word"].upper().replace(" ", "_")


def rattle(answers):
    """The refusals, which are those with a fault, and the verdicts of a match; 0 is neither."""

    def enum(comment, name, rows):
        variants = "".join(f"    {a['word'].title().replace(' ', '')} = {a['number']},\n" for a in rows)
        return f"// {comment}\n#[derive(Clone, Copy, Debug, PartialEq, Eq)]\npub enum {name} {{\n{variants}}}"

    refusals = [a for a in answers if "fault" in a]
    verdicts = [a for a in answers if "fault" not in a and a["number"]]
    return "\n\n".join(
        [
            enum("What refuses a call, in the order of the tests.", "Refusal", refusals),
            enum("What a match finds.", "Verdict", verdicts),
        ]
    )


def header(answers):
    def constant(a):
        comment = "\n     * ".join(textwrap.wrap(f"{a['word']}: {a['when']}", 82))
        return f"    /* {comment} */\n    PAIRING_{capitals(a)} = {a['number']}"

    return "enum {\n" + ",\n".join(map(constant, answers)) + "\n};"


def rust(answers):
    """The refusals, which are those with a fault, as cargo fmt has them."""
    refusals = [a for a in answers if "fault" in a]

    def variant(a):
        lines = [f"    /// {line}\n" for line in textwrap.wrap(a["when"], 92)]
        return "".join(lines) + f"    {a['word']} = {a['number']},\n"

    def arm(a, part):
        start = f"            Refusal::{a['word']} =>"
        if len(start) + len(a[part]) + len(' "",') <= 100:
            return f'{start} "{a[part]}",\n'
        text = " \\\n                 ".join(textwrap.wrap(a[part], 81))
        return f'{start} {{\n                "{text}"\n            }}\n'

    return RUST.format(
        count=len(refusals),
        variants="".join(map(variant, refusals)),
        names="".join(f"        Refusal::{a['word']},\n" for a in refusals),
        **{part: "".join(arm(a, part) for a in refusals) for part in ("fault", "advice", "when")},
    )


def explained(answers):
    """The answers that are no refusals, as cargo fmt has them."""

    def row(a):
        parts = [a["number"], *(f'"{a[part]}"' for part in ("word", "when", "advice"))]
        return "        (\n" + "".join(f"            {part},\n" for part in parts) + "        ),"

    return "\n".join(row(a) for a in answers if "fault" not in a)


def table(answers):
    rows = [f"| {a['number']} | {a['word']} | {a['when']} |" for a in answers]
    return "\n".join(["| Number | Word | Given when |", "|---|---|---|", *rows])


LISTS = {
    "crates/answers/src/lib.rt": rattle,
    "include/pairing.h": header,
    "agent/src/refusal.rs": rust,
    "agent/src/bin/pairing/explain.rs": explained,
    "README.md": table,
}


def with_list(name, text, made):
    """The text with this list between its marks, whose own lines stay."""
    lines = text.split("\n")
    begin, end = ([i for i, line in enumerate(lines) if mark in line] for mark in (BEGIN, END))
    if len(begin) != 1 or len(end) != 1:
        sys.exit(f"{name}: there must be one line with '{BEGIN}' and one with '{END}'")
    return "\n".join([*lines[: begin[0] + 1], made, *lines[end[0] :]])


def main(arguments):
    if arguments not in ([], ["--check"]):
        sys.exit("usage: tools/answers.py [--check]")
    answers = tomllib.loads((TOP / "answers.toml").read_text(encoding="utf-8"))["answer"]
    others = 0
    for name, made in LISTS.items():
        text = (TOP / name).read_text(encoding="utf-8")
        due = with_list(name, text, made(answers))
        if text != due and arguments:
            print(f"{name}: its answers are not those of answers.toml; run tools/answers.py", file=sys.stderr)
            others += 1
        elif text != due:
            (TOP / name).write_text(due, encoding="utf-8")
    sys.exit(others > 0)


if __name__ == "__main__":
    main(sys.argv[1:])

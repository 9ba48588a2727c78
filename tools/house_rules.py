#!/usr/bin/env python3
"""Checks what CONTRIBUTING.md promises of the sources and documents, as far as a script can.

Usage:  house_rules.py [RULE..]

Each place that breaks one of the rules has a line, and then the status is 1. With no RULE all are checked:

  comments    a public item has a `///` line
  errors      a public function that returns a Result has a part `# Errors`, or an error type that says by itself what went wrong:
              AllocError, a type of which each variant has a `///` line, or one that the caller chooses
  lengths     the body of a function has at most 40 lines
  parameters  a function has at most 7 parameters
  documents   docs/MAP.md and docs/PROVED.md have each crate, README.md and docs/PROVED.md each clause of the top call
  crates      a crate has at most 100 functions and 1,500 lines
  names       the name of a public definition in specs/ means the same in all crates

Code that runs in tests alone is held to none of them but `crates`. The script relies on the layout of `rt fmt`: a function's body ends
at a brace under the first letter of its first line.
"""

import collections
import re
from pathlib import Path

from common import Refused, run

TOP = Path(__file__).resolve().parent.parent
CRATES = sorted(path.name for path in (TOP / "crates").iterdir())
TESTS = re.compile(r"_tests$|^fib_rows$")
MEASURED = {"part_count"}                               # a program that is measured; of its lookups nothing is proved
ITEM = re.compile(r"( *)(pub |pub\(\w+\) )?(?:(?:const|unsafe) )?(fn|struct|enum|trait|const|static|type) (\w+)")
DEFINITION = re.compile(r"(?:\w+ )*pub (?:(?:record|data) )?(?!mod )([^\s:({]+)")


def comment_above(lines, at):
    """The `///` lines above an item, over its attributes."""
    found = []
    while at > 0:
        at -= 1
        line = lines[at].strip()
        if line.startswith("///"):
            found.append(line[3:].strip())
        elif line.endswith(")]") and not line.startswith("#["):
            while not lines[at].strip().startswith("#["):
                at -= 1
        elif not line.startswith("#["):
            break
    return found[::-1]


class Item:
    """A function, type, trait or constant: its place, its comment, a function's signature without clauses and its body's length."""

    def __init__(self, crate, path, lines, at, match):
        self.crate, self.place = crate, f"{path.relative_to(TOP)}:{at + 1}"
        self.indent, public, self.kind, self.name = match.groups()
        self.is_public = public == "pub "
        self.comment = comment_above(lines, at)
        if self.kind == "fn":
            self.signature, self.length = self.whole(lines, at)
        elif self.kind == "enum":
            end = lines.index(self.indent + "}", at)
            variants = [i for i in range(at, end) if re.match(self.indent + r"    [A-Z]", lines[i])]
            self.comment *= all(comment_above(lines, i) for i in variants)

    def whole(self, lines, at):
        last = at                                       # the last line of the signature
        while lines[last].endswith(("(", ",")):
            last = next(i for i in range(last + 1, len(lines)) if lines[i].startswith(self.indent + ")"))
        signature = " ".join(line.strip() for line in lines[at:last + 1])
        begin = last
        while not (lines[begin] == self.indent + "{" or begin == last and lines[begin].endswith("{")):
            if lines[begin].endswith((";", "{}")) and not lines[begin].strip().startswith("//"):
                return signature, 0                     # it is declared alone, or does nothing
            begin += 1
        return signature, lines.index(self.indent + "}", begin) - begin - 1

    def parameters(self):
        """How many it has, the receiver among them."""
        depth, count, is_begun = 0, 0, False
        text = self.signature.replace("->", "")
        for char in text[re.search(r"fn \w+(<([^<>]|<([^<>]|<[^<>]*>)*>)*>)?\(", text).end():]:
            if depth == 0 and char in ",)":
                count, is_begun = count + is_begun, False
                if char == ")":
                    break
            is_begun |= char.isalnum()
            depth += (char in "([{<") - (char in ")]}>")
        return count

    def error(self):
        """The type of its errors, by its last name; None if it returns no Result."""
        found = re.search(r"\) -> (?:(\w+)::)*Result<(.*)>", self.signature)
        return found and ("anyhow" if found[1] == "anyhow" else re.findall(r"\w+", found[2].rsplit(",", 1)[-1])[-1])


def read(name):
    return (TOP / name).read_text(encoding="utf-8")


def all_items():
    """The items outside of tests."""
    for crate in CRATES:
        for path in sorted((TOP / "crates" / crate / "src").rglob("*.rt")):
            text = read(path)
            if not TESTS.search(crate) and "#[test]" not in text:
                lines = text.split("\n")
                yield from (Item(crate, path, lines, at, match) for at, line in enumerate(lines) if (match := ITEM.match(line)))


def comments():
    for item in all_items():
        if item.is_public and not item.comment:
            yield f"{item.place}: {item.name} is public and has no /// line, or a variant has none"


def errors():
    items = list(all_items())
    told = {"AllocError", None} | {item.name for item in items if item.kind in ("struct", "enum") and item.comment}
    for item in items:
        if item.kind == "fn" and item.is_public and "# Errors" not in item.comment and item.error() not in told and len(item.error()) > 1:
            yield f"{item.place}: {item.name} has no `# Errors`, and {item.error()} doesn't say what went wrong"


def lengths():
    for item in all_items():
        if item.kind == "fn" and item.length > 40:
            yield f"{item.place}: the body of {item.name} has {item.length} lines"


def parameters():
    for item in all_items():
        if item.kind == "fn" and item.parameters() > 7:
            yield f"{item.place}: {item.name} has {item.parameters()} parameters"


def documents():
    layers, proved, readme = map(read, ("docs/MAP.md", "docs/PROVED.md", "README.md"))
    for crate in CRATES:
        if f"\n| `{crate}` |" not in layers:
            yield f"docs/MAP.md: no row says what {crate} does"
        if not re.search(rf"(?m)^\|[^|]*`{crate}`", proved) and not TESTS.search(crate) and crate not in MEASURED:
            yield f"docs/PROVED.md: no row says what is proved of {crate}"
    for clause in re.findall(r"\n    ensures (\w+) \{", read("crates/fib_main/src/top_call.rt").split("pub fn run_fib")[1]):
        for name, text in ("README.md", readme), ("docs/PROVED.md", proved):
            if not re.search(rf"(?m)^\|[^|]*`{clause}`", text):
                yield f"{name}: no row for the clause {clause} of run_fib"


def crates():
    for crate in CRATES:
        texts = [read(path) for path in (TOP / "crates" / crate / "src").rglob("*.rt")]
        functions = sum(match[3] == "fn" for text in texts for line in text.split("\n") if (match := ITEM.match(line)))
        lines = sum(text.count("\n") for text in texts)
        if functions > 100 or lines > 1500:
            yield f"crates/{crate}: {functions} functions, {lines} lines"


def names():
    found = collections.defaultdict(dict)               # by name and crate the text of the definition, without comments and blanks
    for path in sorted(TOP.glob("crates/*/specs/*.antt")):
        for part in re.split(r"\n\s*\n", re.sub(r"(?m)--.*$", "", read(path))):
            if match := DEFINITION.match(part.strip("\n")):
                found[match[1]][path.parts[-3]] = " ".join(part.split())
    for name, meanings in sorted(found.items()):
        if len(set(meanings.values())) > 1:
            yield f"{name}: defined differently in {', '.join(meanings)}"


RULES = {rule.__name__: rule for rule in (comments, errors, lengths, parameters, documents, crates, names)}


def main(words):
    if unknown := [word for word in words if word not in RULES]:
        raise Refused(f"{unknown[0]}: no such rule")
    is_broken = False
    for name in words or RULES:
        found = list(RULES[name]())
        print(*found, f"{name}: {len(found)} break it" if found else f"{name}: kept", sep="\n")
        is_broken |= bool(found)
    return is_broken


if __name__ == "__main__":
    run(main, __doc__)

#!/usr/bin/env python3
"""Writes the man pages of the documents: FOLDER/man1/fib.1 of docs/USAGE.md, FOLDER/man5/fib.5 of docs/FORMATS.md.

Usage:  man_pages.py FOLDER

It knows headings, paragraphs, lists, tables, blocks of code, and code and bold within a line.  A row of a table becomes a tagged
paragraph: of up to three cells the last is its text and the others its tag, of more the first is its tag.
"""

import os
import re

from common import Refused, opened_text, run

DOCS = os.path.join(os.path.dirname(os.path.dirname(os.path.abspath(__file__))), "docs")
PAGES = [
    ("fib", 1, "USAGE.md", "compiles forwarding tables from BGP routes, and checks that a table is least", "fib(5)"),
    ("fib", 5, "FORMATS.md", "what fib reads and prints, and how a run ends", "fib(1)"),
]
CODE = str.maketrans({"\\": "\\e", "-": "\\-", "'": "\\(aq", "`": "\\(ga", "^": "\\(ha", "~": "\\(ti"})
NAMES = {"docs/USAGE.md": "fib(1)", "docs/FORMATS.md": "fib(5)"}


def escaped(text):
    return text.replace("\\", "\\e")


def lines_of(text):
    """Lines that no request begins by chance."""
    return re.sub(r"^(?=[.'])", r"\\&", text, flags=re.M)


def inline(text):
    """A line's text: code and bold are bold, and the documents' names are the pages'."""
    for name, page in NAMES.items():
        text = text.replace(name, page)
    parts = re.split(r"`([^`]*)`", text)
    for i, part in enumerate(parts):
        if i % 2:
            parts[i] = "\\fB" + part.translate(CODE) + "\\fR"
        else:
            parts[i] = re.sub(r"\*\*([^*]*)\*\*", r"\\fB\1\\fR", escaped(part))
    return "".join(parts)


def table(rows):
    """Its rows but the two of the head, whose words stand before the cells where there are more than three."""
    head, _, *rows = [[inline(cell.strip()) for cell in re.split(r"(?<!\\)\|", row.strip()[1:-1])] for row in rows]
    for row in rows:
        if len(row) > 3:
            tag, text = row[0], "; ".join(f"{name}: {cell}" for name, cell in zip(head[1:], row[1:]) if cell)
        else:
            *tags, text = [cell for cell in row if cell]
            tag = ", ".join(tags)
        yield f".TP\n{lines_of(tag)}\n{lines_of(text)}"


def code(lines):
    return ".RS 4\n.nf\n" + lines_of("\n".join(lines).translate(CODE)) + "\n.fi\n.RE"


def blocks(text):
    """The parts of a document: kind and lines."""
    for part in re.split(r"(^```.*?^```$)", text, flags=re.M | re.S):
        if part.startswith("```"):
            yield "code", part.splitlines()[1:-1]
            continue
        for lines in (chunk.splitlines() for chunk in re.split(r"\n\s*\n", part) if chunk.strip()):
            lines = [line for line in lines if line.strip()]
            if lines[0].startswith("#"):
                yield "head", lines[:1]
                lines = lines[1:]
            if not lines:
                continue
            yield ("table" if lines[0].startswith("|") else "list" if lines[0].startswith("- ") else "text"), lines


def items(lines):
    """A list's items, each with the lines that go on with it."""
    found = []
    for line in lines:
        if line.startswith("- "):
            found.append([line[2:]])
        else:
            found[-1].append(line.strip())
    return found


def page(name, section, document, what, also):
    with opened_text(os.path.join(DOCS, document)) as file:
        title, text = file.read().split("\n", 1)
    if not title.startswith("# "):
        raise ValueError
    found = list(blocks(text))
    out = [f'.TH {name.upper()} {section} "" "{name}" "{title[2:]}"', ".SH NAME", f"{name} \\- {what}"]
    if found[0][0] == "code":
        out += [".SH SYNOPSIS", ".nf", *(f"\\fB{line}\\fR".replace("-", "\\-") for line in found.pop(0)[1]), ".fi"]
    if found[0][0] != "head":
        out.append(".SH DESCRIPTION")
    for kind, lines in found:
        # A section begins a paragraph by itself.
        start = "" if out[-1].startswith(".S") else ".PP\n"
        if kind == "head":
            marks, words = lines[0].split(" ", 1)
            out.append(f".SH {inline(words).upper()}" if marks == "##" else f".SS {inline(words)}")
        elif kind == "code":
            out.append(start + code(lines))
        elif kind == "table":
            out += table(lines)
        elif kind == "list":
            out += [".IP \\(bu 2\n" + lines_of(inline("\n".join(item))) for item in items(lines)]
        else:
            out.append(start + lines_of(inline("\n".join(lines))))
    return "\n".join(out + [".SH SEE ALSO", f".BR {also[:3]} {also[3:]}"]) + "\n"


def pages():
    """Each page's section, name and text."""
    for name, section, document, *rest in PAGES:
        try:
            yield section, name, page(name, section, document, *rest)
        except (IndexError, ValueError):
            raise Refused(f"docs/{document}: it has another form than this script knows") from None


def main(words):
    for section, name, text in list(pages()):
        folder = os.path.join(words[0], f"man{section}")
        os.makedirs(folder, exist_ok=True)
        with open(os.path.join(folder, f"{name}.{section}"), "w", encoding="utf-8") as file:
            file.write(text)


if __name__ == "__main__":
    run(main, __doc__, least=1, most=1)

"""Rows of a text that `fib run` printed, for the scripts beside this file."""

from common import Refused, opened_text

KINDS = {"route", "invalid", "change", "moves", "answer", "visits", "table", "least", "cert", "report"}
MOVES = {"change", "moves", "cert"}         # of what fib moves prints


def take_rows(name, takes):
    """Has a row of each kind taken as its fields by what `takes` has for the kind, and passes rows of other kinds over.

    Returns whether the text is that of a run, which ends with what it counted.

    If an IndexError or a ValueError comes of it, or there is no such kind, the line is no row.  The program writes nothing before all
    was read and accepted, so a text with its last row is one of a run that ended well.  So is one of `fib moves`, which has nothing but
    changes and what proves them.
    """
    line, kinds = "", set()
    for number, line in enumerate(opened_text(name), 1):
        kind = line.split(",", 1)[0]
        kinds.add(kind)
        try:
            if kind in takes:
                takes[kind](line.rstrip("\n").split(","))
            elif kind not in KINDS:
                raise ValueError
        except (IndexError, ValueError):
            raise Refused(f"{name}: line {number} is no row that fib run prints") from None
    if line.startswith("cert,bound,6,") and "moves" in kinds and kinds <= MOVES:
        return False
    if not line.startswith("report,treated,"):
        raise Refused(f"{name}: the text is cut before its last row, report,treated")
    return True

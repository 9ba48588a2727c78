#!/usr/bin/env python3
"""Writes a page of figures and pictures of printed tables.

Usage:  table_page.py FOLDER [--every K] PRINTED..

Each PRINTED is a text that `fib run` printed, called NAME.txt, also if bzip2, gzip, xz or zstd has compressed it; a pipe will do.
FOLDER gets README.md, with a section for each, and its pictures (SVG): entries by prefix length of the routes and of the least
table, in each family; the least table's size, of 100 routes, by family, and beside it the kept table's if updates changed that; their
changes by event, and the entries of the kept table over time.  There the least table is drawn too so far as its size is known: at
the load, at the end, and, if --every K says so of the texts behind it, at each event at which the run made the table least again.
Equal texts give equal pages.  If a text can't be read nothing is written.
"""

import collections
import html
import os
import re
import urllib.parse

from common import Refused, run
from printed import KINDS, take_rows

WIDTH, HEIGHT, LEFT, RIGHT, TOP, BOTTOM = 720, 260, 76, 20, 34, 44
ROUTES, KEPT, LEAST = "#9ecae1", "#e69f00", "#08519c"
SIGNS = {"+": ("added", "#009e73"), "=": ("replaced", "#56b4e9"), "-": ("removed", "#d55e00")}
MOST_BARS, MOST_MARKS = 60, 60
LETTER = 6.2                    # about what a letter or a figure takes across
WIDEST_GAP = 2                  # in bars, for lengths that nothing has
MOST_BITS = 128


class Printed:
    """The counts of one text; every says after which events its run made the table least again."""

    def __init__(self, name, every):
        self.every = every
        self.name = re.sub(r"(\.txt)?(\.(gz|bz2|xz|zst))?$", "", os.path.basename(name))
        self.lengths = {kind: {4: collections.Counter(), 6: collections.Counter()} for kind in ("route", "least")}
        self.kept, self.load = collections.Counter(), 0
        self.drops, self.rows, self.changes, self.report = collections.Counter(), collections.Counter(), [], {}
        take_rows(name, dict.fromkeys(KINDS, self.take))

    def take(self, row):
        self.rows[row[0]] += 1
        if row[0] in self.lengths:
            family, length = 6 if ":" in row[1] else 4, int(row[1].split("/")[1])
            if not 0 <= length <= MOST_BITS:
                raise ValueError
            self.lengths[row[0]][family][length] += 1
            self.drops[family] += row[2] == "drop"
        elif row[0] == "table":
            self.kept[6 if ":" in row[1] else 4] += 1
        elif row[0] == "change":
            if row[2] not in SIGNS:
                raise ValueError
            self.load += int(row[1]) == 0
            if int(row[1]) > 0:
                self.changes.append((int(row[1]), row[2]))
        elif row[0] == "report":
            self.report[row[1]] = int(row[2])

    def entries(self, kind, family):
        return sum(self.lengths[kind][family].values())

    def families(self):
        return [family for family in (4, 6) if self.entries("route", family)]

    def sizes(self):
        """The kept table's entries after each event that changed their number, the load first."""
        size = self.load
        found = {0: size}
        for event, sign in self.changes:
            size += {"+": 1, "-": -1}.get(sign, 0)
            found[event] = size
        return found


class Picture:
    """An SVG picture with a title, a legend and two named axes; what goes up begins at a round number, 0 if no other is given."""

    def __init__(self, title, across, up, most, least=0):
        step = round_step(most - least, 5)
        self.low = least // step * step
        self.high = max(-(-most // step) * step, self.low + step)
        self.marks = range(self.low, self.high + 1, step)
        middle = (TOP + HEIGHT - BOTTOM) / 2
        self.parts = [f'<text x="{LEFT}" y="18" font-weight="bold">{title}</text>',
                      f'<text x="{(LEFT + WIDTH - RIGHT) / 2}" y="{HEIGHT - 8}" text-anchor="middle">{across}</text>',
                      f'<text transform="translate(14 {middle}) rotate(-90)" text-anchor="middle">{up}</text>']

    def y(self, value):
        return HEIGHT - BOTTOM - (value - self.low) / (self.high - self.low) * (HEIGHT - TOP - BOTTOM)

    def x(self, place, count):
        return LEFT + place / count * (WIDTH - LEFT - RIGHT)

    def bar(self, x, width, low, high, color, told):
        top, height = self.y(high), self.y(low) - self.y(high)
        self.parts.append(f'<rect x="{x:.1f}" y="{top:.1f}" width="{width:.1f}" height="{height:.1f}" fill="{color}">'
                          f"<title>{told}</title></rect>")

    def line(self, points, color, more=""):
        path = " ".join(f"{x:.1f},{self.y(value):.1f}" for x, value in points)
        self.parts.append(f'<polyline points="{path}" fill="none" stroke="{color}" stroke-width="1.5" {more}/>')

    def dot(self, x, value, color, told):
        self.parts.append(f'<circle cx="{x:.1f}" cy="{self.y(value):.1f}" r="3" fill="{color}"><title>{told}</title></circle>')

    def below(self, x, text):
        self.parts.append(f'<text x="{x:.1f}" y="{HEIGHT - BOTTOM + 15}" text-anchor="middle">{text}</text>')

    def events_below(self, last):
        """Marks at round numbers of events, from 0 to the last."""
        for event in range(0, last + 1, round_step(last, 8)):
            x = self.x(event, last)
            self.parts.append(f'<line x1="{x:.1f}" x2="{x:.1f}" y1="{HEIGHT - BOTTOM}" y2="{HEIGHT - BOTTOM + 4}" stroke="#888"/>')
            self.below(x, f"{event:,}")

    def legend(self, names):
        x = WIDTH - RIGHT
        for text, color in reversed(names):
            x -= LETTER * len(text) + 24
            self.parts.append(f'<rect x="{x:.1f}" y="9" width="10" height="10" fill="{color}"/>'
                              f'<text x="{x + 14:.1f}" y="18">{text}</text>')

    def write(self, path):
        lines = [f'<line x1="{LEFT}" x2="{WIDTH - RIGHT}" y1="{self.y(mark):.1f}" y2="{self.y(mark):.1f}" '
                 f'stroke="{"#888" if mark == self.low else "#ddd"}"/>'
                 f'<text x="{LEFT - 6}" y="{self.y(mark) + 4:.1f}" text-anchor="end">{mark:,}</text>' for mark in self.marks]
        with open(path, "w") as file:
            file.write(f'<svg xmlns="http://www.w3.org/2000/svg" width="{WIDTH}" height="{HEIGHT}" viewBox="0 0 {WIDTH} {HEIGHT}" '
                       f'font-family="sans-serif" font-size="11">\n<rect width="{WIDTH}" height="{HEIGHT}" fill="#fff"/>\n'
                       + "\n".join(lines + self.parts) + "\n</svg>\n")


def round_step(most, count):
    """The least of 1, 2, 5, 10, 20, 50 and so on that goes at most so many times into a number."""
    step = 1
    while most > count * step:
        step = step * 5 // 2 if str(step)[0] == "2" else step * 2
    return step


def places_of(lengths):
    """Each length's place, in bars: lengths that nothing has leave a gap, of a few bars if they are many."""
    places = {}
    at = 0
    for before, length in zip([lengths[0] - 1] + lengths, lengths):
        at += min(length - before - 1, WIDEST_GAP)
        places[length] = at
        at += 1
    return places


def labelled(lengths, places, width):
    """The lengths whose numbers there is room for: first those of eight, then of four, then the others."""
    found = []
    for length in sorted(lengths, key=lambda length: (length % 8 != 0, length % 4 != 0, length)):
        if all(abs(places[length] - places[other]) * width > LETTER * 4 for other in found):
            found.append(length)
    return found


def lengths_picture(printed, family, path):
    routes, least = printed.lengths["route"][family], printed.lengths["least"][family]
    lengths = sorted(routes | least)
    places = places_of(lengths)
    picture = Picture(f"IPv{family}: entries by prefix length", "prefix length", "entries", max((routes | least).values()))
    picture.legend([("routes", ROUTES), ("least table", LEAST)])
    count = places[lengths[-1]] + 1
    width = (WIDTH - LEFT - RIGHT) / count
    shown = set(labelled(lengths, places, width))
    for before, length in zip([lengths[0] - 1] + lengths, lengths):
        x = picture.x(places[length], count)
        if length - before - 1 > WIDEST_GAP:
            picture.below(x - width * WIDEST_GAP / 2, "..")
        picture.bar(x + width * .12, width * .36, 0, routes[length], ROUTES, f"/{length}: {routes[length]:,} routes")
        picture.bar(x + width * .52, width * .36, 0, least[length], LEAST, f"/{length}: {least[length]:,} entries of the least table")
        if length in shown:
            picture.below(x + width / 2, length)
    picture.write(path)


def ratio_picture(printed, path):
    families = printed.families()
    sizes = {family: [("least table", LEAST, printed.entries("least", family))] for family in families}
    if printed.changes:
        sizes = {family: [("kept table", KEPT, printed.kept[family]), *bars] for family, bars in sizes.items()}
    parts = {family: 100 / printed.entries("route", family) for family in families}
    most = max(size * parts[family] for family in families for _, _, size in sizes[family])
    picture = Picture("Entries, of 100 routes", "family", "entries", int(1.1 * most) + 1)
    picture.legend([(name, color) for name, color, _ in sizes[families[0]]])
    width = (WIDTH - LEFT - RIGHT) / len(families)
    for place, family in enumerate(families):
        x = picture.x(place, len(families))
        first = .52 - .125 * len(sizes[family])
        for index, (name, color, size) in enumerate(sizes[family]):
            at, part = first + .25 * index, size * parts[family]
            picture.bar(x + width * at, width * .21, 0, part, color, f"{name}: {size:,} entries, {part:.1f} of 100 routes")
            picture.parts.append(f'<text x="{x + width * (at + .105):.1f}" y="{picture.y(part) - 4:.1f}" text-anchor="middle">{part:.1f}</text>')
        picture.below(x + width / 2, f"IPv{family}: {printed.entries('route', family):,} routes")
    picture.write(path)


def changes_picture(printed, path):
    last = max(event for event, _ in printed.changes)
    wide = round_step(last, MOST_BARS)
    bars = collections.defaultdict(collections.Counter)
    for event, sign in printed.changes:
        bars[(event - 1) // wide][sign] += 1
    count = -(-last // wide)
    picture = Picture("Changes by event of the updates", "event" if wide == 1 else f"event, {wide:,} to a bar", "changes",
                      max(sum(bar.values()) for bar in bars.values()))
    picture.legend(list(SIGNS.values()))
    width = (WIDTH - LEFT - RIGHT) / count
    for place in range(count):
        x, low = picture.x(place, count), 0
        for sign, (word, color) in SIGNS.items():
            high = low + bars[place][sign]
            if high > low:
                picture.bar(x + width * .1, width * .8, low, high, color, f"from event {place * wide + 1:,}: {high - low:,} {word}")
            low = high
    picture.events_below(count * wide)
    picture.write(path)


def entries_picture(printed, path):
    """The kept table's entries over the events, and the least table's so far as the text says it."""
    sizes = printed.sizes()
    last = max(sizes)
    least = {0: printed.load, last: sum(printed.entries("least", family) for family in (4, 6))}
    kept, events, size, at = [], sorted(sizes), printed.load, 0
    for event in range(printed.every, last + 1, printed.every) if printed.every else ():
        while at < len(events) and events[at] <= event:
            size, at = sizes[events[at]], at + 1
        least[event] = size
    picture = Picture("Entries of the kept table over time", "event of the updates", "entries",
                      max(*sizes.values(), *least.values()), min(*sizes.values(), *least.values()))
    known = {0: "load, end", 1: "each event"}.get(printed.every, f"load, each {printed.every:,}th event, end")
    picture.legend([("kept table", KEPT), (f"least table ({known})", LEAST)])
    drawn = {}                                  # of the events at one place across the last alone
    for event in events:
        drawn[round(picture.x(event, last) - LEFT)] = sizes[event]
    for x, value in drawn.items():
        kept += [(LEFT + x, kept[-1][1] if kept else value), (LEFT + x, value)]
    picture.line(kept, KEPT)
    # Between events of which it is told the least table may have more entries or fewer.
    for event, value in sorted(least.items()) if len(least) <= MOST_MARKS else ():
        picture.dot(picture.x(event, last), value, LEAST, f"after event {event:,} a least table has {value:,} entries")
    if len(least) > MOST_MARKS:
        picture.line([(picture.x(event, last), least[event]) for event in sorted(least)], LEAST, 'stroke-dasharray="4 3"')
    picture.events_below(last)
    picture.write(path)


def figures(printed):
    yield "| Family | Routes | Entries of the least table | Of 100 routes | Drop entries |"
    yield "|---|---|---|---|---|"
    for family in printed.families():
        routes, least = printed.entries("route", family), printed.entries("least", family)
        yield f"| IPv{family} | {routes:,} | {least:,} | {100 * least / routes:.1f} | {printed.drops[family]:,} |"
    signs = collections.Counter(sign for _, sign in printed.changes)
    told = ", ".join(f"{signs[sign]:,} {word}" for sign, (word, _) in SIGNS.items() if signs[sign])
    yield ""
    yield (f"{printed.report.get('events', 0):,} events in {printed.report.get('records', 0):,} records; changes by updates: "
           f"{told or 'none'}. The certificate has {printed.rows['cert']:,} rows.")


def plain(name):
    """A file's name as text of a page, in which it marks nothing up."""
    text = os.fsencode(name).decode("utf-8", "replace")
    return html.escape(re.sub(r"[\\`*_\[\]()#!|~]", r"\\\g<0>", "".join(char if char.isprintable() else " " for char in text)))


def section(printed, folder):
    """A text's section, and its pictures in the folder."""
    pictures = []

    def picture(kind, of, draw, *more):
        name = f"{printed.name}-{kind}.svg"
        pictures.append(f"![{of} of {plain(printed.name)}]({urllib.parse.quote(os.fsencode(name))})")
        draw(printed, *more, os.path.join(folder, name))

    for family in printed.families():
        picture(f"lengths{family}", f"IPv{family} entries by prefix length", lengths_picture, family)
    if printed.families():
        picture("ratio", "Size by family", ratio_picture)
    if printed.changes:
        picture("changes", "Changes by event", changes_picture)
        picture("entries", "Entries over time", entries_picture)
    return "\n".join([f"## {plain(printed.name)}", "", *figures(printed), "", "\n\n".join(pictures)])


def number(word):
    if not (word.isascii() and word.isdigit()):
        raise Refused(f"--every is of a number, not of: {word}")
    return int(word)


def main(words):
    folder, *names = words
    texts, every = [], 0
    while names:
        name, names = names[0], names[1:]
        if name == "--every":
            every, names = number("".join(names[:1])), names[1:]
        else:
            texts.append(Printed(name, every))
    if not texts:
        raise Refused("no text is named")
    if len({text.name for text in texts}) < len(texts):
        raise Refused("two of the texts have one name, so their pictures would too")
    os.makedirs(folder, exist_ok=True)
    sections = [section(text, folder) for text in texts]
    with open(os.path.join(folder, "README.md"), "w", encoding="utf-8") as page:
        page.write("# Tables in figures\n\n" + "\n\n".join(sections) + "\n")


if __name__ == "__main__":
    run(main, __doc__, least=2)

#!/usr/bin/env python3
"""Shows a record of an MRT file: its octets field by field, and the rule of reading that it breaks, if any.

Usage:  show_record.py FILE NUMBER      the record of this number, from 0, as `fib: malformed dump record NUMBER rule R` tells
        show_record.py FILE             the first record that breaks a rule

FILE is as fib reads it, or compressed by bzip2, gzip, xz or zstd; a pipe will do.  Each line has an octet's place in the record, the
octets and what they say; a part of more than 16 octets is cut short.  The rules are those of docs/FORMATS.md, in its words.  The
status is 1 where the record breaks a rule or isn't there.
"""

import contextlib

from common import Refused, opened, run
from mrt import (BGP4MP_ET, HEADER, MESSAGES, MESSAGES_WITH_IDS, MOST_BODY, PEER_INDEX_TABLE, RIB_FAMILY, RIBS_WITH_IDS,
                 TABLE_DUMP_V2, address, header_fields, kind_name, peers, records)

RULES = {
    1: "the input ends within a header",
    2: "the input ends within a body",
    3: "Length is over 16,777,216",
    4: "a peer table is cut or has octets left over",
    5: "a RIB record comes before any peer table of its input",
    6: "a prefix has more bits than its family's addresses",
    7: "a RIB entry's peer isn't in the table",
    8: "a RIB record is cut, a path identifier too, or has octets left over",
    9: "an attribute is cut by the end of its list",
    10: "the value of a used attribute isn't of its form",
    11: "a second MP_REACH_NLRI or MP_UNREACH_NLRI stands in a list that uses it",
    12: "a BGP4MP record is cut outside its message, or a state change has octets left over",
    13: "a message is shorter than 19 octets, or its Length isn't that of what is left",
    14: "an UPDATE's lengths don't fit, or a prefix of its withdrawn routes or of its NLRI is cut, or its path identifier",
}
WIDTH = {4: 32, 6: 128}
FAMILY = {1: 4, 2: 6}
HOP_LENGTHS = {4: (4, 16, 32), 6: (16, 32)}
AS_PATH, NEXT_HOP, MP_REACH_NLRI, MP_UNREACH_NLRI = 2, 3, 14, 15
ATTRIBUTES = {1: "ORIGIN", AS_PATH: "AS_PATH", NEXT_HOP: "NEXT_HOP", 4: "MULTI_EXIT_DISC", 5: "LOCAL_PREF",
              6: "ATOMIC_AGGREGATE", 7: "AGGREGATOR", 8: "COMMUNITIES", MP_REACH_NLRI: "MP_REACH_NLRI",
              MP_UNREACH_NLRI: "MP_UNREACH_NLRI", 17: "AS4_PATH", 18: "AS4_AGGREGATOR", 32: "LARGE_COMMUNITY"}
SEGMENTS = {1: "AS_SET", 2: "AS_SEQUENCE", 3: "AS_CONFED_SEQUENCE", 4: "AS_CONFED_SET"}
MESSAGE_TYPES = {1: "OPEN", 2: "UPDATE", 3: "NOTIFICATION", 4: "KEEPALIVE", 5: "ROUTE-REFRESH"}
USED_MESSAGES = (0, 1, 4, 5, 6, 7) + MESSAGES_WITH_IDS
STATE_CHANGES = (0, 5)
WITH_AS4 = (4, 5, 7, 9, 11)
SHOWN = 16


class Broken(Exception):
    """A rule, and the place in the record where it breaks."""

    def __init__(self, rule, at, why):
        super().__init__(rule)
        self.rule, self.at, self.why = rule, at, why


def shown(octets):
    return octets[:SHOWN].hex(" ") + (" .." if len(octets) > SHOWN else "")


class Octets:
    """A part of a record, read from its front; each field that is read is told in a line."""

    def __init__(self, data, at, end, lines):
        self.data, self.at, self.end, self.lines = data, at, end, lines

    def left(self):
        return self.end - self.at

    def tell(self, start, text):
        self.lines.append(f"{start:6}  {shown(self.data[start:self.at]):<{3 * SHOWN + 3}}{text}")

    def take(self, count, rule, text):
        """So many octets; where fewer are left this rule is broken."""
        if self.left() < count:
            raise Broken(rule, self.at, f"{text}: {count} octets are due and {self.left()} are left")
        self.at += count
        return self.data[self.at - count:self.at]

    def field(self, count, rule, name, text=str):
        """A number of so many octets, told by its name."""
        number = int.from_bytes(self.take(count, rule, name), "big")
        self.tell(self.at - count, f"{name} {text(number)}")
        return number

    def part(self, count, rule, name):
        """The octets of a part whose length is given."""
        self.take(count, rule, name)
        return Octets(self.data, self.at - count, self.at, self.lines)

    def address(self, family, rule, name):
        octets = self.take(WIDTH[family] // 8, rule, name)
        self.tell(self.at - len(octets), f"{name} {address(octets)}")

    def prefix(self, family, rule, name):
        start = self.at
        length = int.from_bytes(self.take(1, rule, f"{name}'s length"), "big")
        if length > WIDTH[family]:
            raise Broken(6, start, f"{name}: a length of {length} bits")
        octets = self.take((length + 7) // 8, rule, name)
        bits = int.from_bytes(octets, "big") << WIDTH[family] - 8 * len(octets)
        cleared = bits >> WIDTH[family] - length << WIDTH[family] - length
        self.tell(start, f"{name} {address(cleared.to_bytes(WIDTH[family] // 8, 'big'))}/{length}")

    def prefixes(self, family, rule, name, ids):
        while self.left():
            if ids:
                self.field(4, rule, f"{name}'s path identifier")
            self.prefix(family, rule, name)

    def nothing_left(self, rule):
        if self.left():
            raise Broken(rule, self.at, f"{self.left()} octets are left over")


def read_path(value, wide):
    while value.left():
        start = value.at
        kind, = value.take(1, 10, "a segment's type")
        if kind not in SEGMENTS:
            raise Broken(10, start, f"AS_PATH: a segment of type {kind}")
        count, = value.take(1, 10, "a segment's count")
        numbers = [int.from_bytes(value.take(wide, 10, "an AS number of the segment"), "big") for _ in range(count)]
        value.tell(start, f"{SEGMENTS[kind]} {' '.join(map(str, numbers))}")


def read_hop(value, family, rule):
    start = value.at
    length, = value.take(1, rule, "the next hop's length")
    if length not in HOP_LENGTHS[family]:
        raise Broken(rule, start, f"a next hop of {length} octets")
    octets = value.take(length, rule, "the next hop")
    value.tell(start, f"next hop {address(octets[:16])}")


def read_rib_reach(value, family):
    """What can't be read gives no next hop, and breaks no rule."""
    start = value.at
    try:
        if value.left() and value.data[start] == 0:
            if FAMILY.get(value.field(2, 0, "address family")) != family or value.field(1, 0, "SAFI") != 1:
                return
        read_hop(value, family, 0)
    except Broken as broken:
        value.lines.append(f"{start:6}  no next hop is read from it: {broken.why}")


def read_mp(kind, value, ids):
    """MP_REACH_NLRI or MP_UNREACH_NLRI of an UPDATE (RFC 4760, sections 3 and 4)."""
    family, safi = FAMILY.get(value.field(2, 10, "address family")), value.field(1, 10, "SAFI")
    if family is None or safi != 1:
        return
    if kind == MP_REACH_NLRI:
        read_hop(value, family, 10)
        value.field(1, 10, "reserved")
    value.prefixes(family, 10, "prefix" if kind == MP_REACH_NLRI else "withdrawn prefix", ids)


def read_path_or_hop(kind, value, wide):
    if kind == AS_PATH:
        read_path(value, wide)
    elif value.left() != 4:
        raise Broken(10, value.at, f"NEXT_HOP: {value.left()} octets")
    else:
        value.address(4, 10, "next hop")


def read_value(kind, value, wide, rib, ids):
    if kind in (MP_REACH_NLRI, MP_UNREACH_NLRI):
        return read_rib_reach(value, rib) if rib else read_mp(kind, value, ids)
    start = value.at
    try:
        read_path_or_hop(kind, value, wide)
    except Broken as broken:
        if rib:
            raise
        value.lines.append(f"{start:6}  the message is treated as a withdrawal: {broken.why}")


def read_attributes(part, wide, rib=None, ids=False):
    """A list of path attributes; rib is the family of the RIB record whose entry has it, ids whether prefixes have path identifiers."""
    used = (AS_PATH, NEXT_HOP, MP_REACH_NLRI) + (() if rib else (MP_UNREACH_NLRI,))
    seen = set()
    while part.left():
        start = part.at
        flags, = part.take(1, 9, "an attribute's flags")
        kind, = part.take(1, 9, "an attribute's type")
        name = ATTRIBUTES.get(kind, f"attribute {kind}")
        if kind in used[2:] and kind in seen:
            raise Broken(11, start, f"a second {name}")
        length = int.from_bytes(part.take(2 if flags & 0x10 else 1, 9, f"{name}'s length"), "big")
        part.tell(start, f"{name}, {length} octets")
        value = part.part(length, 9, f"{name}'s value")
        if kind in used and kind not in seen:
            seen.add(kind)
            read_value(kind, value, wide, rib, ids)
        elif length:
            part.tell(value.at, "passed over")


def read_peer_table(body):
    body.field(4, 4, "collector")
    view = body.part(body.field(2, 4, "view name's length"), 4, "the view name")
    body.tell(view.at, "view name")
    for index in range(body.field(2, 4, "peer count")):
        kind = body.field(1, 4, f"peer {index}: type")
        body.field(4, 4, f"peer {index}: BGP identifier")
        body.address(6 if kind & 1 else 4, 4, f"peer {index}: address")
        body.field(4 if kind & 2 else 2, 4, f"peer {index}: AS")
    body.nothing_left(4)


def read_rib(body, family, ids, table):
    if table is None:
        raise Broken(5, body.at, "no peer table stands before it")
    body.field(4, 8, "sequence")
    body.prefix(family, 8, "prefix")
    for number in range(body.field(2, 8, "entry count")):
        start = body.at
        index = body.field(2, 8, f"entry {number}: peer")
        if index >= len(table):
            raise Broken(7, start, f"peer {index} of a table of {len(table)}")
        body.lines[-1] += f", {table[index][0]} of AS {table[index][1]}"
        body.field(4, 8, f"entry {number}: time")
        if ids:
            body.field(4, 8, f"entry {number}: path identifier")
        length = body.field(2, 8, f"entry {number}: attributes, octets")
        read_attributes(body.part(length, 8, f"entry {number}: attributes"), 4, family)
    body.nothing_left(8)


def read_update(message, wide, ids):
    length = message.field(2, 14, "withdrawn routes, octets")
    message.part(length, 14, "withdrawn routes").prefixes(4, 14, "withdrawn prefix", ids)
    length = message.field(2, 14, "attributes, octets")
    read_attributes(message.part(length, 14, "attributes"), wide, ids=ids)
    message.prefixes(4, 14, "prefix", ids)


def read_message(message, wide, ids):
    whole = message.left()
    if whole < 19:
        raise Broken(13, message.at, f"a message of {whole} octets")
    message.take(16, 13, "marker")
    message.tell(message.at - 16, "marker")
    start, length = message.at, message.field(2, 13, "message length")
    if length < 19 or length != whole:
        raise Broken(13, start, f"a message length of {length} where {whole} octets are left")
    kind = message.field(1, 13, "message type", lambda number: MESSAGE_TYPES.get(number, number))
    if kind == 2:
        read_update(message, wide, ids)


def read_bgp4mp(body, kind, subtype):
    """Whether the record is of a family that is read."""
    wide = 4 if subtype in WITH_AS4 else 2
    if kind == BGP4MP_ET:
        body.field(4, 12, "microseconds")
    body.field(wide, 12, "peer AS")
    body.field(wide, 12, "local AS")
    body.field(2, 12, "interface index")
    family = FAMILY.get(body.field(2, 12, "address family"))
    if family is None:
        return False
    body.address(family, 12, "peer")
    body.address(family, 12, "local address")
    if subtype in STATE_CHANGES:
        body.field(2, 12, "old state")
        body.field(2, 12, "new state")
        body.nothing_left(12)
    else:
        read_message(body, wide, subtype in MESSAGES_WITH_IDS)
    return True


def read_record(data, table):
    """The lines of the record that these octets are to be, what it breaks or None, and whether it is skipped."""
    lines = []
    header = Octets(data, 0, len(data), lines)
    try:
        if header.left() < HEADER:
            raise Broken(1, 0, f"{header.left()} octets of a header")
        _, kind, subtype, length = header_fields(header.take(HEADER, 1, "header"))
        header.tell(0, f"header: {kind_name(kind, subtype)}, {length} octets")
        if length > MOST_BODY:
            raise Broken(3, 8, f"a Length of {length}")
        body = header.part(length, 2, "body")
        if (kind, subtype) == (TABLE_DUMP_V2, PEER_INDEX_TABLE):
            read_peer_table(body)
        elif kind == TABLE_DUMP_V2 and subtype in RIB_FAMILY:
            read_rib(body, RIB_FAMILY[subtype], subtype in RIBS_WITH_IDS, table)
        elif kind not in (16, 17) or subtype not in USED_MESSAGES or not read_bgp4mp(body, kind, subtype):
            return lines, None, True
    except Broken as broken:
        return lines, broken, False
    return lines, None, False


def show(number, at, octets, lines, broken, skipped):
    print(f"record {number} at octet {at}")
    print("\n".join(lines))
    if broken:
        print(f"{broken.at:6}  {shown(octets[broken.at:]):<{3 * SHOWN + 3}}{broken.why}")
        print(f"it breaks rule {broken.rule}: {RULES[broken.rule]}")
    else:
        print("it is skipped" if skipped else "it breaks no rule")


def number_of(word):
    if not (word.isascii() and word.isdigit()):
        raise Refused(f"this is no number of a record: {word}")
    return int(word)


def main(words):
    wanted = number_of(words[1]) if len(words) == 2 else None
    at, count, table = 0, 0, None
    for number, (header, body) in enumerate(records(opened(words[0]))):
        octets = header + body
        if wanted in (None, number):
            lines, broken, skipped = read_record(octets, table)
            if broken or wanted == number:
                show(number, at, octets, lines, broken, skipped)
                return 1 if broken else 0
        if header[4:8] == bytes((0, TABLE_DUMP_V2, 0, PEER_INDEX_TABLE)):
            with contextlib.suppress(IndexError, ValueError):       # a table that breaks a rule
                table = peers(body)
        at, count = at + len(octets), number + 1
    print(f"{count} records, none of which breaks a rule" if wanted is None else f"{count} records: none has this number")
    return 0 if wanted is None else 1


if __name__ == "__main__":
    run(main, __doc__, least=1, most=2)

#!/usr/bin/env python3
"""Lists the peers of a dump or of updates, or keeps what some of them said.

Usage:  keep_peers.py FILE                  prints a line for each peer: its address, AS number, IPv4 and IPv6 routes, records
        keep_peers.py FILE PEER.. >KEPT     writes the file with what these peers said alone, by address or AS number

FILE is in MRT format (RFC 6396), also where bzip2, gzip, xz or zstd has compressed it, or a pipe of such octets.  Of a dump the
peer table stays whole, and entries of other peers go; of updates, records of other peers' sessions go.  All else stays.  An AS
number is written 64500 or AS64500.  It reads record by record, so it needs no more memory than the longest record.  The status is
0 where all was read, and else 1: then what was written holds a front of what is due.
"""

import collections
import ipaddress
import re
import sys

from common import Refused, opened, run
from mrt import (BGP4MP, BGP4MP_ET, HEADER, MESSAGES, PEER_INDEX_TABLE, RIB_FAMILY, RIBS_WITH_IDS, TABLE_DUMP_V2, address,
                 header_fields, peers, records)


def entries(body, subtype):
    """The front of a RIB record's body, up to Entry Count, and each entry with its peer's index.

    IndexError where the record is cut or has octets left over.
    """
    at = 5 + (body[4] + 7) // 8
    front, count = body[:at], int.from_bytes(body[at:at + 2], "big")
    at += 2
    fields = 12 if subtype in RIBS_WITH_IDS else 8
    found = []
    for _ in range(count):
        end = at + fields + int.from_bytes(body[at + fields - 2:at + fields], "big")
        found.append((int.from_bytes(body[at:at + 2], "big"), body[at:end]))
        at = end
    if at != len(body):
        raise IndexError
    return front, found


def session(kind, subtype, body):
    """The peer of a BGP4MP record (RFC 6396, section 4.4), or None."""
    if kind not in (BGP4MP, BGP4MP_ET) or subtype not in MESSAGES:
        return None
    at = 4 if kind == BGP4MP_ET else 0
    wide = 4 if "AS4" in MESSAGES[subtype] else 2
    family = int.from_bytes(body[at + 2 * wide + 2:at + 2 * wide + 4], "big")
    octets = body[at + 2 * wide + 4:][:{1: 4, 2: 16}.get(family, 0)]
    return (address(octets), int.from_bytes(body[at:at + wide], "big")) if octets else None


def whole_records(name):
    """Type, subtype, header and body of each record of a file, none of which may be cut."""
    with opened(name) as file:
        for header, body in records(file):
            if len(header) < HEADER:
                raise IndexError
            _, kind, subtype, length = header_fields(header)
            if len(body) < length:
                raise IndexError
            yield kind, subtype, header, body


def list_peers(name):
    counts = {}

    def count(peer, what):
        line = counts.setdefault(peer, collections.Counter())
        line[what] += what is not None

    table = []
    for kind, subtype, _, body in whole_records(name):
        if (kind, subtype) == (TABLE_DUMP_V2, PEER_INDEX_TABLE):
            table = peers(body)
            for peer in table:
                count(peer, None)
        elif kind == TABLE_DUMP_V2 and subtype in RIB_FAMILY:
            for index, _ in entries(body, subtype)[1]:
                count(table[index], RIB_FAMILY[subtype])
        elif peer := session(kind, subtype, body):
            count(peer, "records")
    for (addr, asn), line in counts.items():
        print(f"{addr}  AS {asn}  IPv4 {line[4]}  IPv6 {line[6]}  records {line['records']}")
    return bool(counts)


def as_told(word):
    """A peer's address or AS number as those of a file are told, however it is written."""
    if number := re.fullmatch(r"(?:AS)?([0-9]+)", word, re.IGNORECASE):
        return str(int(number[1]))
    try:
        return address(ipaddress.ip_address(word).packed)
    except ValueError:
        raise Refused(f"this is no address and no AS number: {word}") from None


def is_wanted(peer, wanted):
    return peer[0] in wanted or str(peer[1]) in wanted


def keep(name, wanted, out):
    """Writes what is kept, and says whether the file names any peers."""
    chosen, missing, named = set(), set(), False
    for kind, subtype, header, body in whole_records(name):
        if (kind, subtype) == (TABLE_DUMP_V2, PEER_INDEX_TABLE):
            table = peers(body)
            named = True
            chosen = {index for index, peer in enumerate(table) if is_wanted(peer, wanted)}
            missing = {word for word in wanted if not any(is_wanted(peer, [word]) for peer in table)}
        elif kind == TABLE_DUMP_V2 and subtype in RIB_FAMILY:
            front, found = entries(body, subtype)
            kept = [entry for index, entry in found if index in chosen]
            if not kept:
                continue
            body = front + len(kept).to_bytes(2, "big") + b"".join(kept)
        elif peer := session(kind, subtype, body):
            named = True
            if not is_wanted(peer, wanted):
                continue
        out.write(header[:8] + len(body).to_bytes(4, "big") + body)
    if missing:
        raise Refused(f"not in the peer table: {' '.join(sorted(missing))}")
    return named


def main(words):
    name, *wanted = words
    wanted = [as_told(word) for word in wanted]
    try:
        named = keep(name, wanted, sys.stdout.buffer) if wanted else list_peers(name)
    except (IndexError, ValueError):
        raise Refused(f"{name}: a record is cut or isn't MRT; fib run names it, and show_record.py shows it") from None
    if not named:
        raise Refused(f"{name}: it names no peers, in a peer table or in records of their sessions")


if __name__ == "__main__":
    run(main, __doc__, least=1)

#!/usr/bin/env python3
"""Compares a program with the reference on random small inputs.

Usage:  fuzz.py PROGRAM [--seed S] [--count N] [--kind KIND] [--keep DIR] [--strict]
        fuzz.py --laws [..]

PROGRAM is one word, or a quoted line of words. Case i of seed S is always the same case. Standard output, standard error and status
must be equal. A case that differs is kept as a folder of DIR (out/fuzz in the repository, if not said otherwise): its input files, its
words, and what is due and what came; its path and the first line that differs are printed, and the status is 1.

Rows of `steps` that differ are right nevertheless if they are a run of the machine (docs/DEFINITIONS.md, 'Runs in steps'), which leaves
open when an update takes the other set and when it waits for a look-up. Such cases are counted and kept too, and with --strict they
fail. --laws runs no program, and checks laws of the text that the reference prints.
"""

import argparse
import ipaddress
import os
import random
import shlex
import shutil
import subprocess
import sys
import tempfile

import reference as ref

KEPT = os.path.join(os.path.dirname(os.path.abspath(__file__)), "..", "..", "out", "fuzz")


def be(n, octets):
    return (n % (1 << (8 * octets))).to_bytes(octets, "big")


# ------------------------------------------------------------------ MRT inputs

class Gen:
    """Random inputs over one small pool of peers, prefixes and hops."""

    def __init__(self, rng, faults):
        self.rng, self.faults = rng, faults
        self.update = False             # whether an UPDATE is being made
        self.long_paths = 0.02
        self.simple = rng.random() < 0.5    # mostly plain announcements
        r = rng
        self.peers = [((4, 0xc0000201 + i), r.choice((64500, 64501, 23456, 70000)))
                      for i in range(r.randint(1, 3))]
        if r.random() < 0.4:
            self.peers.append(((6, 0x20010db8 << 96 | r.randint(1, 2)), r.choice((64500, 4200000000))))
        if r.random() < 0.2:
            self.peers.append(r.choice(self.peers))
        self.hops = [(4, 0xc0000201 + i) for i in range(r.choice((1, 2, 2, 3, 3, 5)))]
        if r.random() < 0.4:
            self.hops.append((6, 0x20010db8 << 96 | 1))
        if r.random() < 0.1:
            self.hops.append((4, 0))
        self.pool = {4: self.some_prefixes(4), 6: self.some_prefixes(6)}

    def some_prefixes(self, family):
        r, w = self.rng, ref.WIDTH[family]
        style = r.choice(("top", "dense", "deep", "mixed"))
        if style == "dense":                        # all prefixes of a small top
            return [(family, i << (w - n) if n else 0, n) for n in r.choice(((1, 2), (0, 1, 2), (2, 3), (0, 2, 3)))
                    for i in range(1 << n)]
        base = r.choice((0x0a000000, 0xc0a80000, 0)) if family == 4 else r.choice((0x20010db8 << 96, 0))
        out = []
        for _ in range(r.choice((1, 2, 3, 5, 7, 9))):
            if style == "top" or (style == "mixed" and r.random() < 0.5):
                n = r.choice((0, 1, 1, 2, 2, 2, 3, 3, 4))
                bits = r.getrandbits(4) << (w - 4)
            else:
                n = r.choice((0, 6, 7, 12, 14, 15, 16, 17, 18, 19, 22, 23, 24, 25, 28, 30, 31, 32)
                             + ((33, 48, 64, 127, 128) if family == 6 else ()))
                bits = base ^ (r.getrandbits(2) << max(0, w - n))
            out.append((family, ref.cleared(family, bits % (1 << w), n), n))
        return out

    def chance(self, p):
        return self.rng.random() < p

    def fault(self, p=0.02):
        """Whether to break something here."""
        return self.faults and self.rng.random() < p

    def treat(self, p):
        """Whether to break an AS_PATH or NEXT_HOP of an UPDATE, which is treated as a withdrawal then (RFC 7606)."""
        return self.update and self.rng.random() < p

    def wire(self, p, ids=False):
        family, bits, n = p
        octets = (n + 7) // 8
        data = be(bits, ref.WIDTH[family] // 8)[:octets]
        if n % 8 and self.chance(0.3):              # trailing bits have no meaning
            data = data[:-1] + bytes((data[-1] | self.rng.getrandbits(8 - n % 8),))
        if self.fault():
            n = self.rng.choice((n + 1, ref.WIDTH[family] + 1, 255, n ^ 8))
        if self.fault():
            data = data[:-1]
        ident = be(self.rng.choice((0, 1, 1, 2, 1 << 31)), 4) if ids else b""
        if ids and self.fault():
            ident = ident[:3]
        return ident + be(n, 1) + data

    def path(self, wide):
        r, out = self.rng, b""
        for _ in range(r.choice((0, 1, 1, 1, 1, 2, 3))):
            kind = r.choice((2, 2, 2, 2, 1, 3, 4))
            count = r.choice((0, 1, 1, 2, 3, 4))
            if self.chance(self.long_paths):
                count = r.choice((62, 63, 64, 126, 127, 128, 254, 255, 255))
            if self.fault() or self.treat(0.02):
                kind = r.choice((0, 5, 255))
            numbers = b"".join(be(r.choice((0, 64500, 64501, 70000)), 4 if wide else 2)
                               for _ in range(count))
            if self.fault():
                count += r.choice((1, -1))
            out += be(kind, 1) + be(count, 1) + numbers
        return out + (b"\x02" if self.fault() or self.treat(0.02) else b"")

    def attribute(self, kind, value, flags=0x40):
        r = self.rng
        if len(value) > 255 or self.chance(0.15):
            flags |= 0x10
        if self.chance(0.1):
            flags ^= r.choice((0x80, 0x20, 0x0f, 0x40))
        n = len(value)
        if self.fault(0.01):
            n += r.choice((1, -1, 4, 200))
        return be(flags, 1) + be(kind, 1) + be(n, 2 if flags & 0x10 else 1) + value

    def hop_octets(self, family, length=None):
        r = self.rng
        hop = r.choice(self.hops)
        if hop[0] == 4 and family == 6 and not self.fault(0.1):
            hop = (6, 0x20010db8 << 96 | r.randint(1, 2))
        data = be(hop[1], ref.WIDTH[hop[0]] // 8)
        if len(data) == 16 and self.chance(0.3):
            data += be(0xfe80 << 112 | 1, 16)
        if self.fault(0.04):
            data = data[:r.randint(0, len(data))]
        n = len(data)
        if self.fault(0.02):
            n = r.choice((0, 4, 8, 15, 24, 32, 48))
        return be(n, 1) + data

    def reach(self, family, ids, rib):
        """The value of MP_REACH_NLRI."""
        r = self.rng
        afi = 1 if family == 4 else 2
        safi = 1
        if self.chance(0.06):
            afi, safi = r.choice(((afi, 2), (afi, 128), (25, 1), (3 - afi, 1), (0, 1)))
        full = be(afi, 2) + be(safi, 1) + self.hop_octets(family)
        nlri = b"".join(self.wire(r.choice(self.pool[family]), ids) for _ in range(r.randint(0, 3)))
        value = full + be(r.choice((0, 0, 7)), 1) + nlri
        if rib and self.chance(0.7):
            value = full[3:] + (be(r.getrandbits(16), 2) if self.chance(0.1) else b"")
        if self.fault():
            value = value[:r.randint(0, min(len(value), 6))]
        return value

    def unreach(self, family, ids):
        r = self.rng
        afi, safi = (1 if family == 4 else 2), 1
        if self.chance(0.06):
            afi, safi = r.choice(((afi, 2), (25, 70)))
        value = be(afi, 2) + be(safi, 1) + b"".join(
            self.wire(r.choice(self.pool[family]), ids) for _ in range(r.randint(0, 3)))
        return value[:r.randint(0, 3)] if self.fault() else value

    def attributes(self, family, wide, ids, rib):
        """One attribute list."""
        r, out = self.rng, []
        if self.simple and self.chance(0.85):
            out = [self.attribute(1, b"\0"), self.attribute(2, self.path(wide))]
            four = [h for h in self.hops if h[0] == 4]
            if family == 4:
                out.append(self.attribute(3, be(r.choice(four)[1], 4)))
            else:
                out.append(self.attribute(14, self.reach(6, ids, rib), 0x80))
            return b"".join(out)
        if self.chance(0.7):
            out.append(self.attribute(1, b"\0"))
        for _ in range(r.choice((0, 1, 1, 1, 1, 1, 1, 1, 1, 2))):
            out.append(self.attribute(2, self.path(wide)))
        for _ in range(r.choice((0, 1, 1, 1, 1, 2)) if family == 4 or self.chance(0.3) else 0):
            hop = r.choice([h for h in self.hops if h[0] == 4])
            value = be(hop[1], 4)
            if self.fault(0.03) or self.treat(0.06):
                value = r.choice((value[:3], value + b"\0", b""))
            out.append(self.attribute(3, value))
        if family == 6 or self.chance(0.15):
            other = family if rib or self.chance(0.6) else 10 - family
            out.append(self.attribute(14, self.reach(other, ids, rib), 0x80))
            if self.fault(0.04):
                out.append(self.attribute(14, self.reach(other, ids, rib), 0x80))
        if self.chance(0.15 if not rib else 0.05):
            out.append(self.attribute(15, self.unreach(r.choice((4, 6)), ids), 0x80))
            if self.fault(0.1):
                out.append(self.attribute(15, self.unreach(r.choice((4, 6)), ids), 0x80))
        if self.chance(0.15):
            out.append(self.attribute(r.choice((4, 5, 8, 16, 32, 99)), r.randbytes(r.randint(0, 9)), 0xc0))
        if self.chance(0.5):
            r.shuffle(out)
        data = b"".join(out)
        return data[:-1] if data and self.fault(0.02) else data

    def peer_table(self):
        r, out = self.rng, b""
        for addr, asn in self.peers:
            kind = (1 if addr[0] == 6 else 0) | (2 if asn > 65535 or self.chance(0.7) else 0)
            out += be(kind | r.choice((0, 0, 0x80)), 1) + be(addr[1], 4)
            out += be(addr[1], ref.WIDTH[addr[0]] // 8) + be(asn, 4 if kind & 2 else 2)
        view = r.choice((b"", b"", b"view"))
        count = len(self.peers) + (r.choice((1, -1)) if self.fault() else 0)
        extra = b"\0" if self.fault(0.01) else b""
        return 13, 1, be(0, 4) + be(len(view), 2) + view + be(count, 2) + out + extra

    def rib(self, number):
        r = self.rng
        ids = self.chance(0.2)
        family = 4 if self.chance(0.6) else 6
        entries = b""
        count = r.choice((0, 1, 1, 1, 1, 2, 3))
        for _ in range(count):
            index = r.randrange(len(self.peers))
            if self.fault(0.02):
                index = r.choice((len(self.peers), 65535))
            a = self.attributes(family, True, ids, True)
            n = len(a) + (r.choice((1, -1)) if self.fault(0.01) else 0)
            ident = be(r.choice((0, 1, 2)), 4) if ids else b""
            entries += be(index, 2) + be(r.getrandbits(32), 4) + ident + be(n, 2) + a
        if self.fault():
            count += r.choice((1, -1))
        sub = {(4, False): 2, (6, False): 4, (4, True): 8, (6, True): 10}[(family, ids)]
        extra = b"\0" if self.fault(0.01) else b""
        return 13, sub, be(number, 4) + self.wire(r.choice(self.pool[family])) + be(count, 2) + entries + extra

    def bgp4mp(self):
        r = self.rng
        peer = r.choice(self.peers)
        state = self.chance(0.12)
        wide = peer[1] > 65535 or self.chance(0.6)
        ids = not state and self.chance(0.2)
        if state:
            sub = 5 if wide else 0
        else:
            sub = r.choice((4, 7) if wide else (1, 6))
            if ids:
                sub = {1: 8, 4: 9, 6: 10, 7: 11}[sub]
        n = 4 if wide else 2
        afi = 1 if peer[0][0] == 4 else 2
        head = be(peer[1], n) + be(64511, n) + be(0, 2)
        if self.chance(0.04):                       # another family: skipped, however short
            body = head + be(r.choice((0, 3, 25)), 2) + r.randbytes(r.randint(0, 12))
            return (17, sub, bytes(4) + body) if self.chance(0.3) else (16, sub, body)
        head += be(afi, 2)
        head += be(peer[0][1], ref.WIDTH[peer[0][0]] // 8) * 2
        if state:
            old, new = r.choice(((6, 1), (6, 1), (6, 3), (1, 3), (6, 6), (5, 6), (6, 0), (6, 65535)))
            body = head + be(old, 2) + be(new, 2) + (b"\0" if self.fault() else b"")
        else:
            body = head + self.message(wide, ids)
        if self.chance(0.15):
            return 17, sub, be(r.getrandbits(20), 4) + body
        return 16, sub, body

    def message(self, wide, ids):
        r = self.rng
        kind = 2 if not self.chance(0.04) else r.choice((1, 3, 4, 5, 0))
        withdrawn = b"".join(self.wire(r.choice(self.pool[4]), ids)
                             for _ in range(r.choice((0, 0, 0, 1, 2))))
        nlri = b"".join(self.wire(r.choice(self.pool[4]), ids) for _ in range(r.choice((0, 1, 1, 2))))
        family = 4 if nlri and self.chance(0.8) else r.choice((4, 6))
        self.update = True
        a = self.attributes(family, wide, ids, False) if self.chance(0.9) else b""
        self.update = False
        wn = len(withdrawn) + (r.choice((1, -1)) if self.fault(0.01) else 0)
        an = len(a) + (r.choice((1, -1)) if self.fault(0.01) else 0)
        body = be(wn, 2) + withdrawn + be(an, 2) + a + nlri
        if kind != 2 and self.chance(0.5):
            body = r.randbytes(r.randint(0, 3))
        if self.fault(0.01):
            body = body[:r.randint(0, 3)]
        n = 19 + len(body) + (r.choice((1, -1, -10)) if self.fault(0.01) else 0)
        return r.choice((b"\xff" * 16, r.randbytes(16))) + be(n, 2) + be(kind, 1) + body

    def other(self):
        r = self.rng
        return r.choice(((12, 1), (13, 3), (13, 6), (13, 7), (16, 2), (17, 3), (16, 12), (11, 0))) + (
            r.randbytes(r.randint(0, 12)),)

    def records(self, updates):
        r, out = self.rng, []
        if not updates or self.chance(0.1):
            if not self.fault(0.02):
                out.append(self.peer_table())
            for i in range(r.randint(4, 14) if self.simple else r.randint(0, 7)):
                out.append(self.rib(i))
                if self.chance(0.03):
                    out.append(self.peer_table())
        if updates or self.chance(0.1):
            for _ in range(r.randint(0, 9)):
                out.append(self.bgp4mp())
        for _ in range(r.choice((0, 0, 0, 0, 1))):
            out.insert(r.randint(0, len(out)), self.other())
        return out

    def file(self, updates):
        """Octets of one input; with faults, sometimes broken in the raw as well."""
        faults = self.faults
        self.faults = faults and self.chance(0.9 if updates else 0.35)
        data = self.one_file(updates)
        self.faults = faults
        return data

    def one_file(self, updates):
        r, records = self.rng, self.records(updates)
        if self.faults and records and self.chance(0.25):
            i = r.randrange(len(records))
            records[i] = records[i][:2] + (self.broken(records[i][2]),)
        data = b"".join(be(r.choice((0, 1 << 30)), 4) + be(k, 2) + be(s, 2) + be(len(b), 4) + b
                        for k, s, b in records)
        return self.broken(data) if self.faults and self.chance(0.12) else data

    def broken(self, data):
        r = self.rng
        data = bytearray(data)
        for _ in range(r.choice((1, 1, 1, 2, 4))):
            at = r.randint(0, len(data))
            way = r.randrange(6)
            if way == 0 and at < len(data):
                data[at] ^= 1 << r.randrange(8)
            elif way == 1:
                del data[at:]
            elif way == 2 and at < len(data):
                del data[at]
            elif way == 3:
                data[at:at] = r.randbytes(r.randint(1, 3))
            elif way == 4:
                data += r.randbytes(r.randint(1, 14))
            elif at < len(data):
                data[at] = r.choice((0, 1, 2, 14, 15, 33, 129, 255))
        return bytes(data)

    # ---------------------------------------------------------- texts

    def address(self):
        r = self.rng
        p = r.choice(self.pool[r.choice((4, 4, 6))])
        w = ref.WIDTH[p[0]]
        x = r.choice((p[1], ref.last_bits(p), ref.last_bits(p) + 1, p[1] - 1, r.getrandbits(w)))
        return (p[0], x % (1 << w))

    def address_text(self):
        """An address in some form that may be read."""
        r, a = self.rng, self.address()
        if a[0] == 6 and self.chance(0.5):
            groups = ["%x" % (a[1] >> s & 0xffff) for s in range(112, -1, -16)]
            if self.chance(0.5):
                groups = [g.rjust(r.randint(1, 4), "0") for g in groups]
            text = ":".join(groups)
            return text.upper() if self.chance(0.3) else text
        return ref.write_addr(a)

    def bad_text(self, text):
        r = self.rng
        at = r.randint(0, len(text))
        way = r.randrange(5)
        if way == 0:
            return text[:at] + r.choice("0:./ ,x-1g\t\r\"") + text[at:]
        if way == 1:
            return text[:at] + text[at + 1:]
        if way == 2:
            return text[:at]
        if way == 3:
            return r.choice(("", "0", "::", "1::2::3", "01.2.3.4", "1.2.3.256", "1:2:3:4:5:6:7::",
                             "::2:3:4:5:6:7:8", "1:2:3:4:5:6:7:8::", ":1", "::ffff:1.2.3.4",
                             "12345::", "1.2.3.4.5", "+1.2.3.4", "1.2.3.-4", "\u00e9"))
        return text + r.choice((" ", ",", "\r", "0", "/8"))

    def lines(self, lines):
        """Lines with the ends that are allowed, or nearly."""
        r = self.rng
        out = b""
        for line in lines:
            if self.chance(0.04):
                out += r.choice((b"\n", b"\r\n"))
            end = b"\r\n" if self.chance(0.06) else b"\n"
            if self.faults and self.chance(0.004):
                end = b"\r\r\n"
            out += line.encode("utf-8") + end
        if out and self.chance(0.1):
            out = out[:-1]
        return out

    def asks(self):
        lines = [self.address_text() for _ in range(self.rng.randint(0, 8))]
        if self.faults and lines and self.chance(0.15):
            i = self.rng.randrange(len(lines))
            lines[i] = self.bad_text(lines[i])
        return self.lines(lines)

    def vrp_fields(self):
        """The fields of a good VRP line that has something to do with the routes."""
        r = self.rng
        family = r.choice((4, 4, 6))
        w = ref.WIDTH[family]
        p = r.choice(self.pool[family])
        x = r.random()
        if x < 0.55:                                # at the route or above it
            n = max(0, p[2] - r.choice((0, 0, 1, 3, 8)))
        elif x < 0.65:
            n = 0
        elif x < 0.85:                              # below it: covers nothing, or others
            n = min(w, p[2] + r.choice((1, 1, 2, 8)))
        else:
            n = r.randint(0, w)
        bits = p[1] if x < 0.9 else r.getrandbits(w)
        if n > p[2] and r.random() < 0.5:
            bits |= r.getrandbits(w - p[2]) if p[2] < w else 0
        # edges of MAXLEN: its own length, the route's and beside it, the width
        edges = [m for m in (n, n, p[2] - 1, p[2], p[2], p[2] + 1, w, n + 40) if n <= m <= w]
        asn = r.choice((0, 23456, 64500, 64500, 64501, 64501, 70000, 4200000000, 4294967295))
        return [ref.write_prefix((family, ref.cleared(family, bits, n), n)), str(r.choice(edges)), str(asn)]

    def bad_vrp(self, fields):
        """A line with one fault or several, so that the first of them is told."""
        r = self.rng
        w = 128 if ":" in fields[0] else 32
        n = int(fields[0].split("/")[1])
        bad = {
            0: (self.bad_text(fields[0]), fields[0].split("/")[0], "10.0.0.1/8", "10.0.0.0/33", "10.0.0.0/08",
                "2001:db8::/129", "2001:DB8::/32", "::/0", ""),
            1: (str(n - 1) if n else "-1", str(w + 1), "0", "255", "256", "0" + fields[1], "+8", "",
                self.bad_text(fields[1]), "18446744073709551624"),
            2: ("4294967296", "4294967295", "AS64500", "0" + fields[2], "", "-1", self.bad_text(fields[2])),
        }
        fields = list(fields)
        for i in r.sample(range(3), r.choice((1, 1, 1, 2, 3))):
            fields[i] = r.choice(bad[i])
        if r.random() < 0.15:
            fields = r.choice((fields[:2], fields[:1], fields + ["1"], fields + [""], [""]))
        return fields

    def vrps(self):
        r = self.rng
        lines = [self.vrp_fields() for _ in range(r.choice((0, 1, 1, 2, 3, 5, 9)))]
        for _ in range(r.choice((0, 0, 1, 2)) if lines else 0):   # overlapping: the same prefix again
            f = list(r.choice(lines))
            n, w = int(f[0].split("/")[1]), 128 if ":" in f[0] else 32
            f[r.choice((1, 2))] = r.choice((f[1], str(n), str(w), str(min(w, n + 1)))) if r.random() < 0.5 else f[2]
            if not n <= int(f[1]) <= w:
                f[1] = str(n)
            f[2] = r.choice((f[2], "64500", "64501", "0"))
            lines.insert(r.randint(0, len(lines)), f)
        if self.faults and lines and r.random() < 0.5:
            for i in r.sample(range(len(lines)), min(len(lines), r.choice((1, 1, 2)))):
                lines[i] = self.bad_vrp(lines[i])
        return self.lines([",".join(f) for f in lines])

    def printed(self, text, soft=False, only=("route", "least", "cert", "table")):
        """A printed text, sometimes changed in meaning or (not soft) in its grammar."""
        r = self.rng
        rows = text.split("\n")[:-1]
        if self.chance(0.15):
            return self.lines(rows)
        hops = [ref.write_addr(h) for h in self.hops] + ["none", "drop"]
        mine = [i for i, x in enumerate(rows) if x.split(",")[0] in only]
        if self.chance(0.05):                       # two faults, to see which comes first
            rows += [rows[i] for i in mine if self.chance(0.3)]
        if self.chance(0.05):
            rows.append("cert,leaf,%s,%s" % (
                ref.write_prefix(r.choice(self.pool[r.choice((4, 6))])), r.choice(hops[:-1])))
        for _ in range(r.choice((1, 1, 1, 2, 3))):
            if not rows:
                break
            i = r.choice(mine) if mine and self.chance(0.8) else r.randrange(len(rows))
            i = min(i, len(rows) - 1)
            f = rows[i].split(",")
            if f[0] in ("least", "table") and len(f) != 3:
                continue
            way = r.randrange(7 if soft else 12)
            if r.random() < 0.1 and f[0] in ("least", "table"):
                p = ref.read_prefix(f[1])            # a redundant more specific row
                if p and p[2] < ref.WIDTH[p[0]]:
                    q = ref.half(p, r.randrange(2))
                    rows.insert(i + 1, ",".join([f[0], ref.write_prefix(q), f[2]]))
                    continue
            if way == 0:
                rows.insert(i, rows[i])
            elif way == 1:
                del rows[i]
            elif way == 2:
                j = r.randrange(len(rows))
                rows[i], rows[j] = rows[j], rows[i]
            elif way in (3, 4, 5):
                f[-1] = r.choice(hops[:-2] if soft else hops) if not f[-1].isdigit() else str(
                    max(0, int(f[-1]) + r.choice((-1, 1, 2))))
                rows[i] = ",".join(f)
            elif way == 6:
                p = ref.write_prefix(r.choice(self.pool[r.choice((4, 6))]))
                rows.insert(i, r.choice((
                    "least,%s,%s", "route,%s,%s", "cert,leaf,%s,%s", "table,%s,%s",
                    "change,1,+,%s,%s", "change,1,=,%s,%s")) % (
                        p, r.choice(hops[:-2] if soft else hops)))
            elif way == 7:
                p = ref.write_prefix(r.choice(self.pool[r.choice((4, 6))]))
                rows.insert(i, r.choice(("cert,join,%s,1" % p, "cert,bound,4,1", "cert,bound,6,0",
                                         "change,7,-,%s" % p, "moves,1,2", "report,treated,0",
                                         "invalid,%s,1.2.3.4,5,none,%s,8,9" % (p, p),
                                         "answer,1.2.3.4,none", "visits,::,19")))
            elif way == 8:
                f = [self.bad_text(x) if self.chance(0.4) else x for x in f]
                rows[i] = ",".join(f)
            elif way == 9:
                rows[i] = ",".join(f[:r.randint(1, len(f))])
            elif way == 10:
                j = r.randrange(len(f))
                f[j] = r.choice(("", "01", "18446744073709551615", "18446744073709551616", "-1", "+",
                                 "=", "-", "5", "foo", "leaf", "none", "drop", "records", "0.0.0.0/0"))
                rows[i] = ",".join(f)
            else:
                rows[i] = rows[i] + r.choice((",", ",x", " ", ",1"))
        return self.lines(rows)

    def script(self):
        r, lines = self.rng, []
        steady = r.choice((0, 0, 4, 12, 30))        # whole updates under open lookups
        for _ in range(steady):
            for _ in range(r.choice((0, 0, 1, 2))):
                lines.append(r.choice(("open " + self.address_text(), "go 0", "go 1", "go 64")))
            lines += ["prepare"] + ["store"] * r.choice((1, 1, 1, 2, 5, 70)) + ["end"]
            if self.chance(0.1):
                lines += ["go %d" % r.choice((0, 1, 2, 64))] * 20
        for _ in range(r.choice((3, 12, 40, 120)) if steady == 0 else r.choice((0, 10))):
            x = r.random()
            if x < 0.16:
                lines.append("open " + self.address_text())
            elif x < 0.36:
                lines.append("go %d" % r.choice((0, 0, 1, 1, 2, 3, 64, 64, 65, 5, 127)))
            elif x < 0.54:
                lines.append("prepare")
            elif x < 0.76:
                lines += ["store"] * r.choice((1, 1, 2, 4))
            elif x < 0.94:
                lines.append("end")
            else:
                lines.append("cancel")
        if self.chance(0.02):
            lines += ["open " + self.address_text()] * 66
        if self.faults and self.chance(0.15):
            i = r.randrange(len(lines))
            lines[i] = r.choice((self.bad_text(lines[i]), "go 128", "go", "go 00", "open", "stop",
                                 "prepare ", "end x", " end", "go  1", "open 1.2.3.4 5", "go 1 ",
                                 "PREPARE", "open 1.2.3"))
        return self.lines(lines)


# ------------------------------------------------------------------ cases

class Case:
    """Files and words of one case."""

    def __init__(self, kind, seed):
        self.rng = rng = random.Random(seed)
        self.kind = kind
        self.files, self.words = {}, []
        self.gen = Gen(rng, rng.random() < 0.4)
        getattr(self, "make_" + kind)()

    def reference(self, words, files):
        """The reference's (status, out, err), over the files of a folder."""
        here = os.getcwd()
        with tempfile.TemporaryDirectory() as d:
            for name, octets in files.items():
                with open(os.path.join(d, name), "wb") as f:
                    f.write(octets)
            os.chdir(d)
            try:
                return ref.run_fib(words)
            finally:
                os.chdir(here)

    def most_needs(self):
        """The greatest needs over the load and all updates, per arena kind."""
        opts = {"direct": int(self.option("direct", 16)), "nodes": 60, "leaves": 60, "every": 0}
        engine = ref.Engine(opts)
        most = [1, 1]
        try:
            for events in ref.Reader(self.files["dump"], "dump"):
                for event in events:
                    engine.load(event)
            engine.finish_load()
            updates = ref.Reader(self.files.get("updates", b""), "updates")
            for events in [[]] + list(updates):
                for event in events:
                    engine.apply(event)
                for f in ref.FAMILIES:
                    most = [max(m, n) for m, n in zip(most, engine.needs[f].total)]
        except ref.Stop:
            pass
        return most

    def option(self, name, default):
        word = "--" + name
        return self.words[self.words.index(word) + 1] if word in self.words else default

    def arenas(self, often, spare):
        """--direct, --nodes, --leaves near what is needed."""
        r = self.rng
        if r.random() > often:
            return
        if r.random() < 0.8:
            self.words += ["--direct", str(r.choice((0, 0, 0, 0, 1, 2, 5, 6, 16, 17, 18)))]
        nodes, leaves = self.most_needs()
        low = -1 if r.random() < 0.25 else 0
        for name, need in (("nodes", nodes), ("leaves", leaves)):
            if r.random() < 0.8:
                order = (need - 1).bit_length() + r.randint(low, spare)
                self.words += ["--" + name, str(max(0, order))]

    def make_run(self, vrps=False):
        r, g = self.rng, self.gen
        self.files["dump"] = g.file(False)
        self.words = ["run", "dump"]
        if r.random() < 0.8:
            self.files["updates"] = g.file(True)
            self.words += ["--updates", "updates"]
        if r.random() < 0.7:
            self.files["asks"] = g.asks()
            self.words += ["--ask", "asks"]
        if r.random() < 0.5:
            self.words += ["--every", str(r.choice((0, 1, 1, 2, 3, 5)))]
        if r.random() < 0.4:
            self.words += ["--fewest"]
        if r.random() < 0.4:
            self.words += ["--steady"]
        if vrps or r.random() < 0.1:
            self.files["vrps"] = g.vrps()
            self.words += ["--vrps", "vrps"]
        self.arenas(0.4, 2)
        if r.random() < 0.02:
            self.words.append(r.choice(("--x", "more", "--every", "--direct=19", "-h", "--help")))

    def make_vrps(self):
        self.make_run(True)

    def make_save(self):
        self.gen.long_paths = self.rng.choice((0, 0.02, 0.3))
        if self.rng.random() < 0.1:
            self.gen.hops.append((6, self.rng.getrandbits(128)))
        self.files["dump"] = self.gen.file(False)
        self.words = ["save", "dump"]
        if self.rng.random() < 0.8:
            self.files["updates"] = self.gen.file(True)
            self.words += ["--updates", "updates"]
        clean = Gen(self.rng, False)
        clean.pool, clean.hops, clean.peers = self.gen.pool, self.gen.hops, self.gen.peers
        self.later = clean.file(True)               # what comes after the checkpoint

    def follow_up(self, out):
        """What is run on an accepted case's text: (words, files), or None."""
        if self.kind != "save":
            return None
        return (["run", "checkpoint", "--updates", "later"], {"checkpoint": out, "later": self.later})

    def text_of_run(self):
        """The text of some accepted run (empty where none is found)."""
        for _ in range(5):
            clean = Gen(self.rng, False)
            clean.pool, clean.hops, clean.peers = self.gen.pool, self.gen.hops, self.gen.peers
            files = {"dump": clean.file(False), "updates": clean.file(True), "asks": clean.asks(),
                     "vrps": clean.vrps()}
            words = ["run", "dump", "--updates", "updates", "--ask", "asks"]
            words += ["--every", "2"] if self.rng.random() < 0.5 else []
            words += ["--fewest"] if self.rng.random() < 0.5 else []
            words += ["--vrps", "vrps"] if self.rng.random() < 0.3 else []
            status, out, _ = self.reference(words, files)
            if status == 0:
                return out.decode()
        return ""

    def make_check(self):
        self.files["printed"] = self.gen.printed(self.text_of_run(), self.rng.random() < 0.5)
        self.words = ["check", "printed"]

    def make_same(self):
        """2 to 4 texts: alike in another shape, differing first at a chosen address, or broken."""
        r = self.rng
        kind = r.choice(("route", "table", "table", "least"))
        self.words = ["same"]
        base = self.text_of_run()
        many = r.choice((2, 2, 2, 3, 3, 4))
        broken = r.random() < 0.25
        for i in range(many):
            name = "t%d" % i
            if r.random() < 0.08:
                base = self.text_of_run()
            x = r.random()
            if x < 0.15:
                text = base.encode()
            elif broken and x < 0.55:
                text = self.gen.printed(base, r.random() < 0.5, (kind,))
            else:
                rows = self.rows_of(base, kind)
                for _ in range(r.choice((0, 0, 1, 1, 2)) if i else 0):
                    rows = self.differing(rows)
                text = self.reshaped(rows, kind, base)
            self.files[name] = text
            self.words.append(name)
        if kind != "table" or r.random() < 0.5:
            self.words[r.choice((1, len(self.words))):0] = ["--rows", kind]

    def rows_of(self, text, kind):
        """The (prefix, hop text) of one kind's rows; `drop` is None."""
        out = []
        for line in text.split("\n"):
            f = line.split(",")
            if f[0] == kind:
                out.append((ref.read_prefix(f[1]), None if f[2] == "drop" else f[2]))
        return out

    def differing(self, rows):
        """The rows with another answer at one address, one of the edges of some region."""
        r = self.rng
        family = r.choice((4, 4, 6))
        w = ref.WIDTH[family]
        p = r.choice([q for q, _ in rows if q[0] == family] or self.gen.pool[family])
        n = r.choice((p[2], p[2], min(w, p[2] + 1), w, r.randint(p[2], w)))
        bits = r.choice((p[1], ref.last_bits(p), p[1] | r.getrandbits(w - p[2]) if p[2] < w else p[1]))
        q = (family, ref.cleared(family, bits, n), n)
        hop = r.choice([ref.write_addr(h) for h in self.gen.hops] + [None])
        return [x for x in rows if x[0] != q] + [(q, hop)]

    def reshaped(self, rows, kind, base):
        """A text whose rows of this kind give the same answers in another shape, with rows of other kinds beside."""
        r = self.rng
        held = {p: hop for p, hop in rows}
        for _ in range(r.choice((0, 1, 2, 4, 9))):
            way = r.randrange(5)
            p = r.choice(list(held)) if held and r.random() < 0.8 else r.choice(self.gen.pool[r.choice((4, 6))])
            if way == 0 and p in held and p[2] < ref.WIDTH[p[0]]:    # split into its halves
                hop = held[p]
                for half in (ref.half(p, 0), ref.half(p, 1)):
                    held.setdefault(half, hop)
                del held[p]
            elif way == 1 and p in held:                            # a redundant more specific one
                n = r.randint(p[2], ref.WIDTH[p[0]])
                q = (p[0], ref.cleared(p[0], r.choice((p[1], ref.last_bits(p))), n), n)
                if q not in held and self.inherits(held, q) == held[p]:
                    held[q] = held[p]
            elif way == 2 and p in held and self.inherits(held, p) == held[p]:
                del held[p]                                         # a redundant one goes
            elif way == 3 and p not in held and self.inherits(held, p) is None and kind != "route":
                held[p] = None                                      # nothing there, or a drop entry
            elif way == 4 and p in held and held[p] is None and self.inherits(held, p) is None:
                del held[p]
        lines = []
        for p, hop in held.items():
            if hop is not None:
                if ":" in hop and r.random() < 0.3:
                    hop = r.choice((hop.upper(), ":".join("%x" % (ref.read_addr(hop)[1] >> s & 0xffff)
                                                         for s in range(112, -1, -16))))
                lines.append("%s,%s,%s" % (kind, ref.write_prefix(p), hop))
            elif kind != "route":
                lines.append("%s,%s,drop" % (kind, ref.write_prefix(p)))
        r.shuffle(lines)
        if r.random() < 0.3:                                        # rows that are dropped
            others = [x for x in base.split("\n") if x and x.split(",")[0] != kind]
            lines += r.sample(others, min(len(others), 4))
        if r.random() < 0.08 and lines:                             # a repeated prefix
            f = r.choice(lines).split(",")
            lines.insert(r.randint(0, len(lines)), ",".join(f[:-1] + [r.choice((f[-1], "192.0.2.9"))]))
        return self.gen.lines(lines)

    def inherits(self, held, p):
        """The hop of the longest entry strictly containing p."""
        for n in range(p[2] - 1, -1, -1):
            q = (p[0], ref.cleared(p[0], p[1], n), n)
            if q in held:
                return held[q]
        return None

    def make_moves(self):
        """A router's table and the routes of a run: the run's own table changed a little, another run's, or broken. Or changes
        of it, those that are due or others, which are checked."""
        r, base = self.rng, self.text_of_run()
        routes = base if r.random() < 0.8 else self.text_of_run()
        rows = self.rows_of(base, r.choice(("least", "table", "route")))
        for _ in range(r.choice((0, 0, 1, 2, 5, 9))):
            rows = self.differing(rows)
        router = self.reshaped(rows, "least", base) if r.random() < 0.9 else b""
        if r.random() < 0.2:
            router = self.gen.printed(router.decode(), r.random() < 0.5, ("least",))
        self.files = {"router": router, "printed": routes.encode()}
        if r.random() < 0.2:
            self.files["printed"] = self.gen.printed(routes, r.random() < 0.5, ("route",))
        self.words = ["moves", "router", "printed"]
        x = r.random()
        status, out, _ = self.reference(self.words + ["--steady"] * (x > 0.85), self.files)
        if status == 0 and x > 0.4:                 # mostly checked, sometimes as they are due
            text = out.decode()
            self.files["moves"] = out if r.random() < 0.3 else self.gen.printed(text, r.random() < 0.7, ("change", "cert"))
            self.words.append("moves")
        if "moves" in self.words[1:] or r.random() < 0.02:
            self.words.insert(r.randint(1, len(self.words)), "--check")
        if x < 0.15 or r.random() < 0.01:
            self.words.insert(r.randint(1, len(self.words)), "--steady")

    def make_make(self):
        r = self.rng
        count = r.choice((1, 2, 9, 30, r.randint(1, 60), r.randint(1, 60), "0", "200001", "07"))
        seed = r.choice((0, 1, 7, (1 << 64) - 1, r.getrandbits(64), r.getrandbits(64), 1 << 64, "x"))
        self.words = ["make", str(count), "--seed", str(seed)]

    def make_steps(self):
        g = self.gen
        if self.rng.random() < 0.7:
            g.faults = False
        self.files["dump"] = g.file(False)
        self.files["updates"] = b"".join(g.file(True) for _ in range(self.rng.choice((1, 1, 2, 3))))
        self.files["script"] = g.script()
        self.words = ["steps", "dump", "updates", "script"]
        self.arenas(0.95, 1)


# ---------------------------------------------------- runs in steps as a relation

def is_run(case, rows):
    """Whether these rows of `steps` are a run of the machine over the case's script (docs/DEFINITIONS.md, 'Runs in steps')."""
    opts = {"direct": int(case.option("direct", 16)), "nodes": int(case.option("nodes", 16)),
            "leaves": int(case.option("leaves", 18))}
    s = opts["direct"]
    script = ref.read_script(case.files["script"])
    if len(rows) != len(script):
        return False
    engine = ref.Engine(opts)
    for events in ref.Reader(case.files["dump"], "dump"):
        for event in events:
            engine.load(event)
    engine.finish_load()
    updates = [e for es in ref.Reader(case.files["updates"], "updates") for e in es]
    events = ref.elementary_list(engine.candidates, updates)
    trees = [{f: engine.routes[f].regions() for f in ref.FAMILIES}]
    family, changing = [], []
    for elem, p, before, after in events:
        if elem[0] == "put" and engine.hops.number(elem[4]) is None:
            return False
        if before != after:
            if after is None:
                engine.routes[p[0]].clear(p)
            else:
                engine.routes[p[0]].set(p, engine.hops.numbers[after])
        tree = dict(trees[-1])
        tree[p[0]] = engine.routes[p[0]].regions()
        trees.append(tree)
        family.append(p[0])
        changing.append(before != after)

    def need(n, f):
        return ref.needs(trees[n][f], ref.ROOT[f], s)

    def fits(n, f):
        return all(x <= 1 << opts[k] for x, k in zip(need(n, f), ("nodes", "leaves")))

    def changes(f, lo, hi):
        """The changing events of a family among those ended after lo, up to hi."""
        return [n for n in range(lo + 1, hi + 1) if family[n - 1] == f and changing[n - 1]]

    def slot(a):
        return a[1] >> (ref.WIDTH[a[0]] - s) if s else 0

    # a state: (n, begun, open); begun is None or (stores, made), stores a tuple or "all";
    # open: tuple of (family, number, address, n at start, goes, version)
    def after(state, line, row):
        n, begun, opened = state
        word = line[0]
        if word == "open":
            a = line[1]
            used = {c for f, c, *_ in opened if f == a[0]}
            free = [c for c in range(64) if c not in used]
            if not free:
                return [state] if row == "full" else []
            if row != "open,%d" % (free[0] + (64 if a[0] == 6 else 0)):
                return []
            return [(n, begun, opened + ((a[0], free[0], a, n, 0, None),))]
        if word == "go":
            f, c = (6 if line[1] >= 64 else 4), line[1] % 64
            found = [x for x in opened if x[:2] == (f, c)]
            if not found:
                return [state] if row == "notopen,%d" % line[1] else []
            x = found[0]
            version = x[5]
            if version is None:
                made = begun is not None and family[n] == f and begun[1] > 0 and (
                    begun[0] == "all" or slot(x[2]) in begun[0][:begun[1]])
                version = n + 1 if made else n
            goes = x[4] + 1
            tree = trees[version][f]
            rest = tuple(y for y in opened if y != x)
            if goes <= ref.visits(tree, x[2], s):
                due, rest = "on,%d" % line[1], rest + (x[:4] + (goes, version),)
            else:
                due = "hop,%d,%s" % (line[1], engine.hops.text(ref.answer_at(tree, x[2]), "none"))
            return [(n, begun, rest)] if row == due else []
        if word == "prepare":
            if begun is not None:
                return [state] if row == "busy" else []
            if n == len(events):
                return [state] if row == "nothing" else []
            f = family[n]
            if changing[n] and not fits(n + 1, f):
                return []
            if row == "prepared":
                if not changing[n]:
                    return [(n, ((), 0), opened)]
                slots = tuple(ref.changed_slots(trees[n][f], trees[n + 1][f], ref.ROOT[f], s))
                return [(n, (slots, 0), opened), (n, ("all", 0), opened)]
            mine = sorted((len(changes(f, 0, x[3])), x[1], x[3]) for x in opened if x[0] == f)
            if not mine or not changing[n]:
                return []
            _, c, start = mine[0]
            since = changes(f, start, n)
            if row != "pinned,%d" % (c + (64 if f == 6 else 0)) or not since:
                return []
            versions = [start] + since + [n + 1]
            ok = any(64 * sum(need(m, f)[i] for m in versions) >= 1 << opts[k]
                     for i, k in enumerate(("nodes", "leaves")))
            return [state] if ok else []
        if begun is None:
            return [state] if row == "nothing" else []
        stores, made = begun
        total = 1 if stores == "all" else len(stores)
        if word == "store":
            if made == total:
                return [state] if row == "nothing" else []
            return [(n, (stores, made + 1), opened)] if row == "stored" else []
        if word == "end":
            if made < total:
                return [state] if row == "left" else []
            return [(n + 1, None, opened)] if row == "ended" else []
        if made > 0:
            return [state] if row == "late" else []
        return [(n, None, opened)] if row == "cancelled" else []

    states = {(0, None, ())}
    for i, (line, row) in enumerate(zip(script, rows), 1):
        head = "step,%d," % i
        if not row.startswith(head):
            return False
        states = {t for state in states for t in after(state, line, row[len(head):])}
        if not states:
            return False
    return True


def self_check(case, status, out):
    """Laws of what the reference prints in an accepted case."""
    text = out.decode("latin-1")
    if case.kind == "steps":                        # its rows are a run of the machine
        return is_run(case, text.splitlines())
    if case.kind in ("run", "vrps"):
        rows = [line.split(",") for line in text.splitlines()]
        table = {}
        for f in rows:                              # the changes add up to the table
            if f[0] == "change":
                if (f[3] in table) == (f[2] == "+"):
                    return False
                table[f[3]] = f[-1]
                if f[2] == "-":
                    del table[f[3]]
        if sorted(table.items()) != sorted((f[1], f[2]) for f in rows if f[0] == "table"):
            return False
        said, _, _ = case.reference(["check", "printed"], {"printed": out})
        return said == 0 and invalid_rows(case) == [
            ",".join(f) for f in rows if f[0] == "invalid"]
    if case.kind == "save":                         # what is saved stands for what was read
        one, two = ref.Candidates(), ref.Candidates()
        for name in ("dump", "updates"):
            for events in ref.Reader(case.files.get(name, b""), name):
                for event in events:
                    for elem in one.elementary(event):
                        one.take(elem)
        reader = ref.Reader(out, "dump")
        for events in reader:
            for event in events:
                for elem in two.elementary(event):
                    two.take(elem)
        if one.all() != two.all() or reader.skipped != 0 or reader.treated != 0:
            return False
        return routes_after(case, out) == routes_replayed(case)
    if case.kind == "moves":                        # the changes lead to a table that answers as the routes
        if "--check" not in case.words:
            return leads_to_routes(case, text.splitlines())
        changes = [line for _, line in ref.text_lines(case.files["moves"]) if line.startswith("change,")]
        _, out, _ = case.reference(["moves", "router", "printed"], case.files)
        return leads_to_routes(case, changes + ["moves,1,%d" % len(changes)]) and b"moves,1,%d\n" % len(changes) in out
    if case.kind == "same":                         # longest match at every edge of a region
        found = first_differing(case)
        due = "alike" if found is None else "differ,%d,%s,%s,%s" % (
            found[1], ref.write_addr(found[0]), found[2], found[3])
        return text == due + "\n" and (found is None) == (status == 0)
    return True


def invalid_rows(case):
    """The `invalid` rows by RFC 6811 section 2 over octets of VRPs, written apart from the reference's."""
    if "vrps" not in case.files:
        return []
    vrps = []
    for _, line in ref.text_lines(case.files["vrps"]):
        prefix, most, asn = line.split(",")
        vrps.append((ipaddress.ip_network(prefix), int(most), int(asn), line))
    out = []
    for name in ("dump", "updates"):
        for events in ref.Reader(case.files.get(name, b""), name):
            for event in events:
                if event[0] != "announce":
                    continue
                _, (peer, _), p, _, _, origin = event
                route = ipaddress.ip_network(ref.write_prefix(p))
                covering = [v for v in vrps if v[0].version == route.version and route.subnet_of(v[0])]
                if covering and not any(route.prefixlen <= v[1] and v[2] == origin and v[2] != 0
                                        for v in covering):
                    first = covering[0]
                    out.append("invalid,%s,%s,%d,%s,%s,%d,%d" % (
                        ref.write_prefix(p), ref.write_addr(peer[0]), peer[1],
                        "none" if origin is None else origin, ref.write_prefix(ref.read_prefix(
                            first[3].split(",")[0])), first[1], first[2]))
    return out


def leads_to_routes(case, lines):
    """Whether the changes, each possible in its turn, make of the router's table one that answers as the routes."""
    text = {name: "\n".join(line for _, line in ref.text_lines(case.files[name])) for name in ("router", "printed")}
    table = {p: hop or "none" for p, hop in case.rows_of(text["router"], "least")}
    changes = [f for f in (line.split(",") for line in lines) if f[0] == "change"]
    for f in changes:
        p = ref.read_prefix(f[3])
        if (p in table) == (f[2] == "+"):
            return False
        table[p] = "none" if f[-1] == "drop" else f[-1]
        if f[2] == "-":
            del table[p]
    routes = [(p, hop) for p, hop in case.rows_of(text["printed"], "route")]
    made = list(table.items())
    return "moves,1,%d" % len(changes) in lines and all(
        plain_lpm(made, a) == plain_lpm(routes, a) for a in edges([made, routes]))


def routes_after(case, out):
    """The route rows of a run on the checkpoint and the later updates."""
    words, files = case.follow_up(out)
    status, text, err = case.reference(words, files)
    return (status, err, [x for x in text.decode().splitlines() if x.startswith("route,")])


def routes_replayed(case):
    """The same of the dump, the old updates and the later ones, whatever the Readers between them."""
    candidates = ref.Candidates()
    inputs = [(name, case.files[name]) for name in ("dump", "updates") if name in case.files]
    try:
        for name, octets in inputs + [("updates", case.later)]:
            for events in ref.Reader(octets, name):
                for event in events:
                    for elem in candidates.elementary(event):
                        candidates.take(elem)
    except ref.Stop as stop:                         # the later updates are refused by both
        return stop.status, stop.line + "\n", []
    return (0, "", ["route,%s,%s" % (ref.write_prefix(p), ref.write_addr(candidates.chosen(p)))
                    for p in sorted(candidates.of)])


def entries_of(case):
    """The entries of each text of a case of `same`, of the kind that it compares; hops as text."""
    kind = case.option("rows", "table")
    names = [w for w in case.words[1:] if w in case.files]
    return [[(p, hop or "none") for p, hop in case.rows_of(
        "\n".join(line for _, line in ref.text_lines(case.files[name])), kind)] for name in names]


def edges(texts):
    """The least and the first later address of each prefix in the texts: answers change nowhere else."""
    out = {(4, 0), (6, 0)}
    for entries in texts:
        for p, _ in entries:
            out.add((p[0], p[1]))
            if ref.last_bits(p) + 1 < 1 << ref.WIDTH[p[0]]:
                out.add((p[0], ref.last_bits(p) + 1))
    return sorted(out)


def plain_lpm(entries, a):
    """Longest match over hops as addresses."""
    found = [(p[2], hop) for p, hop in entries if ref.contains(p, a)]
    hop = max(found)[1] if found else "none"
    return hop if hop == "none" else ref.write_addr(ref.read_addr(hop))


def first_differing(case):
    """Where texts differ by longest match alone: address, number of the text, both hops; None if all are alike."""
    texts = entries_of(case)
    for a in edges(texts):
        first = plain_lpm(texts[0], a)
        for i, entries in enumerate(texts[1:], 2):
            if plain_lpm(entries, a) != first:
                return a, i, first, plain_lpm(entries, a)
    return None


# ------------------------------------------------------------------ main

KINDS = ("run", "check", "steps", "save", "vrps", "same", "moves", "make")


def program_words(text):
    """PROGRAM as words that hold in another working directory."""
    return [os.path.abspath(word) if os.path.isfile(word) else word for word in shlex.split(text)]


def first_difference(a, b):
    a, b = a.decode("latin-1").splitlines(), b.decode("latin-1").splitlines()
    for i in range(max(len(a), len(b))):
        x, y = a[i:i + 1], b[i:i + 1]
        if x != y:
            return "line %d: due %s, printed %s" % (i + 1, x, y)
    return "line ends"


def run_program(program, words, files):
    """(status, out, err) of the program over the files of a folder."""
    with tempfile.TemporaryDirectory() as d:
        for file, octets in files.items():
            with open(os.path.join(d, file), "wb") as f:
                f.write(octets)
        try:
            done = subprocess.run(program + words, cwd=d, capture_output=True, timeout=120)
            return done.returncode, done.stdout, done.stderr
        except subprocess.TimeoutExpired:
            return -1, b"", b"no end within 120 s"


def keep(case, name, folder, due, got):
    d = os.path.join(folder, name)
    shutil.rmtree(d, ignore_errors=True)
    os.makedirs(d)
    for file, octets in list(case.files.items()) + [
            ("words", "".join(w + "\n" for w in case.words).encode()),
            ("due.status", b"%d\n" % due[0]), ("due.out", due[1]), ("due.err", due[2]),
            ("printed.status", b"%d\n" % got[0]), ("printed.out", got[1]), ("printed.err", got[2])]:
        with open(os.path.join(d, file), "wb") as f:
            f.write(octets)
    return d


def compare(case, program):
    """What is due and what the program does, as (status, out, err); of a checkpoint also what a run on it prints."""
    words = case.words
    while True:
        status, out, err = case.reference(words, case.files)
        due, got = (status, out, err.encode()), run_program(program, words, case.files)
        later = case.follow_up(out)
        if got != due or status != 0 or later is None or words is not case.words:
            case.words = words
            return due, got
        words, files = later
        case.files.update(files)


def differs(case, name, opts, program):
    """Prints how a case differs; whether it does, and whether it is a run of the machine nevertheless."""
    due, got = compare(case, program)
    if due == got:
        return False, False
    at = keep(case, name, opts.keep, due, got)
    allowed = case.kind == "steps" and got[0] == due[0] == 0 and got[2] == due[2] and is_run(case, got[1].decode("latin-1").splitlines())
    print("%s %s\n  words: %s" % ("another run:" if allowed else "differs:", at, " ".join(map(shlex.quote, case.words))))
    if got[0::2] != due[0::2]:
        print("  due %d %r, came %d %r" % (due[0], due[2], got[0], got[2]))
    if got[1] != due[1]:
        print("  " + first_difference(due[1], got[1]))
    return True, allowed


def breaks_law(case, name, opts):
    status, out, err = case.reference(case.words, case.files)
    if status not in (0, 13) or self_check(case, status, out):
        return False
    print("a law is broken:", keep(case, name, opts.keep, (status, out, err.encode()), (status, out, err.encode())))
    return True


def main():
    parser = argparse.ArgumentParser(usage=argparse.SUPPRESS, description=__doc__, formatter_class=argparse.RawDescriptionHelpFormatter)
    parser.add_argument("program", nargs="?")
    parser.add_argument("--seed", type=int, default=1)
    parser.add_argument("--count", type=int, default=200)
    parser.add_argument("--kind", choices=KINDS)
    parser.add_argument("--keep", default=os.path.normpath(KEPT))
    parser.add_argument("--strict", action="store_true")
    parser.add_argument("--laws", action="store_true")
    opts = parser.parse_args()
    if (opts.program is None) != opts.laws:
        parser.error("a program, or --laws, and not both")
    sys.setrecursionlimit(10000)
    kinds = [opts.kind] if opts.kind else KINDS
    failed = others = 0
    for i in range(opts.count):
        kind = kinds[i % len(kinds)]
        name = "%s-%d-%d" % (kind, opts.seed, i)
        case = Case(kind, name)
        if opts.laws:
            failed += breaks_law(case, name, opts)
            continue
        differ, allowed = differs(case, name, opts, program_words(opts.program))
        others += allowed
        failed += differ and (opts.strict or not allowed)
    print("%d cases, %d failed, %d with another run of the machine" % (opts.count, failed, others))
    sys.exit(1 if failed else 0)


if __name__ == "__main__":
    main()

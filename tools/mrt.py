"""Records of an MRT file (RFC 6396), one by one, for the scripts beside this file."""

import ipaddress
import struct

HEADER = 12
MOST_BODY = 16_777_216
TABLE_DUMP_V2, BGP4MP, BGP4MP_ET = 13, 16, 17
PEER_INDEX_TABLE = 1
RIB_FAMILY = {2: 4, 4: 6, 8: 4, 10: 6}
RIBS_WITH_IDS = (8, 10)
MESSAGES_WITH_IDS = (8, 9, 10, 11)
TYPES = {11: "OSPFv2", 12: "TABLE_DUMP", 13: "TABLE_DUMP_V2", 16: "BGP4MP", 17: "BGP4MP_ET", 32: "ISIS", 33: "ISIS_ET",
         48: "OSPFv3", 49: "OSPFv3_ET"}
RIBS = {1: "PEER_INDEX_TABLE", 2: "RIB_IPV4_UNICAST", 3: "RIB_IPV4_MULTICAST", 4: "RIB_IPV6_UNICAST",
        5: "RIB_IPV6_MULTICAST", 6: "RIB_GENERIC", 8: "RIB_IPV4_UNICAST_ADDPATH", 9: "RIB_IPV4_MULTICAST_ADDPATH",
        10: "RIB_IPV6_UNICAST_ADDPATH", 11: "RIB_IPV6_MULTICAST_ADDPATH", 12: "RIB_GENERIC_ADDPATH"}
MESSAGES = {0: "STATE_CHANGE", 1: "MESSAGE", 4: "MESSAGE_AS4", 5: "STATE_CHANGE_AS4", 6: "MESSAGE_LOCAL",
            7: "MESSAGE_AS4_LOCAL", 8: "MESSAGE_ADDPATH", 9: "MESSAGE_AS4_ADDPATH", 10: "MESSAGE_LOCAL_ADDPATH",
            11: "MESSAGE_AS4_LOCAL_ADDPATH"}


def kind_name(kind, subtype):
    """A record's type and subtype by their names, where they have any."""
    subtypes = {TABLE_DUMP_V2: RIBS, BGP4MP: MESSAGES, BGP4MP_ET: MESSAGES}.get(kind, {})
    return f"{TYPES.get(kind, f'type {kind}')}, {subtypes.get(subtype, f'subtype {subtype}')}"


def header_fields(header):
    """Timestamp, type, subtype and length of the body."""
    return struct.unpack(">IHHI", header)


def records(file):
    """Each record's header and body, as many octets of them as there are; one whose Length is over the most is the last."""
    length = 0
    while length <= MOST_BODY and (header := file.read(HEADER)):
        length = header_fields(header)[3] if len(header) == HEADER else 0
        yield header, file.read(length) if length <= MOST_BODY else b""


def address(octets):
    """An address as fib prints it: IPv6 by RFC 5952 without a dotted part."""
    if len(octets) == 4:
        return str(ipaddress.IPv4Address(octets))
    text = ipaddress.IPv6Address(octets).compressed
    groups = octets[12:].hex()
    dotted = str(ipaddress.IPv4Address(octets[12:]))
    return text.replace(dotted, f"{int(groups[:4], 16):x}:{int(groups[4:], 16):x}") if "." in text else text


def peers(body):
    """The peers of a PEER_INDEX_TABLE's body: address and AS number of each."""
    at = 6 + int.from_bytes(body[4:6], "big")
    count = int.from_bytes(body[at:at + 2], "big")
    at += 2
    found = []
    for _ in range(count):
        kind, at = body[at], at + 5
        addr_octets, as_octets = 16 if kind & 1 else 4, 4 if kind & 2 else 2
        found.append((address(body[at:at + addr_octets]), int.from_bytes(body[at + addr_octets:][:as_octets], "big")))
        at += addr_octets + as_octets
    return found

#!/usr/bin/python3
"""Makes a recorded session and a configuration for rs_replay from captures of a route server's sessions.

    from_capture.py --server ADDRESS[:PORT] CAPTURE.. --config OUT.toml --session OUT.trace [--sent OUT.sent]

A CAPTURE is a packet capture (pcap or pcapng, as tcpdump and Wireshark write them; Ethernet, loopback, Linux's cooked
form or plain IP) or an MRT dump (RFC 6396: messages and changes of state of BGP4MP, tables of TABLE_DUMP_V2), plain or
packed by gzip or bzip2. Several are put together by their times.

Captures are read by dpkt: apt-get install python3-dpkt. MRT needs nothing but Python.

Each connection between the server's address and another, with PORT (179) on either side, becomes `open NAME`, the octets
that the member sent `octets NAME HEX` (put together from the TCP segments), its end `lost NAME`. `moment N` is the second
since the first of these. A `turn`, and `room NAME N` for each client that has a connection, come after the octets of one
second, before a `lost` that comes after octets, and after each million octets; so what the route server would have sent
is worked out once a second and not at each message. Where less than a second is left of a Hold Time, the replay may end
a session that the server did not.

The configuration has the server's AS number, BGP Identifier, Hold Time and capabilities from its first OPEN, and each
member with its AS number; no rules: what the server filters has to be added by hand. NAME is the member's AS number and
address. OUT.sent gets what the server sent, for `rs_replay --compare`: the octets of its messages, `sent NAME HEX`; `open NAME`
where a connection begins; and `after N` before what it sent behind line N of OUT.trace.

From MRT: a session whose OPEN the dump has not gets one that is made up (no Hold Time), and so does a KEEPALIVE that is
missing; each is said. Where no OPEN of the server is there its AS number is the one that the records have, or --as, and
its Hold Time is 0. A table's peers become members of the first --server.

What is passed over is counted on standard error. The status is 0, or 1 where nothing could be made and 2 for a faulty
command line. The octets of all connections of a capture are held in memory.
"""
import argparse
import heapq
import ipaddress
import itertools
import os
import struct
import sys

from capture import members, mrt, packets, recorded, sessions, streams
from capture.notes import Fault, Notes

PORT = 179


def server(text):
    """An address and a port, 179 unless it is told."""
    address, _, port = text.partition(":")
    try:
        ipaddress.IPv4Address(address)
        number = int(port) if port else PORT
        if not 0 < number < 65536:
            raise ValueError
    except ValueError:
        raise argparse.ArgumentTypeError(f"{text} is no IPv4 address with a port") from None
    return address, number


def address(text):
    """An IPv4 address other than 0.0.0.0, as a BGP Identifier is."""
    try:
        if not int(ipaddress.IPv4Address(text)):
            raise ValueError
    except ValueError:
        raise argparse.ArgumentTypeError(f"{text} is no BGP Identifier") from None
    return text


def as_number(text):
    """An AS number."""
    if not text.isdigit() or not 0 < int(text) < 1 << 32:
        raise argparse.ArgumentTypeError(f"{text} is no AS number")
    return int(text)


def read(path, notes):
    """The packets of a capture and the records of an MRT dump: one of the two, and nothing of the other."""
    source = packets.Source(path, notes)
    head = source.take(4, "the file's beginning")
    if head is None:
        raise Fault(f"{path}: neither a capture nor MRT: it is too short")
    if any(struct.unpack(order + "I", head)[0] in packets.MAGICS for order in "<>"):
        return packets.read_pcap(source, head), ()
    if head == b"\x0a\x0d\x0d\x0a":
        return packets.read_pcapng(source, head, notes), ()
    return (), mrt.read(source, head)


def read_all(paths, notes):
    """The segments of all captures and the records of all dumps, each in the order of time."""
    pairs = [read(path, notes) for path in paths]
    captured = [it for it, _ in pairs if it != ()]
    if captured and not packets.dpkt:
        raise Fault("captures are read by dpkt, which is not installed for this Python: apt-get install python3-dpkt")
    found = heapq.merge(*captured, key=lambda it: it.time)
    records = heapq.merge(*(it for _, it in pairs if it != ()), key=lambda it: it.time)
    return packets.segments(found, notes) if captured else (), records


def described(options, said, dumped, notes):
    """What the configuration says of the server: from the command line, from its OPEN, from the records, or made up."""
    it = said.server or members.Server(None, None, 0, False, False, True)
    number, identifier = options.number or it.number or dumped.number, options.identifier or it.identifier
    if not number:
        raise Fault("the server's AS number is not known: there is no OPEN of it; tell it by --as")
    if not identifier or identifier == "0.0.0.0":
        identifier = dumped.identifier or options.server[0][0]
        notes.say(f"the server's BGP Identifier was made up: {identifier}")
    if not said.server:
        notes.say(f"there is no OPEN of the server: AS {number}, no Hold Time, multiprotocol as a server has it")
    if it.hold in (1, 2):
        notes.say(f"the server's Hold Time of {it.hold} is none (RFC 4271, 4.2); the configuration has 90")
        it = it._replace(hold=90)
    return it._replace(number=number, identifier=identifier)


def write(options, notes):
    """Reads everything and writes what is made of it. Answers how many members there are."""
    segments, records = read_all(options.capture, notes)
    known, said = members.Members(), members.Said(notes)
    found, others = streams.connections(segments, options.server, notes)
    captured = sessions.events(found, known, said, notes)
    dumped = mrt.Sessions(options.server, known, said, notes)
    events = heapq.merge(captured, dumped.events(records), key=lambda it: it.time)
    first = next(events, None)
    if first is None:
        seen = ", ".join([*others, *dumped.others][:20])
        raise Fault(f"no session of {', '.join(f'{a}:{p}' for a, p in options.server)} is there" + (f"; seen were {seen}" if seen else ""))
    with open(options.session, "w") as session, open(options.sent or os.devnull, "w") as sent:
        session.write("".join(f"# from {path}\n" for path in options.capture))
        recorder = recorded.Recorder(recorded.Sent(sent.write).tell, len(options.capture))
        session.writelines(f"{line}\n" for line in recorder.lines(itertools.chain([first], events)))
    told = described(options, said, dumped, notes)
    if len(known.known) > members.MOST:
        notes.say(f"there are {len(known.known)} members; a configuration takes {members.MOST}")
    with open(options.config, "w") as config:
        config.write(recorded.configuration(told, known.known.values(), [f"from {path}" for path in options.capture]))
    return len(known.known)


def main():
    parser = argparse.ArgumentParser(description=__doc__, formatter_class=argparse.RawDescriptionHelpFormatter)
    parser.add_argument("capture", nargs="+", metavar="CAPTURE")
    parser.add_argument("--server", type=server, action="append", required=True, metavar="ADDRESS[:PORT]", help="the route server; may be told more than once")
    parser.add_argument("--config", required=True, metavar="FILE", help="the configuration that is written")
    parser.add_argument("--session", required=True, metavar="FILE", help="the recorded session that is written")
    parser.add_argument("--sent", metavar="FILE", help="what the server sent, if it is wanted")
    parser.add_argument("--as", dest="number", type=as_number, metavar="N", help="the server's AS number, for what has no OPEN of it")
    parser.add_argument("--identifier", type=address, metavar="ADDRESS", help="the server's BGP Identifier, likewise")
    options = parser.parse_args()
    notes, status = Notes(), 0
    try:
        count = write(options, notes)
        notes.say(f"{count} member{'s' * (count != 1)}")
    except Fault as fault:
        notes.say(str(fault))
        status = 1
    except OSError as fault:
        notes.say(f"{fault.filename}: {fault.strerror}")
        status = 1
    for line in notes.lines():
        print(f"from_capture.py: {line}", file=sys.stderr)
    return status


if __name__ == "__main__":
    sys.exit(main())

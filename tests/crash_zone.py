"""The zone of tests/crash.py and tests/slow_disk.py: the updates that are sent to it, and its transfers, over a running server's port on 127.0.0.1. Each update adds a
record of its own, whose number is in its address, and takes away the one that was added so many updates before, so that the zone stays of one size."""
import socket
import struct

APEX = b"\7example\4test\0"
BEHIND = 400
TEXT = """$ORIGIN example.test.
$TTL 60
@ SOA ns1 admin 1 7200 900 1209600 300
@ NS ns1
ns1 A 192.0.2.1
"""
FIRST_ADDRESS = 0x0A000000
A, NS, SOA, IXFR, AXFR, ANY = 1, 2, 6, 251, 252, 255


def owner(number):
    label = b"n%d" % number
    return bytes([len(label)]) + label + b"\xc0\x0c"


def update(number, behind=BEHIND):
    """A message that adds the record of a number, and deletes the one of so many before (RFC 2136, 2.5.1 and 2.5.2)."""
    records = owner(number) + struct.pack(">HHIHI", A, 1, 60, 4, FIRST_ADDRESS + number)
    count = 1
    if number > behind:
        records += owner(number - behind) + struct.pack(">HHIH", ANY, 255, 0, 0)
        count = 2
    return struct.pack(">6H", number & 0xFFFF, 0x2800, 1, 0, count, 0) + APEX + struct.pack(">2H", SOA, 1) + records


def question(rtype, serial=None):
    """A question for the apex; with a serial, of a holder of that one (RFC 1995, 3)."""
    message = struct.pack(">6H", 1, 0, 1, 0, serial is not None, 0) + APEX + struct.pack(">2H", rtype, 1)
    if serial is not None:
        message += b"\xc0\x0c" + struct.pack(">HHIH", SOA, 1, 0, 22) + b"\0\0" + struct.pack(">5I", serial, 0, 0, 0, 0)
    return message


def name_at(message, at):
    """The name at a position, in whole, and the position behind it."""
    name, behind = b"", None
    while message[at]:
        if message[at] >= 192:
            behind = behind or at + 2
            at = struct.unpack(">H", message[at : at + 2])[0] & 0x3FFF
        else:
            name += message[at : at + 1 + message[at]]
            at += 1 + message[at]
    return name + b"\0", behind or at + 1


def data_at(message, at, size, rtype):
    """A record's data, with names in whole."""
    if rtype == NS:
        return name_at(message, at)[0]
    if rtype == SOA:
        first, then = name_at(message, at)
        second, then = name_at(message, then)
        return first + second + message[then : at + size]
    return message[at : at + size]


def records_of(message):
    """The records of the answer section: owner, type, TTL, data."""
    at = 12
    for _ in range(struct.unpack(">H", message[4:6])[0]):
        at = name_at(message, at)[1] + 4
    for _ in range(struct.unpack(">H", message[6:8])[0]):
        name, at = name_at(message, at)
        rtype, _, ttl, size = struct.unpack(">HHIH", message[at : at + 10])
        yield name, rtype, ttl, data_at(message, at + 10, size, rtype)
        at += 10 + size


def serial_of(record):
    return struct.unpack(">I", record[3][-20:-16])[0]


def is_closed(records):
    """Whether a transfer's list is whole (RFC 1995, 4): an SOA alone, or one whose last SOA is the first again and isn't in front of a difference sequence."""
    serials = [serial_of(record) for record in records if record[1] == SOA]
    if records[-1][1] != SOA or serials[-1] != serials[0]:
        return False
    # of what changed the newest serial stands three times: first, in front of the last additions, and at the end
    is_changed = len(records) > 1 and records[1][1] == SOA
    return serials.count(serials[0]) == (3 if is_changed and serials[1] != serials[0] else 2)


def frames_of(stream):
    while True:
        head = stream.read(2)
        body = stream.read(struct.unpack(">H", head)[0]) if len(head) == 2 else b""
        if not body:
            raise ConnectionError("a transfer's connection ended")
        yield body


def transfer(port, serial=None, timeout=30):
    """The records of the zone's transfer, or of that of what changed since a serial, as they come."""
    with socket.create_connection(("127.0.0.1", port), timeout=timeout) as stream:
        request = question(AXFR) if serial is None else question(IXFR, serial)
        stream.sendall(struct.pack(">H", len(request)) + request)
        records = []
        for message in frames_of(stream.makefile("rb")):
            if message[3] & 15:
                raise ConnectionError(f"a transfer is told {message[3] & 15}")
            records += records_of(message)
            is_alone = serial is not None and len(records) == 1 and serial_of(records[0]) == serial
            if is_alone or len(records) > 1 and is_closed(records):
                return records


def zone(port):
    """The serial and the set of the records that a server has."""
    records = transfer(port)
    return serial_of(records[0]), set(records)


def numbers_of(records):
    addresses = (struct.unpack(">I", record[3])[0] - FIRST_ADDRESS for record in records if record[1] == A)
    return {number for number in addresses if 0 < number < 1 << 24}


def is_whole(records):
    return len(records) > 1 and records[1][1] != SOA


def applied(held, records):
    """What a holder of a serial and its records holds behind a transfer's list (RFC 1995, 4). A deletion of what isn't there, and an addition of what is, are faults."""
    serial, zone_now = held[0], set(held[1])
    if is_whole(records):
        return serial_of(records[0]), set(records)
    adds = True
    for record in records[1:-1]:
        if record[1] == SOA:
            adds = not adds
            if not adds and serial_of(record) != serial:
                raise ValueError(f"what changed since {serial_of(record)} is told to a holder of {serial}")
            serial = serial_of(record)
        if (record in zone_now) == adds:
            raise ValueError(f"{record} is {'added' if adds else 'deleted'} at serial {serial}")
        (zone_now.add if adds else zone_now.remove)(record)
    return serial, zone_now

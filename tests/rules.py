#!/usr/bin/env python3
"""Tries what `dnsd serve --may` lets which address do, over UDP and over TCP, without a store and with one: each update of a table gets NOERROR or REFUSED as written by
hand, those that are refused change nothing, and the log names the first record that no rule covers; a transfer is sent to who has that right alone.
Usage: [DNSD=PROGRAM] tests/rules.py, by default crates/dnsd/out/dnsd. It takes ten seconds; status 1 where one failed. It listens on 127.0.0.1 alone."""
import os
import re
import socket
import struct
import subprocess
import sys
import tempfile
import time

top = os.path.dirname(os.path.dirname(os.path.abspath(__file__)))
program = os.environ.get("DNSD", f"{top}/crates/dnsd/out/dnsd")
zone = f"{top}/zones/example.test.zone"
RULES = [
    "127.0.0.2: update at-or-below dyn.example.test. A AAAA",
    "127.0.0.3: update exact _acme-challenge.www.example.test. TXT",
    "127.0.0.4: update tcp",
    "127.0.0.16/28: transfer",
    "127.0.0.2: update exact new.example.test.",
]
NOERROR, NXDOMAIN, REFUSED = 0, 3, 5
A, NS, TXT, ANY, AXFR = 1, 2, 16, 255, 252
failed = 0


def told(is_right, what):
    global failed
    failed += not is_right
    print(("ok     " if is_right else "FAILED ") + what, flush=True)


def name(text):
    """A name's octets (RFC 1035, 3.1)."""
    return b"".join(bytes([len(label)]) + label.encode() for label in text.split(".") if label) + b"\0"


def added(owner, rtype, data):
    """A record that comes (RFC 2136, 2.5.1)."""
    return name(owner) + struct.pack(">HHIH", rtype, 1, 3600, len(data)) + data


def gone(owner, rtype):
    """A set that goes, or all of a name by ANY (RFC 2136, 2.5.2 and 2.5.3)."""
    return name(owner) + struct.pack(">HHIH", rtype, 255, 0, 0)


def update(*records, absent=None):
    """An update with these records; if a name is given, on the condition that it is in use (RFC 2136, 2.4.4)."""
    wanted = name(absent) + struct.pack(">HHIH", ANY, 255, 0, 0) if absent else b""
    head = struct.pack(">6H", 0x1234, 0x2800, 1, int(bool(absent)), len(records), 0)
    return head + name("example.test") + struct.pack(">HH", 6, 1) + wanted + b"".join(records)


def query(qtype):
    """A query for a type at the apex."""
    return struct.pack(">6H", 0x1234, 0, 1, 0, 0, 0) + name("example.test") + struct.pack(">HH", qtype, 1)


def skipped(message, at):
    """Where a name in a message ends (RFC 1035, 4.1.4)."""
    while 0 < message[at] < 192:
        at += message[at] + 1
    return at + (2 if message[at] else 1)


def address(last):
    return bytes([192, 0, 2, last])


HOST = added("host.dyn.example.test", A, address(1))
WWW = added("a.example.test", A, address(2))
TEXT = b"\3abc"
# what: source, over TCP, message, code, and what the log says of it
TABLE = [
    ("an address without a rule", 1, False, update(HOST), REFUSED, "not permitted by --allow or --may"),
    ("its prerequisite comes first", 1, False, update(HOST, absent="no.example.test"), NXDOMAIN, None),
    ("an owner below the name", 2, False, update(HOST), NOERROR, None),
    ("the second record", 2, False, update(added("x.dyn.example.test", A, address(3)), WWW), REFUSED, "no rule permits a.example.test. A"),
    ("another type", 2, True, update(added("dyn.example.test", TXT, TEXT)), REFUSED, "no rule permits dyn.example.test. TXT"),
    ("records by two rules", 2, False, update(added("y.dyn.example.test", A, address(4)), added("new.example.test", TXT, TEXT)), NOERROR, None),
    ("all sets by a rule with types", 2, False, update(gone("host.dyn.example.test", ANY)), REFUSED, "no rule permits host.dyn.example.test. ANY"),
    ("all sets by a rule without", 2, False, update(gone("new.example.test", ANY)), NOERROR, None),
    ("a set of a type", 2, True, update(gone("host.dyn.example.test", A)), NOERROR, None),
    ("the one name", 3, False, update(added("_acme-challenge.www.example.test", TXT, TEXT)), NOERROR, None),
    ("a name below it", 3, False, update(added("b._acme-challenge.www.example.test", TXT, TEXT)), REFUSED, "no rule permits b._acme-challenge.www.example.test. TXT"),
    ("no record at all", 16, False, update(), REFUSED, "not permitted by --allow or --may"),
    ("over UDP, by a right over TCP", 4, False, update(WWW), REFUSED, "not permitted by --allow or --may"),
    ("over TCP", 4, True, update(WWW), NOERROR, None),
    ("the apex's NS", 4, True, update(added("example.test", NS, name("ns2.example.test"))), NOERROR, None),
    ("an update by who may transfer", 17, True, update(WWW), REFUSED, "not permitted by --allow or --may"),
    ("a transfer", 31, True, query(AXFR), NOERROR, None),
    ("a transfer by who may update", 2, True, query(AXFR), REFUSED, "not permitted by --allow or --may"),
    ("a transfer from beside the prefix", 32, True, query(AXFR), REFUSED, "not permitted by --allow or --may"),
]


class Server:
    """A server with these words, and what it logs."""

    def __init__(self, *words):
        rules = [word for rule in RULES for word in ("--may", rule)]
        words = [program, "serve", "--listen", "127.0.0.1:0", "--workers", "1", *rules, *words, zone]
        self.process = subprocess.Popen(words, stderr=subprocess.PIPE, text=True)
        self.port = None
        for line in self.process.stderr:
            if found := re.search(r"listening on 127\.0\.0\.1:(\d+)", line):
                self.port = int(found[1])
                break

    def ask(self, message, last):
        """The reply to a datagram from an address."""
        with socket.socket(socket.AF_INET, socket.SOCK_DGRAM) as client:
            client.bind((f"127.0.0.{last}", 0))
            client.settimeout(10)
            client.connect(("127.0.0.1", self.port))
            client.send(message)
            return client.recv(4096)

    def ask_stream(self, messages, last):
        """The codes of the first replies to messages on one connection from an address, each asked once the one before is answered."""
        codes = []
        with socket.create_connection(("127.0.0.1", self.port), 10, (f"127.0.0.{last}", 0)) as client, client.makefile("rb") as replies:
            for message in messages:
                client.sendall(struct.pack(">H", len(message)) + message)
                codes.append(replies.read(struct.unpack(">H", replies.read(2))[0])[3] & 15)
        return codes

    def serial(self):
        """The serial of the zone, in the data of its SOA, which is the first answer."""
        reply = self.ask(query(6), 1)
        at = skipped(reply, skipped(reply, len(query(6)) + 12))
        return struct.unpack(">L", reply[at : at + 4])[0]

    def end(self):
        """Ends it; its log."""
        time.sleep(1.5)
        self.process.terminate()
        return self.process.stderr.read()


def tries(kind, *words):
    server = Server(*words)
    changes, lines = 0, []
    first = server.serial()
    for what, last, is_stream, message, code, line in TABLE:
        got = server.ask_stream([message], last)[0] if is_stream else server.ask(message, last)[3] & 15
        told(got == code, f"{kind}: {what}: {got}")
        changes += code == NOERROR and message[2] == 0x28
        if line:
            lines.append((last, line))
            time.sleep(1.1)
    told(server.serial() - first == changes, f"{kind}: no other change than those {changes}")
    codes = server.ask_stream([update(added("z.dyn.example.test", A, address(9))), update(WWW), query(6), update(gone("z.dyn.example.test", A))], 2)
    told(codes == [NOERROR, REFUSED, NOERROR, NOERROR], f"{kind}: one after another on a connection: {codes}")
    log = server.end()
    for last, line in lines:
        told(re.search(rf"from 127\.0\.0\.{last}:\d+ refused: {re.escape(line)}", log), f"{kind}: the log says of 127.0.0.{last}: {line}")


if __name__ == "__main__":
    tries("without a store")
    with tempfile.TemporaryDirectory() as folder:
        tries("with a store", "--store", folder)
    sys.exit(failed > 0)

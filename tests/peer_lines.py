#!/usr/bin/env python3
"""Tries what `dnsd serve` logs of updates, of peers that it refuses, and of signatures that it doesn't check: each update of many that come at once with its own code and
its own serials; an update or a transfer that --allow doesn't permit, with the address
that it came from; and an update or a transfer with a TSIG (RFC 8945), with the key's name. Of each address and kind of request at most one line a second, the first one at once, and each
tells how many more came since, so that none is left out of the count. A query, an update without a TSIG, and one whose TSIG is no last record of class ANY leave no such line.
Usage: [DNSD=PROGRAM] tests/peer_lines.py, by default crates/dnsd/out/dnsd. It takes fifteen seconds; status 1 where one failed. It listens on 127.0.0.1 and ::1 alone."""
import os
import re
import socket
import struct
import subprocess
import sys
import time

top = os.path.dirname(os.path.dirname(os.path.abspath(__file__)))
program = os.environ.get("DNSD", f"{top}/crates/dnsd/out/dnsd")
zone = f"{top}/zones/example.test.zone"
APEX = bytes.fromhex("076578616d706c65047465737400")
KEY = bytes.fromhex("026b31076578616d706c6500")
ALGORITHM = bytes.fromhex("0b686d61632d73686132353600")
REFUSED = re.compile(r"^(update|transfer) from (\S+):\d+ refused: not permitted by --allow or --may(?: \((\d+) more since\))?$", re.M)
SIGNED = re.compile(r"^(update|transfer) from (\S+):\d+: signed with key k1\.example\., but no keys are configured; signature not checked(?: \((\d+) more since\))?$", re.M)
failed = 0


def told(is_right, what):
    global failed
    failed += not is_right
    print(("ok     " if is_right else "FAILED ") + what, flush=True)


def tsig(rclass=255):
    """A TSIG of the key k1.example., with a MAC of zeros (RFC 8945, 4.2)."""
    data = ALGORITHM + bytes(6) + struct.pack(">HH", 300, 32) + bytes(32) + struct.pack(">HHH", 0x1234, 0, 0)
    return KEY + struct.pack(">HHIH", 250, rclass, 0, len(data)) + data


def update(number, more=b"", count=0):
    """An update that adds the address 192.0.2.number at new.example.test. (RFC 2136, 2.5.1), with so many additional records."""
    head = struct.pack(">6H", 0x1234, 0x2800, 1, 0, 1, count)
    return head + APEX + bytes.fromhex("00060001036e6577c00c0001000100000e100004c00002") + bytes([number]) + more


def prerequisite(number):
    """An update that adds the same address if absent.example.test. is in use, which it isn't (RFC 2136, 2.4.4): NXDOMAIN."""
    head = struct.pack(">6H", 0x1234, 0x2800, 1, 1, 1, 0)
    return head + APEX + bytes.fromhex("0006000106616273656e74c00c00ff00ff000000000000") + update(number)[len(APEX) + 16 :]


def query(qtype, more=b"", count=0):
    """A query for a type at the apex."""
    return struct.pack(">6H", 0x1234, 0, 1, 0, 0, count) + APEX + struct.pack(">HH", qtype, 1) + more


def changes():
    """A query for the changes after serial 1 (RFC 1995, 3)."""
    soa = bytes.fromhex("c00c000600010000000000160000") + struct.pack(">5L", 1, 2, 3, 4, 5)
    return struct.pack(">6H", 0x1234, 0, 1, 0, 1, 0) + APEX + struct.pack(">HH", 251, 1) + soa


class Server:
    """A server with these words, and what it logs."""

    def __init__(self, *words):
        words = [program, "serve", "--listen", "127.0.0.1:0", "--workers", "1", *words, zone]
        self.process = subprocess.Popen(words, stderr=subprocess.PIPE, text=True)
        self.port = None
        for line in self.process.stderr:
            if found := re.search(r"listening on 127\.0\.0\.1:(\d+)", line):
                self.port = int(found[1])
                break

    def ask(self, message, source="127.0.0.1"):
        """The code of the reply to a datagram from an address."""
        with socket.socket(socket.AF_INET, socket.SOCK_DGRAM) as client:
            client.bind((source, 0))
            client.settimeout(10)
            client.connect(("127.0.0.1", self.port))
            client.send(message)
            return client.recv(4096)[3] & 15

    def ask_stream(self, message, source="127.0.0.1"):
        """The code of the first reply to a message on a connection from an address."""
        with socket.create_connection(("127.0.0.1", self.port), 10, (source, 0)) as client:
            client.sendall(struct.pack(">H", len(message)) + message)
            return client.recv(4096)[5] & 15

    def ask_all(self, messages):
        """The codes of the replies to datagrams that are sent at once, in their order."""
        with socket.socket(socket.AF_INET, socket.SOCK_DGRAM) as client:
            client.settimeout(10)
            client.connect(("127.0.0.1", self.port))
            for message in messages:
                client.send(message)
            return [client.recv(4096)[3] & 15 for _ in messages]

    def ask_each(self, messages):
        """The codes of the replies to messages that are sent at once, each on a connection of its own, in their order."""
        clients = [socket.create_connection(("127.0.0.1", self.port), 10) for _ in messages]
        for client, message in zip(clients, messages):
            client.sendall(struct.pack(">H", len(message)) + message)
        codes = [client.recv(4096)[5] & 15 for client in clients]
        for client in clients:
            client.close()
        return codes

    def end(self):
        """Two seconds later, all that it has logged."""
        time.sleep(2)
        self.process.kill()
        return self.process.communicate()[1]


def counted(pattern, text):
    """Of each kind of request and address: how many lines there are, and how many requests they tell."""
    found = {}
    for kind, address, more in pattern.findall(text):
        lines, requests = found.get((kind, address), (0, 0))
        found[kind, address] = lines + 1, requests + 1 + int(more or 0)
    return found


def try_refused():
    """Updates and transfers that aren't permitted, a few and many."""
    server = Server("--allow", "")
    codes = [server.ask(update(1)) for _ in range(4)] + [server.ask(update(2), "127.0.0.2"), server.ask_stream(update(3), "127.0.0.3")]
    codes += [server.ask_stream(query(252), "127.0.0.3"), server.ask(changes(), "127.0.0.4"), server.ask(query(1))]
    told(codes == [5] * 8 + [0], f"refused, but for a query: {codes}")
    text = server.end()
    right = {("update", "127.0.0.1"): 4, ("update", "127.0.0.2"): 1, ("update", "127.0.0.3"): 1, ("transfer", "127.0.0.3"): 1, ("transfer", "127.0.0.4"): 1}
    found = counted(REFUSED, text)
    told({key: requests for key, (_, requests) in found.items()} == right, f"each is told, with its address: {found}")
    told(found.get(("update", "127.0.0.1"), (0, 0))[0] <= 2, "the first at once, and the others of that address in a second line")
    told(not SIGNED.search(text) and not re.search(r"^update from .*NOERROR", text, re.M), "nothing else is told of them")


def try_many():
    """Thousands of updates that aren't permitted, for three seconds."""
    server = Server("--allow", "")
    start, sent = time.monotonic(), 0
    while time.monotonic() - start < 3:
        told_code = server.ask(update(1))
        sent += told_code == 5
    text = server.end()
    lines, requests = counted(REFUSED, text).get(("update", "127.0.0.1"), (0, 0))
    seconds = time.monotonic() - start
    told(sent > 50 and lines <= seconds + 1 and requests == sent, f"{sent} updates in {seconds:.1f} seconds, {lines} lines, which tell {requests}")


def try_groups():
    """More peers than lines are kept for: 100 addresses at once."""
    server = Server("--allow", "")
    server.ask(update(1))
    time.sleep(0.2)
    for last in range(1, 101):
        server.ask(update(1), f"127.0.1.{last}")
    text = server.end()
    found = counted(REFUSED, text)
    others = sum(map(int, re.findall(r"^(\d+) more requests refused or signed, from other clients$", text, re.M)))
    told(sum(requests for _, requests in found.values()) + others == 101, f"101 peers: {len(found)} with a line, {others} counted")


def try_signed():
    """Signed updates and transfers where no keys are configured."""
    server = Server("--allow", "127.0.0.1")
    codes = [server.ask(update(1, tsig(), 1)), server.ask_stream(update(2, tsig(), 1)), server.ask_stream(query(252, tsig(), 1)), server.ask(update(3, tsig(), 1), "127.0.0.2")]
    told(codes == [0, 0, 0, 5], f"signed, permitted and refused: {codes}")
    text = server.end()
    found = counted(SIGNED, text)
    right = {("update", "127.0.0.1"): 2, ("transfer", "127.0.0.1"): 1, ("update", "127.0.0.2"): 1}
    told({key: requests for key, (_, requests) in found.items()} == right, f"each is told, with its key: {found}")
    told(len(re.findall(r"^update from 127\.0\.0\.1:\d+: NOERROR, serial \d+ to \d+$", text, re.M)) == 2, "they are done as without a signature")
    server = Server("--allow", "127.0.0.1")
    opt = bytes.fromhex("0000290fa0000000000000")
    for message in update(1), update(2, tsig(1), 1), update(3, tsig() + opt, 2), query(1, tsig(), 1), query(252):
        server.ask(message)
    told(not SIGNED.search(server.end()), "none of an update without a TSIG, of one that is no last record of class ANY, of a query, of a transfer without one")


def mixed():
    """Sixty updates, of which each third is refused, and each sixth changes nothing; and what each gets by itself, after those before it: its code, and how many serials on."""
    updates, right = [], []
    for number in range(1, 61):
        if number % 3 == 0:
            updates.append(prerequisite(number))
            right.append((3, None))
        elif number % 6 == 5:
            updates.append(update(number - 1))
            right.append((0, 0))
        else:
            updates.append(update(number))
            right.append((0, 1))
    return updates, right


def try_batch():
    """Updates that come at once by datagrams, so that they are judged in their order."""
    server = Server("--allow", "127.0.0.1")
    updates, right = mixed()
    codes = server.ask_all(updates)
    told(codes == [code for code, _ in right], "60 updates at once: each gets its code")
    lines, serial = [], 1
    for code, step in right:
        lines.append("NXDOMAIN" if code else f"NOERROR, serial {serial} to {serial + 1}" if step else f"NOERROR, serial {serial} unchanged")
        serial += step or 0
    found = re.findall(r"^update from 127\.0\.0\.1:\d+: (.*)$", server.end(), re.M)
    told(found == lines, "each has a line with its own code and its own serials" + ("" if found == lines else f": {found}"))


def try_connections():
    """Updates that come at once, each on a connection of its own: they are judged in any order, and each makes one version or none."""
    server = Server("--allow", "127.0.0.1")
    updates, right = [update(number) if number % 3 else prerequisite(number) for number in range(1, 61)], [0 if number % 3 else 3 for number in range(1, 61)]
    told(server.ask_each(updates) == right, "60 updates on as many connections: each gets its code")
    found = re.findall(r"^update from 127\.0\.0\.1:\d+: (.*)$", server.end(), re.M)
    lines = ["NXDOMAIN"] * 20 + [f"NOERROR, serial {serial} to {serial + 1}" for serial in range(1, 41)]
    told(sorted(found) == sorted(lines), "each has a line with its own code, and its own serials" + ("" if sorted(found) == sorted(lines) else f": {found}"))


def main():
    try_batch()
    try_connections()
    try_refused()
    try_many()
    try_groups()
    try_signed()
    print(f"{failed} failed")
    return 1 if failed else 0


if __name__ == "__main__":
    sys.exit(main())

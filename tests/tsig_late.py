#!/usr/bin/env python3
"""Tries what a running `dnsd serve --store --keys` does with signed requests whose replies come later, or are several messages, with keys of hmac-sha256 and
hmac-sha512 (RFC 8945); what is right is computed here, by Python's own HMAC.
- Over a disk whose sync takes two seconds and a half (tests/disk.c) updates with a fudge of one second, over UDP, over TCP, and four at once on one connection,
  are told NOERROR, each in a reply that is signed after its own MAC: that it waited doesn't make an update late. One that was signed ten seconds
  before it is sent is BADTIME.
- An unsigned update by UDP after a signed one gets an unsigned reply.
- Two transfers of several messages one after the other on a connection, and a query after them: the first message of each is signed after its request's MAC, each
  later one after that of the message before, all of them with the Time Signed of the first and a fudge of 14,400 seconds; the query's reply after the query's MAC.
- A key that no rule names: its update and its transfer are REFUSED, signed.
- With a file of no key a signed request is NOTAUTH with BADKEY, unsigned; without --keys it is answered as one without a TSIG.
Usage: [DNSD=PROGRAM] tests/tsig_late.py. It prints a line a check and a count, and its status is 1 where one failed. It takes a minute, most of it waiting. It needs
Linux, python3 and a C compiler, `cc` or $CC. It is no part of the gate."""
import base64
import hashlib
import hmac
import os
import socket
import struct
import sys
import tempfile
import time

import crash_disk
import crash_server

top = os.path.dirname(os.path.dirname(os.path.abspath(__file__)))
program = os.environ.get("DNSD", f"{top}/crates/dnsd/out/dnsd")
ZONE = b"\7example\4test\0"
SECRETS = {"sha256": bytes(range(32)), "sha512": bytes(range(64))}
A, SOA, TSIG, AXFR, ANY = 1, 6, 250, 252, 255
RECORDS, SLOW = 3000, 2500
NOERROR, REFUSED, NOTAUTH, BADKEY, BADTIME = 0, 5, 9, 17, 18
passed = failed = 0


def check(what, is_right, got=""):
    global passed, failed
    passed, failed = passed + is_right, failed + (not is_right)
    print(f"{'ok    ' if is_right else 'FAILED'} {what}{'' if is_right else f': {got}'}", flush=True)


def name(text):
    return b"".join(bytes([len(label)]) + label.encode() for label in text.split(".")) + b"\0"


def mac_of(kind, owner, prior, plain, ends):
    """The MAC of a message without its TSIG, after another MAC, or none (RFC 8945, 4.3)."""
    front = struct.pack(">H", len(prior)) + prior if prior else b""
    return hmac.new(SECRETS[kind], front + plain + ends, getattr(hashlib, kind)).digest()


def variables(kind, owner, timers, error=0, other=b""):
    return name(owner) + struct.pack(">HI", ANY, 0) + name(f"hmac-{kind}") + timers + struct.pack(">HH", error, len(other)) + other


def signed(plain, kind, owner, fudge=300, ago=0):
    """A request with a TSIG, and its MAC."""
    now = int(time.time()) - ago
    timers = struct.pack(">HIH", now >> 32, now & 0xFFFFFFFF, fudge)
    mac = mac_of(kind, owner, b"", plain, variables(kind, owner, timers))
    data = name(f"hmac-{kind}") + timers + struct.pack(">H", len(mac)) + mac + plain[:2] + bytes(4)
    count = struct.unpack(">H", plain[10:12])[0] + 1
    return plain[:10] + struct.pack(">H", count) + plain[12:] + name(owner) + struct.pack(">HHIH", TSIG, ANY, 0, len(data)) + data, mac


def past_name(octets, at):
    while octets[at]:
        if octets[at] >= 0xC0:
            return at + 2
        at += 1 + octets[at]
    return at + 1


def parts(octets):
    """A message's code; how many of its answers are SOAs; and of a TSIG at its end what the message is without it, and the fields; None without one."""
    counts = struct.unpack(">4H", octets[4:12])
    at, soas, last = 12, 0, None
    for _ in range(counts[0]):
        at = past_name(octets, at) + 4
    for place in range(sum(counts[1:])):
        start, behind = at, past_name(octets, at)
        rtype, _, _, size = struct.unpack(">HHIH", octets[behind : behind + 10])
        at = behind + 10 + size
        soas += place < counts[1] and rtype == SOA
        last = (start, behind + 10) if rtype == TSIG else None
    if last is None:
        return octets[3] & 15, soas, None
    start, data = last
    data = past_name(octets, data)
    size = struct.unpack(">H", octets[data + 8 : data + 10])[0]
    original, error, other = struct.unpack(">HHH", octets[data + 10 + size : data + 16 + size])
    plain = struct.pack(">H", original) + octets[2:10] + struct.pack(">H", counts[3] - 1) + octets[12:start]
    return octets[3] & 15, soas, {
        "plain": plain, "timers": octets[data : data + 8], "mac": octets[data + 10 : data + 10 + size], "error": error, "other": octets[data + 16 + size : data + 16 + size + other],
    }


def is_signed(reply, kind, owner, prior, later=False):
    """Whether a reply has a TSIG that is right after a MAC: with all variables, or, of a later message, with the times alone (RFC 8945, 5.3.1)."""
    tsig = parts(reply)[2]
    if tsig is None:
        return False
    ends = tsig["timers"] if later else variables(kind, owner, tsig["timers"], tsig["error"], tsig["other"])
    return tsig["mac"] == mac_of(kind, owner, prior, tsig["plain"], ends)


def update(ident, label):
    return struct.pack(">6H", ident, 0x2800, 1, 0, 1, 0) + ZONE + struct.pack(">HH", SOA, 1) + name(label)[:-1] + b"\xc0\x0c" + struct.pack(">HHIH4s", A, 1, 60, 4, b"\xc0\0\2\7")


def question(ident, rtype):
    return struct.pack(">6H", ident, 0, 1, 0, 0, 0) + ZONE + struct.pack(">HH", rtype, 1)


class Client:
    """A connection, or a socket for datagrams, to the server."""

    def __init__(self, port, over):
        self.over = over
        self.socket = socket.create_connection(("127.0.0.1", port)) if over == "tcp" else socket.socket(socket.AF_INET, socket.SOCK_DGRAM)
        self.socket.settimeout(60)
        if over == "udp":
            self.socket.connect(("127.0.0.1", port))

    def send(self, *messages):
        self.socket.sendall(b"".join(struct.pack(">H", len(one)) + one for one in messages) if self.over == "tcp" else messages[0])

    def receive(self):
        if self.over == "udp":
            return self.socket.recv(65535)
        return self.read(struct.unpack(">H", self.read(2))[0])

    def read(self, size):
        octets = b""
        while len(octets) < size:
            more = self.socket.recv(size - len(octets))
            if not more:
                raise SystemExit("tsig_late: the connection ended")
            octets += more
        return octets


def told(reply):
    code, _, tsig = parts(reply)
    return f"code {code}, {'unsigned' if tsig is None else 'error %d' % tsig['error']}"


def waiting(port, kind, owner):
    """Updates that wait longer than their fudge."""
    for over in "udp", "tcp":
        client = Client(port, over)
        request, mac = signed(update(1, f"{over}-{kind}"), kind, owner, fudge=1)
        began = time.monotonic()
        client.send(request)
        reply = client.receive()
        took = time.monotonic() - began
        check(f"{over}, {kind}, an update with a fudge of a second is made", parts(reply)[0] == NOERROR, told(reply))
        check(f"{over}, {kind}, its reply is signed after its MAC", is_signed(reply, kind, owner, mac), told(reply))
        check(f"{over}, {kind}, it waited for longer than that", took > 2, f"{took:.2f} s")
        request, mac = signed(update(2, f"late-{over}-{kind}"), kind, owner, fudge=1, ago=10)
        client.send(request)
        reply = client.receive()
        code, _, tsig = parts(reply)
        check(f"{over}, {kind}, one of ten seconds ago is BADTIME", (code, tsig and tsig["error"]) == (NOTAUTH, BADTIME) and is_signed(reply, kind, owner, mac), told(reply))
    client = Client(port, "tcp")
    requests = [signed(update(place, f"p{place}-{kind}"), kind, owner, fudge=1) for place in range(4)]
    client.send(*(request for request, _ in requests))
    for place, (_, mac) in enumerate(requests):
        reply = client.receive()
        is_right = parts(reply)[0] == NOERROR and reply[:2] == struct.pack(">H", place) and is_signed(reply, kind, owner, mac)
        check(f"{kind}, update {place + 1} of four at once on a connection, signed after its own MAC", is_right, told(reply))


def unsigned_after(port, kind, owner):
    client = Client(port, "udp")
    request, mac = signed(update(5, f"before-{kind}"), kind, owner)
    client.send(request)
    reply = client.receive()
    check(f"{kind}, an update before an unsigned one", parts(reply)[0] == NOERROR and is_signed(reply, kind, owner, mac), told(reply))
    client.send(update(6, f"after-{kind}"))
    reply = client.receive()
    check(f"after it, {kind}, an unsigned update gets an unsigned reply", (parts(reply)[0], parts(reply)[2]) == (NOERROR, None), told(reply))


def transfers(port, kind, owner):
    client = Client(port, "tcp")
    for turn in "first", "second":
        request, mac = signed(question(7, AXFR), kind, owner)
        client.send(request)
        soas, messages, right, timers = 0, 0, True, set()
        while soas < 2:
            reply = client.receive()
            code, more, tsig = parts(reply)
            right = right and code == NOERROR and is_signed(reply, kind, owner, mac, messages > 0)
            if not right:
                break
            soas, messages, mac = soas + more, messages + 1, tsig["mac"]
            timers.add(tsig["timers"])
        check(f"{kind}, the {turn} transfer on a connection: each of {messages} messages is signed after the one before", right and messages > 2, told(reply))
        fudges = [struct.unpack(">H", one[6:])[0] for one in timers]
        check(f"{kind}, all with one time, and a fudge of 14,400 seconds", fudges == [14400], fudges)
        if not right:
            return
    request, mac = signed(question(8, SOA), kind, owner)
    client.send(request)
    reply = client.receive()
    check(f"{kind}, a query after them is answered, and signed after its own MAC", parts(reply)[:2] == (NOERROR, 1) and is_signed(reply, kind, owner, mac), told(reply))


def without_rights(port, kind, owner):
    for what, plain in (("update", update(9, "none")), ("transfer", question(9, AXFR))):
        client = Client(port, "tcp")
        request, mac = signed(plain, kind, owner)
        client.send(request)
        reply = client.receive()
        check(f"{kind}, a key that no rule names: {what} REFUSED, signed", parts(reply)[0] == REFUSED and is_signed(reply, kind, owner, mac), told(reply))


def keyless(room, has_file):
    """What a server without a key says to signed requests, by a file of none, or without a file."""
    options, folder = ["--workers", "1"], f"{room}/{'empty' if has_file else 'none'}"
    os.mkdir(folder)
    if has_file:
        with open(f"{room}/empty-keys", "w"):
            os.chmod(f"{room}/empty-keys", 0o600)
        options += ["--keys", f"{room}/empty-keys"]
    options += ["--may" if has_file else "--allow", "127.0.0.1: update" if has_file else "127.0.0.1"]
    server = crash_server.Served(program, folder, f"{room}/zone", options)
    try:
        for over in "udp", "tcp":
            for what, plain in (("query", question(10, SOA)), ("update", update(10, over))):
                client = Client(server.port, over)
                client.send(signed(plain, "sha256", "sha256.key")[0])
                reply = client.receive()
                code, _, tsig = parts(reply)
                if has_file:
                    is_right = code == NOTAUTH and tsig is not None and (tsig["error"], tsig["mac"]) == (BADKEY, b"")
                    check(f"{over}, a file of no key: a signed {what} is NOTAUTH, BADKEY, unsigned", is_right, told(reply))
                else:
                    check(f"{over}, without --keys: a signed {what} is answered as one without a TSIG", (code, tsig) == (NOERROR, None), told(reply))
    finally:
        server.kill()


def main():
    with tempfile.TemporaryDirectory(prefix="tsig-late-") as room:
        with open(f"{room}/zone", "w") as file:
            file.write("$ORIGIN example.test.\n$TTL 60\n@ SOA ns1 admin 1 7200 900 1209600 300\n@ NS ns1\nns1 A 192.0.2.1\n")
            file.writelines(f"host{place} A 192.0.2.{place % 256}\n" for place in range(RECORDS))
        with open(f"{room}/keys", "w") as file:
            for kind, secret in SECRETS.items():
                file.writelines(f"hmac-{kind}:{owner}{kind}.key:{base64.b64encode(secret).decode()}\n" for owner in ("", "none"))
        os.chmod(f"{room}/keys", 0o600)
        options = ["--workers", "1", "--keys", f"{room}/keys", "--may", "127.0.0.1: update"]
        for kind in SECRETS:
            options += ["--may", f"key {kind}.key: update, transfer"]
        library = crash_disk.library(room)
        for folder, trials, environment in (
            ("slow", (waiting,), {"LD_PRELOAD": library, "DISK_DIR": f"{room}/slow", "DISK_SLOW": str(SLOW)}),
            ("quick", (unsigned_after, transfers), None),
        ):
            os.mkdir(f"{room}/{folder}")
            server = crash_server.Served(program, f"{room}/{folder}", f"{room}/zone", options, environment=environment)
            try:
                for kind in SECRETS:
                    for trial in trials:
                        trial(server.port, kind, f"{kind}.key")
                    if folder == "quick":
                        without_rights(server.port, kind, f"none{kind}.key")
            finally:
                server.kill()
        keyless(room, True)
        keyless(room, False)
    print(f"{passed} checks passed, {failed} failed")
    return 1 if failed else 0


sys.exit(main())

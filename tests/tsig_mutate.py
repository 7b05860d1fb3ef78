#!/usr/bin/env python3
"""Sends mutated signed requests to a running `dnsd serve --keys`, over UDP: queries and updates that are signed, with octets turned, cut off, put in and doubled, counts and sizes that
are wrong, and TSIGs of other requests. A request that gets a reply whose TSIG has a MAC and no error must be one whose own MAC is right, by the model here, which
knows HMAC by Python's library alone (RFC 8945, 4.3 and 5.2); and one whose MAC is right must get such a reply. The zone is changed by no update whose
MAC isn't right: where none of 64 requests is an update whose MAC is right, the serial after them is the one before them, and each other turn has none. In the
end the server has the memory that it had, but for what updates put in. It is no part of the gate.

Usage: [DNSD=PROGRAM] tests/tsig_mutate.py [--requests N] [--seed N] [--port N], by default 1,000,000 requests. Its status is 1 where something was wrong."""
import argparse
import base64
import hashlib
import hmac
import os
import random
import socket
import struct
import subprocess
import sys
import tempfile
import time

top = os.path.dirname(os.path.dirname(os.path.abspath(__file__)))
program = os.environ.get("DNSD", f"{top}/crates/dnsd/out/dnsd")
words = argparse.ArgumentParser()
for word, number in (("requests", 1_000_000), ("seed", 1), ("port", 15443)):
    words.add_argument(f"--{word}", type=int, default=number)
given = words.parse_args()

KEYS = {b"\x02k1\x03key\x00": ("sha256", bytes(range(32))), b"\x02k2\x03key\x00": ("sha512", bytes(range(64)))}
ZONE = b"\x07example\x04test\x00"
SLACK = 16 << 20


def name_at(octets, at):
    """The name at a position, through pointers, in lower case, and the position after it."""
    labels, end, steps = b"", None, 0
    while True:
        size = octets[at]
        if size >= 0xC0:
            target = (size & 0x3F) << 8 | octets[at + 1]
            end = at + 2 if end is None else end
            steps += 1
            if target >= at or steps > 128:
                raise ValueError
            at = target
        elif size >= 0x40:
            raise ValueError
        else:
            labels += octets[at : at + 1 + size]
            if len(labels) > 255 or len(octets) < at + 1 + size:
                raise ValueError
            at += 1 + size
            if size == 0:
                return labels.lower(), at if end is None else end


def mac_of(key, plain, original, time_signed, fudge, error, other):
    """The MAC of a request without its TSIG."""
    kind, secret = KEYS[key]
    algorithm = bytes([11]) + b"hmac-" + kind.encode() + b"\0"
    text = struct.pack("!H", original) + plain[2:] + key + struct.pack("!HI", 255, 0) + algorithm
    text += struct.pack("!HIHHH", time_signed >> 32, time_signed & 0xFFFFFFFF, fudge, error, len(other)) + other
    return hmac.new(secret, text, getattr(hashlib, kind)).digest()


def sign(key, plain, now):
    """A request with its TSIG."""
    kind, _ = KEYS[key]
    algorithm = bytes([11]) + b"hmac-" + kind.encode() + b"\0"
    ident = struct.unpack("!H", plain[:2])[0]
    mac = mac_of(key, plain, ident, now, 300, 0, b"")
    data = algorithm + struct.pack("!HIHH", now >> 32, now & 0xFFFFFFFF, 300, len(mac)) + mac + struct.pack("!HHH", ident, 0, 0)
    count = struct.unpack("!H", plain[10:12])[0] + 1
    return plain[:10] + struct.pack("!H", count) + plain[12:] + key + struct.pack("!HHIH", 250, 255, 0, len(data)) + data


def is_right(octets, now):
    """Whether a request's own MAC is right, whole, of a key of ours, and of a time within its fudge."""
    try:
        if len(octets) < 12 or octets[2] & 0x80:
            return False
        counts = struct.unpack("!4H", octets[4:12])
        at, records = 12, []
        for _ in range(counts[0]):
            at = name_at(octets, at)[1] + 4
            if at > len(octets):
                return False
        for _ in range(sum(counts[1:])):
            start = at
            owner, at = name_at(octets, at)
            rtype, rclass, ttl, size = struct.unpack("!HHIH", octets[at : at + 10])
            data = octets[at + 10 : at + 10 + size]
            if len(data) < size:
                return False
            at += 10 + size
            records.append((start, owner, rtype, rclass, ttl, data))
        if counts[3] == 0 or [r[2] for r in records].count(250) != 1 or records[-1][2] != 250:
            return False
        start, owner, _, rclass, ttl, data = records[-1]
        if rclass != 255 or ttl or owner not in KEYS:
            return False
        end = data.index(0) + 1
        if data[:end].lower() != bytes([11]) + b"hmac-" + KEYS[owner][0].encode() + b"\0":
            return False
        high, low, fudge, size = struct.unpack("!HIHH", data[end : end + 10])
        mac, rest = data[end + 10 : end + 10 + size], data[end + 10 + size :]
        original, error, other = struct.unpack("!HHH", rest[:6])
        if len(rest) != 6 + other or len(mac) < size:
            return False
        plain = octets[:10] + struct.pack("!H", counts[3] - 1) + octets[12:start]
        signed = high << 32 | low
        return mac == mac_of(owner, plain, original, signed, fudge, error, rest[6:]) and abs(signed - now) <= fudge
    except (IndexError, ValueError, struct.error):
        return False


def mutated(chance, octets, others):
    """A request with some octets changed; the ID isn't."""
    octets = bytearray(octets)
    for _ in range(chance.choice((0, 1, 1, 1, 2, 3, 5))):
        at = chance.randrange(2, len(octets))
        kind = chance.randrange(8)
        if kind < 3:
            octets[at] ^= 1 << chance.randrange(8)
        elif kind == 3:
            octets[at] = chance.choice((0, 1, 12, 0x7F, 0xC0, 0xFF, chance.randrange(256)))
        elif kind == 4:
            del octets[at : at + chance.randrange(1, 20)]
        elif kind == 5:
            octets[at:at] = octets[at : at + chance.randrange(1, 20)]
        elif kind == 6:
            octets[4 + chance.randrange(8)] = chance.choice((0, 1, 2))
        else:
            other = chance.choice(others)
            octets[at:] = other[min(at, len(other)) :]
        if len(octets) < 3:
            break
    return bytes(octets)


def is_taken(reply):
    """Whether a reply has a TSIG with a MAC and no error."""
    for kind in ("sha256", "sha512"):
        at = reply.rfind(bytes([11]) + b"hmac-" + kind.encode() + b"\0")
        if at >= 0 and len(reply) >= at + 29:
            size = struct.unpack("!H", reply[at + 21 : at + 23])[0]
            rest = reply[at + 23 + size :]
            return size > 0 and len(rest) >= 4 and rest[2:4] == b"\0\0"
    return False


def is_update(octets):
    """Whether a request's OPCODE is UPDATE's."""
    return octets[2] >> 3 & 15 == 5


def serial_in(reply):
    """The serial of a reply to a question for the zone's SOA."""
    at = name_at(reply, 12)[1] + 4
    at = name_at(reply, at)[1] + 10
    at = name_at(reply, at)[1]
    return struct.unpack("!I", reply[name_at(reply, at)[1] :][:4])[0]


def requests_at(now):
    """Signed queries and updates, of both keys."""
    question = struct.pack("!HHHHHH", 0, 0, 1, 0, 0, 0) + b"\x03www" + ZONE + struct.pack("!HH", 1, 1)
    with_opt = struct.pack("!HHHHHH", 0, 0, 1, 0, 0, 1) + b"\x03web" + ZONE + struct.pack("!HH", 1, 1) + b"\0" + struct.pack("!HHIH", 41, 1232, 0, 0)
    update = struct.pack("!HHHHHH", 0, 0x2800, 1, 0, 1, 0) + ZONE + struct.pack("!HH", 6, 1) + b"\x01u\xc0\x0c" + struct.pack("!HHIH4s", 1, 1, 60, 4, b"\xc0\0\x02\x07")
    return [sign(key, plain, now) for key in KEYS for plain in (question, with_opt, update)]


def memory(pid):
    with open(f"/proc/{pid}/status") as file:
        return 1024 * next(int(line.split()[1]) for line in file if line.startswith("VmRSS"))


def serve(folder):
    """The server with the keys, which listens."""
    with open(f"{folder}/keys", "w") as file:
        for key, (kind, secret) in KEYS.items():
            file.write(f"hmac-{kind}:{key[1:3].decode()}.key:{base64.b64encode(secret).decode()}\n")
    os.chmod(f"{folder}/keys", 0o600)
    log = open(f"{folder}/log", "w")
    rules = ["--may", "key k1.key: update", "--may", "key k2.key: update"]
    server = subprocess.Popen([program, "serve", "--listen", f"127.0.0.1:{given.port}", "--workers", "1", "--allow", "", "--keys", f"{folder}/keys", *rules, f"{top}/zones/example.test.zone"], stderr=log)
    for _ in range(200):
        with open(f"{folder}/log") as file:
            if "listening on" in file.read():
                return server
        time.sleep(0.05)
    raise SystemExit("tsig_mutate: dnsd doesn't listen")


def are_there(client, replies, wanted):
    """Receives replies until those with these IDs are there; returns whether they come."""
    while not wanted <= replies.keys():
        try:
            reply = client.recv(65535)
        except socket.timeout:
            return False
        replies[reply[0] << 8 | reply[1]] = reply
    return True


def drawn(chance, signed, place, now, is_quiet):
    """A mutated request with this ID, and whether its MAC is right; none that is an update and right, where it's to be quiet."""
    while True:
        octets = struct.pack("!H", place) + mutated(chance, chance.choice(signed), signed)[2:]
        is_ok = is_right(octets, now)
        if not (is_quiet and is_ok and is_update(octets)):
            return octets, is_ok


def main():
    chance = random.Random(given.seed)
    wrong, right, taken, lost, quiet = 0, 0, 0, 0, 0
    with tempfile.TemporaryDirectory() as folder:
        server = serve(folder)
        client = socket.socket(socket.AF_INET, socket.SOCK_DGRAM)
        client.connect(("127.0.0.1", given.port))
        client.settimeout(10)
        signed, at, first, serial = [], 0, None, None
        try:
            for turn in range(0, given.requests, 64):
                now = int(time.time())
                if now - at > 60:
                    signed, at = requests_at(now), now
                # IDs of its own, so that no reply to an earlier turn is taken for one of this
                start = turn * 2 % 65536
                is_quiet = turn // 64 % 2 == 1
                sent = {}
                for place in range(start, start + 64):
                    octets, is_ok = drawn(chance, signed, place, now, is_quiet)
                    sent[place] = octets, is_ok
                    client.send(octets)
                # the replies to updates come from another thread; once they are there, a plain query ends the turn
                end, replies = start + 64, {}
                lost += not are_there(client, replies, {place for place, (_, is_ok) in sent.items() if is_ok})
                client.send(struct.pack("!HHHHHH", end, 0, 1, 0, 0, 0) + ZONE + struct.pack("!HH", 6, 1))
                lost += not are_there(client, replies, {end})
                before, serial = serial, serial_in(replies[end]) if end in replies else None
                if is_quiet and None not in (before, serial):
                    quiet += serial == before
                    if serial != before:
                        wrong += 1
                        print(f"the serial goes from {before} to {serial} by: {' '.join(octets.hex() for octets, _ in sent.values())}")
                for place, (octets, is_ok) in sent.items():
                    is_signed = is_taken(replies.get(place, b""))
                    right, taken = right + is_ok, taken + is_signed
                    if is_ok != is_signed and (is_signed or place in replies):
                        wrong += 1
                        if wrong < 10:
                            print(f"{'taken' if is_signed else 'not taken'}: {octets.hex()} gets {replies.get(place, b'').hex()}")
                if turn == 64 * 100:
                    first = memory(server.pid)
            last = memory(server.pid)
            grown = last - first if first else 0
            alive = server.poll() is None
        finally:
            server.terminate()
            server.wait()
    print(f"{given.requests} requests, {right} with a right MAC, {taken} taken, {wrong} wrong, {lost} waits in vain, {quiet} turns without an update that left the serial as it was, memory {(first or last) >> 10} KiB after 6,400 and {last >> 10} KiB at the end")
    return 1 if wrong or not alive or grown > SLACK else 0


sys.exit(main())

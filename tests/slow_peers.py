#!/usr/bin/env python3
"""Tries a running `dnsd serve` of one worker by many clients that would hold it: 1,000 that send nothing, 200 that send an octet a second, 200 that ask and
never read, and 20 that take a zone of 100,000 records slowly. A new client's query has to be answered in under 100 ms at the 99th percentile, and all but
those that take messages in time have to be closed by their bounds: once with the default places, where idle ones give theirs, and once with 2,000, where
each has its time.
Usage: [DNSD=PROGRAM] tests/slow_peers.py [PORT], by default crates/dnsd/out/dnsd and port 15254. It takes a minute and a half; status 1 where one failed.
It opens some 1,500 descriptors: `ulimit -n 10000` before it."""
import os
import re
import socket
import subprocess
import sys
import tempfile
import time

top = os.path.dirname(os.path.dirname(os.path.abspath(__file__)))
program = os.environ.get("DNSD", f"{top}/crates/dnsd/out/dnsd")
port = int(sys.argv[1]) if len(sys.argv) > 1 else 15254


def query(name, rtype):
    """A query of a name below example.test., behind its length (RFC 1035, 4.1 and 4.2.2)."""
    labels = b"".join(bytes([len(label)]) + label.encode() for label in (*name, "example", "test"))
    message = bytes.fromhex("123401000001000000000000") + labels + b"\0" + rtype.to_bytes(2, "big") + b"\0\1"
    return len(message).to_bytes(2, "big") + message


ask = query(("h1",), 1)
ask_much = query(("much",), 1)
transfer = query((), 252)
# how long, in seconds, the peers are left at it, and by how much an end may be late
SPAN = 30
LATE = 5
BOUND = 10


class Client:
    """A client of a kind: what it does each second."""

    def __init__(self, kind):
        self.kind = kind
        self.began = time.time()
        self.closed = None
        self.sent = 0
        self.socket = socket.socket()
        if kind in ("never reads", "takes slowly"):
            self.socket.setsockopt(socket.SOL_SOCKET, socket.SO_RCVBUF, 4096)
        self.socket.connect(("127.0.0.1", port))
        self.socket.setblocking(False)
        if kind == "takes slowly":
            self.socket.send(transfer)

    def step(self):
        """What it does each second; one that only reads sees so that it is closed."""
        if self.closed is not None:
            return
        try:
            if self.kind == "sends slowly" and self.sent < len(ask) - 1:
                self.socket.send(ask[self.sent : self.sent + 1])
                self.sent += 1
            if self.kind == "never reads":
                self.socket.send(ask_much * 200)
            elif not self.socket.recv(2048):
                self.closed = time.time() - self.began
        except BlockingIOError:
            pass
        except OSError:
            self.closed = time.time() - self.began


def asked():
    """How many seconds a new client waits for its reply; None where it gets none."""
    began = time.time()
    try:
        with socket.create_connection(("127.0.0.1", port), timeout=5) as client:
            client.sendall(ask)
            reply = client.recv(2000)
            return time.time() - began if reply[2:4] == ask[2:4] else None
    except OSError:
        return None


def zone_file():
    """A zone of 100,000 records, with a name of 250 addresses."""
    file = tempfile.NamedTemporaryFile("w", suffix=".zone", delete=False)
    file.write("$ORIGIN example.test.\n$TTL 3600\n@ IN SOA ns1 admin 1 7200 900 1209600 300\n@ IN NS ns1\nns1 IN A 192.0.2.1\n")
    for number in range(1, 251):
        file.write(f"much IN A 192.0.2.{number}\n")
    for number in range(1, 99_748):
        file.write(f"h{number} IN A 10.{number >> 16}.{number >> 8 & 255}.{number & 255}\n")
    file.close()
    return file.name


def open_sockets(server):
    """How many sockets a server has open (Linux, proc(5))."""
    folder = f"/proc/{server.pid}/fd"
    return sum(os.readlink(f"{folder}/{name}").startswith("socket:") for name in os.listdir(folder))


def tried(zone, options, places):
    """The faults of a run with some options, by which so many places are there."""
    log = tempfile.TemporaryFile("w+")
    server = subprocess.Popen([program, "serve", "--listen", f"127.0.0.1:{port}", "--workers", "1", *options, zone], stderr=log)
    faults, waits, clients = [], [], []
    try:
        while asked() is None:
            if server.poll() is not None:
                return ["it doesn't run"]
        own = open_sockets(server)
        kinds = ["sends nothing"] * 1000 + ["sends slowly"] * 200 + ["never reads"] * 200 + ["takes slowly"] * 20
        end = time.time() + SPAN
        while time.time() < end:
            second = time.time() + 1
            while kinds and time.time() < second - 0.5:
                clients.append(Client(kinds.pop()))
            for client in clients:
                client.step()
            while time.time() < second:
                waits.append(asked())
                time.sleep(0.02)
        silent = sum(it is None for it in waits)
        answered = sorted(it for it in waits if it is not None)
        late = answered[int(len(answered) * 0.99)] if answered else None
        if silent or late is None or late > 0.1:
            faults.append(f"{silent} of {len(waits)} queries without a reply, the 99th percentile after {late} s")
        for kind in ("sends nothing", "sends slowly"):
            of_kind = [client for client in clients if client.kind == kind]
            left = sum(client.closed is None for client in of_kind)
            longest = max((client.closed or 0 for client in of_kind), default=0)
            if left or longest > BOUND + LATE:
                faults.append(f"{left} of {len(of_kind)} that {kind}: not closed; the longest after {longest:.1f} s")
        taking = sum(client.kind == "takes slowly" and client.closed is None for client in clients)
        left = open_sockets(server) - own
        if left > taking:
            faults.append(f"{left} connections are open, of which {taking} take their messages")
        print(f"{len(waits)} queries, the 99th percentile after {1000 * (late or 0):.1f} ms, with {places} places; {left} connections are left, {taking} of them slow transfers")
    finally:
        server.kill()
        server.wait()
        log.seek(0)
        lost = {}
        for line in log:
            for count, kind in re.findall(r"(\d+) ([a-z ]+)", line.partition("(TCP): ")[2]):
                lost[kind] = lost.get(kind, 0) + int(count)
        print("  " + ", ".join(f"{count} {kind}" for kind, count in lost.items()))
        for client in clients:
            client.socket.close()
    return faults


name = zone_file()
failed = 0
try:
    for options, places in (([], 1000), (["--connections", "2000"], 2000)):
        faults = tried(name, options, places)
        failed += bool(faults)
        print("FAILED " + "; ".join(faults) if faults else "ok     all are closed in time, and others answered", flush=True)
finally:
    os.unlink(name)
sys.exit(1 if failed else 0)

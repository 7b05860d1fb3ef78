#!/usr/bin/env python3
"""Tries a running `dnsd serve` whose descriptors are few. Under a limit of 1,024, with the options as they are by themselves, it says at the start how many
connections each worker has open at most, and no new connection waits: each gets its reply, or its end, within two seconds. Then the limit of one worker is lowered
to 64 while it runs. More connections come than there is room for: the log says so in one line a
second, UDP and the open connections are answered meanwhile, and those that wait are served once others have closed. Then connections are reset, closed
or half-closed before a request, within its length, within its message, within a reply and within a transfer: a half-closed one gets what it has asked
for. In the end the server has the descriptors that it had, and hardly more memory, and serves on when it was stopped and goes on.
Usage: [DNSD=PROGRAM] tests/descriptors.py [PORT], by default crates/dnsd/out/dnsd and port 15256. It takes two minutes; status 1 where one failed."""
import os
import re
import resource
import signal
import socket
import struct
import subprocess
import sys
import tempfile
import threading
import time

top = os.path.dirname(os.path.dirname(os.path.abspath(__file__)))
program = os.environ.get("DNSD", f"{top}/crates/dnsd/out/dnsd")
port = int(sys.argv[1]) if len(sys.argv) > 1 else 15256
LIMIT = 64
# the limit that many systems begin a program with, and how many connections come to it
USUAL = 1024
COMING = 1200
CLIENTS = 100
RECORDS = 20_000
ROUNDS = 20
MANY = 100


def query(name, rtype):
    """A query of a name below example.test. (RFC 1035, 4.1)."""
    labels = b"".join(bytes([len(label)]) + label.encode() for label in (*name, "example", "test"))
    return bytes.fromhex("123401000001000000000000") + labels + b"\0" + rtype.to_bytes(2, "big") + b"\0\1"


def framed(message):
    """A message behind its length (RFC 1035, 4.2.2)."""
    return len(message).to_bytes(2, "big") + message


ask = query(("h1",), 1)
ask_much = query(("much",), 1)
transfer = query((), 252)


def zone_file():
    """A zone with a name of 250 addresses, and many others."""
    file = tempfile.NamedTemporaryFile("w", suffix=".zone", delete=False)
    file.write("$ORIGIN example.test.\n$TTL 3600\n@ IN SOA ns1 admin 1 7200 900 1209600 300\n@ IN NS ns1\nns1 IN A 192.0.2.1\n")
    for number in range(1, 251):
        file.write(f"much IN A 192.0.2.{number}\n")
    for number in range(1, RECORDS - 252):
        file.write(f"h{number} IN A 10.{number >> 16}.{number >> 8 & 255}.{number & 255}\n")
    file.close()
    return file.name


def connected(buffer=None):
    """A connection to the server, with a small buffer for what comes where one is said."""
    client = socket.socket()
    if buffer:
        client.setsockopt(socket.SOL_SOCKET, socket.SO_RCVBUF, buffer)
    client.settimeout(5)
    client.connect(("127.0.0.1", port))
    return client


def read_exactly(client, count):
    """So many octets; fewer where the end comes before."""
    octets = b""
    while len(octets) < count:
        more = client.recv(count - len(octets))
        if not more:
            break
        octets += more
    return octets


def read_message(client):
    """The next message; None where the end comes before its own."""
    length = read_exactly(client, 2)
    if len(length) < 2:
        return None
    message = read_exactly(client, int.from_bytes(length, "big"))
    return message if len(message) == int.from_bytes(length, "big") else None


def is_answered(client, within):
    """Whether a query on a connection is answered within so many seconds."""
    client.settimeout(within)
    try:
        client.sendall(framed(ask))
        return is_reply(read_message(client))
    except OSError:
        return False


def is_reply(message):
    """Whether a message is the reply to the query of an address: with its ID, no error (RFC 1035, 4.1.1) and one answer."""
    return message is not None and message[:2] == ask[:2] and message[3] & 15 == 0 and message[6:8] == b"\0\1"


def is_answered_by_datagram():
    """Whether a query over UDP is answered."""
    with socket.socket(socket.AF_INET, socket.SOCK_DGRAM) as client:
        client.settimeout(2)
        client.connect(("127.0.0.1", port))
        client.send(ask)
        try:
            return is_reply(client.recv(2000))
        except OSError:
            return False


class Server:
    """A server of a zone, whose log is read on beside it."""

    def __init__(self, zone, *options, limit=2048):
        self.lines = []
        self.process = subprocess.Popen(
            [program, "serve", "--listen", f"127.0.0.1:{port}", *options, zone],
            stderr=subprocess.PIPE,
            text=True,
            preexec_fn=lambda: resource.setrlimit(resource.RLIMIT_NOFILE, (limit, limit)),
        )
        threading.Thread(target=self.read_log, daemon=True).start()
        while not is_answered_by_datagram():
            if self.process.poll() is not None:
                sys.exit("it doesn't run: " + " ".join(line for _, line in self.lines))
            time.sleep(0.1)

    def lower(self):
        """Lowers its limit while it runs."""
        resource.prlimit(self.process.pid, resource.RLIMIT_NOFILE, (LIMIT, LIMIT))

    def read_log(self):
        """Keeps each line of the log with the time at which it came."""
        for line in self.process.stderr:
            self.lines.append((time.time(), line.rstrip("\n")))

    def without_room(self, since):
        """The times of the lines since then that tell of connections that got no descriptor."""
        return [at for at, line in list(self.lines) if at >= since and re.fullmatch(r"worker 1 \(TCP\): .*\d+ rejected \(no descriptor or memory\)", line)]

    def state(self):
        """How many descriptors it has, and how many KiB of memory (Linux, proc(5))."""
        with open(f"/proc/{self.process.pid}/status") as status:
            memory = next(int(line.split()[1]) for line in status if line.startswith("VmRSS:"))
        return len(os.listdir(f"/proc/{self.process.pid}/fd")), memory

    def settled(self, descriptors):
        """Its state once it has no more than so many descriptors, but after five seconds at the latest."""
        end = time.time() + 5
        while self.state()[0] > descriptors and time.time() < end:
            time.sleep(0.1)
        return self.state()

    def end(self):
        self.process.kill()
        self.process.wait()


def close_all(clients):
    """Closes connections."""
    for client in clients:
        client.close()


def within_the_limit(server):
    """The faults where more connections come than there are descriptors by the usual limit."""
    faults, began = [], time.time()
    told = [line for _, line in server.lines if line.startswith(f"file descriptor limit is {USUAL}, ")]
    if len(told) != 1 or not re.search(r"each worker has at most \d+ open$", told[0]):
        faults.append(f"lines at the start on the limit: {told}")
    clients, answered, ended, waiting = [], 0, 0, 0
    for _ in range(COMING):
        client = connected()
        clients.append(client)
        client.settimeout(2)
        try:
            client.sendall(framed(ask))
            if is_reply(read_message(client)):
                answered += 1
            else:
                ended += 1
        except ConnectionError:
            ended += 1
        except TimeoutError:
            waiting += 1
            if waiting > 5:
                break
    if waiting:
        faults.append(f"{waiting} connections wait, behind {answered} that are answered and {ended} that are ended")
    if not is_answered_by_datagram():
        faults.append("UDP isn't answered")
    time.sleep(1.5)
    without = [line for _, line in server.lines if line.endswith(" rejected (no descriptor or memory)")]
    if without:
        faults.append(f"{len(without)} lines on the want of room")
    close_all(clients)
    print(f"{answered} of {COMING} connections are answered at once, {ended} ended, {waiting} wait; {time.time() - began:.0f} s")
    return faults


def out_of_descriptors(server):
    """The faults where more connections come than there are descriptors."""
    server.lower()
    faults, before, began = [], server.state()[0], time.time()
    clients = [connected() for _ in range(CLIENTS)]
    served, waiting = [], []
    for client in clients:
        (served if is_answered(client, 2 if not waiting else 0.02) else waiting).append(client)
    if len(served) != LIMIT - before:
        faults.append(f"{len(served)} connections are answered, where {LIMIT - before} descriptors were left")
    time.sleep(max(0, began + 5 - time.time()))
    told = server.without_room(began)
    if not told or told[0] > began + 3 or any(after - at < 0.9 for at, after in zip(told, told[1:])):
        faults.append(f"lines on the want of room after {[round(at - began, 1) for at in told]} s")
    if not is_answered_by_datagram():
        faults.append("UDP isn't answered")
    silent = sum(not is_answered(client, 2) for client in served)
    if silent:
        faults.append(f"{silent} of {len(served)} open connections aren't answered any more")
    # those that wait have asked already: each is answered once it has a descriptor
    close_all(served[:20])
    replied = 0
    for client in waiting[:20]:
        client.settimeout(4)
        try:
            replied += is_reply(read_message(client))
        except OSError:
            pass
    if replied != 20:
        faults.append(f"20 connections have closed, and {replied} of those that wait are answered")
    close_all(clients)
    time.sleep(2)
    with connected() as client:
        if not is_answered(client, 3):
            faults.append("a new connection isn't answered though all others are closed")
    quiet = time.time() + 1
    time.sleep(3)
    if server.without_room(quiet):
        faults.append("want of room is told though there is room")
    after = server.settled(before)[0]
    if after != before:
        faults.append(f"{before} descriptors, and then {after}")
    print(f"{len(served)} connections of {CLIENTS} had a descriptor, {len(told)} lines in 5 s, {replied} more served; descriptors {before} and then {after}")
    return faults


# what a connection has sent in each state, and how it is left there
STATES = {
    "before a request": b"",
    "behind a request": framed(ask),
    "within a length": framed(ask)[:1],
    "within a message": framed(ask)[:20],
    "within a reply": framed(ask_much) * MANY,
    "within a transfer": framed(transfer),
}


def in_state(state):
    """A connection that has come to a state."""
    client = connected(4096 if state in ("within a reply", "within a transfer") else None)
    client.sendall(STATES[state])
    if state == "behind a request" and not is_reply(read_message(client)):
        raise OSError("no reply")
    if state in ("within a reply", "within a transfer"):
        client.recv(1000)
    return client


def is_reset(state):
    """Whether a connection in a state can be reset."""
    client = in_state(state)
    client.setsockopt(socket.SOL_SOCKET, socket.SO_LINGER, struct.pack("ii", 1, 0))
    client.close()
    return True


def is_closed(state):
    """Whether a connection in a state can be closed."""
    in_state(state).close()
    return True


def is_half_closed(state):
    """Whether a connection that is half-closed in a state gets what it has asked for, and then its end."""
    client = connected()
    client.sendall(STATES[state])
    client.shutdown(socket.SHUT_WR)
    messages, records = 0, 0
    while (message := read_message(client)) is not None:
        messages += 1
        records += int.from_bytes(message[6:8], "big")
    client.close()
    # of a transfer the SOA comes twice (RFC 5936, 2.2)
    wanted = {"behind a request": (1, 1), "within a reply": (MANY, MANY * 250)}.get(state, (0, 0))
    return records == RECORDS + 1 if state == "within a transfer" else (messages, records) == wanted


def left_in_each_state(server, own):
    """The faults where connections are left in each state in each way, and the server then has more than its own descriptors."""
    faults = []
    for way, passes in (("reset", is_reset), ("closed", is_closed), ("half-closed", is_half_closed)):
        for state in STATES:
            wrong = 0
            for _ in range(ROUNDS):
                try:
                    wrong += not passes(state)
                except OSError as fault:
                    wrong += 1
                    print(f"  {way} {state}: {fault}")
            left = server.settled(own)[0]
            if wrong or left > own:
                faults.append(f"{way} {state}: {wrong} of {ROUNDS} wrong, descriptors {own} and then {left}")
    return faults


def in_all_states(server):
    """The faults of two rounds of all states, of which the second may take no more than the first has."""
    own = server.state()[0]
    faults = left_in_each_state(server, own)
    before = server.settled(own)
    faults += left_in_each_state(server, own)
    after = server.settled(own)
    if after[1] > before[1] + 512:
        faults.append(f"memory {before[1]} and then {after[1]} KiB")
    # a program that is stopped and continued has its calls interrupted (Linux, signal(7))
    server.process.send_signal(signal.SIGSTOP)
    time.sleep(0.5)
    server.process.send_signal(signal.SIGCONT)
    if not is_answered_by_datagram():
        faults.append("UDP isn't answered")
    with connected() as client:
        if not is_answered(client, 2):
            faults.append("a new connection isn't answered")
    print(f"{len(STATES)} states, each left in three ways: descriptors {own} and then {after[0]}, memory {before[1]} and then {after[1]} KiB")
    return faults


name = zone_file()
failed = 0
_, most = resource.getrlimit(resource.RLIMIT_NOFILE)
resource.setrlimit(resource.RLIMIT_NOFILE, (most, most))
patient = ("--workers", "1", "--idle", "60", "--message", "60", "--reply", "60")
try:
    for says, tries, options, limit in (
        ("no connection waits for a descriptor", within_the_limit, (), USUAL),
        ("all are answered that have a descriptor, and others later", out_of_descriptors, patient, 2048),
        ("nothing is left of connections", in_all_states, patient, 2048),
    ):
        server = Server(name, *options, limit=limit)
        try:
            faults = tries(server)
        finally:
            server.end()
        failed += bool(faults)
        print("FAILED " + "; ".join(faults) if faults else f"ok     {says}", flush=True)
finally:
    os.unlink(name)
sys.exit(1 if failed else 0)

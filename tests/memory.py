#!/usr/bin/env python3
"""Tries a running `dnsd serve` whose memory is short, with queries beside all of it.

Under a limit of its addresses (ulimit -v), updates fill the zone until one is told SERVFAIL for want of memory: its serial and records are then those
of the updates that were taken, a query is answered as before, and once the limit is raised the very update that was refused is taken. Then the zone is
filled to its own limit, 1,000,000 records; one more is SERVFAIL, and is taken once another is deleted. In a memory cgroup of the size that
docs/OPERATING.md tells for a zone of a million records, the same updates fill the zone to that limit, and the server isn't ended by the kernel. It
prints what memory the server had in use at each size of the zone, with how many versions kept.
Usage: [DNSD=PROGRAM] tests/memory.py [--records N] [--queries N] [--port N] [--without-cgroup], by default 1,000,000 records, 1,000,000 queries and port
15263. It takes some minutes; status 1 where one failed. It needs Linux, and root for the cgroup."""
import argparse
import atexit
import os
import resource
import socket
import struct
import subprocess
import sys
import tempfile
import threading
import time

top = os.path.dirname(os.path.dirname(os.path.abspath(__file__)))
program = os.environ.get("DNSD", f"{top}/crates/dnsd/out/dnsd")
words = argparse.ArgumentParser()
for word, number in (("records", 1_000_000), ("queries", 1_000_000), ("port", 15263)):
    words.add_argument(f"--{word}", type=int, default=number)
words.add_argument("--without-cgroup", action="store_true")
given = words.parse_args()
APEX = b"\7example\4test\0"
LIMIT = 1_000_000
MIB = 1 << 20
# what a server is given for a zone of a million records that is filled by updates (docs/OPERATING.md)
MEMORY = 400 * MIB
failed = 0


def told(is_right, what):
    global failed
    failed += not is_right
    print(("ok     " if is_right else "FAILED ") + what, flush=True)


def framed(message):
    return struct.pack(">H", len(message)) + message


def query(name, rtype):
    return struct.pack(">6H", 7, 0x0100, 1, 0, 0, 0) + name + APEX + struct.pack(">2H", rtype, 1)


def update(records):
    """An update of these records, each its owner below the apex, type, class, TTL and data (RFC 2136, 2)."""
    body = b"".join(owner + b"\xc0\x0c" + struct.pack(">2HIH", rtype, rclass, ttl, len(data)) + data for owner, rtype, rclass, ttl, data in records)
    return struct.pack(">6H", 9, 0x2800, 1, 0, len(records), 0) + APEX + struct.pack(">2H", 6, 1) + body


def owner(number):
    text = b"r%d" % number
    return bytes([len(text)]) + text


def adds(first, count):
    return update([(owner(n), 1, 1, 60, struct.pack(">I", 0x0A000000 + n)) for n in range(first, first + count)])


class Server:
    def __init__(self, *options, limit=None, prefix=None):
        self.zone = tempfile.NamedTemporaryFile("w", suffix=".zone")
        self.zone.write("$ORIGIN example.test.\n$TTL 60\n@ SOA ns1 admin 1 7200 900 1209600 300\n@ NS ns1\nns1 A 192.0.2.1\n")
        self.zone.flush()

        def limited():
            if limit:
                resource.setrlimit(resource.RLIMIT_AS, (limit, resource.RLIM_INFINITY))
            if prefix:
                with open(f"{prefix}/cgroup.procs", "w") as file:
                    file.write(str(os.getpid()))

        words = [program, "serve", "--listen", f"127.0.0.1:{given.port}", "--workers", "1", *options, self.zone.name]
        self.process = subprocess.Popen(words, stderr=subprocess.PIPE, text=True, preexec_fn=limited)
        atexit.register(self.process.kill)
        line = self.process.stderr.readline()
        if not line.startswith("listening on"):
            raise RuntimeError(f"the server doesn't run: {line}")
        threading.Thread(target=lambda: [None for _ in self.process.stderr], daemon=True).start()
        self.stream = None

    def ask(self, message):
        if self.stream is None:
            self.stream = socket.create_connection(("127.0.0.1", given.port), timeout=120)
        try:
            self.stream.sendall(framed(message))
            return self.taken(struct.unpack(">H", self.taken(2))[0])
        except (OSError, ConnectionError):
            self.stream = None
            raise

    def taken(self, count):
        octets = bytearray()
        while len(octets) < count:
            more = self.stream.recv(count - len(octets))
            if not more:
                raise ConnectionError("the connection ended")
            octets += more
        return bytes(octets)

    def code(self, message):
        """The code of a reply; None where the connection ended without one."""
        try:
            return self.ask(message)[3] & 15
        except (OSError, ConnectionError):
            return None

    def serial(self):
        reply = self.ask(query(b"", 6))
        return struct.unpack(">I", reply[-20:-16])[0]

    def status(self, word):
        with open(f"/proc/{self.process.pid}/status") as file:
            return next(int(line.split()[1]) * 1024 for line in file if line.startswith(word))

    def addresses(self):
        """How many addresses a transfer of the zone has, and of how many names; None where it is refused."""
        count = 0
        with socket.create_connection(("127.0.0.1", given.port), timeout=120) as client, client.makefile("rb") as stream:
            client.sendall(framed(struct.pack(">6H", 7, 0, 1, 0, 0, 0) + APEX + struct.pack(">2H", 252, 1)))
            while True:
                head = stream.read(2)
                if len(head) < 2:
                    return None
                message = stream.read(struct.unpack(">H", head)[0])
                if message[3] & 15:
                    return None
                count += struct.unpack(">H", message[6:8])[0]
                if message.endswith(struct.pack(">4I", 7200, 900, 1209600, 300)) and count > 1:
                    # two SOAs, the NS and its address
                    return count - 4

    def end(self):
        if self.stream:
            self.stream.close()
        self.process.kill()
        self.process.wait()
        self.zone.close()


class Asking:
    """Queries by UDP beside all that is done, as many at once as a window, and what they got."""

    def __init__(self):
        self.stop = False
        self.asked = self.answered = self.wrong = 0
        self.thread = threading.Thread(target=self.run, daemon=True)
        self.thread.start()

    def run(self):
        client = socket.socket(socket.AF_INET, socket.SOCK_DGRAM)
        client.connect(("127.0.0.1", given.port))
        client.settimeout(2)
        asked = query(b"\3ns1", 1)
        while not self.stop:
            try:
                for _ in range(16):
                    client.send(asked)
                self.asked += 16
                for _ in range(16):
                    reply = client.recv(2000)
                    self.answered += 1
                    if reply[3] & 15 or not reply.endswith(b"\0\4\xc0\0\2\1"):
                        self.wrong += 1
            except socket.timeout:
                pass
            except OSError:
                time.sleep(0.1)

    def end(self):
        self.stop = True
        self.thread.join(5)
        return self.asked, self.answered, self.wrong


def mib(octets):
    return f"{octets / MIB:.1f} MiB"


BATCH = 1500


def starved():
    """Updates until one finds no memory, under a limit of addresses; the limit is raised; and they go on."""
    plain = Server()
    size = plain.status("VmSize")
    plain.end()
    limit = size + 160 * MIB
    server = Server(limit=limit)
    asking = Asking()
    records, refused = 0, None
    for _ in range(1000):
        message = adds(records, BATCH)
        serial = server.serial()
        code = server.code(message)
        if code == 0:
            records += BATCH
            continue
        refused = code
        break
    told(refused == 2, f"under ulimit -v of {mib(limit)}, {mib(size)} of which are there at the start, an update finds no memory at {records} records: code {refused}")
    told(server.serial() == serial, f"the serial is still {serial}")
    codes = [server.code(message) for _ in range(20)]
    told(all(code in (0, 2) for code in codes), f"the same update 20 times more: {sorted(set(map(str, codes)))}")
    records += BATCH * (0 in codes)
    told(server.ask(query(owner(0), 1)).endswith(struct.pack(">I", 0x0A000000)) and server.ask(query(owner(records - 1), 1)).endswith(struct.pack(">I", 0x0A000000 + records - 1)), "the first and the last record that were added are there")
    told(server.code(query(owner(records), 1)) == 3, "and none of the update that was refused")
    held = server.addresses()
    told(held in (None, records), f"a transfer has {held} addresses, of {records}" if held is not None else "a transfer finds no memory either")
    resource.prlimit(server.process.pid, resource.RLIMIT_AS, (resource.RLIM_INFINITY, resource.RLIM_INFINITY))
    told(server.code(adds(records, BATCH)) == 0, "once the limit is raised the update is taken")
    records += BATCH
    told(server.addresses() == records, f"a transfer has all {records} addresses")
    asked, answered, wrong = asking.end()
    told(wrong == 0 and asked - answered <= asked // 1000 + 16, f"{asked} queries beside it, {answered} answered, {wrong} wrong")
    server.end()


def filled(options, prefix=None, what=""):
    """The zone is filled to its limit by updates; what memory it takes is printed."""
    server = Server(*options, prefix=prefix)
    asking = Asking()
    most = min(given.records, LIMIT)
    records, sizes, peak = 3, [], 0
    steps = [most // 100, most // 10, most]
    began = time.time()
    while records < most:
        count = min(BATCH, most - records)
        code = server.code(adds(records, count))
        if code != 0:
            told(False, f"an update got {code} at {records} records {what}")
            break
        records += count
        while steps and records >= steps[0]:
            sizes.append((records, server.status("VmRSS"), server.status("VmHWM")))
            steps.pop(0)
    took = time.time() - began
    for count, now, high in sizes:
        print(f"       {count} records, {' '.join(options) or 'eight versions kept'}: {mib(now)} in use, {mib(high)} at most, {(now - sizes[0][1]) / max(count - sizes[0][0], 1):.0f} octets a further record")
    if most == LIMIT:
        serial = server.serial()
        told(server.code(adds(5_000_000, 1)) == 2 and server.serial() == serial, f"one more than {LIMIT} records is SERVFAIL {what}")
        told(server.code(update([(owner(3), 1, 255, 0, b"")])) == 0 and server.code(adds(5_000_000, 1)) == 0, "and is taken once another is deleted")
    while asking.answered < given.queries and server.process.poll() is None and time.time() < began + 600:
        time.sleep(0.2)
    asked, answered, wrong = asking.end()
    told(server.process.poll() is None, f"the server runs on {what}; {took:.0f} s for the updates")
    told(wrong == 0 and asked - answered <= asked // 1000 + 16, f"{asked} queries beside it, {answered} answered, {wrong} wrong")
    # what versions take: a thousand small updates more
    before = server.status("VmRSS")
    for n in range(1000):
        server.code(adds(6_000_000 + n % 2, 1) if n % 4 < 2 else update([(owner(6_000_000 + n % 2), 1, 255, 0, b"")]))
    print(f"       a thousand small updates more: {(server.status('VmRSS') - before) / 1024:.0f} KiB")
    high = server.status("VmHWM")
    server.end()
    return high


def cgroup():
    """A memory cgroup of a limit, by either version; None where none can be made."""
    for folder, file in (("/sys/fs/cgroup/memory", "memory.limit_in_bytes"), ("/sys/fs/cgroup", "memory.max")):
        own = f"{folder}/dnsd-memory-{os.getpid()}"
        try:
            os.mkdir(own)
            with open(f"{own}/{file}", "w") as limit:
                limit.write(str(MEMORY))
            return own
        except OSError:
            try:
                os.rmdir(own)
            except OSError:
                pass
    return None


def main():
    starved()
    high = filled(())
    filled(("--keep", "0"))
    told(given.records < LIMIT or high <= MEMORY, f"a zone of {given.records} records took {mib(high)} at most, of the {mib(MEMORY)} that are told for it")
    if not given.without_cgroup:
        own = cgroup()
        if own is None:
            print("       no memory cgroup can be made here")
        else:
            try:
                filled((), own, f"in a memory cgroup of {mib(MEMORY)}")
            finally:
                time.sleep(0.5)
                os.rmdir(own)
    return 1 if failed else 0


if __name__ == "__main__":
    sys.exit(main())

"""The clients of bench/soak.sh: each reply is checked against the version that its SOA tells.

Version N of the zone has serial N, the text "N" at the apex, an alias to tK where K is N mod 16, and the one name vN. So a reply that
has the SOA beside one of these shows whether both are of one version; and its serial is no less than that of the last update that was
answered before the query was sent, and no greater than that of the last one that was sent before the reply came.
"""
import random, socket, struct, sys, threading, time

TYPES = {"A": 1, "NS": 2, "CNAME": 5, "SOA": 6, "TXT": 16, "AXFR": 252, "ANY": 255}
APEX = "example.test"


class State:
    """What the clients share: the versions that were sent and answered, and the counts."""

    def __init__(self):
        self.lock = threading.Lock()
        self.sent = self.answered = 1
        self.counts = {"UDP": 0, "TCP": 0, "updates": 0, "transfers": 0, "secondary": 0, "lost": 0, "careless": 0}
        self.wrong = []
        self.ends = 0.0
        self.axfr = False

    def count(self, what, n=1):
        with self.lock:
            self.counts[what] += n

    def fail(self, what):
        with self.lock:
            self.wrong.append(what)
            if len(self.wrong) <= 20:
                print("WRONG", what, flush=True)

    def on(self):
        return time.monotonic() < self.ends


def wire(name):
    return b"".join(bytes([len(label)]) + label.encode() for label in name.split(".")) + b"\0"


def query(ident, name, rtype):
    return struct.pack(">6H", ident, 0x0100, 1, 0, 0, 0) + wire(name) + struct.pack(">2H", TYPES[rtype], 1)


def name_at(msg, at):
    """A name, and the position behind it."""
    labels, behind = [], None
    while True:
        n = msg[at]
        if n >= 0xC0:
            behind = at + 2 if behind is None else behind
            at = (n & 0x3F) << 8 | msg[at + 1]
        elif n == 0:
            return ".".join(labels), at + 1 if behind is None else behind
        else:
            labels.append(msg[at + 1 : at + 1 + n].decode())
            at += 1 + n


def parsed(msg):
    """The ID, the RCODE, and the records of all sections: owner, type, data."""
    ident, flags, questions, *counts = struct.unpack(">6H", msg[:12])
    at, records = 12, []
    for _ in range(questions):
        at = name_at(msg, at)[1] + 4
    for _ in range(sum(counts)):
        owner, at = name_at(msg, at)
        rtype, _, _, length = struct.unpack(">2HIH", msg[at : at + 10])
        at += 10
        data = msg[at : at + length]
        if rtype == TYPES["CNAME"]:
            data = name_at(msg, at)[0]
        elif rtype == TYPES["SOA"]:
            data = struct.unpack(">I", msg[at + length - 20 : at + length - 16])[0]
        elif rtype == TYPES["TXT"]:
            data = data[1:].decode()
        at += length
        records.append((owner, rtype, data))
    if at != len(msg):
        raise ValueError("octets behind the records")
    return ident, flags & 15, records


def of(records, rtype, owner=None):
    return [data for o, t, data in records if t == TYPES[rtype] and owner in (None, o)]


def question(state):
    """A query's name and type."""
    n = max(1, state.sent - random.randrange(3))
    return random.choice([(APEX, "ANY"), ("alias." + APEX, "A"), (f"v{n}.{APEX}", "A"), (APEX, "SOA")])


def judge(name, rtype, reply):
    """What is wrong with a reply, or None; and its serial, or None where the reply tells no version."""
    _, rcode, records = parsed(reply)
    if name.startswith("v"):
        n = int(name[1:].split(".")[0])
        if rcode == 0 and of(records, "A", name) == [socket.inet_aton(f"10.{n >> 16 & 255}.{n >> 8 & 255}.{n & 255}")]:
            return None, n
        soa = of(records, "SOA")
        if rcode != 3 or len(soa) != 1 or len(records) != 1:
            return f"{rcode} {records}", None
        return ("no such name in its own version" if soa == [n] else None), soa[0]
    soa = of(records, "SOA", APEX)
    if rcode != 0 or len(soa) != 1:
        return f"{rcode} {records}", None
    serial = soa[0]
    if rtype == "ANY" and (of(records, "TXT", APEX) != [str(serial)] or len(of(records, "NS")) != 1):
        return f"serial {serial} beside {records}", serial
    if name.startswith("alias") and of(records, "CNAME") != [f"t{serial % 16}.{APEX}"]:
        return f"serial {serial} beside {records}", serial
    return None, serial


def check(state, name, rtype, reply, since, what):
    try:
        wrong, serial = judge(name, rtype, reply)
    except (ValueError, IndexError, struct.error, UnicodeDecodeError) as fault:
        wrong, serial = f"can't be read: {fault}", None
    if wrong:
        state.fail(f"{what} {name} {rtype}: {wrong}")
    elif serial is not None and since is not None and not since <= serial <= state.sent:
        state.fail(f"{what} {name} {rtype}: serial {serial}, not from {since} to {state.sent}")


def paced(state, rate):
    """Turns until the end, so many a second at most."""
    due = time.monotonic()
    while state.on():
        yield
        due = max(due + 1 / rate, time.monotonic() - 1)
        time.sleep(max(0.0, due - time.monotonic()))


def udp(state, port, rate):
    sock = socket.socket(socket.AF_INET, socket.SOCK_DGRAM)
    sock.settimeout(2)
    sock.connect(("127.0.0.1", port))
    ident = random.randrange(65536)
    for _ in paced(state, rate):
        ident = (ident + 1) % 65536
        name, rtype = question(state)
        since = state.answered
        sock.send(query(ident, name, rtype))
        try:
            reply = sock.recv(65535)
            while reply[:2] != struct.pack(">H", ident):
                reply = sock.recv(65535)
        except socket.timeout:
            state.count("lost")
            continue
        check(state, name, rtype, reply, since, "UDP")
        state.count("UDP")


def read_frame(sock):
    def take(n):
        octets = b""
        while len(octets) < n:
            more = sock.recv(n - len(octets))
            if not more:
                raise ConnectionError("the connection ended")
            octets += more
        return octets

    return take(struct.unpack(">H", take(2))[0])


def framed(msg):
    return struct.pack(">H", len(msg)) + msg


def transfer(state, sock):
    """The zone in whole, all of it of one version (RFC 5936)."""
    since = state.answered
    sock.sendall(framed(query(7, APEX, "AXFR")))
    records = []
    while len(of(records, "SOA")) < 2:
        _, rcode, more = parsed(read_frame(sock))
        if rcode != 0 or not more:
            return state.fail(f"AXFR: {rcode} {more}")
        records += more
    serials = of(records, "SOA")
    serial, names = serials[0], [o for o, _, _ in records if o.startswith("v")]
    is_one = serials == [serial] * 2 and of(records, "TXT", APEX) == [str(serial)] and names == [f"v{serial}.{APEX}"]
    if not is_one or of(records, "CNAME") != [f"t{serial % 16}.{APEX}"]:
        state.fail(f"AXFR of serial {serial}: {records}")
    elif not since <= serial <= state.sent:
        state.fail(f"AXFR: serial {serial}, not from {since} to {state.sent}")
    state.count("transfers")


def tcp(state, port, rate):
    """Three requests at once on a connection, whose replies come in order; 20 times, and then another connection."""
    sock, left = None, 0
    for _ in paced(state, rate / 3):
        try:
            if left == 0:
                if sock:
                    sock.close()
                sock, left = socket.create_connection(("127.0.0.1", port), timeout=20), 20
            left -= 1
            if state.axfr and left == 0:
                transfer(state, sock)
                continue
            asked = [(random.randrange(65536), *question(state)) for _ in range(3)]
            since = state.answered
            sock.sendall(b"".join(framed(query(*one)) for one in asked))
            for ident, name, rtype in asked:
                reply = read_frame(sock)
                if reply[:2] != struct.pack(">H", ident):
                    state.fail(f"TCP: a reply out of its order to {name} {rtype}")
                check(state, name, rtype, reply, since, "TCP")
                state.count("TCP")
        except (OSError, ConnectionError) as fault:
            state.fail(f"TCP: {fault}")
            left = 0


def careless(state, port, rate):
    """Octets that are no request, halves of frames, and connections that are closed before the reply is read."""
    sock = socket.socket(socket.AF_INET, socket.SOCK_DGRAM)
    for turn, _ in enumerate(paced(state, rate)):
        sock.sendto(random.randbytes(random.choice([0, 1, 11, 12, 40, 512, 1400])), ("127.0.0.1", port))
        if turn % 5 == 0:
            try:
                with socket.create_connection(("127.0.0.1", port), timeout=20) as stream:
                    stream.setsockopt(socket.SOL_SOCKET, socket.SO_LINGER, struct.pack("ii", turn % 2, 0))
                    whole = framed(query(9, APEX, "ANY"))
                    stream.sendall(whole * 50 + whole[: random.randrange(len(whole))])
            except OSError:
                pass
        state.count("careless")


def update(n):
    """The update that makes version N (RFC 2136): the text, the alias and the name of the version before give way to those of N."""
    def record(name, rtype, rclass, ttl, data):
        return wire(name) + struct.pack(">2HIH", TYPES[rtype], rclass, ttl, len(data)) + data

    text = str(n).encode()
    changes = [
        record(APEX, "TXT", 255, 0, b""),
        record(APEX, "TXT", 1, 60, bytes([len(text)]) + text),
        record("alias." + APEX, "CNAME", 1, 60, wire(f"t{n % 16}.{APEX}")),
        record(f"v{n - 1}.{APEX}", "ANY", 255, 0, b""),
        record(f"v{n}.{APEX}", "A", 1, 60, socket.inet_aton(f"10.{n >> 16 & 255}.{n >> 8 & 255}.{n & 255}")),
    ]
    head = struct.pack(">6H", n % 65536, 0x2800, 1, 0, len(changes), 0)
    return head + wire(APEX) + struct.pack(">2H", TYPES["SOA"], 1) + b"".join(changes)


def updater(state, port, rate):
    sock = socket.socket(socket.AF_INET, socket.SOCK_DGRAM)
    sock.settimeout(20)
    sock.connect(("127.0.0.1", port))
    for _ in paced(state, rate):
        n = state.sent = state.sent + 1
        sock.send(update(n))
        try:
            reply = sock.recv(65535)
        except socket.timeout:
            return state.fail(f"update {n} isn't answered")
        if len(reply) < 12 or reply[3] & 15 != 0:
            return state.fail(f"update {n}: {reply.hex()}")
        state.answered = n
        state.count("updates")


def reader(state, port, rate):
    """Asks the secondary, which may be behind, but never between two versions."""
    sock = socket.socket(socket.AF_INET, socket.SOCK_DGRAM)
    sock.settimeout(2)
    sock.connect(("127.0.0.1", port))
    for _ in paced(state, rate):
        sock.send(query(5, "alias." + APEX, "A"))
        try:
            check(state, "alias." + APEX, "A", sock.recv(65535), None, "secondary")
            state.count("secondary")
        except OSError:
            state.count("lost")


def resident(pid):
    with open(f"/proc/{pid}/status") as lines:
        return next(int(line.split()[1]) for line in lines if line.startswith("VmRSS"))


def main():
    pid, port, second, seconds, rate, rate_of_updates = (int(word) for word in sys.argv[1:])
    state = State()
    state.axfr = second != 0
    state.ends = time.monotonic() + seconds
    work = [(udp, port, rate)] * 8 + [(tcp, port, rate)] * 8 + [(careless, port, 20), (updater, port, rate_of_updates)]
    if second:
        work.append((reader, second, 50))
    threads = [threading.Thread(target=job, args=(state, at, pace), daemon=True) for job, at, pace in work]
    for thread in threads:
        thread.start()
    memory = []
    while state.on():
        time.sleep(1)
        try:
            memory.append(resident(pid))
        except (OSError, StopIteration):
            state.fail("the server has ended")
            break
    for thread in threads:
        thread.join(30)
    fifth = max(1, len(memory) // 5)
    early, late = max(memory[fifth : 2 * fifth] or [0]), max(memory[-fifth:] or [0])
    print(", ".join(f"{count} {what}" for what, count in state.counts.items()))
    print(f"memory: {early} KiB at most in the second fifth of the time, {late} KiB in the last")
    if late > early * 1.02 + 512:
        state.fail("memory grows")
    if state.counts["lost"] > sum(state.counts.values()) / 10000:
        state.fail(f"{state.counts['lost']} replies were lost")
    print(f"{len(state.wrong)} wrong")
    print(state.sent, file=open("last", "w"))
    sys.exit(1 if state.wrong else 0)


if __name__ == "__main__":
    main()

"""The clients of bench/hostile.sh: what is hostile to the server, a process each, and the plain query with a bare UDP echo beside it."""
import multiprocessing
import os
import queue
import random
import re
import select
import socket
import struct
import subprocess
import sys
import time

sys.path.insert(0, os.path.dirname(os.path.abspath(__file__)))
import hostile_dear
import worst

APEX = b"\7example\4test\0"
ASK = struct.pack(">6H", 7, 0x0100, 1, 0, 0, 0) + b"\2h1" + APEX + struct.pack(">2H", 1, 1)
# the bound on what a plain query may take longer than the echo, in milliseconds
BOUND = 20
# how long the secondaries have to catch up once the rate has fallen, in seconds
SETTLED = 10
# when in the first minute no updates come for a while, and for how long: the versions that are kept are then the largest, as in the last minute
PAUSES, PAUSED = (12, 22, 32, 42), 4


def framed(message):
    return struct.pack(">H", len(message)) + message


def echo(port):
    """Sends back each datagram that comes."""
    own = socket.socket(socket.AF_INET, socket.SOCK_DGRAM)
    own.bind(("127.0.0.1", port))
    while True:
        octets, peer = own.recvfrom(65535)
        own.sendto(octets, peer)


def percentile(values, share):
    return sorted(values)[min(len(values) - 1, int(len(values) * share))] if values else float("nan")


def probed(server, beside, end, told):
    """Asks the server and the echo by turns, a hundred times a second, and tells each minute's times."""
    clients = []
    for port in (server, beside):
        # a socket anew for each question of the server would be a port anew; eight lead to all of its threads
        own = []
        for _ in range(8):
            client = socket.socket(socket.AF_INET, socket.SOCK_DGRAM)
            client.connect(("127.0.0.1", port))
            client.settimeout(2)
            own.append(client)
        clients.append(own)
    turn, minute = 0, [[], []]
    lost, due, last = 0, time.time(), time.time()
    while time.time() < end:
        due = max(due + 0.01, time.time() - 1)
        time.sleep(max(0, due - time.time()))
        turn = (turn + 1) % 8
        for which in (0, 1):
            client = clients[which][turn]
            asked = struct.pack(">H", random.randrange(65536)) + ASK[2:]
            began = time.perf_counter()
            client.send(asked)
            try:
                reply = client.recv(2000)
                while reply[:2] != asked[:2]:
                    reply = client.recv(2000)
                minute[which].append(1000 * (time.perf_counter() - began))
                if which == 0 and (reply[3] & 15 or reply[6:8] != b"\0\1"):
                    told.put(("wrong", f"a plain query got {reply.hex()}"))
            except socket.timeout:
                lost += 1
                minute[which].append(2000.0)
        if minute[0] and (time.time() - last >= 60 or time.time() + 0.02 >= end and time.time() - last > 20):
            last = time.time()
            told.put(("minute", [(percentile(own, 0.5), percentile(own, 0.99), max(own, default=0)) for own in minute], len(minute[0]), lost))
            minute, lost = [[], []], 0


def updater(port, rate, begin, end, slow_from, told):
    """Updates by UDP, sixteen under way: by turns an address added, one deleted that was added before, and one that a prerequisite refuses."""
    client = socket.socket(socket.AF_INET, socket.SOCK_DGRAM)
    client.connect(("127.0.0.1", port))
    client.settimeout(5)
    head = lambda n, pr, up: struct.pack(">6H", n & 65535, 0x2800, 1, pr, up, 0) + APEX + struct.pack(">2H", 6, 1)

    def update(n):
        kind, number = n % 3, n // 3
        owner = lambda k: struct.pack("B", len(b"u%d" % (k % 5000))) + b"u%d" % (k % 5000) + b"\xc0\x0c"
        if kind == 0:
            return head(n, 0, 1) + owner(number) + struct.pack(">2HIH4B", 1, 1, 60, 4, 10, number >> 16 & 255, number >> 8 & 255, number & 255), 0
        if kind == 1:
            return head(n, 0, 1) + owner(number - 300) + struct.pack(">2HIH", 255, 255, 0, 0), 0
        return head(n, 1, 1) + b"\3ns1\xc0\x0c" + struct.pack(">2HIH", 255, 254, 0, 0) + owner(number) + struct.pack(">2HIH4B", 1, 1, 60, 4, 10, 9, 8, 7), 6

    sent = taken = refused = servfail = 0
    began, fast, pauses = begin, None, [begin + at for at in PAUSES]
    waiting, n = {}, 0
    while time.time() < end:
        now = time.time()
        if now >= slow_from:
            fast = fast or (taken, refused)
            time.sleep(max(0.0, 1 - (time.time() - now)))
            batch = 1
        elif pauses and now >= pauses[0]:
            time.sleep(PAUSED)
            began += time.time() - now
            pauses.pop(0)
            continue
        else:
            batch = min(16, max(0, int(rate * (now - began)) - sent))
            if batch == 0:
                time.sleep(0.001)
                continue
        for _ in range(batch):
            n += 1 if now < slow_from else (1 if (n + 1) % 3 == 0 else 3 - (n + 1) % 3 + 1)
            octets, code = update(n)
            waiting[n & 65535] = code
            client.send(octets)
            sent += 1
        try:
            while waiting:
                reply = client.recv(2000)
                number = struct.unpack(">H", reply[:2])[0]
                code = waiting.pop(number, None)
                if code is None:
                    continue
                got = reply[3] & 15
                if got == 2:
                    servfail += 1
                elif got != code:
                    told.put(("wrong", f"an update got {got} where {code} is right"))
                taken += got == 0
                refused += got == 6
        except socket.timeout:
            told.put(("count", "updates without a reply", len(waiting)))
            waiting = {}
        if sent > rate * (time.time() - began) + 16 or time.time() - began > 1 and sent < rate * (time.time() - began) - rate:
            # what wasn't reached is left
            began = time.time() - sent / rate if rate else time.time()
    for what, count in (("updates taken", taken), ("updates refused", refused), ("updates told SERVFAIL", servfail)):
        told.put(("count", what, count))
    taken, refused = fast or (taken, refused)
    told.put(("floor", "updates that got their reply", taken + refused, rate * (slow_from - begin - PAUSED * len(PAUSES))))
    told.put(("floor", "updates that were refused", refused, (taken + refused) / 3))


def connections(port, kinds, end, told):
    """Connections of these kinds, each opened again once it is closed: idle ones send nothing, slow ones an octet a second, and such as never read ask on."""
    ask = framed(ASK)
    poller = select.epoll()
    own = {}
    opened = closed = 0

    def open_one(kind):
        nonlocal opened
        client = socket.socket()
        client.setblocking(False)
        if kind == "never reads":
            client.setsockopt(socket.SOL_SOCKET, socket.SO_RCVBUF, 4096)
        try:
            client.connect(("127.0.0.1", port))
        except BlockingIOError:
            pass
        except OSError:
            client.close()
            return
        own[client.fileno()] = [client, kind, 0]
        poller.register(client.fileno(), select.EPOLLIN | select.EPOLLRDHUP | select.EPOLLHUP if kind != "never reads" else select.EPOLLRDHUP | select.EPOLLHUP)
        opened += 1

    missing = list(kinds)
    while time.time() < end:
        second = time.time() + 1
        while missing and time.time() < second - 0.5:
            open_one(missing.pop())
        for number, one in list(own.items()):
            client, kind, gone = one
            try:
                if kind == "sends slowly":
                    client.send(ask[gone % len(ask) : gone % len(ask) + 1])
                    one[2] += 1
                elif kind == "never reads":
                    client.send(ask * 20)
            except BlockingIOError:
                pass
            except OSError:
                pass
        while time.time() < second:
            for number, event in poller.poll(max(0.0, second - time.time())):
                client, kind, _ = own[number]
                try:
                    is_over = not client.recv(2048) if kind != "never reads" else True
                except BlockingIOError:
                    is_over = False
                except OSError:
                    is_over = True
                if is_over:
                    poller.unregister(number)
                    client.close()
                    del own[number]
                    missing.append(kind)
                    closed += 1
    told.put(("count", "connections opened", opened))
    told.put(("count", "connections closed by the server", closed))


def state_of(pid):
    """Memory in KiB, and descriptors, those of connections apart (Linux, proc(5))."""
    with open(f"/proc/{pid}/status") as file:
        memory = next(int(line.split()[1]) for line in file if line.startswith("VmRSS"))
    return memory, len(os.listdir(f"/proc/{pid}/fd"))


def times_of(pid):
    with open(f"/proc/{pid}/stat") as file:
        words = file.read().rsplit(")", 1)[1].split()
    return (int(words[11]) + int(words[12])) / os.sysconf("SC_CLK_TCK")


class Tally:
    """What the clients told, and what is wrong."""

    def __init__(self):
        self.counts, self.floors, self.notes, self.wrongs = {}, {}, [], []
        self.minutes, self.worst_gap, self.asked, self.lost = 0, 0.0, 0, 0

    def is_wrong(self, what):
        self.wrongs.append(what)
        if len(self.wrongs) < 20:
            print("WRONG", what, flush=True)

    def take(self, item, state):
        if item[0] == "minute":
            self.minute(item[1], item[2], item[3], state)
        elif item[0] == "count":
            self.counts[item[1]] = self.counts.get(item[1], 0) + item[2]
        elif item[0] == "floor":
            self.floors[item[1]] = item[2:]
        elif item[0] == "wrong":
            self.is_wrong(item[1])
        else:
            self.notes.append(item[1])

    def minute(self, times, count, lost, state):
        own, beside = times
        self.minutes, self.worst_gap = self.minutes + 1, max(self.worst_gap, own[1] - beside[1])
        self.asked, self.lost = self.asked + count, self.lost + lost
        print(f"minute {self.minutes}: a plain query {own[0]:.2f} ms in the middle, {own[1]:.2f} at the 99th percentile, {own[2]:.1f} at most; the echo {beside[0]:.2f}, {beside[1]:.2f}, {beside[2]:.1f}; "
              f"{lost} lost; memory {state[1]} KiB, {state[2]} descriptors; load {os.getloadavg()[0]:.1f}", flush=True)
        if own[1] - beside[1] > BOUND:
            self.is_wrong(f"the plain query was slower than it may be in minute {self.minutes}")

    def told(self):
        print(", ".join(f"{count} {what}" for what, count in self.counts.items()) + "".join(f"; {note}" for note in self.notes))
        for what, (got, wanted) in self.floors.items():
            print(f"{what}: {got:.0f}, where {wanted:.0f} are wanted")
            if got < 0.9 * wanted:
                self.is_wrong(f"too few {what}")


class Secondaries:
    """What both secondaries took since a while after the rate has fallen: Knot by its log, NSD by its log and by what it kept as it got it."""

    def __init__(self, work, port):
        self.logs, self.port, self.since = (f"{work}/knotd.log", f"{work}/nsd.log"), port, None

    def read(self):
        for path in self.logs:
            with open(path, errors="replace") as file:
                yield file.read()

    def begin(self):
        if self.since is None:
            self.since = time.time(), *map(len, self.read())

    def judge(self, tally):
        if self.since is None:
            return tally.is_wrong("the secondaries weren't looked at")
        seconds = time.time() - self.since[0]
        knot, nsd = (text[at:] for text, at in zip(self.read(), self.since[1:]))
        changed, whole = len(re.findall("IXFR, incoming.*finished", knot)), len(re.findall("AXFR, incoming.*finished", knot))
        taken = len(re.findall("received update to serial", nsd))
        client = hostile_dear.Client(self.port)
        reply, _ = client.ask(struct.pack(">6H", 7, 0, 1, 0, 0, 0) + APEX + struct.pack(">2H", 6, 1))
        client.close()
        last = next(struct.unpack(">I", data[-20:-16])[0] for rtype, data in hostile_dear.records_of(reply) if rtype == 6)
        kept = hostile_dear.stored(self.port + 2, last, int(seconds))
        print(f"the last {seconds:.0f} s: Knot took {changed} transfers of what changed, {whole} in whole; NSD took {taken}, and the last {kept} versions as what changed")
        if whole or changed < seconds / 3:
            tally.is_wrong("Knot got the zone in whole, or too little of what changed")
        if taken < seconds / 3 or kept < seconds / 3:
            tally.is_wrong("NSD got the zone in whole, or too little of what changed")


def requests_of(work):
    """Writes the requests that are to be mutated: queries, updates and transfers of the zone, and the beginnings of dear messages."""
    requests = [ASK, ASK[:-4] + b"\0\xff\0\1", struct.pack(">6H", 7, 0, 1, 0, 0, 0) + APEX + b"\0\xfc\0\1"]
    requests.append(struct.pack(">6H", 7, 0, 1, 0, 1, 0) + APEX + b"\0\xfb\0\1\xc0\x0c" + struct.pack(">2HIH", 6, 1, 0, 22) + b"\0\0" + struct.pack(">5I", 1, 0, 0, 0, 0))
    requests.append(struct.pack(">6H", 7, 0x0100, 1, 0, 0, 1) + b"\2h1" + APEX + b"\0\1\0\1\0\0\x29\x10\0\0\0\0\0\0\0")
    requests.append(struct.pack(">6H", 7, 0x2800, 1, 1, 1, 0) + APEX + b"\0\6\0\1\3new\xc0\x0c\0\xff\0\xfe\0\0\0\0\0\0\xc0\x1e\0\1\0\1\0\0\x0e\x10\0\4\xc0\0\2\x4d")
    requests += [message[:400] for message in (worst.chained_query()[0], worst.comb_query()[0])]
    with open(f"{work}/requests", "w") as file:
        file.write("".join(f"{one.hex()}\n" for one in requests))


def started(port, messages, rates, seed, work, times, told):
    """Every client, as processes: those of Python, and the two that send mutated requests."""
    (asked, changing), (rate, dear), (begin, slow_from, end) = messages, rates, times
    jobs = [
        multiprocessing.Process(target=job, args=(*words, told) if job is not echo else words, daemon=True)
        for job, words in (
            (echo, (port + 3,)),
            (probed, (port, port + 3, end)),
            (hostile_dear.ask_dear, (port, dear, asked, end)),
            (hostile_dear.change_dear, (port, dear, changing, slow_from, [begin + at + 0.3 for at in PAUSES])),
            (hostile_dear.transfers, (port, 1, end)),
            (updater, (port, rate, begin, end, slow_from)),
            (connections, (port, ["idle"] * 500, end)),
            (connections, (port, ["sends slowly"] * 400 + ["never reads"] * 100, end)),
        )
    ]
    for job in jobs:
        job.start()
    requests_of(work)
    senders = [
        subprocess.Popen([f"{work}/mutate", over, str(port), str(seed + at), str(1 << 40), str(end - time.time()), f"{work}/requests", "1000", "127.0.0.2"], stdout=subprocess.PIPE, text=True)
        for at, over in enumerate(("udp", "tcp"))
    ]
    return jobs, senders


def watched(pid, begin, slow_from, end, told, tally, secondaries):
    """Takes what the clients tell until the end, and looks at the server each second: when, its memory and its descriptors."""
    states = []
    while time.time() < end + 3:
        try:
            tally.take(told.get(timeout=1), states[-1] if states else (0, 0, 0))
        except queue.Empty:
            pass
        if time.time() > slow_from + SETTLED:
            secondaries.begin()
        try:
            if not states or time.time() - begin - states[-1][0] >= 1:
                states.append((time.time() - begin, *state_of(pid)))
        except OSError:
            tally.is_wrong("the server has ended")
            break
    return states


def compared(states, length, tally):
    """Memory and descriptors of the last minute beside those of the first."""
    first = [max((state[at] for state in states if state[0] <= 60), default=0) for at in (1, 2)]
    late = [max((state[at] for state in states if state[0] >= length - 60), default=0) for at in (1, 2)]
    print(f"memory {first[0]} KiB at most in the first minute, {late[0]} in the last, {max(state[1] for state in states)} in all; descriptors {first[1]} and {late[1]}")
    if late[0] > first[0] * 1.02 + 1024:
        tally.is_wrong("memory has grown")
    if late[1] > first[1] + 20:
        tally.is_wrong("descriptors have grown")


def main():
    pid, port, minutes, rate, dear, seed = int(sys.argv[1]), int(sys.argv[2]), float(sys.argv[3]), int(sys.argv[4]), float(sys.argv[5]), int(sys.argv[6])
    work = sys.argv[7]
    random.seed(seed)
    messages = list(hostile_dear.asked()), list(hostile_dear.changing())
    begin = time.time()
    end = begin + 60 * minutes
    slow_from = end - min(60, 20 * minutes)
    told, tally, secondaries = multiprocessing.Queue(), Tally(), Secondaries(work, port)
    spent = times_of(pid)
    jobs, senders = started(port, messages, (rate, dear), seed, work, (begin, slow_from, end), told)
    states = watched(pid, begin, slow_from, end, told, tally, secondaries)
    for job in jobs[1:]:
        job.join(40)
    while not told.empty():
        tally.take(told.get(), states[-1])
    for sender in senders:
        said, _ = sender.communicate(timeout=60)
        print(said, end="")
        if sender.returncode:
            tally.is_wrong("a mutated request got what isn't right")
    tally.told()
    secondaries.judge(tally)
    print(f"{tally.asked} plain queries, {tally.lost} lost; the 99th percentile was {tally.worst_gap:.2f} ms above the echo's at most; processor time of the server {times_of(pid) - spent:.0f} s")
    compared(states, end - begin, tally)
    print(f"{len(tally.wrongs)} wrong" + "".join(f"; {one}" for one in sorted(set(tally.wrongs))[:5]))
    jobs[0].terminate()
    return 1 if tally.wrongs else 0


if __name__ == "__main__":
    sys.exit(main())

"""How long plain queries over UDP and transfers of what changed over TCP take, while updates come to a server whose syncs are slow, and while none come."""
import multiprocessing
import socket
import struct
import time

import crash_server
import crash_zone

# half of the clients are by UDP, half by TCP
CLIENTS, OUTSTANDING = 4, 8
PAUSE, WAIT = 0.002, 2.5
BACK = 4


class Datagrams:
    def __init__(self, port):
        self.socket = socket.socket(socket.AF_INET, socket.SOCK_DGRAM)
        self.socket.connect(("127.0.0.1", port))
        self.socket.settimeout(WAIT)

    def send(self, message):
        self.socket.send(message)

    def receive(self):
        """A reply; none where none comes for a while."""
        try:
            return self.socket.recv(2000)
        except TimeoutError:
            return None


class Stream:
    """A connection, on which further messages are sent before the replies to the first come (RFC 7766, 6.2.1.1)."""

    def __init__(self, port):
        self.socket = socket.create_connection(("127.0.0.1", port))
        self.socket.settimeout(WAIT)
        self.octets = b""

    def send(self, message):
        self.socket.sendall(struct.pack(">H", len(message)) + message)

    def receive(self):
        while len(self.octets) < 2 or len(self.octets) < 2 + struct.unpack(">H", self.octets[:2])[0]:
            try:
                more = self.socket.recv(65536)
            except TimeoutError:
                return None
            if not more:
                raise ConnectionError("the connection of updates ended")
            self.octets += more
        end = 2 + struct.unpack(">H", self.octets[:2])[0]
        reply, self.octets = self.octets[2:end], self.octets[end:]
        return reply


def updates_from(way, port, first, end, answered):
    """A client that sends updates of every CLIENTSth number until it is told to end, and tells how many were answered NOERROR, and with another code."""
    client, number, outstanding, codes = way(port), first, 0, []
    while not end.is_set():
        while outstanding < OUTSTANDING:
            client.send(crash_zone.update(number, CLIENTS * 100))
            outstanding, number = outstanding + 1, number + CLIENTS
        reply = client.receive()
        if reply is not None:
            outstanding -= 1
            codes.append(reply[3] & 15)
    answered.put((number, codes.count(0), len(codes) - codes.count(0)))


class Asker:
    """Asks by turns for the SOA over UDP, and for what changed in the last four versions that came, on a connection that stays."""

    def __init__(self, port):
        self.port, self.serial = port, 0
        self.datagrams = socket.socket(socket.AF_INET, socket.SOCK_DGRAM)
        self.datagrams.connect(("127.0.0.1", port))
        self.datagrams.settimeout(20)
        self.connect()

    def connect(self):
        self.stream = socket.create_connection(("127.0.0.1", self.port), timeout=20)
        self.reader = self.stream.makefile("rb")
        self.ixfr()

    def query(self):
        began = time.perf_counter()
        self.datagrams.send(crash_zone.question(crash_zone.SOA))
        self.datagrams.recv(2000)
        return time.perf_counter() - began

    def ixfr(self):
        """The time; none where the zone came in whole, since more versions than are kept had come meanwhile."""
        request = crash_zone.question(crash_zone.IXFR, max(0, self.serial - BACK))
        began, records = time.perf_counter(), []
        self.stream.sendall(struct.pack(">H", len(request)) + request)
        for message in crash_zone.frames_of(self.reader):
            records += crash_zone.records_of(message)
            if len(records) == 1 or crash_zone.is_closed(records):
                break
        took = time.perf_counter() - began
        self.serial = crash_zone.serial_of(records[0])
        return None if crash_zone.is_whole(records) else took

    def times(self, seconds):
        self.connect()
        end, queries, transfers = time.monotonic() + seconds, [], []
        while time.monotonic() < end:
            queries.append(self.query())
            took = self.ixfr()
            if took is not None:
                transfers.append(took)
            time.sleep(PAUSE)
        return queries, transfers


def beside_updates(server, asker, first, seconds):
    """The times while updates come, how many of these were answered NOERROR and otherwise, and the next number."""
    end, answered = multiprocessing.Event(), multiprocessing.Queue()
    ways = [(Datagrams, Stream)[at % 2] for at in range(CLIENTS)]
    clients = [multiprocessing.Process(target=updates_from, args=(way, server.port, first + at, end, answered)) for at, way in enumerate(ways)]
    for client in clients:
        client.start()
    time.sleep(0.2)
    times = asker.times(seconds)
    end.set()
    said = [answered.get() for _ in clients]
    for client in clients:
        client.join()
    server.drain()
    # what is outstanding still is brought to the disk
    time.sleep(WAIT)
    return times, sum(good for _, good, _ in said), sum(other for _, _, other in said), max(number for number, _, _ in said)


def at_99(times):
    return 1000 * sorted(times)[int(len(times) * 0.99)]


def measured(server, seconds, turns):
    """By turns, without updates and with some: the times of queries and transfers of both, and how many updates were answered NOERROR and otherwise."""
    calm, busy, answered, refused = ([], []), ([], []), 0, 0
    # versions to be told of
    first = Datagrams(server.port)
    for number in range(1, 1 + 2 * BACK):
        first.send(crash_zone.update(number))
        first.receive()
    asker, number = Asker(server.port), 1 + 2 * BACK
    for _ in range(turns):
        without = asker.times(seconds)
        beside, good, other, number = beside_updates(server, asker, number, seconds)
        answered, refused = answered + good, refused + other
        for kind in (0, 1):
            calm[kind].extend(without[kind])
            busy[kind].extend(beside[kind])
    return calm, busy, answered, refused


def compared(trial, seconds, turns, within):
    """The 99th percentiles without updates and beside some have to be alike."""
    folder, zone = trial.folder(), f"{trial.zone}.large"
    with open(zone, "w") as file:
        file.write(crash_zone.TEXT)
        file.writelines(f"h{number} A 192.0.2.{number % 256}\n" for number in range(trial.args.records))
    server = crash_server.Served(trial.program, folder, zone, trial.options, environment={**trial.preloaded(folder), "DISK_SLOW": "1000"})
    try:
        calm, busy, answered, refused = measured(server, seconds, turns)
    finally:
        server.kill()
    for name, without, with_updates in (("plain queries over UDP", calm[0], busy[0]), ("transfers of what changed over TCP", calm[1], busy[1])):
        first, second = at_99(without), at_99(with_updates)
        trial.tell(
            second <= first + within,
            f"99 in 100 of {len(without)} and {len(with_updates)} {name} take at most {first:.2f} ms without updates and {second:.2f} ms beside {answered}, "
            f"over a disk whose sync takes a second; the longest {1000 * max(without):.1f} and {1000 * max(with_updates):.1f} ms",
        )
    trial.tell(answered >= turns * (seconds - 1) and not refused, f"{answered} updates were answered NOERROR in {turns} times {seconds} seconds, by UDP and TCP, and {refused} otherwise")

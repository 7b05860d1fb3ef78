#!/usr/bin/env python3
"""The dear messages and transfers of bench/hostile.sh: those of bench/worst.py, over the sets that its zone has for them, which `bench/hostile_dear.py`
prints as lines of its text. What an update of these changes is undone by the one behind it, so that the zone has at the end what it had."""
import itertools
import os
import socket
import struct
import sys
import time

sys.path.insert(0, os.path.dirname(os.path.abspath(__file__)))
import worst
from worst import A, ALL, ANY, CNAME, IN, NONE, SOA, TXT, Message, address, cleared, comb_owner, fitted, name, next_message, numbered, owner_of, pointer, types, update_of

worst.APEX = APEX = b"\7example\4test\0"
# how many sets `many` owns, and how many texts of 4,096 octets each of two owners
SETS, TEXTS = 4000, 255
# labels in front of the letter of an alias, and of names that are dear to shorten
DEPTH = 118
ZERO = lambda number: b""
# which of the dear updates deletes all sets of an owner
WIDEST = 5
# the connections that transfers are asked over: each is one worker's, and so many lead to all of them
CONNECTIONS = 24


def dear_zone():
    """The lines of the sets: what the dearest updates meet, sixteen aliases of long names, and names that are dear to send."""
    for number in range(SETS):
        yield f"many TYPE{types(number)} \\# 4 {address(number).hex()}"
    for owner in ("aaa", "baa"):
        for number in range(TEXTS):
            yield '%s TXT "%03d%s" %s' % (owner, number, "x" * 252, ('"%s" ' % ("x" * 255)) * 15)
    for number in range(256):
        yield f"full A 10.0.0.{number}"
    deep = "a." * DEPTH
    letters = worst.LETTERS.decode()[10:]
    for number in range(16):
        yield f"{deep}{letters[number]} CNAME {deep}{letters[number + 1]}"
    yield f"{deep}{letters[16]} A 10.0.0.1"
    for below in ("a." * 110, "\\001." * 110):
        for number in range(1000):
            yield f"{numbered(number).decode()}.{below[:-1]} A 10.0.0.1"


def most(owner, rtype, rclass, ttl, data, section=1):
    """The update of as many such records as fit; owner() gives what puts their owners."""
    make = lambda count: update_of(count, owner(), rtype, rclass, ttl, data, section)
    return make(fitted(make))


def at(*labels):
    return lambda: owner_of(*labels)


def asked():
    """Dear messages that change nothing: each with the codes that may come, and whether it is one of the dearest."""
    queries = (worst.chained_query()[0], worst.chained_comb_query()[0], worst.comb_query()[0], worst.deep_query()[0], worst.long_query()[0])
    yield from ((message, (0,), False) for message in queries)
    yield Message(question=name(*[b"a"] * DEPTH, worst.LETTERS[10:11])).octets(), (0,), False
    codes = (0, 3, 6, 7, 8)
    for owner, is_dearest in ((at(b"one"), False), (at(*[b"a"] * DEPTH, b"9"), True), (comb_owner, True)):
        yield most(owner, types, NONE, 0, ZERO, 0), codes, is_dearest
        yield most(owner, lambda n: ANY, NONE, 0, ZERO, 0), codes, is_dearest
    yield most(at(b"one"), types, IN, 0, address, 0), codes, False
    yield most(at(b"one"), lambda n: A, IN, 0, lambda n: address(1), 0), codes, False
    yield most(at(b"full"), lambda n: A, IN, 0, lambda n: address(n % 256), 0), codes, False
    yield most(at(b"many"), lambda n: types(n % SETS), ALL, 0, ZERO, 0), codes, False
    yield update_of(SETS, owner_of(b"many"), types, IN, 0, address, 0), codes, False


def changing():
    """Dear updates: each with what undoes it, if it changes anything, and whether it is one of the dearest."""
    one = cleared(name(b"one"))
    yield most(at(b"one"), types, IN, 60, address), one, True
    yield most(at(b"one"), lambda n: A, IN, 60, lambda n: address(n % 256)), one, False
    yield most(at(b"one"), lambda n: CNAME, IN, 60, lambda n: b"\0"), one, False
    yield most(at(b"one"), types, ALL, 0, ZERO), None, False
    yield most(at(b"many"), lambda n: types(n % SETS), IN, 60, lambda n: address(n % SETS)), None, False
    yield update_of(SETS, owner_of(b"many"), types, ALL, 0, ZERO), update_of(SETS, owner_of(b"many"), types, IN, 60, address), True
    yield most(at(b"many"), lambda n: 10_000 + n, ALL, 0, ZERO), None, False
    yield most(at(b"full"), lambda n: A, NONE, 0, lambda n: b"\1\2\3\4"), None, False
    yield most(at(b"full"), lambda n: A, IN, 60, lambda n: address(n % 256)), None, False
    yield most(at(b"aaa"), lambda n: TXT, NONE, 0, lambda n: b"\1y"), None, False
    turns = lambda count: worst.by_turns(count, lambda turn: name((b"aaa", b"baa")[turn % 2]))
    yield turns(fitted(turns) & ~3), None, False
    yield most(comb_owner, types, IN, 60, address), most(comb_owner, lambda n: ANY, ALL, 0, ZERO), True


def rounds(end, rate, dear):
    """The messages by turns, each with its number: each kind so many times a second, and each of the dearest a tenth of that."""
    seldom = [number for number, one in enumerate(dear) if one[2]]
    once = [number for number, one in enumerate(dear) if not one[2]]
    turn = 0
    for _ in paced(end, rate):
        begun = time.time()
        numbers = once + [number for place, number in enumerate(seldom) if turn % 10 == 2 * place]
        for place, number in enumerate(numbers):
            time.sleep(max(0.0, begun + 0.9 * place / len(numbers) / rate - time.time()))
            yield number, dear[number]
        turn += 1


class Client:
    """A connection that is opened again where it has ended."""

    def __init__(self, port):
        self.port, self.stream = port, None

    def send(self, message):
        if self.stream is None:
            self.stream = socket.create_connection(("127.0.0.1", self.port), timeout=30)
        self.stream.sendall(struct.pack(">H", len(message)) + message)

    def ask(self, message):
        """The reply, and how long it took."""
        began = time.perf_counter()
        self.send(message)
        return next_message(self.stream), time.perf_counter() - began

    def close(self):
        if self.stream is not None:
            self.stream.close()
        self.stream = None


def paced(end, rate):
    """So many times a second, at even distances; what isn't reached within a second is left out."""
    due = time.time()
    while time.time() < end:
        time.sleep(max(0.0, min(due, end) - time.time()))
        yield
        due = max(due + 1 / rate, time.time() - 1)


def judged(reply, codes, what, told):
    if reply[3] & 15 not in codes:
        told.put(("wrong", f"{what} got {reply[3] & 15}"))


def ask_dear(port, rate, messages, end, told):
    """Dear messages that change nothing, each kind so many times a second; a connection that ends is opened again."""
    client, sent, slowest, began = Client(port), 0, 0.0, time.time()
    for number, (message, codes, _) in rounds(end, rate, messages):
        try:
            reply, took = client.ask(message)
            judged(reply, codes, f"dear message {number}", told)
            slowest, sent = max(slowest, took), sent + 1
        except (OSError, struct.error):
            client.close()
            told.put(("count", "dear messages whose connection ended", 1))
    told.put(("count", f"dear messages of {len(messages)} kinds", sent))
    told.put(("floor", "dear messages", sent, rate * (end - began) * sum(0.1 if one[2] else 1 for one in messages)))
    told.put(("note", f"the slowest dear message took {1000 * slowest:.0f} ms"))


class Changer:
    """Sends dear updates; one whose connection ends is sent again, since what undoes it is to come behind it."""

    def __init__(self, port, told):
        self.client, self.told, self.slowest = Client(port), told, 0.0

    def send(self, message, number):
        for _ in range(20):
            try:
                reply, took = self.client.ask(message)
            except (OSError, struct.error):
                self.client.close()
                self.told.put(("count", "dear updates whose connection ended", 1))
                continue
            judged(reply, (0,), f"dear update {number}", self.told)
            self.slowest = max(self.slowest, took)
            return

    def widen(self, updates):
        """Versions that delete the sets of an owner and add them again: of no others is what changed dearer to keep and to send."""
        for message in updates[WIDEST][:2] * 4:
            self.send(message, WIDEST)


def change_dear(port, rate, updates, end, pauses, told):
    """Dear updates, each kind so many times a second, and behind each what undoes it; in some pauses and at the end what makes what changed the widest."""
    changer, sent, began = Changer(port, told), 0, time.time()
    for number, (message, undo, _) in rounds(end, rate, updates):
        if pauses and time.time() >= pauses[0]:
            changer.widen(updates)
            pauses.pop(0)
        changer.send(message, number)
        if undo:
            changer.send(undo, number)
        sent += 1
    told.put(("count", f"dear updates of {len(updates)} kinds", sent))
    told.put(("floor", "dear updates", sent, rate * (end - began) * sum(0.1 if one[2] else 1 for one in updates)))
    told.put(("note", f"the slowest dear update took {1000 * changer.slowest:.0f} ms"))
    changer.widen(updates)


def records_of(message):
    """The types and data of an answer's records (RFC 1035, 4.1)."""
    place = 12
    for section in range(struct.unpack(">H", message[4:6])[0]):
        place = passed(message, place) + 4
    for _ in range(struct.unpack(">H", message[6:8])[0]):
        place = passed(message, place)
        rtype, _, _, size = struct.unpack_from(">2HIH", message, place)
        yield rtype, message[place + 10 : place + 10 + size]
        place += 10 + size


def passed(message, place):
    while message[place] and message[place] < 64:
        place += 1 + message[place]
    return place + (2 if message[place] else 1)


def transferred(client, request, is_whole):
    """What a transfer brings: the serials of its SOA records in their order, and how many records."""
    client.send(request)
    serials, count = [], 0
    while True:
        message = next_message(client.stream)
        if message[3] & 15:
            raise ValueError(f"a transfer got {message[3] & 15}")
        last = None
        for rtype, data in records_of(message):
            last, count = rtype, count + 1
            if rtype == SOA:
                serials.append(struct.unpack(">I", data[-20:-16])[0])
        # what changed has an SOA in front, two of each version, and one at the end; of these the last but one is the last version's too
        if last == SOA and serials[-1] == serials[0] and (len(serials) % 2 == 0 or not is_whole and count == 1):
            return serials, count


def changed_lately(client, width):
    """What changed in so many versions before the last one: how many records it brought, None where the zone came in whole, or nothing."""
    reply, _ = client.ask(Message(rtype=SOA).octets())
    serial = next(struct.unpack(">I", data[-20:-16])[0] for rtype, data in records_of(reply) if rtype == SOA)
    serials, count = transferred(client, worst.ixfr_request((serial - width) % 2**32), False)
    return count if len(serials) > 2 else None


def transfers(port, rate, end, told):
    """The zone in whole, and what changed in the last versions, so many times a second, over connections by turns."""
    clients, began = itertools.cycle([Client(port) for _ in range(CONNECTIONS)]), time.time()
    whole, changed = 0, []
    for _ in paced(end, rate):
        client = next(clients)
        try:
            serials, count = transferred(client, worst.axfr_request(), True)
            if len(serials) != 2 or count < 2 * TEXTS + 2000:
                told.put(("wrong", f"a transfer in whole has {count} records, of which {len(serials)} are the SOA"))
            whole += 1
            for width in (5, 8, 5, 8):
                client = next(clients)
                changed.append(changed_lately(client, width))
        except (OSError, struct.error):
            client.close()
            told.put(("count", "transfers whose connection ended", 1))
        except (ValueError, StopIteration) as fault:
            client.close()
            told.put(("wrong", f"a transfer: {fault}"))
    told.put(("count", "transfers in whole", whole))
    told.put(("count", "transfers of what changed", sum(1 for count in changed if count)))
    told.put(("note", f"the longest transfer of what changed had {max((count for count in changed if count), default=0)} records"))
    told.put(("floor", "transfers in whole", whole, rate * (time.time() - began)))
    told.put(("floor", "records of the longest transfer of what changed", max((count for count in changed if count), default=0), 4 * SETS))


def stored(port, last, most):
    """From how many versions before the last one a secondary, which keeps what changed as it got it, can tell what changed since."""
    client = Client(port)
    for back in range(most, 0, -1):
        try:
            serials, _ = transferred(client, worst.ixfr_request((last - back) % 2**32), False)
        except (OSError, struct.error, ValueError):
            client.close()
            continue
        if len(serials) > 2 and serials[0] == last:
            return back
    return 0


if __name__ == "__main__":
    for line in dear_zone():
        owner, rest = line.split(" ", 1)
        print(f"{owner}.example.test. 60 IN {rest}" + (".example.test." if rest.startswith("CNAME") else ""))

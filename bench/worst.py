#!/usr/bin/env python3
"""The messages of bench/worst.sh: each dear one beside a plain one of as many octets and records of the same kinds, whose names are in full and differ.

What a message costs is the processor time of the running server's threads (Linux, /proc/PID/task/TID/schedstat, in nanoseconds) from before it is sent
until its reply has come and the server waits again. The server has one worker and is asked nothing else, so the figure is of the message alone, with
its receipt and its reply; beside it stands what as many octets cost that get no reply (QR 1), which is the receipt alone. Of some rounds by
turns the least counts, since what else the machine does can only add to it."""
import os
import socket
import struct
import subprocess
import sys
import tempfile
import time

LIMIT = 65_535
A, NS, CNAME, SOA, NULL, MX, TXT, SRV, IXFR, AXFR, ANY = 1, 2, 5, 6, 10, 15, 16, 33, 251, 252, 255
IN, NONE, ALL = 1, 254, 255
QUERY, UPDATE = 0x0000, 0x2800
APEX = b"\1t\0"
# which octets a label of a plain name has
LETTERS = b"abcdefghijklmnopqrstuvwxyz0123456789"


def numbered(number, length=3):
    """A label of so many octets that is of this number."""
    octets = bytearray()
    for _ in range(length):
        number, rest = divmod(number, len(LETTERS))
        octets.append(LETTERS[rest])
    return bytes(octets)


def label(octets):
    return bytes([len(octets)]) + octets


def name(*labels):
    """A name below the apex, in full."""
    return b"".join(label(one) for one in labels) + APEX


def pointer(place):
    return struct.pack(">H", 0xC000 | place)


def record(owner, rtype, rclass=IN, ttl=0, data=b""):
    return owner + struct.pack(">2HIH", rtype, rclass, ttl, len(data)) + data


def soa(serial):
    return b"\0\0" + struct.pack(">5I", serial, 0, 0, 0, 0)


def next_message(stream):
    """The message that comes next on a connection, behind the two octets of its length (RFC 1035, 4.2.2)."""

    def taken(count):
        octets = bytearray()
        while len(octets) < count:
            more = stream.recv(count - len(octets))
            if not more:
                raise ConnectionError("the server has closed the connection")
            octets += more
        return bytes(octets)

    return taken(int.from_bytes(taken(2), "big"))


class Message:
    """A message that is put together: records by section, and where what is put next will stand (RFC 1035, 4.1)."""

    def __init__(self, flags=QUERY, question=None, rtype=A):
        self.flags = flags
        self.body = bytearray(question or APEX) + struct.pack(">2H", SOA if flags == UPDATE else rtype, IN)
        self.counts = [0, 0, 0]

    def at(self):
        return 12 + len(self.body)

    def put(self, owner, rtype, rclass=IN, ttl=0, data=b"", section=0):
        self.body += record(owner, rtype, rclass, ttl, data)
        self.counts[section] += 1
        return self

    def room(self):
        return LIMIT - self.at()

    def octets(self, size=0):
        """The message, with zero octets behind it up to a size: those behind the last record are ignored."""
        whole = struct.pack(">6H", 0x1234, self.flags, 1, *self.counts) + self.body
        assert len(whole) <= LIMIT, len(whole)
        return whole + bytes(max(0, size - len(whole)))


def silent(size):
    """So many octets that get no reply: QR is 1."""
    return struct.pack(">6H", 0x1234, 0x8000, 0, 0, 0, 0) + bytes(size - 12)


class Server:
    """A running server of one worker, over a zone."""

    def __init__(self, program, zone, *options):
        self.file = tempfile.NamedTemporaryFile("w", suffix=".zone")
        self.file.write(zone)
        self.file.flush()
        words = [program, "serve", "--listen", "127.0.0.1:0", "--workers", "1", *options, self.file.name]
        self.process = subprocess.Popen(words, stderr=subprocess.PIPE, text=True)
        line = self.process.stderr.readline()
        if not line.startswith("listening on"):
            sys.exit(f"bench: the server doesn't run: {line}{self.process.stderr.read()}")
        self.port = int(line.split(": ")[0].rsplit(":", 1)[1])
        self.drain()
        self.stream = None

    def drain(self):
        import threading

        def read():
            for _ in self.process.stderr:
                pass

        threading.Thread(target=read, daemon=True).start()

    def connected(self):
        if self.stream is None:
            self.stream = socket.create_connection(("127.0.0.1", self.port), timeout=120)
            self.stream.setsockopt(socket.IPPROTO_TCP, socket.TCP_NODELAY, 1)
        return self.stream

    def spent(self):
        """The nanoseconds of processor time of all threads so far, once they have stayed the same for a while."""
        last = None
        while True:
            now = 0
            folder = f"/proc/{self.process.pid}/task"
            for thread in os.listdir(folder):
                with open(f"{folder}/{thread}/schedstat") as file:
                    now += int(file.read().split()[0])
            if now == last:
                return now
            last = now
            time.sleep(0.001)

    def ask(self, message, replies=1):
        """The replies to a message over TCP; of a transfer all until its second SOA is the last record, by the octets that it is to have."""
        stream = self.connected()
        stream.sendall(struct.pack(">H", len(message)) + message)
        return [next_message(stream) for _ in range(replies)]

    def cost(self, message, replies=1):
        """What a message costs, in microseconds, and the last of its replies."""
        self.connected()
        before = self.spent()
        got = self.ask(message, replies)
        after = self.spent()
        return (after - before) / 1000, got

    def end(self):
        if self.stream:
            self.stream.close()
        self.process.kill()
        self.process.wait()
        self.file.close()


def small_zone(extra=""):
    return "$ORIGIN t.\n$TTL 60\n@ SOA . . 1 7200 900 1209600 300\n@ NS .\n" + extra


# --- queries: records that a query has beside its question


def plain_query(count, size, data=0, first=0):
    """As many records in the authority section, whose owners are in full and differ; one in front of them has so much data."""
    message = Message()
    if first:
        message.put(b"\0", NULL, data=bytes(first), section=1)
    for number in range(count):
        message.put(name(numbered(number)), NULL, section=1)
    return message.octets(size)


def chained_query():
    """A chain of pointers, each to the one before it, as long as pointers can lead, and owners that point to its end."""
    message = Message()
    start = message.at() + 11
    chain = pointer(12)
    while start + len(chain) <= 0x3FFF - 1:
        chain += pointer(start + len(chain) - 2)
    message.put(b"\0", NULL, data=chain, section=1)
    last = pointer(start + len(chain) - 2)
    count = 0
    while message.room() >= 12 and count < 4096:
        message.put(last, NULL, section=1)
        count += 1
    return message.octets(), count, len(chain)


def plain_of_chained(count, size):
    """As many records, whose owners of two or three octets and the root are in full and differ."""
    message = Message()
    owners = [record(label(numbered(number, 2)) + b"\0", NULL) for number in range(count)] if count <= 1296 else None
    if owners is None:
        owners = [record(b"\2" + struct.pack(">H", number + 1) + b"\0", NULL) for number in range(count)]
    rest = size - message.at() - 11 - sum(map(len, owners))
    message.put(b"\0", NULL, data=bytes(rest), section=1)
    for owner in owners:
        message.body += owner
        message.counts[1] += 1
    return message.octets(size)


def depth():
    """How many labels of an octet fit in front of the apex, but for one: below `t.` 125."""
    return (254 - len(APEX)) // 2


def comb_query(rtype=NULL):
    """Owners of a label and a pointer to the owner before, up to 126 labels; then the pointer leads to that of 125."""
    message = Message()
    count, places = 0, [12]
    while message.room() >= 14:
        at = message.at()
        target = places[-1] if len(places) <= depth() else places[-2]
        if target > 0x3FFF or at > LIMIT - 14:
            break
        message.put(label(b"a") + pointer(target), rtype, section=1)
        if len(places) <= depth():
            places.append(at)
        count += 1
    return message.octets(), count


def deep_query():
    """Owners that all point to a name of 126 labels, with an octet of their own in front."""
    message = Message()
    at = message.at() + 11
    message.put(b"\0", NULL, data=b"\1a" * depth() + APEX, section=1)
    count = 1
    while message.room() >= 12:
        message.put(pointer(at), NULL, section=1)
        count += 1
    return message.octets(), count


def long_query():
    """Owners that all point to a name of 255 octets in four labels."""
    message = Message()
    at = message.at() + 11
    message.put(b"\0", NULL, data=label(b"a" * 63) * 3 + label(b"a" * (62 - len(APEX))) + APEX, section=1)
    count = 1
    while message.room() >= 12:
        message.put(pointer(at), NULL, section=1)
        count += 1
    return message.octets(), count


def chained_comb_query():
    """Names of 126 labels, with a chain of pointers in front of each label, as long as all fit; owners point to the last."""
    message = Message()
    start = message.at() + 11
    data = bytearray()
    target = 12
    step = (0x3FFF - start) // 126
    for _ in range(depth()):
        begin = start + len(data)
        data += b"\1a" + pointer(target)
        target = begin
        while start + len(data) < begin + step - 2:
            place = start + len(data)
            data += pointer(target)
            target = place
    message.put(b"\0", NULL, data=bytes(data), section=1)
    count = 0
    while message.room() >= 12:
        message.put(pointer(target), NULL, section=1)
        count += 1
    return message.octets(), count, len(data)


# --- updates


def fitted(make, least=1, most=6000):
    """The most records of which a message fits."""
    while least < most:
        middle = (least + most + 1) // 2
        try:
            make(middle)
            least = middle
        except AssertionError:
            most = middle - 1
    return least


def update_of(count, owner, rtype, rclass, ttl, data, section=1):
    message = Message(UPDATE)
    for number in range(count):
        message.put(owner(number, message), rtype(number), rclass, ttl, data(number), section=section)
    return message.octets()


def differing(number, message):
    return name(numbered(number))


def owner_of(*labels):
    """One owner: the first in full, the others point to it."""
    return lambda number, message: name(*labels) if number == 0 else pointer(12 + len(APEX) + 4)


def one_owner(number, message):
    return owner_of(b"one")(number, message)


def comb_owner():
    """Owners of a label and a pointer to the owner before, up to 126 labels, and then pointers to the last."""
    places = [12]

    def owner(_, message):
        if len(places) > depth():
            return pointer(places[-1])
        places.append(message.at())
        return label(b"a") + pointer(places[-2])

    return owner


def deep_owners(at=12 + len(APEX) + 4):
    """Owners of 125 labels: the first, at a place, in full, the others a label and a pointer behind that one's own."""
    labels, behind = depth() - 2, at + 4
    return lambda number, message: name(numbered(number), *[b"a"] * labels) if number == 0 else label(numbered(number)) + pointer(behind)


def address(number):
    return struct.pack(">I", 0x0A000000 + number)


def types(number):
    """A type that nobody here knows."""
    return 1000 + number


class Case:
    """A dear message and a plain one, with what stands in the zone before and what undoes it."""

    def __init__(self, what, dear, plain, count, before=(), zone="", undo=(), replies=(1, 1), options=(), plain_count=None):
        self.what, self.dear, self.plain, self.count = what, dear, plain, count
        # a plain message of fewer records is compared by the record
        self.scale = count / (plain_count or count)
        self.before, self.zone, self.undo, self.replies, self.options = before, zone, undo, replies, options


def queries():
    dear, count, chain = chained_query()
    yield Case(f"a chain of {chain // 2} pointers, {count} owners that point to its end", dear, plain_of_chained(count, len(dear)), count)
    dear, count, chain = chained_comb_query()
    yield Case(f"125 labels with chains between them, {count} owners that point to the last", dear, plain_of_chained(count, len(dear)), count)
    dear, count = comb_query()
    most = fitted(lambda n: plain_query(n, 0))
    for what, make in (("owners of a label and a pointer to the one before, up to 126 labels", comb_query), ("owners that point to a name of 126 labels", deep_query), ("owners that point to a name of 255 octets", long_query)):
        dear, _ = make()
        dear, count = cut_to(dear, most)
        yield Case(f"{count} {what}", dear + bytes(LIMIT - len(dear)), plain_query(count, LIMIT), count)


def cut_to(message, count):
    """The message with only so many records of its authority section, by its count alone: what is behind is ignored."""
    own = struct.unpack(">H", message[8:10])[0]
    count = min(own, count)
    return message[:8] + struct.pack(">H", count) + message[10:], count


def padded(octets, size=LIMIT):
    return octets + bytes(size - len(octets))


def cleared(*owners):
    """An update that deletes all at these owners (RFC 2136, 2.5.3)."""
    message = Message(UPDATE)
    for owner in owners:
        message.put(owner, ANY, ALL, section=1)
    return message.octets()


def updates():
    zero = lambda number: b""
    a = lambda number: A
    # adds of as many types at one owner
    for what, owner, rtype, rclass, ttl, data, section, before in (
        ("adds of differing types at one owner", one_owner, types, IN, 60, address, 1, ()),
        ("adds of an address at one owner, 256 of which differ", one_owner, a, IN, 60, lambda n: address(n % 256), 1, ()),
        ("adds of the same address at one owner", one_owner, a, IN, 60, lambda n: address(1), 1, ()),
        ("adds of the same alias at one owner", one_owner, lambda n: CNAME, IN, 60, lambda n: b"\0", 1, ()),
        ("deletions of sets that aren't there, at one owner", one_owner, types, ALL, 0, zero, 1, ()),
        ("deletions of all at one owner", one_owner, lambda n: ANY, ALL, 0, zero, 1, ()),
        ("deletions of addresses that aren't there, at one owner", one_owner, a, NONE, 0, address, 1, ()),
        ("prerequisites that a set isn't there, at one owner", one_owner, types, NONE, 0, zero, 0, ()),
        ("prerequisites that a name isn't in use, at one owner", one_owner, lambda n: ANY, NONE, 0, zero, 0, ()),
        ("prerequisites of class IN at one owner", one_owner, types, IN, 0, address, 0, ()),
        ("prerequisites of class IN, equal, at one owner", one_owner, a, IN, 0, lambda n: address(1), 0, ()),
    ):
        plain = lambda n: update_of(n, differing, rtype, rclass, ttl, data, section)
        count = fitted(plain)
        dear = update_of(count, owner, rtype, rclass, ttl, data, section)
        clear = cleared(name(b"one"))
        others = [update_of(count, differing, lambda n: ANY, ALL, 0, zero)]
        yield Case(f"{count} {what}", padded(dear), padded(plain(count)), count, before=before, undo=([clear], others))


def filled():
    """Updates over a zone in which much stands at one owner already."""
    types_text = "".join(f"one TYPE{types(n)} \\# 4 {address(n).hex()}\n" for n in range(4000))
    texts = "".join('one TXT "%03d%s" %s\n' % (n, "x" * 252, ('"%s" ' % ("x" * 255)) * 15) for n in range(256))
    plain_texts = "".join(f"{numbered(n).decode()} TXT x\n" for n in range(4500))
    addresses = "".join(f"one A 10.0.0.{n}\n" for n in range(256))
    zero = lambda number: b""
    for what, zone, rtype, rclass, ttl, data in (
        ("deletions of a text that isn't there, at a set of 256 of 4,096 octets", texts, lambda n: TXT, NONE, 0, lambda n: b"\1y"),
        ("deletions of an address that isn't there, at a set of 256", addresses, lambda n: A, NONE, 0, lambda n: b"\1\2\3\4"),
        ("adds of what is there, at a set of 256", addresses, lambda n: A, IN, 60, lambda n: address(n % 256)),
        ("adds of what is there, at an owner of 4,000 sets", types_text, types, IN, 60, address),
        ("deletions of sets that aren't there, at an owner of 4,000 sets", types_text, lambda n: 10_000 + n, ALL, 0, zero),
        ("deletions of sets that are there, at an owner of 4,000 sets", types_text, types, ALL, 0, zero),
    ):
        plain = lambda n: update_of(n, differing, rtype, rclass, ttl, data, 1)
        count = min(fitted(plain), 4000)
        dear = update_of(count, one_owner, rtype, rclass, ttl, data, 1)
        yield Case(f"{count} {what}", padded(dear), padded(plain(count)), count, zone=(zone, plain_texts), undo=None)
    for what, zone, rtype, rclass, data in (
        ("prerequisites of class IN that hold, at a set of 256", addresses, lambda n: A, IN, lambda n: address(n % 256)),
        ("prerequisites that sets are there, at an owner of 4,000", types_text, types, ALL, zero),
        ("prerequisites of class IN that hold, at an owner of 4,000 sets", types_text, types, IN, address),
    ):
        plain = lambda n: update_of(n, differing, rtype, rclass, 0, data, 0)
        count = min(fitted(plain), 4000)
        dear = update_of(count, one_owner, rtype, rclass, 0, data, 0)
        plain_zone = "".join(f"{numbered(n).decode()} TYPE{rtype(n)} \\# {len(data(n))or 4} {(data(n) or address(n)).hex()}\n" for n in range(count))
        yield Case(f"{count} {what}", padded(dear), padded(plain(count)), count, zone=(zone, plain_zone), undo=None)


    yield from turned()


def by_turns(count, owner):
    """An update that adds a text and deletes it by turns."""
    message = Message(UPDATE)
    for number in range(count):
        adds = number % 2 == 0
        message.put(owner(number // 2), TXT, IN if adds else NONE, 60 if adds else 0, b"\1y", section=1)
    return message.octets()


def turned():
    """Updates that add and delete by turns, at owners where large sets stand, which are the same behind them."""
    texts = "".join('%s TXT "%03d%s" %s\n' % (owner, n, "x" * 252, ('"%s" ' % ("x" * 255)) * 15) for owner in ("aaa", "baa") for n in range(255))
    plain_texts = "".join(f"{numbered(n).decode()} TXT x\n" for n in range(4500))
    plain = lambda n: by_turns(n, lambda turn: name(numbered(turn)))
    count = fitted(plain)
    for what, owners in (("at a set of 255 of 4,096 octets", 1), ("at two such sets by turns", 2)):
        dear = by_turns(count, lambda turn: name(numbered(turn % owners)))
        yield Case(f"{count} adds and deletions of a text by turns, {what}", padded(dear), padded(plain(count)), count, zone=(texts, plain_texts), undo=None)


def fitting():
    """Updates of as many records as fit, of which fewer fit where each owner is in full: beside such a one by the record. A zone is made anew for each."""
    zero = lambda number: b""
    deep = ".".join("a" * depth())
    sets = lambda owner, count: "".join(f"{owner} TYPE{types(n)} \\# 4 {address(n).hex()}\n" for n in range(count))
    plain_sets = "".join(f"{numbered(n).decode()} TYPE{types(n)} \\# 4 {address(n).hex()}\n" for n in range(4500))
    anything = lambda n: ANY
    few = lambda n: address(n % 256)
    same = lambda n: address(1)
    combs, one, below = ("at owners of up to 126 labels, a label and a pointer each, and then pointers to the last", comb_owner), ("at one owner", lambda: one_owner), (
        "at one owner of 126 labels", lambda: owner_of(*[b"a"] * depth()))
    apart = ("at owners that differ in the first of 125 labels", deep_owners)
    for (where, owner), what, rtype, rclass, ttl, data, section, zone in (
        (one, "adds of differing types", types, IN, 60, address, 1, ("", "")),
        (below, "adds of differing types", types, IN, 60, address, 1, ("", "")),
        (combs, "adds of differing types", types, IN, 60, address, 1, ("", "")),
        (one, "deletions of sets that aren't there", types, ALL, 0, zero, 1, ("", "")),
        (combs, "deletions of sets that aren't there", types, ALL, 0, zero, 1, ("", "")),
        (combs, "deletions of all", anything, ALL, 0, zero, 1, ("", "")),
        (apart, "adds of differing types", types, IN, 60, address, 1, ("", "")),
        (apart, "deletions of sets that aren't there", types, ALL, 0, zero, 1, ("", "")),
        (one, "deletions of sets that are there", types, ALL, 0, zero, 1, (sets("one", 5458), plain_sets)),
        (below, "deletions of sets that are there", types, ALL, 0, zero, 1, (sets(deep, 5458), plain_sets)),
        (combs, "deletions of sets of which most are there", types, ALL, 0, zero, 1, (sets(deep, 5458), plain_sets)),
        (below, "prerequisites that a set isn't there", types, NONE, 0, zero, 0, ("", "")),
        (combs, "prerequisites that a set isn't there", types, NONE, 0, zero, 0, ("", "")),
        (below, "prerequisites that a name isn't in use", anything, NONE, 0, zero, 0, ("", "")),
        (combs, "prerequisites that a name isn't in use", anything, NONE, 0, zero, 0, ("", "")),
        (apart, "prerequisites that a name isn't in use", anything, NONE, 0, zero, 0, ("", "")),
        (combs, "prerequisites of class IN and type ANY, of 256 addresses", anything, IN, 0, few, 0, ("", "")),
        (apart, "prerequisites of class IN and type ANY, of one address", anything, IN, 0, same, 0, ("", "")),
        (below, "prerequisites that sets are there", types, ALL, 0, zero, 0, (sets(deep, 5458), plain_sets)),
        (below, "prerequisites of class IN that hold", types, IN, 0, address, 0, (sets(deep, 5458), plain_sets)),
    ):
        plain = lambda n: update_of(n, differing, rtype, rclass, ttl, data, section)
        dear = lambda n: update_of(n, owner(), rtype, rclass, ttl, data, section)
        count, plain_count = fitted(dear), fitted(plain)
        yield Case(f"{count} {what}, {where}; beside {plain_count} by the record", padded(dear(count)), padded(plain(plain_count)), count, zone=zone, undo=None, plain_count=plain_count)


def aliases():
    """A query that leads through 16 aliases, beside 17 plain ones of names that differ as theirs do."""
    letters = LETTERS.decode()[:17]
    for what, deep, labels in (("16 aliases", "", []), ("16 aliases of names of 121 labels", "a." * 120, [b"a"] * 120)):
        zone = "".join(f"{deep}{own} CNAME {deep}{other}\n" for own, other in zip(letters, letters[1:])) + f"{deep}{letters[16]} A 10.0.0.1\n"
        zone += "".join(f"{deep}z{own} A 10.0.0.1\n" for own in letters)
        ask = lambda label: Message(question=name(*labels, label.encode())).octets()
        yield what, zone, ask(letters[0]), [ask("z" + own) for own in letters]


def key_of(labels):
    """The key by which a name, of these labels of a few octets above the apex, is sought in a message (crates/wire_names/specs/Table.antt)."""
    key, octets = 0, name(*labels)
    while octets[0]:
        front, size = octets[: octets[0] + 1], len(octets) % 256
        own = int.from_bytes((bytes([octets[0]] * 3) + front[1:])[-4:], "big")
        key += own * ((size * 2 + 1) * 2_654_435_761 % 2**32) % 2**32 // 256 * 256 + octets[0]
        octets = octets[len(front) :]
    return key % 2**32


def tops_of_one_key(count):
    """So many names of four labels above the apex whose keys are equal."""
    found = {}
    for number in range(len(LETTERS) ** 4):
        labels = tuple(bytes([octet]) for octet in numbered(number, 4))
        tops = found.setdefault(key_of(labels), [])
        tops.append(".".join(octet.decode() for octet in labels))
        if len(tops) == count:
            return tops
    raise ValueError("too few names of one key")


def parents_of(count, labels, apart, keys):
    """So many parents of so many labels, which differ at the top, by labels whose keys are equal or not, at the bottom, or in between, so that
    all of their labels are as many as a message knows."""
    letters = LETTERS.decode()
    if apart == "middle":
        above = max(0, (count * labels - 250) // max(count - 1, 1))
        return [".".join([*"b" * (labels - above - 1), letters[n], *"a" * above]) for n in range(count)]
    if apart == "bottom":
        return [".".join([letters[n], *"a" * (labels - 1)]) for n in range(count)]
    tops = tops_of_one_key(count) if keys == "same" else [letters[n] for n in range(1, count + 1)]
    return [".".join([*"a" * (labels - 1 - top.count(".")), top]) for top in tops]


def names_in_turn(parents, turns, count):
    """So many names, as text, whose parents come in turn."""
    for number in range(count):
        parent = parents[(ord(turns[number % len(turns)]) - ord("A")) % len(parents)]
        yield f"{numbered(number, 3).decode()}.{parent}"


def zone_in_turn(parents, turns, count):
    """The text of records whose owners and mail exchanges have parents that come in turn."""
    names = list(names_in_turn(parents, turns, count + 1))
    return "".join(f"{names[n]} MX 1 {names[n + 1]}\n" for n in range(count))


class Transfer:
    """A transfer from a server: its messages until as many octets have come as it has."""

    def __init__(self, server, request):
        self.server, self.request = server, request

    def cost(self):
        stream = self.server.connected()
        before = self.server.spent()
        stream.sendall(struct.pack(">H", len(self.request)) + self.request)
        octets = messages = records = 0
        first = None
        while True:
            message = next_message(self.server.stream)
            octets += len(message)
            messages += 1
            records += struct.unpack(">H", message[6:8])[0]
            if first is None:
                first = message
                if message[3] & 15:
                    break
            # the last record is the SOA, with the root's names in its data, whose numbers are known
            if message[-20:] == self.closing and records > 1:
                break
        after = self.server.spent()
        return (after - before) / 1000, octets, messages, records


def ixfr_request(serial):
    message = Message(question=APEX, rtype=IXFR)
    message.put(pointer(12), SOA, data=soa(serial), section=1)
    return message.octets()


def axfr_request():
    return Message(question=APEX, rtype=AXFR).octets()


def least(server, messages, rounds, undo=None, replies=(1, 1)):
    """Of some rounds by turns the least cost of each message, and the code of its reply."""
    costs, codes = [[] for _ in messages], [None] * len(messages)
    for _ in range(rounds):
        for at, message in enumerate(messages):
            cost, got = server.cost(message, replies[at] if at < len(replies) else 1) if message[2] & 0x80 == 0 else (receipt(server, message), None)
            costs[at].append(cost)
            if got:
                codes[at] = got[-1][3] & 15
            for clear in undo[at] if undo and at < len(undo) else ():
                server.ask(clear)
    return [min(own) for own in costs], codes


def receipt(server, message):
    """What octets cost that get no reply: a query that costs little goes behind them, and its cost is taken off."""
    small = Message(question=name(b"none")).octets()
    alone, _ = server.cost(small)
    server.connected()
    before = server.spent()
    server.stream.sendall(struct.pack(">H", len(message)) + message + struct.pack(">H", len(small)) + small)
    next_message(server.stream)
    return max(0.0, (server.spent() - before) / 1000 - alone)


def told(what, dear, plain, base=None, more=""):
    net = f"{max(dear - base, 0) / max(plain - base, 1):7.1f}" if base is not None else "      -"
    print(f"{dear:12.0f} {plain:12.0f} {dear / max(plain, 0.1):7.1f} {net}  {what}{more}", flush=True)


def measure_cases(program, cases, rounds):
    for case in cases:
        zones = case.zone if isinstance(case.zone, tuple) else (case.zone, case.zone)
        if case.undo is None:
            # the zone is made anew for each
            costs = []
            for message, zone in ((case.dear, zones[0]), (case.plain, zones[1])):
                own = []
                for _ in range(rounds):
                    server = Server(program, small_zone(zone))
                    cost, got = server.cost(message)
                    own.append(cost)
                    server.end()
                costs.append((min(own), got[-1][3] & 15))
            (dear, code), (plain, plain_code) = costs
            told(case.what, dear, plain * case.scale, None, f" (codes {code}, {plain_code})")
            continue
        server = Server(program, small_zone(zones[0]))
        (dear, plain, base), codes = least(server, [case.dear, case.plain, silent(len(case.dear))], rounds, case.undo, case.replies)
        server.end()
        told(case.what, dear, plain, base, f" (codes {codes[0]}, {codes[1]})")


def asked_in_turn(server, messages, rounds):
    """What these messages cost together, in microseconds, the least of so many rounds, and their replies: each is asked once the reply to the one before has come,
    five times over, since once is too short."""
    costs = []
    for _ in range(rounds):
        server.connected()
        before = server.spent()
        replies = [server.ask(message)[0] for message in messages * 5]
        costs.append((server.spent() - before) / 5000)
    return min(costs), replies[: len(messages)]


def measure_aliases(program, rounds):
    for what, zone, dear, plain in aliases():
        server = Server(program, small_zone(zone))
        costs = [asked_in_turn(server, messages, rounds + 1)[0] for messages in ([dear], plain)]
        server.end()
        told(f"{what}, beside 17 plain queries", costs[0], costs[1])


def measure_transfers(program, rounds):
    """An IXFR of the widest window, of updates of as many records as fit, beside an AXFR; and AXFRs of names that are dear to shorten."""
    def run(zone, updates, request, closing):
        server = Server(program, small_zone(zone), "--keep", "8")
        for update in updates:
            code = server.ask(update)[0][3] & 15
            assert code == 0, code
        transfer = Transfer(server, request)
        transfer.closing = closing
        got = [transfer.cost() for _ in range(rounds)]
        server.end()
        return min(one[0] for one in got), got[0][1], got[0][2], got[0][3]

    end = lambda serial: struct.pack(">5I", serial, 7200, 900, 1209600, 300)
    plain_zone = "".join(f"{numbered(n).decode()} A 10.0.{n >> 8}.{n & 255}\n" for n in range(30_000))
    plain = run(plain_zone, (), axfr_request(), end(1))
    per = plain[0] / plain[1]

    def show(what, got):
        cost, octets, messages, records = got
        told(f"{what}: {octets} octets, {messages} messages, {records} records; beside an AXFR of plain names, by the octet", cost, per * octets)

    show("AXFR of 30,000 plain names", plain)
    count = fitted(lambda n: update_of(n, differing, lambda n: A, IN, 60, address))
    adds = lambda first: update_of(count, lambda n, m: name(numbered(n + first)), lambda n: A, IN, 60, address)
    for versions in (1, 8):
        updates = [adds(5000 * k) for k in range(versions)]
        show(f"IXFR of {versions} versions, each with {count} adds", run("", updates, ixfr_request(1), end(1 + versions)))
    one = lambda k: update_of(4000, one_owner, lambda n: 1000 + n + 4000 * k, IN, 60, address)
    try:
        show("IXFR of 4 versions, each with 4,000 types added at one owner", run("", [one(k) for k in range(4)], ixfr_request(1), end(5)))
    except (AssertionError, OSError) as fault:
        print("# IXFR of 4 versions of 4,000 types at one owner:", repr(fault), flush=True)
    deep = ".".join("a" * 110)
    escaped = ".".join(["\\001"] * 110)
    letters = LETTERS.decode()
    for what, zone in (
        ("names of 112 labels, which differ in the last but one", "".join(f"{deep}.{numbered(n, 3).decode()} MX 1 {deep}.{numbered(n + 7, 3).decode()}\n" for n in range(100))),
        ("names of 112 labels, which differ in the first", "".join(f"{numbered(n, 3).decode()}.{deep} A 10.0.0.1\n" for n in range(2000))),
        ("names of 112 labels of octet 1, which differ in the first", "".join(f"{numbered(n, 3).decode()}.{escaped} A 10.0.0.1\n" for n in range(2000))),
        ("mail exchanges of 112 labels, which differ in the last but one, at one owner", "".join(f"m MX 1 {deep}.{numbered(n, 3).decode()}\n" for n in range(100))),
        ("names of 92 labels, of which the last but one differs in its first octets alone", "".join(f"{'a.' * 90}{numbered(n, 3).decode()}{'x' * 17} A 10.0.0.1\n" for n in range(2000))),
        ("names that alternate between two parents of 100 labels", zone_in_turn(parents_of(2, 100, "top", "differ"), "AB", 2000)),
        ("names below three parents of 120 labels in turn, of which the message knows the third in part", zone_in_turn(parents_of(3, 120, "top", "same"), "ABC", 2000)),
        ("names below the third of them alone", zone_in_turn(parents_of(3, 120, "top", "same"), "ABC" + "C" * 1997, 2000)),
        ("names whose last labels end alike", "".join(f"{letters[n % 36]}{numbered(n, 3).decode()}{'x' * 40} A 10.0.0.1\n" for n in range(2000))),
    ):
        show(f"AXFR of {what}", run(zone, (), axfr_request(), end(1)))


def main():
    program = sys.argv[1]
    rounds = int(sys.argv[2])
    kinds = sys.argv[3:] or ["queries", "updates", "filled", "fitting", "aliases", "transfers"]
    print("   dear, us     plain, us   ratio     net  (microseconds of the server's processor time; net: both without the receipt of as many octets)")
    for kind in kinds:
        if kind == "queries":
            measure_cases(program, queries(), rounds)
        elif kind == "updates":
            measure_cases(program, updates(), rounds)
        elif kind == "filled":
            measure_cases(program, filled(), rounds)
        elif kind == "fitting":
            measure_cases(program, fitting(), rounds)
        elif kind == "aliases":
            measure_aliases(program, rounds)
        elif kind == "transfers":
            measure_transfers(program, rounds)
        else:
            sys.exit(f"bench: no kind {kind}")


if __name__ == "__main__":
    main()

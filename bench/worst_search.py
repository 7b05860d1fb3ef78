#!/usr/bin/env python3
"""Searches for what costs more than the rows of bench/worst.py: it draws from a grammar, changes the dearest ones found so far a little, and prints each that
is dearer, by turns of six kinds: queries; updates that are refused by their prerequisites; updates that are made; queries that lead through 16 aliases; transfers
of a zone in whole, and of what changed. Messages have chains, combs, deep and long names, labels, classes, types and data; zones have names that are deep,
long, combs, or of octets that stand for others. Dearness is the processor time of the server's threads to that

- of a plain message of as many octets and records of the same kinds, whose names are in full and differ; where fewer of these fit, by the record;
- of 17 plain queries of other such names, whose replies have together as many octets as the one of 16 aliases;
- of a transfer of plain names with as many octets of reply.

Usage: bench/worst_search.py PROGRAM SECONDS SEED [KIND ..], of query, check, act, aliases, axfr and ixfr; by default all. A draw is told by its seed, the kinds
and its place, and prints its whole description. What comes near its bound is measured several times more, and the eight dearest of each kind are measured anew at the end;
the middle counts, of it and of the plain one. At the end stands the dearest of each kind; status 1 where one is dearer than ten times, or 16 aliases than the 17 plain queries."""
import random
import struct
import sys
import time

from worst import (
    ALL, APEX, CNAME, IN, LIMIT, MX, NONE, NS, NULL, QUERY, SOA, SRV, TXT, UPDATE, A, ANY, Message, Server, Transfer,
    asked_in_turn, axfr_request, comb_owner, deep_owners, ixfr_request, label, name, names_in_turn, numbered, parents_of, pointer, small_zone,
)

# how many times as dear as a plain one anything may be, and aliases as 17 plain queries; and how often more what comes near it is measured
BOUNDS = {"query": 10, "check": 10, "act": 10, "aliases": 1, "axfr": 10, "ixfr": 10}
MORE = 4
# how often the dearest are measured at the end
ANEW = 7
KINDS = ("query", "check", "act", "aliases", "axfr", "ixfr")
# below so many microseconds what a message costs isn't told from its receipt
LEAST = {"query": 200, "check": 500, "act": 500, "aliases": 5, "axfr": 50, "ixfr": 50}

# what stands in the zone: an owner of 256 addresses, one of 300 sets, one with texts of 4,096 octets, deep names, and plain ones
DEEP = ".".join("a" * 100)
ZONE = "$ORIGIN t.\n$TTL 60\n@ SOA . . 1 7200 900 1209600 300\n@ NS .\n"
ZONE += "".join(f"one A 10.0.{n >> 8}.{n & 255}\n" for n in range(256))
ZONE += "".join(f"two TYPE{1000 + n} \\# 4 0a0000{n & 255:02x}\n" for n in range(300))
ZONE += "".join('tre TXT "%03d%s" %s\n' % (n, "x" * 252, ('"%s" ' % ("x" * 255)) * 15) for n in range(40))
ZONE += "".join(f"{DEEP}.{numbered(n).decode()} A 10.0.0.1\n" for n in range(50))
ZONE += "".join(f"{numbered(n).decode()} A 10.0.0.1\n" for n in range(4000))
OWNERS = [b"one", b"two", b"tre", b"new"]


def drawn(rng, kind):
    """What a message is like, or the zone that is sent."""
    return drawn_names(rng, kind) if kind in ("aliases", "axfr", "ixfr") else drawn_message(rng, kind)


def drawn_names(rng, kind):
    """What the names of a zone are like, and the data of its records."""
    return {
        "kind": kind,
        "labels": rng.choice([0, 1, 3, 20, 60, 110, 117, rng.randrange(118)]),
        "length": rng.choice([1, 1, 1, 2, 3, 8, 30, 60]),
        "octet": rng.choice(["a", "a", "\\001", "\\000", "\\255", "\\.", "A", "aA", "\\001a", "any"]),
        "differs": rng.choice(["first", "last", "middle", "each", "comb", "tail", "inside"]),
        "own": rng.choice([1, 2, 3, 8, 11, 16, 40]),
        "type": rng.choice(["A", "MX", "NS", "SRV", "TXT", "CNAME", "TYPE999"]),
        "target": rng.choice(["same", "other", "apex"]),
        "at": rng.choice([1, 1, 2, 16, 128]),
        "records": rng.choice([100, 500, 2000, 4000]),
        "parents": rng.choice([0, 0, 1, 2, 3, 4, 5, 8, 16]),
        "turns": rng.choice(["AB", "AABB", "ABC", "ABCD", "ABCDE", "ABCDEFGH", "ABCDEFGHIJKLMNOP", "ABACADAE", "ABC" + "C" * 9, "ABCD" + "CD" * 9]),
        "apart": rng.choice(["top", "bottom", "middle"]),
        "combs": rng.choice([False, False, True]),
        "keys": rng.choice(["differ", "same"]),
    }


def drawn_message(rng, kind):
    """What a message is like."""
    return {
        "kind": kind,
        "front": rng.choice(["none", "chain", "comb", "deep", "long", "chained comb"]),
        "front_size": rng.choice([100, 1000, 4000, 16000, rng.randrange(20, 16300)]),
        "tooth": rng.choice([1, 1, 1, 2, 5, 30, 63]),
        "hops": rng.choice([0, 1, 4, 60]),
        "owner": rng.choice(["end", "end", "label end", "comb", "any place", "one", "one", "full", "deep below", "deepest", "whole comb", "first differs"]),
        "one": rng.randrange(4),
        "section": rng.choice([0, 1, 2]) if kind == "query" else 0 if kind == "check" else 1,
        "types": rng.choice([[A], [NULL], [1000], [MX], [NS], [CNAME], [SRV], [SOA], [TXT], [A, MX], [ANY], "differ"]),
        "class": rng.choice([IN, IN, ALL, NONE]),
        "ttl": rng.choice([0, 60]),
        "data": rng.choice(["none", "differ", "same", "end", "long text"]),
        "records": rng.choice([500, 2000, 4094, 5400, 5458]),
        "turns": rng.choice([False, False, True]),
    }


def changed(rng, own):
    """The same, but for one or two things."""
    other = drawn(rng, own["kind"])
    for word in rng.sample(sorted(own), rng.randrange(1, 3)):
        own = {**own, word: other[word]}
    return own


def put_front(message, own):
    """Puts data with pointers or labels in front, and gives the places at which names begin there, the last one the dearest."""
    size, start = own["front_size"], message.at() + 11
    data, places = bytearray(), [12]
    if own["front"] == "none":
        return places
    if own["front"] == "deep":
        data = bytearray(b"\1a" * 124 + APEX)
        places = [start]
    elif own["front"] == "long":
        data = bytearray(label(b"a" * 63) * 3 + label(b"a" * 57) + APEX)
        places = [start]
    else:
        length, target = 2 + len(APEX), 12
        while len(data) < size and start + len(data) < 0x3FFF - 70:
            begin = start + len(data)
            is_tooth = own["front"] == "comb" or own["front"] == "chained comb" and (len(data) // 3) % (own["hops"] + 1) == 0
            if is_tooth and length + own["tooth"] + 1 < 250:
                data += label(b"a" * own["tooth"])
                length += own["tooth"] + 1
            data += pointer(target)
            target = begin
            places.append(begin)
    if own["kind"] == "query":
        message.put(b"\0", NULL, data=bytes(data), section=own["section"])
    else:
        # data of a type that nobody knows, which no rule refuses in either section
        message.put(APEX, 999, IN if own["kind"] == "act" else NONE, 0, bytes(data) if own["kind"] == "act" else b"", section=own["section"])
        if own["kind"] != "act":
            places = [12]
    return places


def data_of(own, rtype, number, target, is_plain):
    """A record's data: names point to the dearest place, or are in full and differ."""
    if own["data"] == "none" or own["kind"] != "query" and own["class"] == ALL:
        return b""
    to = name(numbered(number + 40_000)) if is_plain else pointer(target)
    if rtype in (NS, CNAME):
        return to
    if rtype == MX:
        return struct.pack(">H", number & 7) + to
    if rtype == SRV:
        return struct.pack(">3H", 1, 2, number & 7) + to
    if rtype == SOA:
        return to + to + struct.pack(">5I", number, 0, 0, 0, 0)
    if rtype == TXT:
        return label(b"%d" % number) if own["data"] != "long text" else label(b"x" * 200) * 4
    return struct.pack(">I", 0x0A000000 + (number & 255 if own["data"] == "same" else number))


def made(own, count, is_plain):
    """The message of so many records; the number that it has."""
    message = Message(QUERY if own["kind"] == "query" else UPDATE)
    places = put_front(message, own) if not is_plain else None
    last = places[-1] if places else 12
    owner_at = None
    comb, whole_comb, first_differs = list(places or [12]), comb_owner(), deep_owners(message.at())
    for number in range(count):
        types = own["types"]
        rtype = 1000 + number if types == "differ" else types[number % len(types)]
        rclass = own["class"]
        if own["turns"] and own["kind"] == "act" and number % 2:
            rclass = ALL
        if is_plain:
            # names of four octets aren't in the zone, so that a prerequisite that something isn't there holds, and an alias is added
            is_new = own["kind"] == "check" and rclass == NONE or own["kind"] == "act" and rtype == CNAME and rclass == IN
            owner = name(numbered(number, 4 if is_new else 3))
        elif own["owner"] == "end":
            owner = pointer(last)
        elif own["owner"] == "label end":
            owner = label(numbered(number, 2)) + pointer(last)
        elif own["owner"] == "comb":
            owner = label(b"a" * own["tooth"]) + pointer(comb[-1])
            if message.at() < 0x3FFF and len(comb) * (own["tooth"] + 1) < 240:
                comb.append(message.at())
        elif own["owner"] == "any place":
            owner = pointer(places[number * 7919 % len(places)])
        elif own["owner"] == "one":
            owner = pointer(owner_at) if owner_at else name(OWNERS[own["one"]])
            owner_at = owner_at or (message.at() if message.at() < 0x3FFF else None)
        elif own["owner"] == "whole comb":
            owner = whole_comb(number, message)
        elif own["owner"] == "first differs":
            owner = first_differs(number, message)
        elif own["owner"] in ("deep below", "deepest"):
            owner = pointer(owner_at) if owner_at else b"\1a" * 100 + name(numbered(1)) if own["owner"] == "deep below" else b"\1a" * 125 + APEX
            owner_at = owner_at or (message.at() if message.at() < 0x3FFF else None)
        else:
            owner = name(numbered(number))
        data = data_of(own, rtype, number, last, is_plain)
        if rclass == ALL:
            data = b""
        ttl = own["ttl"] if own["kind"] == "query" or own["kind"] == "act" and rclass == IN else 0
        if message.room() < len(owner) + 10 + len(data):
            return message.octets(), number
        message.put(owner, rtype, rclass, ttl, data, section=own["section"])
    return message.octets(), count


def pair(own):
    """A dear message and a plain one of as many octets, and the number of records of each."""
    dear, count = made(own, own["records"], False)
    plain, fitting = made(own, count, True)
    size = max(len(dear), len(plain))
    return dear + bytes(size - len(dear)), plain + bytes(size - len(plain)), (count, fitting)


def cost_of(program, server, own, messages):
    """The costs, of the least of two, by a server that stays for what changes nothing, else by one anew."""
    costs = []
    for message in messages:
        best = None
        for _ in range(2):
            if own["kind"] == "act":
                fresh = Server(program, ZONE)
                try:
                    cost, got = fresh.cost(message)
                finally:
                    fresh.end()
            else:
                cost, got = server.cost(message)
            best = cost if best is None else min(best, cost)
            if best > 300_000:
                break
        costs.append((best, got[-1][3] & 15))
    return costs


def label_of(own, rng):
    """A label of the grammar, as text: so many octets, or one more."""
    octets = own["octet"] if own["octet"] != "any" else rng.choice(["a", "\\001", "\\255", "B"])
    each = 2 if octets in ("aA", "\\001a") else 1
    return octets * -(-own["length"] // each)


def names_of(own, count):
    """So many names of the grammar below the apex, as text: they differ in a label of their own."""
    if own["parents"]:
        parents = parents_of(own["parents"], 20 + own["labels"] % 104, own["apart"], own["keys"])
        if own["combs"]:
            # each parent, of one label more each time, so that each is written as a label and a pointer
            teeth = [".".join(labels[-k:]) for labels in (parent.split(".") for parent in parents) for k in range(1, len(labels) + 1)]
            teeth = list(dict.fromkeys(teeth))[:count]
            yield from teeth
            count -= len(teeth)
        yield from names_in_turn(parents, own["turns"], count)
        return
    rng = random.Random(0)
    mark = max(own["own"], 3)
    labels = [label_of(own, rng) for _ in range(own["labels"])]
    while labels and len(wire_of(".".join(labels))) + mark + 1 > 255:
        labels.pop()
    most = len(labels)
    place = {"first": 0, "last": most, "middle": most // 2}.get(own["differs"], 0)
    for number in range(count):
        own_label = numbered(number, 3).decode() + "x" * (mark - 3)
        if own["differs"] == "tail":
            own_label = "x" * (mark - 3) + numbered(number, 3).decode()
        if own["differs"] == "inside":
            own_label = "x" * ((mark - 3) // 2) + numbered(number, 3).decode() + "x" * ((mark - 2) // 2)
        if own["differs"] == "each":
            step = number % (most + 1)
            yield ".".join([*labels[:step], own_label, *labels[step:]])
        elif own["differs"] == "comb":
            yield ".".join([*labels[: number % (most + 1)], own_label if number > most else "c"])
        else:
            yield ".".join([*labels[:place], own_label, *labels[place:]])


def records_of(own):
    """The records of a drawn zone, as lines of its text."""
    names = list(names_of(own, own["records"] + 7))
    for number in range(own["records"]):
        owner = names[number // own["at"] * own["at"]]
        target = {"same": owner, "other": names[number + 7], "apex": "@"}[own["target"]]
        data = {
            "A": f"10.{number >> 16}.{number >> 8 & 255}.{number & 255}", "MX": f"{number & 255} {target}", "NS": target, "CNAME": target, "SRV": f"1 2 {number & 255} {target}",
            "TXT": f'"{number}"', "TYPE999": f"\\# 4 {number:08x}",
        }[own["type"]]
        yield owner, f"{owner} {own['type']} {data}"


def transfer_cost(server, request, closing):
    """The least of three costs of a transfer, and its octets."""
    transfer = Transfer(server, request)
    transfer.closing = closing
    got = [transfer.cost() for _ in range(3)]
    if got[0][3] < 3:
        raise ValueError("no transfer")
    return min(one[0] for one in got), got[0][1]


CLOSING = lambda serial: struct.pack(">5I", serial, 7200, 900, 1209600, 300)
plain_costs = {}
# how many seconds a plain transfer's cost is taken for that of others: a machine is at times twice as slow as at others
LASTS = 10


def plain_transfer(program, octets):
    """What a transfer of plain names with as many octets of reply costs: of 20 octets a record."""
    step = 250 if octets > 5000 else 25
    count = max(3, round(octets / 20 / step) * step)
    if count not in plain_costs or plain_costs[count][2] < time.time() - LASTS:
        server = Server(program, small_zone("".join(f"{numbered(n).decode()} A 10.0.{n >> 8 & 255}.{n & 255}\n" for n in range(count))))
        try:
            plain_costs[count] = (*transfer_cost(server, axfr_request(), CLOSING(1)), time.time())
        finally:
            server.end()
    cost, got, _ = plain_costs[count]
    return cost * octets / got


def added(server, lines):
    """Has a zone's records added by updates, and tells how many versions that made; their octets are asked of a server that has them."""
    versions = 0
    for message in lines:
        reply = server.ask(message)[0]
        if reply[3] & 15:
            raise ValueError("an update is refused")
        versions += 1
    return versions


def wire_of(text):
    """A name's octets, of its text below the apex."""
    octets, current, at = b"", b"", 0
    while at <= len(text):
        if at == len(text) or text[at] == ".":
            octets += label(current)
            current, at = b"", at + 1
        elif text[at] == "\\":
            is_number = text[at + 1].isdigit()
            current += bytes([int(text[at + 1 : at + 4])]) if is_number else text[at + 1].encode()
            at += 4 if is_number else 2
        else:
            current, at = current + text[at].encode(), at + 1
    return octets + APEX


def updates_of(own):
    """Updates that add the zone's addresses, 8 of them, each with its part of the names."""
    names = list(dict.fromkeys(names_of(own, own["records"])))
    part = -(-len(names) // 8)
    for first in range(0, len(names), part):
        message = Message(UPDATE)
        for number, text in enumerate(names[first : first + part]):
            owner = wire_of(text)
            if message.room() < len(owner) + 14:
                break
            message.put(owner, A, IN, 60, struct.pack(">I", 0x0A000000 + first + number), section=1)
        yield message.octets()


def cost_of_transfer(program, own):
    """The cost of a drawn transfer, and of a plain one of as many octets."""
    if own["kind"] == "axfr":
        server = Server(program, small_zone("".join(f"{line}\n" for line in dict.fromkeys(line for _, line in records_of(own)))))
        request = axfr_request()
    else:
        server = Server(program, small_zone())
        request = ixfr_request(1)
    try:
        closing = CLOSING(1) if own["kind"] == "axfr" else CLOSING(1 + added(server, updates_of(own)))
        cost, octets = transfer_cost(server, request, closing)
    finally:
        server.end()
    return cost, plain_transfer(program, octets), octets


def cost_of_aliases(program, own):
    """The cost of a query that leads through 16 aliases, and of 17 plain ones of other such names, whose replies have as many octets together; and these octets. Each is
    asked once the reply to the one before has come."""
    names = list(names_of({**own, "differs": own["differs"] if own["differs"] != "comb" else "each"}, 34))
    chain = "".join(f"{one} CNAME {other}\n" for one, other in zip(names, names[1:17])) + f"{names[16]} A 10.0.0.1\n"
    query = lambda text: Message(question=wire_of(text)).octets()

    def measured(zone, messages):
        server = Server(program, small_zone(zone))
        try:
            return asked_in_turn(server, messages, 3)
        finally:
            server.end()

    cost, (reply,) = measured(chain, [query(names[0])])
    if struct.unpack(">H", reply[6:8])[0] < 16:
        raise ValueError("not 16 aliases")
    addresses = max(1, min(200, -(-(len(reply) // 17 - len(query(names[17]))) // 16)))
    hosts = "".join(f"{one} A 10.0.0.{n}\n" for one in names[17:] for n in range(addresses))
    plain, replies = measured(chain + hosts, [query(one) for one in names[17:]])
    return cost, plain, (len(reply), sum(len(one) for one in replies))


def middle(measured):
    """The middle cost of a draw that was measured several times, and the middle of the plain one beside it, as far as the kernel has told it: what else the machine does
    adds to a cost, and what the kernel tells late is missing in it."""
    costs, plain = sorted(cost for cost, _ in measured), sorted(plain for _, plain in measured if plain > 0)
    return costs[(len(costs) - 1) // 2], plain[len(plain) // 2] if plain else 0


def is_near(measured, kind):
    """Whether a draw comes near the bound of its kind."""
    cost, plain = middle(measured)
    return cost > 0.7 * BOUNDS[kind] * max(plain, 1)


class Found:
    """A draw with what it costs, the plain one beside it, and what is told of it."""

    def __init__(self, own, cost, plain, more):
        self.own, self.cost, self.plain, self.more = own, cost, plain, more

    def ratio(self):
        return self.cost / max(self.plain, 1)

    def told(self):
        return f"{self.cost:10.0f} {self.plain:10.0f} {self.ratio():8.1f}  {self.more}"


class Search:
    """The dearest of each kind so far, and a server that stays for what changes nothing."""

    def __init__(self, program, seed, kinds=KINDS):
        self.program, self.rng, self.kinds = program, random.Random(seed), kinds
        self.server = Server(program, ZONE)
        self.best = {kind: [] for kind in kinds}
        self.tried = {kind: 0 for kind in kinds}

    def cost(self, own):
        """What a draw costs, the plain one, and what is told of it; nothing of one that can't be compared."""
        if own["kind"] == "aliases":
            cost, plain, octets = cost_of_aliases(self.program, own)
            return cost, plain, f"reply of {octets[0]} octets, the 17 of {octets[1]}"
        if own["kind"] in ("axfr", "ixfr"):
            cost, plain, octets = cost_of_transfer(self.program, own)
            return cost, plain, f"{octets} octets"
        dear, plain, (count, fitting) = pair(own)
        if count == 0 or fitting == 0:
            raise ValueError("no records")
        (cost, code), (plain_cost, plain_code) = cost_of(self.program, self.server, own, (dear, plain))
        if code != plain_code or code == 1:
            raise ValueError("not as far as the plain one, or not read")
        return cost, plain_cost * count / fitting, f"code {code}; {count} records, plain {fitting}; {len(dear)} octets"

    def step(self, turn):
        kind = self.kinds[turn % len(self.kinds)]
        known = self.best[kind]
        own = changed(self.rng, self.rng.choice(known).own) if known and self.rng.random() < 0.6 else drawn(self.rng, kind)
        try:
            cost, plain, more = self.cost(own)
            if cost < LEAST[kind] or len(known) == 8 and cost / max(plain, 1) <= known[-1].ratio():
                self.tried[kind] += 1
                return
            # once more, since what else the machine does adds to it
            if plain == 0:
                raise ValueError("the plain one's time isn't told yet")
            again = [(cost, plain), self.cost(own)[:2]]
            if is_near(again, kind):
                again += [self.cost(own)[:2] for _ in range(MORE)]
        except (AssertionError, OSError, struct.error, ValueError, SystemExit) as fault:
            if kind in ("query", "check", "act") and not isinstance(fault, ValueError):
                self.server.end()
                self.server = Server(self.program, ZONE)
            return
        self.tried[kind] += 1
        self.keep(kind, own, *middle(again), f"{more}; draw {turn} {own}")

    def keep(self, kind, own, cost, plain, more):
        """Keeps a draw among the dearest eight, and prints it if none is dearer."""
        known = self.best[kind]
        found = Found(own, cost, plain, more)
        if not known or found.ratio() > known[0].ratio():
            print(f"{kind:8}{found.told()}", flush=True)
        known.append(found)
        known.sort(key=lambda one: -one.ratio())
        del known[8:]

    def measure_again(self):
        """Measures the dearest of each kind anew, at another time, and what is plain beside them each time."""
        for known in self.best.values():
            for found in known:
                again = []
                for _ in range(ANEW):
                    plain_costs.clear()
                    again.append(self.cost(found.own)[:2])
                found.cost, found.plain = middle(again)
            known.sort(key=lambda one: -one.ratio())


def main():
    program, seconds, seed, kinds = sys.argv[1], float(sys.argv[2]), int(sys.argv[3]), tuple(sys.argv[4:]) or KINDS
    if any(kind not in KINDS for kind in kinds):
        sys.exit(f"bench: the kinds are {', '.join(KINDS)}")
    print(f"seed {seed}, {seconds:.0f} s; microseconds of the server's processor time: dear, plain, ratio, what", flush=True)
    search, end, turn = Search(program, seed, kinds), time.time() + seconds, 0
    while time.time() < end:
        search.step(turn)
        turn += 1
    print("the dearest of each kind, measured again:", flush=True)
    search.measure_again()
    search.server.end()
    dearest = {kind: known[0] for kind, known in search.best.items() if known}
    for kind in kinds:
        print(f"{kind}: {search.tried[kind]} tried; the dearest: {dearest[kind].told() if kind in dearest else 'none that costs enough to be told'}")
    return 1 if any(found.ratio() > BOUNDS[kind] for kind, found in dearest.items()) else 0


if __name__ == "__main__":
    sys.exit(main())

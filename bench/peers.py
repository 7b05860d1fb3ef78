#!/usr/bin/env python3
"""Measures what a client waits for, and the server's processor time, of `dnsd serve` beside knotd and nsd where these are installed, and beside a bare UDP echo: all in one
run and by turns. Each figure is the middle of the rounds. Its parts:
  tcp        replies over TCP on 1 to 50 connections with 1, 2 and 8 queries outstanding on each, one worker (bench/grid.py)
  udp        replies over UDP, one worker, of 1,000 and 999,000 records: 20 clients with 100 queries outstanding in all, and one with 50; and 20 that ask for names
             outside of the zone, which are refused
  bursts     the same of 60 clients with 500 outstanding, of 1,000 records, one worker and four; and of 20 with 100, four workers
  transfers  AXFR of 100,000 and of a million records (bench/serve_transfer.py)
  updates    the 99th percentile of 2,000 queries a second, alone and beside 20,000 updates a second, of 1,000, 100,000 and 999,000 records, without a store and with one;
             and alone and while the zone of a million records goes out to a client that takes it again and again
Last it says of each aim whether this run met it, and by how much: dnsd is to answer as many a second as the others, as soon, and for no more processor time; over UDP
for at most 1.35 of the echo's (1,000 records), in bursts 1.4, with no query lost; and the 99th percentile is to be at most 1.2 of what it is alone.
Usage: [DNSD=PROGRAM] bench/peers.py [--only PART ..] [--rounds N] [--seconds N], by default all parts, 5 rounds, and 1.5 seconds a figure: nine minutes on a machine
that does nothing else. It needs a C compiler, `cc` or $CC, Debian's dnsperf, and knot and nsd for the figures beside; the store is in TMPDIR. `make dnsd` builds the
program."""
import argparse
import multiprocessing
import os
import re
import statistics
import subprocess
import sys
import tempfile

import grid
import serve_transfer
from servers import Server, compiled, dnsd, free_port, peer, peers_there, started, turns, write_questions, write_zone

RATE = 2000
UPDATES = 20_000
PARTS = ("tcp", "udp", "bursts", "transfers", "updates")
aims = []


def judge(what, ratio, bound, more=""):
    """Notes whether an aim is met: a ratio is to be at most its bound."""
    aims.append(f"{'met    ' if ratio <= bound else 'NOT MET'} {what}: {ratio:.2f}, at most {bound:.2f}{more}")


def at_least(what, own, other):
    """Notes whether dnsd's figure is at least another server's."""
    judge(what, other / own if own else float("inf"), 1, f" (dnsd {own:,.0f}, the other {other:,.0f})")


def middle(rounds):
    """The middle of each figure."""
    return [statistics.median(which) for which in zip(*rounds)]


def tcp(room, given):
    cells = grid.table(room, given.rounds, int(given.seconds * 1000 / 6))
    for name in peers_there():
        for place, figure in enumerate(("replies a second", "mean latency", "processor time a query")):
            ratios = {}
            for cell, told in cells.items():
                own, other = told["dnsd"][place], told[name][place]
                ratios[cell] = other / own if place == 0 else own / other
            over = [f"{c} x {o}: {ratio:.2f}" for (c, o), ratio in ratios.items() if ratio > 1]
            judge(f"tcp, {figure} beside {name}, the worst of 18 cells", max(ratios.values()), 1, f"; over it {', '.join(over)}" if over else "")


def asked(server, questions, clients, outstanding, seconds):
    """By dnsperf: replies a second, microseconds of processor time a query, how many were lost, and the mean latency in microseconds."""
    before = server.seconds()
    words = ["-m", "udp", "-s", "127.0.0.1", "-p", str(server.port), "-d", questions, "-l", str(seconds), "-t", "1", "-c", str(clients), "-T", "1", "-q", str(outstanding)]
    said = subprocess.run(["dnsperf", *words], capture_output=True, text=True, check=True).stdout
    spent = server.seconds() - before
    done, lost, rate, latency = (
        float(re.search(form + r":\s+([\d.]+)", said)[1]) for form in ("Queries completed", "Queries lost", "Queries per second", r"Average Latency \(s\)")
    )
    return rate, 1e6 * spent / max(done, 1), lost, 1e6 * latency


def over_udp(room, given, workers, records, loads):
    """Of each load, clients and queries outstanding, of names in the zone or outside: a row for each server, and the rounds' figures by its name."""
    zone, asks = f"{room}/udp{records}", {apex: f"{room}/questions{records}.{apex}" for apex in ("test", "org")}
    write_zone(zone, records)
    for apex, path in asks.items():
        write_questions(path, records, f"example.{apex}")
    with tempfile.TemporaryDirectory(dir=room) as folder:
        os.chmod(folder, 0o755)
        servers = started(zone, folder, workers)
        port = free_port()
        servers.append(Server("echo", [f"{room}/asks", "echo", str(port), str(workers)], port))
        try:
            servers[-1].wait()
            for clients, outstanding, *outside in loads:
                apex = "org" if outside else "test"
                told = turns(servers, given.rounds, lambda server: asked(server, asks[apex], clients, outstanding, given.seconds))
                for name, rounds in told.items():
                    rate, spent, _, latency = middle(rounds)
                    lost = sum(each[2] for each in rounds)
                    print(f"| {records:,} | {workers} | {clients}, {outstanding}{', refused' if outside else ''} | {name} | {rate:,.0f} | {spent:.2f} | {latency:.0f} | {lost:.0f} |", flush=True)
                yield f"{records:,} records, {clients} clients{', refused' if outside else ''}", told
        finally:
            for server in servers:
                server.end()


def head():
    print("| Records | Workers | Clients, outstanding | Server | replies a second | processor time a query, us | mean latency, us | lost |\n|---" + "|---" * 7 + "|")


def udp(room, given):
    head()
    for records in (1000, 999_000):
        for what, told in over_udp(room, given, 1, records, ((20, 100), (1, 50), (20, 100, "outside")) if records == 1000 else ((20, 100), (1, 50))):
            own, spent, _, _ = middle(told["dnsd"])
            for name in peers_there():
                other = middle(told[name])
                judge(f"udp, {what}, processor time beside {name}", spent / other[1], 1)
                at_least(f"udp, {what}, replies a second beside {name}", own, other[0])
            if records == 1000:
                judge(f"udp, {what}, processor time beside the echo", spent / middle(told["echo"])[1], 1.35)


def bursts(room, given):
    head()
    for workers, loads in ((1, ((60, 500),)), (4, ((60, 500), (20, 100)))):
        for what, told in over_udp(room, given, workers, 1000, loads):
            own, spent, _, _ = middle(told["dnsd"])
            what = f"bursts, {workers} worker{'s' if workers > 1 else ''}, {what}"
            for name in peers_there():
                at_least(f"{what}, replies a second beside {name}", own, middle(told[name])[0])
            judge(f"{what}, queries lost", sum(each[2] for each in told["dnsd"]), 0)
            judge(f"{what}, processor time beside the echo", spent / middle(told["echo"])[1], 1.4)


def transfers(room, given):
    for records in (100_000, 1_000_000):
        with tempfile.TemporaryDirectory(dir=room) as folder:
            os.chmod(folder, 0o755)
            told = serve_transfer.compare(folder, records, given.rounds)
        own = middle(told["dnsd"])
        for name in peers_there():
            for place, figure in enumerate(("processor time", "time of the clock")):
                judge(f"transfers, {records:,} records, {figure} beside {name}", own[place] / middle(told[name])[place], 1)


def paced(room, server, over, seconds, records):
    """Of queries at a steady pace: how many were answered, how many weren't, and of their latencies in microseconds the middle, the 99th percentile and the greatest."""
    words = [f"{room}/asks", "paced", over, str(server.port), str(RATE), str(int(seconds * 1000)), str(records)]
    told = [int(word) for word in subprocess.run(words, check=True, stdout=subprocess.PIPE, text=True, timeout=60).stdout.split()]
    return (*told[:2], *(each / 1000 for each in told[2:]))


def alone_and_beside(room, server, over, given, records, other):
    """By turns alone and beside something, which begins and gives what ends it: of both a list of the rounds' 99th percentiles; and what was said at each end."""
    alone, beside, said, lost = [], [], [], 0
    for turn in range(given.rounds):
        for is_beside in (False, True) if turn % 2 == 0 else (True, False):
            end = other() if is_beside else None
            told = paced(room, server, over, given.seconds, records)
            (beside if is_beside else alone).append(told[3])
            lost += told[1]
            if end:
                said.append(end())
    return statistics.median(alone), statistics.median(beside), said, lost


def sends(room, server, seconds):
    """Begins to send updates, and gives what waits for their end and tells how many a second there were."""
    process = subprocess.Popen([f"{room}/sending", str(server.port), "32", str(seconds + 0.2), "0", str(UPDATES)], stdout=subprocess.PIPE, text=True)

    def end():
        told = process.communicate()[0].split()
        if process.returncode or len(told) != 3:
            sys.exit(f"peers: updates fail at {server.name}")
        return float(told[2])

    return end


def beside_updates(room, server, given, records, what):
    alone, beside, rates, lost = alone_and_beside(room, server, "udp", given, records, lambda: sends(room, server, given.seconds))
    print(f"| {what}, {records:,} records | {alone:.0f} | {beside:.0f} | {statistics.median(rates):,.0f} updates a second | {lost} |", flush=True)
    if server.name == "dnsd":
        judge(f"updates, {what}, {records:,} records, 99th percentile beside {statistics.median(rates):,.0f} a second", beside / alone, 1.2, f" ({alone:.0f} us alone, {beside:.0f} beside)")


def takes(port, records, is_over, count):
    """Takes the zone in whole again and again."""
    while not is_over.is_set():
        serve_transfer.transfer(port, records)
        count.value += 1


def taken(server, records):
    """Begins to take the zone in whole, and gives what ends that and tells how many times it was taken."""
    is_over, count = multiprocessing.Event(), multiprocessing.Value("i", 0)
    process = multiprocessing.Process(target=takes, args=(server.port, records, is_over, count))
    process.start()

    def end():
        is_over.set()
        process.join()
        if process.exitcode:
            sys.exit("peers: a transfer fails")
        return count.value

    return end


def updates(room, given):
    compiled(room, "bench/sending.c")
    print("| | 99th percentile alone, us | beside | what was beside | lost |\n|---|---|---|---|---|")
    for records in (1000, 100_000, 999_000):
        zone = f"{room}/beside{records}"
        write_zone(zone, records)
        for has_store in (False, True):
            with tempfile.TemporaryDirectory(dir=room) as store:
                server = dnsd(zone, options=("--store", store) if has_store else ())
                try:
                    server.wait()
                    beside_updates(room, server, given, records, "dnsd with a store" if has_store else "dnsd")
                finally:
                    server.end()
        if records == 1000 and "Knot" in peers_there():
            server = peer("Knot", zone, room)
            try:
                server.wait()
                beside_updates(room, server, given, records, "Knot")
            finally:
                server.end()
    records = 1_000_000
    zone = f"{room}/beside{records}"
    write_zone(zone, records)
    server = dnsd(zone)
    try:
        server.wait()
        for over in ("udp", "tcp"):
            alone, beside, counts, lost = alone_and_beside(room, server, over, given, records, lambda: taken(server, records))
            print(f"| dnsd, {over.upper()}, a million records | {alone:.0f} | {beside:.0f} | {statistics.median(counts):.0f} transfers of the zone | {lost} |", flush=True)
            judge(f"updates, {over.upper()}, 99th percentile while a million records go out", beside / alone, 1.2, f" ({alone:.0f} us alone, {beside:.0f} beside)")
    finally:
        server.end()


def main():
    parser = argparse.ArgumentParser()
    parser.add_argument("--only", nargs="+", choices=PARTS, default=PARTS)
    parser.add_argument("--rounds", type=int, default=5)
    parser.add_argument("--seconds", type=float, default=1.5)
    given = parser.parse_args()
    print(f"load {os.getloadavg()[0]:.1f} before it; beside: {', '.join(peers_there()) or 'none'}")
    with tempfile.TemporaryDirectory() as room:
        os.chmod(room, 0o755)
        compiled(room, "bench/asks.c", "-lpthread")
        for part in given.only:
            print(f"\n{part}\n", flush=True)
            globals()[part](room, given)
    print("\n" + "\n".join(aims))


if __name__ == "__main__":
    main()

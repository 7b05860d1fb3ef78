#!/usr/bin/env python3
"""Asks a running `dnsd serve` for a zone of so many records as AXFR over loopback (RFC 5936), by turns with Knot and NSD where these are installed, and prints for each
run the processor time that the server took, the time of the clock, the octets and the records that came, and the server's memory before the first run and after each;
and last the least and the middle of each server's times, and how dnsd's stand to the others'. A run is as many transfers as have a million records, and its time is of one.
Usage: [DNSD=PROGRAM] bench/serve_transfer.py [RECORDS [RUNS]], by default 1000000 records and 5 runs. `make dnsd` builds the program."""
import os
import socket
import statistics
import sys
import tempfile
import time

from servers import SOA, started, turns

QUERY = b"\x12\x34\0\0\0\1\0\0\0\0\0\0" + SOA[:-4]


def write_zone(path, records):
    """An SOA, an NS, and hosts in canonical order."""
    with open(path, "w", encoding="ascii") as file:
        file.write("example.test. 3600 IN SOA ns1.example.test. admin.example.test. 1 7200 900 1209600 300\n")
        file.write("example.test. 3600 IN NS ns1.example.test.\n")
        for i in range(records - 2):
            file.write(f"host{i:07d}.example.test. 3600 IN A 198.51.100.{i % 256}\n")


def transfer(port, records):
    """Asks for the zone, and counts octets and answers up to the message that has the last of them."""
    request = QUERY + b"\0\xfc\0\1"
    octets = answers = 0
    with socket.create_connection(("127.0.0.1", port)) as stream:
        stream.sendall(len(request).to_bytes(2, "big") + request)
        reader = stream.makefile("rb", buffering=1 << 20)
        while answers < records + 1:
            size = int.from_bytes(reader.read(2), "big")
            message = reader.read(size)
            if len(message) < 12 or message[3] & 15:
                sys.exit("serve_transfer: the transfer ended, or was refused")
            octets += size + 2
            answers += int.from_bytes(message[6:8], "big")
    return octets, answers


def measure(server, records):
    """Processor time and time of the clock of a transfer, in seconds."""
    times = max(1, 1_000_000 // records)
    before, began = server.seconds(), time.monotonic()
    for _ in range(times):
        octets, answers = transfer(server.port, records)
    spent, took = (server.seconds() - before) / times, (time.monotonic() - began) / times
    print(f"{server.name}, {spent:.4f} s of processor, {took:.4f} s of the clock, {octets} octets, {answers} answers, memory {server.memory()} KiB", flush=True)
    return spent, took


def compare(room, records, runs):
    """Prints each run and the least and the middle of each server's times, which it gives by name: seconds of the processor, and of the clock."""
    zone = f"{room}/zone{records}"
    write_zone(zone, records)
    servers = started(zone, room)
    try:
        for server in servers:
            print(f"{server.name}: {records} records, memory {server.memory()} KiB")
        told = turns(servers, runs, lambda server: measure(server, records))
    finally:
        for server in servers:
            server.end()
    for name, all_of in told.items():
        spent, took = zip(*all_of)
        print(f"{name}: {min(spent):.4f} s of processor at least, {statistics.median(spent):.4f} in the middle; of the clock {min(took):.4f}, {statistics.median(took):.4f}")
    for name in told:
        if name == "dnsd":
            continue
        own, others = ([spent for spent, _ in told[one]] for one in ("dnsd", name))
        print(f"dnsd's of {name}'s, of processor: least {min(own) / min(others):.2f}, middle {statistics.median(own) / statistics.median(others):.2f}")
    return told


def main():
    records = int(sys.argv[1]) if len(sys.argv) > 1 else 1_000_000
    runs = int(sys.argv[2]) if len(sys.argv) > 2 else 5
    with tempfile.TemporaryDirectory() as room:
        os.chmod(room, 0o755)
        compare(room, records, runs)


if __name__ == "__main__":
    main()

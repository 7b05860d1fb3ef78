#!/usr/bin/env python3
"""Measures a reload of a zone file beside queries, updates and transfers, and with a stock Knot as secondary (`dnsd control PATH reload`): how long it takes, the latencies
of queries with it and without, how long after the log's line Knot as secondary has the new serial, and by what kind of transfer, the server's memory; and the same reload by Knot as primary
(`zonefile-load: difference`, `knotc -b zone-reload`). Usage: [DNSD=PROGRAM] bench/reload.py [RECORDS [CHANGES [RELOADS]]], by default 999,000 records (a zone has at most 1,000,000, and updates add some), 1,000 of which
change, and 5 reloads. It needs Debian's knot and knot-dnsutils, and 127.0.0.1 alone."""
import multiprocessing
import os
import re
import shutil
import socket
import statistics
import struct
import subprocess
import sys
import tempfile
import threading
import time

top = os.path.dirname(os.path.dirname(os.path.abspath(__file__)))
program = os.environ.get("DNSD", f"{top}/crates/dnsd/out/dnsd")
RECORDS, CHANGES, RELOADS = (int(sys.argv[at]) if len(sys.argv) > at else default for at, default in ((1, 999_000), (2, 1000), (3, 5)))
APEX = bytes.fromhex("076578616d706c65047465737400")


def write_zone(path, serial, generation):
    """The zone of a serial, in which the generation is in the first so many addresses."""
    with open(f"{path}.new", "w", encoding="ascii") as file:
        file.write(f"example.test. 3600 IN SOA ns1.example.test. admin.example.test. {serial} 7200 900 1209600 300\nexample.test. 3600 IN NS ns1.example.test.\nns1.example.test. 3600 IN A 192.0.2.1\n")
        for number in range(RECORDS - 3):
            high = generation if number < CHANGES else 0
            file.write(f"h{number}.example.test. 3600 IN A 10.{high}.{number // 256 % 256}.{number % 256}\n")
    os.replace(f"{path}.new", path)


def free_port():
    with socket.socket() as taken:
        taken.bind(("127.0.0.1", 0))
        return taken.getsockname()[1]


def serial_at(port):
    with socket.socket(socket.AF_INET, socket.SOCK_DGRAM) as client:
        client.settimeout(1)
        client.sendto(b"\0\7\0\0\0\1\0\0\0\0\0\0" + APEX + b"\0\6\0\1", ("127.0.0.1", port))
        try:
            reply = client.recv(4096)
        except OSError:
            return None
    return struct.unpack(">I", reply[-20:-16])[0] if reply[7] else None


def memory_of(process):
    status = open(f"/proc/{process.pid}/status", encoding="ascii").read()
    return [int(re.search(rf"{word}:\s+(\d+)", status).group(1)) // 1024 for word in ("VmRSS", "VmHWM")]


def asks(port, seconds, latencies):
    """Asks a query each half millisecond, one at a time, and gives the latencies in microseconds."""
    client = socket.socket(socket.AF_INET, socket.SOCK_DGRAM)
    client.settimeout(5)
    client.connect(("127.0.0.1", port))
    found, end = [], time.monotonic() + seconds
    number = 0
    while time.monotonic() < end:
        number += 1
        label = b"h%d" % (number * 7919 % (RECORDS - 3))
        begun = time.monotonic()
        client.send(struct.pack(">6H", number % 65536, 0, 1, 0, 0, 0) + bytes([len(label)]) + label + APEX + b"\0\1\0\1")
        client.recv(4096)
        found.append((time.monotonic() - begun) * 1e6)
        time.sleep(0.0005)
    latencies.put(found)


def updates(port, end):
    """An update each 50 ms, until the event."""
    number = 0
    with socket.socket(socket.AF_INET, socket.SOCK_DGRAM) as client:
        client.settimeout(60)
        while not end.is_set():
            number += 1
            label = b"u%d" % (number // 2 % 100)
            record = bytes([len(label)]) + label + b"\xc0\x0c" + (b"\0\1\0\1\0\0\x0e\x10" if number % 2 else b"\0\1\0\xfe\0\0\0\0") + b"\0\4\xc0\0\2\1"
            client.sendto(struct.pack(">6H", number % 65536, 0x2800, 1, 0, 1, 0) + APEX + b"\0\6\0\1" + record, ("127.0.0.1", port))
            client.recv(4096)
            time.sleep(0.05)


def transfers(port, end):
    """A transfer in full after the other, until the event."""
    while not end.is_set():
        with socket.create_connection(("127.0.0.1", port)) as client:
            message = b"\0\7\0\0\0\1\0\0\0\0\0\0" + APEX + b"\0\xfc\0\1"
            client.sendall(struct.pack(">H", len(message)) + message)
            client.settimeout(0.5)
            try:
                while client.recv(1 << 20):
                    pass
            except OSError:
                pass
        time.sleep(1)


def quantiles(latencies):
    ordered = sorted(latencies)
    return f"p50 {ordered[len(ordered) // 2]:.0f}, p99 {ordered[len(ordered) * 99 // 100]:.0f}, greatest {ordered[-1]:.0f} us of {len(ordered)}"


def knot_at(room, name, port, zone):
    os.makedirs(f"{room}/{name}")
    with open(f"{room}/{name}.conf", "w", encoding="ascii") as file:
        file.write(f"server:\n  rundir: {room}/{name}\n  listen: 127.0.0.1@{port}\nlog:\n  - target: stderr\n    any: info\ndatabase:\n  storage: {room}/{name}\n{zone}")
    return subprocess.Popen(["knotd", "-c", f"{room}/{name}.conf"], stderr=open(f"{room}/{name}.log", "w", encoding="ascii"), stdout=subprocess.DEVNULL)


def secondary_at(room, port, primary):
    """A stock Knot at a port that follows the server at another one."""
    return knot_at(room, "secondary", port, f"remote:\n  - id: primary\n    address: 127.0.0.1@{primary}\nacl:\n  - id: notify\n    address: 127.0.0.1\n    action: notify\n"
                                            f"zone:\n  - domain: example.test\n    storage: {room}/secondary\n    master: primary\n    acl: notify\n")


def main():
    room = tempfile.mkdtemp()
    os.mkdir(f"{room}/store")
    zone, control = f"{room}/zone", f"{room}/control"
    write_zone(zone, 1, 0)
    port = free_port()
    begun = time.monotonic()
    server = subprocess.Popen([program, "serve", "--listen", "127.0.0.1:0", "--workers", "2", "--store", f"{room}/store", "--control", control,
                               "--notify", f"127.0.0.1:{port}", zone], stderr=subprocess.PIPE, text=True)
    logged = []
    for line in server.stderr:
        logged.append(line)
        if found := re.search(r"listening on 127\.0\.0\.1:(\d+)", line):
            served = int(found[1])
            break
    else:
        sys.exit("".join(logged))
    print(f"started in {time.monotonic() - begun:.1f} s, memory now and at most {memory_of(server)} MiB", flush=True)
    lines = {}

    def reads():
        for text in server.stderr:
            if found := re.search(r"reload: serial \d+ to (\d+)", text):
                lines[int(found[1])] = time.monotonic()

    threading.Thread(target=reads, daemon=True).start()
    secondary = secondary_at(room, port, served)
    while serial_at(port) is None:
        time.sleep(0.1)
    results = multiprocessing.Queue()

    def measured(seconds):
        asking = multiprocessing.Process(target=asks, args=(served, seconds, results))
        asking.start()
        return asking

    asking = measured(10)
    print(f"queries with nothing beside: {quantiles(results.get())}", flush=True)
    asking.join()
    end = threading.Event()
    beside = [threading.Thread(target=updates, args=(served, end)), threading.Thread(target=transfers, args=(served, end))]
    for thread in beside:
        thread.start()
    asking = measured(10)
    print(f"beside updates and transfers: {quantiles(results.get())}", flush=True)
    asking.join()
    took, followed, all_latencies = [], [], []
    for turn in range(RELOADS):
        write_zone(zone, 1_000_000 * (turn + 1), turn + 1)
        asking = measured(8)
        time.sleep(0.5)
        begun = time.monotonic()
        done = subprocess.run([program, "control", control, "reload"], capture_output=True, text=True, check=False)
        took.append(time.monotonic() - begun)
        if done.returncode:
            sys.exit(f"reload: {done.stdout}{done.stderr}")
        wanted = 1_000_000 * (turn + 1)
        while (serial_at(port) or 0) < wanted:
            time.sleep(0.02)
        followed.append(time.monotonic() - lines[wanted])
        all_latencies += results.get()
        asking.join()
    print(f"beside reloads too: {quantiles(all_latencies)}", flush=True)
    print(f"a reload of {RECORDS} records, {CHANGES} of which change: {statistics.median(took):.2f} s ({min(took):.2f} to {max(took):.2f}), memory now and at most {memory_of(server)} MiB", flush=True)
    print(f"Knot as secondary had it after {statistics.median(followed):.2f} s ({min(followed):.2f} to {max(followed):.2f})", flush=True)
    end.set()
    for thread in beside:
        thread.join()
    server.kill()
    secondary.terminate()
    secondary.wait()
    log = open(f"{room}/secondary.log", encoding="ascii", errors="replace").read()
    print(f"its transfers: {len(re.findall('AXFR, incoming.*finished', log))} in full, {len(re.findall('IXFR, incoming.*finished', log))} incremental", flush=True)
    knot_reloads(room, zone)
    shutil.rmtree(room)


def knot_reloads(room, zone):
    """The same reloads by Knot."""
    write_zone(zone, 1, 0)
    port = free_port()
    knot = knot_at(room, "primary", port, f"zone:\n  - domain: example.test\n    file: {zone}\n    zonefile-load: difference\n    zonefile-sync: -1\n    journal-content: changes\n")
    while serial_at(port) is None:
        time.sleep(0.1)
    print(f"Knot, memory now and at most {memory_of(knot)} MiB", flush=True)
    took = []
    for turn in range(RELOADS):
        write_zone(zone, 1_000_000 * (turn + 1), turn + 1)
        begun = time.monotonic()
        subprocess.run(["knotc", "-b", "-c", f"{room}/primary.conf", "-t", "120", "zone-reload", "example.test"], capture_output=True, check=False)
        took.append(time.monotonic() - begun)
        while (serial_at(port) or 0) < 1_000_000 * (turn + 1):
            time.sleep(0.02)
    print(f"Knot's zone-reload: {statistics.median(took):.2f} s ({min(took):.2f} to {max(took):.2f}), memory now and at most {memory_of(knot)} MiB", flush=True)
    knot.terminate()
    knot.wait()


main()

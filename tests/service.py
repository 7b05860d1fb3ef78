#!/usr/bin/env python3
"""Tries what `dnsd serve` tells a service manager and journald. With NOTIFY_SOCKET, a path or a name that begins with `@`, the socket gets READY=1 once the zone is
served, and no earlier, STATUS with the zone and its serial, at most once a second while updates come and the last one in the end, and STOPPING=1; without it, or with
one that isn't there, is no socket or is too long, the server is as ever. With JOURNAL_STREAM each line of standard error begins with its level (sd-daemon(3)), and with
neither as it does without. And --udp-buffer: what the system keeps for the sockets, and the line that says that it is less than was asked for.
Usage: [DNSD=PROGRAM] tests/service.py, by default crates/dnsd/out/dnsd. It takes ten seconds; status 1 where one failed. It listens on 127.0.0.1 alone."""
import os
import re
import socket
import subprocess
import sys
import tempfile
import time
from concurrent.futures import ThreadPoolExecutor

top = os.path.dirname(os.path.dirname(os.path.abspath(__file__)))
program = os.environ.get("DNSD", f"{top}/crates/dnsd/out/dnsd")
zone = f"{top}/zones/example.test.zone"
APEX = bytes.fromhex("076578616d706c65047465737400")
failed = 0


def told(is_right, what):
    global failed
    failed += not is_right
    print(("ok     " if is_right else "FAILED ") + what, flush=True)


def update(number):
    """An update that adds the address 192.0.2.number at new.example.test. (RFC 2136, 2.5.1)."""
    return bytes.fromhex("123428000001000000010000") + APEX + bytes.fromhex("00060001036e6577c00c0001000100000e100004c00002") + bytes([number])


def served(env, *words):
    """A server with these variables."""
    clean = {name: value for name, value in os.environ.items() if name not in ("NOTIFY_SOCKET", "JOURNAL_STREAM")}
    words = [program, "serve", "--listen", "127.0.0.1:0", "--workers", "1", *words, zone]
    return subprocess.Popen(words, stderr=subprocess.PIPE, text=True, env={**clean, **env})


def port_of(server):
    """The port of a server, by the line of its log, and the lines up to that."""
    lines = []
    for line in server.stderr:
        lines.append(line)
        if found := re.search(r"listening on 127\.0\.0\.1:(\d+)", line):
            return int(found[1]), lines
    return None, lines


def states(sock, seconds):
    """What a socket gets until so much time has passed, with the time of each."""
    found, end = [], time.monotonic() + seconds
    while (left := end - time.monotonic()) > 0:
        sock.settimeout(left)
        try:
            found.append((sock.recv(4096).decode(), time.monotonic()))
        except TimeoutError:
            break
    return found


def send_updates(client):
    """Sends 200 updates, each once the one before is answered."""
    for number in range(1, 201):
        client.send(update(number))
        client.recv(100)
        time.sleep(0.01)


def try_states(name, address):
    """What a service manager at an address is told of a server that takes updates for two seconds, and ends."""
    with socket.socket(socket.AF_UNIX, socket.SOCK_DGRAM) as sock, socket.socket(socket.AF_INET, socket.SOCK_DGRAM) as client:
        sock.bind("\0" + address[1:] if address[0] == "@" else address)
        server = served({"NOTIFY_SOCKET": address}, "--count", "201")
        port, _ = port_of(server)
        first = states(sock, 0.5)
        told([it for it, _ in first] == ["READY=1", "STATUS=example.test. with serial 1"], f"{name}: ready, and the serial: {first}")
        client.connect(("127.0.0.1", port))
        client.settimeout(30)
        with ThreadPoolExecutor(1) as pool:
            task = pool.submit(send_updates, client)
            later = []
            while not task.done():
                later += states(sock, 0.1)
        later += states(sock, 2)
        told(len(later) >= 2 and later[-1][0] == "STATUS=example.test. with serial 201", f"{name}: the last serial in the end: {later[-1:]}")
        times = [at for _, at in first[1:] + later]
        told(all(next - before > 0.9 for before, next in zip(times, times[1:])), f"{name}: at most once a second")
        with socket.create_connection(("127.0.0.1", port), timeout=5):
            pass
        client.send(update(1))
        ended = states(sock, 2)
        told("STOPPING=1" in [it for it, _ in ended], f"{name}: it ends: {ended}")
        server.kill()
        server.wait()


def try_levels():
    """The first octets of the lines of a server with, and without, journald."""
    for env, right in ({"JOURNAL_STREAM": "8:1"}, r"<[3-6]>"), ({}, r"[^<]"):
        server = served(env, "--count", "0")
        lines = server.stderr.read().splitlines()
        told(server.wait() == 0 and len(lines) >= 3 and all(re.match(right, it) for it in lines), f"each line begins like {right}: {lines[:1]}")
    server = served({"JOURNAL_STREAM": "8:1"}, "--listen", "192.0.2.1:5353")
    line = server.stderr.readline()
    told(server.wait() == 3 and line.startswith("<3>error: cannot listen on 192.0.2.1:5353 (TCP)"), f"an error of the start: {line.strip()}")


def try_without(room):
    """Servers whose service manager isn't there."""
    for name, address in ("no socket", f"{room}/none"), ("a relative path", "none"), ("too long", "/" + "x" * 108), ("a directory", room), ("empty", ""):
        server = served({"NOTIFY_SOCKET": address}, "--count", "0")
        text = server.stderr.read()
        told(server.wait() == 0 and "listening on" in text, f"{name}: it is served as ever")


def try_buffers():
    """How many octets of datagrams the system keeps, and what is logged of that."""
    with open("/proc/sys/net/core/rmem_max", encoding="ascii") as it:
        most = int(it.read())
    for words, size in ([], 4 << 20), (["--udp-buffer", "64K"], 64 << 10), (["--udp-buffer", "1G"], 1 << 30):
        server = served({}, "--count", "0", *words)
        text = server.stderr.read()
        server.wait()
        line = f"UDP: receive buffer of a socket is {min(size, most)} bytes, --udp-buffer requested {size}: raise net.core.rmem_max"
        told((line in text) == (size > most) and text.count("UDP: ") == (size > most), f"--udp-buffer {words[1:]}: {'told' if size > most else 'kept'}")


def main():
    with tempfile.TemporaryDirectory() as room:
        try_states("a path", f"{room}/notify")
        try_states("an abstract name", f"@dnsd-test-{os.getpid()}")
        try_without(room)
    try_levels()
    try_buffers()
    print(f"{failed} failed")
    return 1 if failed else 0


if __name__ == "__main__":
    sys.exit(main())

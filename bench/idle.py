#!/usr/bin/env python3
"""Holds idle TCP connections to a server on 127.0.0.1, each opened anew as it ends, until it is told to stop (SIGTERM). It prints a line when all are open:
the server's resident memory before and with them, and the octets a connection; and one at its end: how many were opened in all.
Usage: bench/idle.py PORT COUNT PID, the server's process. It opens COUNT descriptors: `ulimit -n 10000` before it."""
import selectors
import signal
import socket
import sys
import time

port, count, pid = int(sys.argv[1]), int(sys.argv[2]), int(sys.argv[3])
selector = selectors.DefaultSelector()
opened = 0


def resident():
    """The server's resident memory, in octets (Linux, proc(5))."""
    with open(f"/proc/{pid}/status") as status:
        return next(int(line.split()[1]) * 1024 for line in status if line.startswith("VmRSS"))


def open_one():
    """One connection more, which is watched for its end."""
    global opened
    client = socket.create_connection(("127.0.0.1", port), timeout=5)
    client.setblocking(False)
    selector.register(client, selectors.EVENT_READ)
    opened += 1


def told(_number, _frame):
    """The end, by SIGTERM."""
    print(f"{opened} opened", flush=True)
    sys.exit(0)


signal.signal(signal.SIGTERM, told)
before = resident()
for _ in range(count):
    open_one()
time.sleep(0.5)
print(f"{count} idle connections: {before} octets of memory before, {resident()} with them, {(resident() - before) // count} a connection", flush=True)
while True:
    for key, _ in selector.select():
        try:
            if key.fileobj.recv(512):
                continue
        except BlockingIOError:
            continue
        except OSError:
            pass
        selector.unregister(key.fileobj)
        key.fileobj.close()
        open_one()

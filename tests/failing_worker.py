#!/usr/bin/env python3
"""Tries what becomes of a running `dnsd serve` of two workers, one of which loses its listener: the log has to tell which, all threads have to end within
three seconds, and the status has to be 3. It takes the listener from the running program (Linux, pidfd_getfd(2)), which may be asked of a child, and ends
its listening.
Usage: [DNSD=PROGRAM] tests/failing_worker.py [PORT], by default crates/dnsd/out/dnsd and port 15256. It takes three seconds; status 1 where one failed."""
import ctypes
import os
import re
import socket
import subprocess
import sys
import tempfile
import time

top = os.path.dirname(os.path.dirname(os.path.abspath(__file__)))
program = os.environ.get("DNSD", f"{top}/crates/dnsd/out/dnsd")
port = int(sys.argv[1]) if len(sys.argv) > 1 else 15256
PIDFD_GETFD = 438


def taken(pid, number):
    """A descriptor of a process, as one of this one; None where it isn't to be had."""
    process = os.pidfd_open(pid)
    same = ctypes.CDLL(None, use_errno=True).syscall(PIDFD_GETFD, process, number, 0)
    os.close(process)
    return same if same >= 0 else None


def listeners(pid):
    """The listeners of a process."""
    found = []
    for number in os.listdir(f"/proc/{pid}/fd"):
        if not os.readlink(f"/proc/{pid}/fd/{number}").startswith("socket:"):
            continue
        same = taken(pid, int(number))
        if same is None:
            sys.exit("failing_worker: the server's sockets can't be taken")
        it = socket.socket(fileno=same)
        if it.type == socket.SOCK_STREAM and it.getsockopt(socket.SOL_SOCKET, socket.SO_ACCEPTCONN):
            found.append(it)
    return found


failed = 0


def check(what, is_so):
    """Tells whether something is so."""
    global failed
    failed += not is_so
    print(f"{'ok' if is_so else 'FAILED'}: {what}")


with tempfile.TemporaryFile("w+") as log:
    server = subprocess.Popen([program, "serve", "--listen", f"127.0.0.1:{port}", "--workers", "2", f"{top}/zones/example.test.zone"], stderr=log)

    def told():
        """What the log has."""
        log.seek(0)
        return log.read()

    try:
        until = time.time() + 10
        while "listening on" not in told() and time.time() < until:
            time.sleep(0.05)
        found = listeners(server.pid)
        check("there is a listener a worker", len(found) == 2)
        found[0].shutdown(socket.SHUT_RDWR)
        try:
            status = server.wait(3)
        except subprocess.TimeoutExpired:
            status = None
        check(f"the status is 3, and is {status}", status == 3)
        lines = told()
        check("one thread has failed, which is told", len(re.findall(r"^worker [12] \(TCP\) exited: its socket failed$", lines, re.M)) == 1)
        check("the others have done what they might", len(re.findall(r"^worker [12] \((?:TCP|UDP)\) exited: 0 datagrams and connections served$", lines, re.M)) == 3)
        check("why the zone isn't served any more is told", "error: a socket failed" in lines)
    finally:
        server.kill()
sys.exit(failed > 0)

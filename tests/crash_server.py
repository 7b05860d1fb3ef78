"""A server of tests/crash.py, and updates that are sent to it until it is killed."""
import contextlib
import os
import selectors
import signal
import socket
import struct
import subprocess
import time

import crash_zone


class NotServed(Exception):
    """A server that ended before it listened: its status, and what it told."""

    def __init__(self, status, said):
        super().__init__(f"status {status}: {said.strip()}")
        self.status, self.said = status, said


class Served:
    """A running server over a store, on a port of 127.0.0.1; of port 0 on one that is free. What it told up to the line of its port is `said`."""

    def __init__(self, program, folder, zone, options, port=0, environment=None, tries=50):
        words = [program, "serve", "--listen", f"127.0.0.1:{port}", "--store", folder, *options, zone]
        while True:
            self.process = subprocess.Popen(words, stderr=subprocess.PIPE, text=True, env={**os.environ, **(environment or {})})
            line, self.said = self.listening()
            if line:
                break
            # the port that the system picks for one transport may be taken for the other, and one that was given may be in use for a moment
            tries -= 1
            if "address in use" not in self.said or tries <= 0:
                raise NotServed(self.process.returncode, self.said)
            time.sleep(0.1 if port else 0)
        self.port = int(line.split(": ")[0].rsplit(":", 1)[1])
        os.set_blocking(self.process.stderr.fileno(), False)

    def listening(self):
        """The line that tells the port, and what is told up to it; no line where the program ends before."""
        said = ""
        while line := self.process.stderr.readline():
            said += line
            if line.startswith("listening on"):
                return line, said
        self.process.wait()
        self.process.stderr.close()
        return None, said

    def drain(self):
        """What the log has had since."""
        said = b""
        try:
            while more := os.read(self.process.stderr.fileno(), 1 << 16):
                said += more
        except BlockingIOError:
            pass
        return said.decode()

    def has_ended(self):
        return self.process.poll() is not None

    def was_killed(self):
        """Whether it has ended, within a second, by a kill."""
        try:
            return self.process.wait(1) == -signal.SIGKILL
        except subprocess.TimeoutExpired:
            return False

    def kill(self):
        """Kills it. Its status, where it had ended by itself."""
        status = self.process.poll()
        self.process.kill()
        self.process.wait()
        self.process.stderr.close()
        return status


def fill(program, room, batches):
    """Begins a store, the folder `store` of a room, of the zone text that it writes there, the file `zone`, and has a server fill it, one update a batch."""
    with open(f"{room}/zone", "w", encoding="ascii") as file:
        file.write(crash_zone.TEXT)
    os.mkdir(f"{room}/store")
    server = Served(program, f"{room}/store", f"{room}/zone", [])
    try:
        with socket.socket(socket.AF_INET, socket.SOCK_DGRAM) as client:
            client.connect(("127.0.0.1", server.port))
            client.settimeout(5)
            for number in range(1, batches + 1):
                client.send(crash_zone.update(number))
                if client.recv(2000)[3] & 15:
                    raise RuntimeError("an update isn't taken")
    finally:
        server.kill()


def connected(port, count):
    """So many connections, or fewer where the server has ended."""
    made = []
    with contextlib.suppress(ConnectionError):
        while len(made) < count:
            made.append(socket.create_connection(("127.0.0.1", port)))
    return made


class Sender:
    """Sends updates of numbers from one on, so many outstanding and at most so many in all, and keeps which were answered NOERROR: by UDP, or with a count of
    connections by TCP, one outstanding on each."""

    def __init__(self, port, first, outstanding, most=None, connections=0):
        self.first, self.next, self.most = first, first, most
        self.waiting, self.answered, self.octets = {}, set(), {}
        if connections:
            self.sockets = connected(port, connections)
        else:
            self.sockets = [socket.socket(socket.AF_INET, socket.SOCK_DGRAM)]
            self.sockets[0].connect(("127.0.0.1", port))
        self.is_framed, self.outstanding = connections > 0, 1 if connections else outstanding
        for client in self.sockets:
            client.setblocking(False)
            self.waiting[client] = {}
            self.octets[client] = b""

    def send(self):
        for client in self.sockets:
            while len(self.waiting[client]) < self.outstanding and (self.most is None or self.next < self.first + self.most):
                message = crash_zone.update(self.next)
                try:
                    client.send(struct.pack(">H", len(message)) + message if self.is_framed else message)
                except (BlockingIOError, ConnectionError):
                    break
                self.waiting[client][self.next & 0xFFFF] = self.next
                self.next += 1

    def reply_of(self, client):
        """The next reply, if one is there."""
        try:
            octets = client.recv(2000)
        except (BlockingIOError, ConnectionError):
            return None
        if not self.is_framed:
            return octets
        octets = self.octets[client] + octets
        end = 2 + struct.unpack(">H", octets[:2])[0] if len(octets) >= 2 else 2
        self.octets[client] = octets if len(octets) < end else octets[end:]
        return octets[2:end] if 2 < end <= len(octets) else None

    def receive(self):
        """Whether replies were there to be taken."""
        replies = [(client, reply) for client in self.sockets if (reply := self.reply_of(client))]
        for client, reply in replies:
            number = self.waiting[client].pop(struct.unpack(">H", reply[:2])[0], None)
            if number is not None and reply[3] & 15 == 0:
                self.answered.add(number)
        return bool(replies)

    def close(self):
        for client in self.sockets:
            client.close()


def sent_until_killed(server, sender, moment):
    """Sends updates until the server is killed after a while, or has ended by itself: the number behind the last that was sent, those answered NOERROR, and the server's
    status where it had ended."""
    chooser = selectors.DefaultSelector()
    for client in sender.sockets:
        chooser.register(client, selectors.EVENT_READ)
    end = time.monotonic() + moment
    while time.monotonic() < end and not server.has_ended():
        sender.send()
        if chooser.select(min(0.01, max(0.0, end - time.monotonic()))):
            sender.receive()
        server.drain()
    status = server.kill()
    while sender.receive():
        pass
    chooser.close()
    sender.close()
    return sender.next, sender.answered, status

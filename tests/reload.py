#!/usr/bin/env python3
"""Tries reloads of a zone's file while its zone is served (`dnsd control PATH reload`). A reload is one update: the zone before or the zone of the file, at one version,
with one frame of the journal and one NOTIFY, whatever its size; secondaries get it by IXFR. Beside queries, transfers, updates and reloads, each whole transfer is one of
the zones that were deployed, with the updates that were answered since, and never a part. Killed at random moments of reloads, the store has the zone before or that of
the file. With --wide it is read as at the start, with the files that it includes. A second reload meanwhile, a file that is no zone and another apex are refused, and change nothing; the socket is its owner's alone, and a client that says nothing
stops nothing, nor does a standard error that nobody reads. Usage: [DNSD=PROGRAM] tests/reload.py [KILLS [RECORDS [HOSTS]]], by default 20 kills, 100,000 records in the one large change, and 2,000 hosts in the
zones that are reloaded beside queries, by the program crates/dnsd/out/dnsd; a program compiled with checks is slower, and needs fewer. It listens on 127.0.0.1 alone. Its status is 1 where something failed."""
import os
import random
import select
import signal
import socket
import stat
import struct
import subprocess
import sys
import tempfile
import threading
import time

top = os.path.dirname(os.path.dirname(os.path.abspath(__file__)))
program = os.environ.get("DNSD", f"{top}/crates/dnsd/out/dnsd")
APEX = bytes.fromhex("076578616d706c65047465737400")
failed = 0


def report(is_right, what):
    global failed
    failed += not is_right
    print(("ok     " if is_right else "FAILED ") + what, flush=True)


def zone_text(serial, generation, records, apex="example.test."):
    """A zone of this serial, of which each record but the NS has the generation in it: host N has the address 10.GENERATION.N, and a text."""
    lines = [f"{apex} 3600 IN SOA ns1.{apex} admin.{apex} {serial} 7200 900 1209600 300", f"{apex} 3600 IN NS ns1.{apex}", f"ns1.{apex} 3600 IN A 192.0.2.1",
             f'generation.{apex} 3600 IN TXT "{generation}"']
    lines += [f"h{n}.{apex} 3600 IN A 10.{generation % 256}.{n // 256 % 256}.{n % 256}" for n in range(records)]
    return "\n".join(lines) + "\n"


def written(path, text):
    with open(f"{path}.new", "w", encoding="ascii") as file:
        file.write(text)
    os.replace(f"{path}.new", path)


class Server:
    """A server over a store, with a control socket."""

    def __init__(self, room, *words, zone="zone"):
        self.room, self.control = room, f"{room}/control"
        words = [program, "serve", "--listen", "127.0.0.1:0", "--workers", "1", "--control", self.control, *words, f"{room}/{zone}"]
        self.process = subprocess.Popen(words, stderr=subprocess.PIPE, text=True)
        self.lines = []
        for line in self.process.stderr:
            self.lines.append(line)
            if line.startswith("listening on"):
                break
        else:
            raise RuntimeError("".join(self.lines))
        self.port = int(self.lines[-1].split(": ")[0].rsplit(":", 1)[1])
        self.reader = threading.Thread(target=lambda: self.lines.extend(self.process.stderr), daemon=True)
        self.reader.start()

    def ask(self, command, seconds=120):
        """The status, and the lines, of a command."""
        done = subprocess.run([program, "control", self.control, command], capture_output=True, text=True, timeout=seconds)
        return done.returncode, done.stdout, done.stderr

    def kill(self):
        self.process.send_signal(signal.SIGKILL)
        self.process.wait()
        self.reader.join()

    def stop(self):
        self.process.terminate()
        self.process.wait()
        self.reader.join()


def query(name, qtype, more=b"", count=0):
    return struct.pack(">6H", random.randrange(1 << 16), 0, 1, 0, count, 0) + name + struct.pack(">2H", qtype, 1) + more


def streamed(port, message):
    """A connection on which a message was sent."""
    client = socket.create_connection(("127.0.0.1", port), 30)
    client.sendall(struct.pack(">H", len(message)) + message)
    return client


def read_exactly(client, count):
    octets = b""
    while len(octets) < count:
        more = client.recv(count - len(octets))
        if not more:
            raise ConnectionError("closed")
        octets += more
    return octets


def read_name(message, at):
    labels, end = [], None
    while message[at]:
        if message[at] >= 192:
            end = end or at + 2
            at = (message[at] % 64) * 256 + message[at + 1]
            continue
        labels.append(message[at + 1:at + 1 + message[at]].lower())
        at += 1 + message[at]
    return b".".join(labels), end or at + 1


def answers_of(message):
    """The records of a message's answer section: owner, type, TTL and data, the names in an SOA's data left out."""
    questions, answers = struct.unpack(">2H", message[4:8])
    at, found = 12, []
    for _ in range(questions):
        at = read_name(message, at)[1] + 4
    for _ in range(answers):
        owner, at = read_name(message, at)
        rtype, _, ttl, count = struct.unpack(">2HIH", message[at:at + 10])
        data = message[at + 10:at + 10 + count]
        at += 10 + count
        found.append((owner, rtype, ttl, data[-20:] if rtype == 6 else b"" if rtype == 2 else data))
    return found


def transferred(port, qtype=252, serial=0):
    """The records of a transfer: of AXFR, or of IXFR from a serial."""
    more = bytes([0xC0, 0x0C]) + struct.pack(">2HIH", 6, 1, 0, 22) + b"\0\0" + struct.pack(">5I", serial, 0, 0, 0, 0)
    message = query(APEX, qtype, *(more, 1) if qtype == 251 else ())
    found, soas = [], 0
    with streamed(port, message) as client:
        while True:
            reply = read_exactly(client, struct.unpack(">H", read_exactly(client, 2))[0])
            if reply[3] & 15:
                raise RuntimeError(f"code {reply[3] & 15}")
            found += answers_of(reply)
            soas = sum(1 for record in found if record[1] == 6)
            if found[-1][1] == 6 and (soas == 2 if qtype == 252 else found[-1] == found[0] and (soas > 1 or len(found) == 1)):
                return found


def serial_in(record):
    return struct.unpack(">I", record[3][:4])[0]


def generation_of(records):
    """The generations that the records of a zone have, and how many hosts: a zone of a file has one generation."""
    texts = {int(data[1:]) % 256 for owner, rtype, _, data in records if rtype == 16 and owner.startswith(b"generation.")}
    hosts = [data for owner, rtype, _, data in records if rtype == 1 and owner.startswith(b"h")]
    return texts | {data[1] for data in hosts}, len(hosts)


def update(number):
    """An update that adds a text at u.example.test."""
    text = str(number).encode()
    return bytes.fromhex("000028000001000000010000") + APEX + bytes.fromhex("00060001") + b"\1u" + bytes.fromhex("c00c0010000100000e10") + struct.pack(">H", len(text) + 1) + bytes([len(text)]) + text


def zone_of(room):
    return subprocess.run([program, "zone", f"{room}/store"], capture_output=True, text=True, check=True).stdout


def canonical(text, room):
    written(f"{room}/checked", text)
    return subprocess.run([program, "check", f"{room}/checked"], capture_output=True, text=True, check=True).stdout


def frames_of(room):
    """How many frames a journal has, and its octets up to their end; the file may be longer."""
    with open(f"{room}/store/journal", "rb") as file:
        journal = file.read()
    at, count, mark = 156, 0, journal[124:132]
    while journal[at:at + 8] == mark:
        at += 52 + struct.unpack(">I", journal[at + 8:at + 12])[0]
        count += 1
    return count, at


def tries_commands(room):
    """The replies of each command, and what is refused."""
    written(f"{room}/zone", zone_text(1, 1, 3))
    server = Server(room, "--store", f"{room}/store")
    mode = os.stat(server.control).st_mode
    report(stat.S_ISSOCK(mode) and stat.S_IMODE(mode) == 0o600, "the socket is its owner's alone")
    status, said, _ = server.ask("status")
    report(status == 0 and said.startswith("zone example.test.\nserial 1\nrecords 7\nversion 0\nupdates 0\nstore ok\njournal 156\ntext zone-0\nuptime "), f"status: {said!r}")
    tries_stranger(room, server)
    status, said, _ = server.ask("stats")
    report(status == 0 and 'dnsd_zone_serial{zone="example.test."} 1\n' in said, f"stats: {said!r}")
    tries_lost_store(room, server)
    report(server.ask("reload") == (0, "nothing to change, serial 1\n", ""), "a reload of the same file changes nothing")
    written(f"{room}/zone", zone_text(5, 2, 3))
    status, said, _ = server.ask("reload")
    report((status, said) == (0, "serial 1 to 5, 4 records deleted, 4 added\n"), f"a reload: {said!r}")
    written(f"{room}/zone", zone_text(5, 3, 3))
    status, said, _ = server.ask("reload")
    report((status, said) == (0, "serial 5 of ZONE isn't greater than 5: 6 is served\nserial 5 to 6, 4 records deleted, 4 added\n"), f"a serial that isn't greater: {said!r}")
    written(f"{room}/zone", zone_text(7, 4, 3) + "x 3600 IN A 1.2.3.400\n")
    status, said, errors = server.ask("reload")
    report((status, said) == (1, "") and errors.startswith("error: line 8: M6"), f"a file that is no zone: {errors!r}")
    written(f"{room}/zone", zone_text(7, 4, 3, "example.net."))
    report(server.ask("reload") == (1, "", "error: the zones have different names\n"), "another apex")
    os.remove(f"{room}/zone")
    status, said, errors = server.ask("reload")
    report((status, said) == (1, "") and "can't be read" in errors, f"no file: {errors!r}")
    report(zone_of(room) == canonical(zone_text(6, 3, 3), room), "the store has the zone of the last reload")
    frames, octets = frames_of(room)
    report(frames == 2, "with a frame for each reload")
    status, said, _ = server.ask("status")
    report(status == 0 and f"serial 6\nrecords 7\nversion 2\nupdates 2\nstore ok\njournal {octets}\ntext zone-0\n" in said, f"and the status shows them: {said!r}")
    silent = []
    for _ in range(20):
        client = socket.socket(socket.AF_UNIX)
        client.connect(server.control)
        silent.append(client)
    written(f"{room}/zone", zone_text(9, 5, 3))
    begun = time.monotonic()
    status, said, errors = server.ask("reload")
    report(status == 0 and time.monotonic() - begun < 25, f"clients that say nothing stop nothing: {said!r} {errors!r}")
    for client in silent:
        client.close()
    status, _, _ = server.ask("stop")
    report(status == 0 and server.process.wait(10) == 0 and not os.path.exists(server.control), "a server that is stopped ends with status 0, and its socket goes")
    server.reader.join()
    report(any("reload: serial 5 to 6, 4 records deleted, 4 added" in line for line in server.lines), "the log has each reload")
    report(any("reload failed: line 8: M6" in line for line in server.lines), "and why one failed")
    tries_restart(room)


def tries_restart(room):
    """After a restart the versions' numbers go on, and the updates since the start are counted anew; without a store there is none."""
    server = Server(room, "--store", f"{room}/store", "--take", "store")
    status, said, _ = server.ask("status")
    report(status == 0 and "serial 9\nrecords 7\nversion 3\nupdates 0\nstore ok\n" in said, f"the status after a restart: {said!r}")
    written(f"{room}/zone", zone_text(12, 6, 3))
    report(server.ask("reload") == (0, "serial 9 to 12, 4 records deleted, 4 added\n", ""), "and a reload")
    status, said, _ = server.ask("status")
    report(status == 0 and "serial 12\nrecords 7\nversion 4\nupdates 1\nstore ok\n" in said, f"is one update since: {said!r}")
    server.stop()
    server = Server(room)
    status, said, _ = server.ask("status")
    report(status == 0 and "serial 12\nrecords 7\nversion 0\nupdates 0\nstore none\nuptime " in said, f"without a store: {said!r}")
    server.stop()


def tries_stranger(room, server):
    """Another user's connect fails, though he may go into the directory (as root alone)."""
    if os.geteuid() != 0:
        return
    os.chmod(room, 0o755)
    words = ["setpriv", "--reuid", "65534", "--regid", "65534", "--clear-groups", sys.executable, "-c", f"import socket; socket.socket(socket.AF_UNIX).connect({server.control!r})"]
    done = subprocess.run(words, capture_output=True, text=True, check=False)
    report(done.returncode != 0 and "PermissionError" in done.stderr, f"another user can't connect: {done.stderr.strip().splitlines()[-1:]}")


def tries_lost_store(room, server):
    """While the store's directory is away, a reload fails, and the status says why; then it is written again."""
    os.rename(f"{room}/store", f"{room}/away")
    written(f"{room}/zone", zone_text(3, 9, 3))
    status, said, errors = server.ask("reload")
    report((status, said) == (1, "") and "SERVFAIL" in errors, f"a reload without the store's directory: {errors!r}")
    status, said, _ = server.ask("status")
    report(status == 0 and "serial 1\n" in said and "\nstore failing: the store's directory has no journal, or another one: it was moved or removed\n" in said, f"its status: {said!r}")
    os.rename(f"{room}/away", f"{room}/store")
    written(f"{room}/zone", zone_text(1, 1, 3))


def wide_text(serial, more):
    """A zone file of this serial under x., as other servers read it, with so much behind it."""
    return f"$ttl 1h\n@ SOA ns admin {serial} 2h 15m 2w 5m\n NS ns\nns A 192.0.2.1\nns RRSIG A 13 2 3600 20260102000000 20260101000000 1 x. AAAA\n{more}"


def tries_wide(room):
    """With --wide the file is read at a reload as at the start, and by --take zone; the next start of the same file finds its store again."""
    words = ("--wide", "--origin", "x.", "--store", f"{room}/store")
    written(f"{room}/zone", wide_text(1, ""))
    server = Server(room, *words)
    report(server.ask("reload") == (0, "nothing to change, serial 1\n", ""), "--wide: a reload of the same file changes nothing")
    written(f"{room}/zone", wide_text(2, 'a 5m CAA 0 issue ";"\n'))
    report(server.ask("reload") == (0, "serial 1 to 2, 0 records deleted, 1 added\n", ""), "a reload of times with units and a CAA")
    written(f"{room}/zone", wide_text(3, "\na 1h30 A 192.0.2.1\n"))
    report(server.ask("reload") == (1, "", "error: line 7: M5 UnknownType\n"), "a file that is refused, by its line")
    server.stop()
    left = [line for line in server.lines if "left out" in line]
    told = f"{room}/zone: records left out (RRSIG, NSEC, NSEC3, NSEC3PARAM): 1, the first on line 5\n"
    report(left == [told] * 3, f"how many records are left out, at the start and at both reloads that read a zone: {left}")
    has_caa = "a.x. 300 IN TYPE257 \\# 8 000569737375653b\n"
    report(caa_of(room) == [has_caa], f"the store has the file's zone: {zone_of(room)!r}")
    written(f"{room}/zone", wide_text(2, "a 5m CAA 0 issue ca.example\n"))
    server = Server(room, *words, "--take", "zone")
    server.stop()
    report(any("changed the store" in line and "serial 2 to 3, 1 records deleted, 1 added" in line for line in server.lines), f"--take zone: {server.lines}")
    server = Server(room, *words)
    server.stop()
    report(not any("ZONE" in line for line in server.lines), f"the next start of the same file finds its store: {server.lines}")
    report(caa_of(room) == ["a.x. 300 IN TYPE257 \\# 17 0005697373756563612e6578616d706c65\n"], f"with its zone: {zone_of(room)!r}")


def tries_included(room):
    """With --wide the files that the zone file includes are read again at a reload, and a fault in one is told by its path and line."""
    written(f"{room}/zone", wide_text(1, "$INCLUDE hosts.inc\n"))
    written(f"{room}/hosts.inc", "a A 192.0.2.2\n")
    server = Server(room, "--wide", "--origin", "x.", "--store", f"{room}/store")
    report(server.ask("reload") == (0, "nothing to change, serial 1\n", ""), "--wide: a reload of the same files changes nothing")
    written(f"{room}/hosts.inc", "a A 192.0.2.2\nb A 192.0.2.3\n")
    written(f"{room}/zone", wide_text(2, "$INCLUDE hosts.inc\n"))
    report(server.ask("reload") == (0, "serial 1 to 2, 0 records deleted, 1 added\n", ""), "a reload of a file that is included")
    written(f"{room}/hosts.inc", "a A 192.0.2.2\n\nb 1h30 A 192.0.2.3\n")
    report(server.ask("reload") == (1, "", "error: hosts.inc: line 3: M5 UnknownType\n"), "a file that is refused, by its path and line")
    os.remove(f"{room}/hosts.inc")
    report(server.ask("reload") == (1, "", "error: line 6: M16 Include\n"), "a file that isn't there, by the line that includes it")
    written(f"{room}/hosts.inc", "a A 192.0.2.2\n@ SOA ns admin 9 1 1 1 1\n")
    report(server.ask("reload") == (1, "", "error: hosts.inc: line 2: M11 Apex\n"), "a second SOA there")
    server.stop()
    report("b.x. 3600 IN A 192.0.2.3" in zone_of(room), f"the store has the files' zone: {zone_of(room)!r}")


def tries_blocked(room):
    """A standard error that nobody reads stops no reload, though a line is due of what is left out of the file."""
    written(f"{room}/zone", wide_text(1, ""))
    ours, theirs = os.pipe()
    words = [program, "serve", "--wide", "--origin", "x.", "--listen", "127.0.0.1:0", "--workers", "1", "--control", f"{room}/control", f"{room}/zone"]
    server = subprocess.Popen(words, stderr=theirs)
    told = b""
    while b"listening on" not in told and select.select([ours], [], [], 60)[0]:
        told += os.read(ours, 4096)
    # more than the pipe takes: the thread waits until the end
    threading.Thread(target=os.write, args=(theirs, b"\n" * (1 << 20)), daemon=True).start()
    while select.select([], [theirs], [], 0)[1]:
        time.sleep(0.1)
    written(f"{room}/zone", wide_text(2, 'a 5m CAA 0 issue ";"\n'))
    try:
        done = subprocess.run([program, "control", f"{room}/control", "reload"], capture_output=True, text=True, timeout=60)
        said = done.returncode, done.stdout, done.stderr
    except subprocess.TimeoutExpired:
        said = "nothing in a minute"
    report(said == (0, "serial 1 to 2, 0 records deleted, 1 added\n", ""), f"a reload beside a standard error that nobody reads: {said}")
    server.kill()
    server.wait()


def caa_of(room):
    """The lines of a store's CAA records."""
    return [line for line in zone_of(room).splitlines(True) if " TYPE257 " in line]


def tries_large(room, records):
    """A change of so many records is one version, one frame and one NOTIFY, and an IXFR has it."""
    written(f"{room}/zone", zone_text(1, 1, records))
    secondary = socket.socket(socket.AF_INET, socket.SOCK_DGRAM)
    secondary.bind(("127.0.0.1", 0))
    secondary.settimeout(60)
    server = Server(room, "--store", f"{room}/store", "--notify", f"127.0.0.1:{secondary.getsockname()[1]}")

    def notified(seconds):
        """The IDs of the NOTIFYs that come until so much time has passed, each of which is answered."""
        ids, end = set(), time.monotonic() + seconds
        while (left := end - time.monotonic()) > 0:
            secondary.settimeout(left)
            try:
                message, peer = secondary.recvfrom(4096)
            except TimeoutError:
                break
            ids.add(message[:2])
            secondary.sendto(message[:2] + b"\xa4\0" + message[4:], peer)
        return ids

    notified(3)
    written(f"{room}/zone", zone_text(2, 2, records))
    begun = time.monotonic()
    status, said, errors = server.ask("reload", 600)
    took = time.monotonic() - begun
    changed = records + 1
    report((status, said) == (0, f"serial 1 to 2, {changed} records deleted, {changed} added\n"), f"a change of {2 * changed} records, in {took:.1f} s: {said!r} {errors!r}")
    report(len(notified(3)) == 1, "is one NOTIFY")
    report(frames_of(room)[0] == 1, "and one frame")
    found = transferred(server.port, 251, 1)
    soas = [serial_in(record) for record in found if record[1] == 6]
    report(soas == [2, 1, 2, 2] and len(found) == 4 + 2 * changed, f"which an IXFR has as one change: {soas}, {len(found)} records")
    server.kill()
    report(zone_of(room) == canonical(zone_text(2, 2, records), room), "and a start finds it")
    changes = subprocess.run([program, "journal", f"{room}/store"], capture_output=True, text=True, check=True).stdout
    report(changes.startswith(f"serial 1 to 2, {changed} deleted, {changed} added\n"), "as `dnsd journal` does")
    server = Server(room, "--store", f"{room}/store")
    report(server.ask("reload")[1] == "nothing to change, serial 2\n", "and the server goes on with it")
    server.stop()


def tries_beside(room, seconds, count):
    """Queries, transfers and updates beside reloads: each transfer is a whole zone of one generation."""
    written(f"{room}/zone", zone_text(1, 0, count))
    server = Server(room, "--store", f"{room}/store")
    end, taken, parts, codes = time.monotonic() + seconds, [0], [], []

    def transfers():
        while time.monotonic() < end:
            found = transferred(server.port)
            generations, hosts = generation_of(found)
            taken[0] += 1
            if len(generations) != 1 or hosts != count:
                parts.append((generations, hosts))

    def updates():
        number = 0
        with socket.socket(socket.AF_INET, socket.SOCK_DGRAM) as client:
            client.connect(("127.0.0.1", server.port))
            client.settimeout(10)
            while time.monotonic() < end:
                client.send(update(number))
                codes.append(client.recv(4096)[3] & 15)
                number += 1
                time.sleep(0.05)

    threads = [threading.Thread(target=work) for work in (transfers, transfers, updates)]
    for thread in threads:
        thread.start()
    reloads, faults = 0, []
    while time.monotonic() < end:
        reloads += 1
        written(f"{room}/zone", zone_text(1000 * reloads, reloads % 256, count))
        status, said, errors = server.ask("reload")
        if status:
            faults.append((said, errors))
    for thread in threads:
        thread.join()
    report(not parts, f"{taken[0]} transfers beside {reloads} reloads are whole zones: {parts[:3]}")
    report(not faults, f"each of these reloads is done: {faults[:3]}")
    report(codes and not any(codes), f"beside {len(codes)} updates, which are all taken: {set(codes)}")
    server.stop()


def tries_kills(room, kills, count):
    """Killed at random moments of reloads: the store has the zone before, or that of the file."""
    written(f"{room}/zone", zone_text(1, 0, count))
    parts = news = 0
    last = 0
    for turn in range(1, kills + 1):
        server = Server(room, "--store", f"{room}/store", "--take", "store")
        written(f"{room}/zone", zone_text(10 * turn, turn % 256, count))
        reload = subprocess.Popen([program, "control", server.control, "reload"], stdout=subprocess.PIPE, stderr=subprocess.PIPE, text=True)
        time.sleep(random.uniform(0, 0.6))
        server.kill()
        said, _ = reload.communicate()
        zone = zone_of(room)
        is_old = zone == canonical(zone_text(10 * last or 1, last % 256, count), room)
        is_new = zone == canonical(zone_text(10 * turn, turn % 256, count), room)
        parts += not (is_old or is_new) or (reload.returncode == 0 and not is_new)
        news += is_new
        last = turn if is_new else last
    report(not parts, f"of {kills} kills during reloads each leaves the old zone or the new one ({news} the new one)")


def main():
    kills = int(sys.argv[1]) if len(sys.argv) > 1 else 20
    records = int(sys.argv[2]) if len(sys.argv) > 2 else 100_000
    hosts = int(sys.argv[3]) if len(sys.argv) > 3 else 2_000
    tried = (
        tries_commands,
        tries_wide,
        tries_included,
        tries_blocked,
        lambda room: tries_large(room, records // 2),
        lambda room: tries_beside(room, 15, hosts),
        lambda room: tries_kills(room, kills, hosts * 5 // 2),
    )
    for tries in tried:
        with tempfile.TemporaryDirectory() as room:
            os.mkdir(f"{room}/store")
            tries(room)
    sys.exit(1 if failed else 0)


main()

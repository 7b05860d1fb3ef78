"""For the scripts here: `dnsd serve`, knotd and nsd over a zone file, and a bare UDP echo, each on a port of its own on 127.0.0.1, and their processor time. DNSD names
another program than crates/dnsd/out/dnsd."""
import glob
import os
import shutil
import socket
import subprocess
import sys
import time

TOP = os.path.dirname(os.path.dirname(os.path.abspath(__file__)))
PROGRAM = os.environ.get("DNSD", f"{TOP}/crates/dnsd/out/dnsd")
os.environ["PATH"] += ":/usr/sbin:/sbin"
# what they are called in tables, and their programs
PEERS = {"Knot": "knotd", "NSD": "nsd"}
# example.test. SOA IN
SOA = bytes.fromhex("076578616d706c65047465737400") + b"\0\6\0\1"

KNOT = """server:
    rundir: "{room}"
    listen: 127.0.0.1@{port}
    udp-workers: {workers}
    tcp-workers: {workers}
    background-workers: 1
database:
    storage: "{room}"
acl:
  - id: local
    address: 127.0.0.1
    action: [transfer, update]
zone:
  - domain: example.test.
    storage: "{folder}"
    file: "{file}"
    acl: local
    zonefile-sync: -1
    journal-content: none
log:
  - target: stderr
    any: error
"""

NSD = """server:
    ip-address: 127.0.0.1@{port}
    username: ""
    server-count: {workers}
    zonesdir: "{folder}"
    xfrdir: "{room}"
    database: ""
    zonelistfile: "{room}/zone.list"
    xfrdfile: "{room}/xfrd.state"
    pidfile: ""
    rrl-ratelimit: 0
    minimal-responses: no
    tcp-count: 1000
remote-control:
    control-enable: no
zone:
    name: example.test
    zonefile: "{file}"
    provide-xfr: 127.0.0.1 NOKEY
"""


def processes(pid):
    """A process and those below it."""
    for path in glob.glob(f"/proc/{pid}/task/*/children"):
        try:
            with open(path, encoding="ascii") as file:
                children = file.read().split()
        except OSError:
            continue
        for child in children:
            yield from processes(child)
    yield pid


def seconds_of(pid):
    """The time that all threads of a process and of those below it have run (Linux, /proc/PID/task/TID/schedstat)."""
    spent = 0
    for one in processes(pid):
        for path in glob.glob(f"/proc/{one}/task/*/schedstat"):
            try:
                with open(path, encoding="ascii") as file:
                    spent += int(file.read().split()[0])
            except OSError:
                continue
    return spent / 1e9


class Server:
    """One that runs, on a port of its own."""

    def __init__(self, name, words, port):
        self.name, self.port = name, port
        self.process = subprocess.Popen(words, stdout=subprocess.DEVNULL, stderr=subprocess.DEVNULL)

    def seconds(self):
        """Its processor time."""
        return seconds_of(self.process.pid)

    def memory(self):
        """The resident memory of its first process, in KiB."""
        with open(f"/proc/{self.process.pid}/status", encoding="ascii") as file:
            return int(next(line.split()[1] for line in file if line.startswith("VmRSS")))

    def wait(self):
        """Waits until it answers."""
        with socket.socket(socket.AF_INET, socket.SOCK_DGRAM) as client:
            client.connect(("127.0.0.1", self.port))
            client.settimeout(0.2)
            for _ in range(900):
                if self.process.poll() is not None:
                    break
                try:
                    client.send(b"\0\7\1\0\0\1\0\0\0\0\0\0" + SOA)
                    reply = client.recv(512)
                    # the echo gives the query back
                    if reply[:2] == b"\0\7" and reply[3] & 15 == 0 and (reply[6:8] != b"\0\0" or self.name == "echo"):
                        return
                except TimeoutError:
                    pass
                except OSError:
                    time.sleep(0.1)
        sys.exit(f"bench: {self.name} doesn't answer")

    def end(self):
        """Ends it, if it still runs."""
        if self.process.poll() is None:
            self.process.terminate()
            self.process.wait()


def free_port():
    """A port that nobody listens on."""
    with socket.socket() as one:
        one.bind(("127.0.0.1", 0))
        return one.getsockname()[1]


def dnsd(zone, workers=1, options=()):
    """`dnsd serve`, which begins to read a zone file."""
    if not os.access(PROGRAM, os.X_OK):
        sys.exit(f"bench: no program at {PROGRAM}: run make dnsd first")
    port = free_port()
    return Server("dnsd", [PROGRAM, "serve", "--listen", f"127.0.0.1:{port}", "--workers", str(workers), *options, zone], port)


def peer(name, zone, room, workers=1):
    """Knot or NSD, which begins to read a zone file; a folder of its own goes into the room."""
    port, folder = free_port(), f"{room}/{name}-{workers}-{os.path.basename(zone)}"
    os.makedirs(folder)
    words = {"room": folder, "port": port, "workers": workers, "folder": os.path.dirname(zone), "file": os.path.basename(zone)}
    with open(f"{folder}/conf", "w", encoding="ascii") as file:
        file.write((KNOT if name == "Knot" else NSD).format(**words))
    return Server(name, [PEERS[name], *(["-c"] if name == "Knot" else ["-d", "-c"]), f"{folder}/conf"], port)


def peers_there():
    """Which of Knot and NSD are installed."""
    return [name for name, program in PEERS.items() if shutil.which(program)]


def started(zone, room, workers=1):
    """dnsd, and Knot and NSD where they are installed, over a zone file, once each answers."""
    found = [dnsd(zone, workers)]
    try:
        found += [peer(name, zone, room, workers) for name in peers_there()]
        for server in found:
            server.wait()
    except BaseException:
        for server in found:
            server.end()
        raise
    return found


def turns(servers, rounds, measure):
    """What a function measures of each server, so many times, by turns; which one is first changes with each round. By name, a list of the rounds."""
    told = {server.name: [] for server in servers}
    for turn in range(rounds):
        at = turn % len(servers)
        for server in servers[at:] + servers[:at]:
            told[server.name].append(measure(server))
    return told


def compiled(room, source, *options):
    """A program of a C file."""
    program = f"{room}/{os.path.basename(source)[:-2]}"
    subprocess.run([os.environ.get("CC", "cc"), "-O2", "-o", program, f"{TOP}/{source}", *options], check=True)
    return program


def write_zone(path, records):
    """A zone of so many records: an SOA, an NS, and then hosts of which each tenth is an alias of the one before it."""
    with open(path, "w", encoding="ascii") as file:
        file.write("example.test. 3600 IN SOA ns1.example.test. admin.example.test. 1 7200 900 1209600 300\nexample.test. 3600 IN NS ns1.example.test.\n")
        for i in range(records - 2):
            file.write(f"h{i}.example.test. 3600 IN " + (f"CNAME h{i - 1}.example.test.\n" if i % 10 == 9 else f"A 192.0.2.{i % 256}\n"))


def write_questions(path, records, apex="example.test"):
    """100,000 queries of that zone, type A, for dnsperf: by turns a name that exists, one that doesn't, and an alias; or of such names below another apex."""
    with open(path, "w", encoding="ascii") as file:
        for i in range(100_000):
            at = i * 7919 % (records - 2) // 10 * 10
            file.write((f"h{at}", f"x{at}", f"h{at + 9}")[i % 3] + f".{apex} A\n")

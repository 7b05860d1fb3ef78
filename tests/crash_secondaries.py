"""NSD and BIND as secondaries of the server that tests/crash.py kills: they follow it, and take what changed as that. All listen on 127.0.0.1 alone."""
import os
import re
import shutil
import socket
import struct
import subprocess
import time

import crash_server
import crash_zone

TOP = os.path.dirname(os.path.dirname(os.path.abspath(__file__)))
SECONDS = 300
REACHES = 30
FILLED = crash_zone.BEHIND + 50
# of the zone in whole come more records and octets than of what changed in as many versions as are kept
RECORDS, OCTETS = 200, 4000
NAMED = """options {{
    directory "{folder}"; pid-file none; session-keyfile none;
    listen-on port {port} {{ 127.0.0.1; }}; listen-on-v6 {{ none; }};
    recursion no; notify no; dnssec-validation no; allow-transfer {{ 127.0.0.1; }};
    min-refresh-time 2; max-refresh-time 2; min-retry-time 2; max-retry-time 2;
}};
controls {{ }};
zone "example.test" {{ type secondary; primaries port {primary} {{ 127.0.0.1; }}; file "zone"; masterfile-format text; }};
"""


def serial(port):
    """The serial that is answered over UDP; none where no answer with an SOA comes."""
    with socket.socket(socket.AF_INET, socket.SOCK_DGRAM) as client:
        client.settimeout(1)
        client.connect(("127.0.0.1", port))
        try:
            client.send(crash_zone.question(crash_zone.SOA))
            records = list(crash_zone.records_of(client.recv(2000)))
        except (OSError, IndexError):
            return None
        return next((crash_zone.serial_of(record) for record in records if record[1] == crash_zone.SOA), None)


class Secondary:
    """A running secondary: its port, how the lines of its log tell the size of a transfer, from where on that is one in whole, and that it begins anew by itself."""

    def __init__(self, words, port, log, line, whole, anew="$^"):
        self.port, self.log, self.line, self.whole, self.anew = port, log, re.compile(line), whole, re.compile(anew)
        environment = {**os.environ, "PATH": f"{os.environ['PATH']}:/usr/sbin"}
        with open(log, "w") as file:
            self.process = subprocess.Popen(words, stdout=file, stderr=file, env=environment)

    def transfers(self):
        """How many transfers came as what changed, and in whole; and how many times it began anew by itself."""
        with open(self.log, errors="replace") as file:
            lines = list(file)
        sizes = [int(found.group(1)) for found in map(self.line.search, lines) if found]
        return sum(size < self.whole for size in sizes), sum(size >= self.whole for size in sizes), sum(self.anew.search(line) is not None for line in lines)

    def end(self):
        self.process.terminate()
        self.process.wait()


def nsd(room, port, primary):
    """Configured as tests/secondary.sh does. NSD 4.6 asks for the zone in whole by itself where it had put two transfers in place at once."""
    made = f'. "{TOP}/tests/secondary.sh"; nsd_secondary "{room}/nsd" {port} {primary} "allow-notify: 127.0.0.1 NOKEY" "${{nsd_often[@]}}"'
    subprocess.run(["bash", "-euc", made], check=True)
    return Secondary(["nsd", "-d", "-c", f"{room}/nsd.conf"], port, f"{room}/nsd.log", r"received update to serial .* of (\d+) bytes", OCTETS, "update failed, restarting transfer")


def bind(room, port, primary):
    os.mkdir(f"{room}/named")
    with open(f"{room}/named.conf", "w") as file:
        file.write(NAMED.format(folder=f"{room}/named", port=port, primary=primary))
    return Secondary(["named", "-g", "-n", "1", "-c", f"{room}/named.conf"], port, f"{room}/named.log", r"Transfer completed: .* (\d+) records", RECORDS)


def reach(trial, secondaries):
    """Waits until all hold the served serial; those that don't in half a minute are told. Where the server was killed meanwhile it is started again."""
    began, behind = time.monotonic(), dict(secondaries)
    while behind and time.monotonic() < began + REACHES:
        if trial.server.has_ended():
            now = trial.start()
            trial.check(trial.next, set(), now)
            trial.held = now
        for name in [name for name, secondary in behind.items() if serial(secondary.port) == trial.held[0]]:
            del behind[name]
        trial.server.drain()
        if behind:
            time.sleep(0.02)
    for name, secondary in behind.items():
        trial.tell(f"{name} has the serial {serial(secondary.port)} after {REACHES} s, the server {trial.held[0]}")
    return time.monotonic() - began


def compare(trial, secondaries, number):
    """How the transfers came, and whether all hold the zone."""
    zone = crash_zone.zone(trial.server.port)
    for name, secondary in secondaries.items():
        changed, whole, anew = secondary.transfers()
        if whole > 1 + anew:
            trial.tell(f"{name} took {whole - 1} transfers in whole behind its first, and began anew {anew} times by itself")
            if trial.args.save:
                os.makedirs(trial.args.save, exist_ok=True)
                shutil.copy(secondary.log, trial.args.save)
        held = crash_zone.zone(secondary.port)
        if held != zone:
            trial.tell(f"{name} holds serial {held[0]} and {len(held[1] - zone[1])} other records, and {len(zone[1] - held[1])} are missing, at serial {zone[0]}")
        print(f"{name}: {number} rounds, {changed} transfers of what changed, {whole} in whole ({anew} since it began anew by itself), {len(held[1])} records at serial {held[0]}", flush=True)


def filled(trial):
    """Fills the zone, so that a transfer in whole is told from others by its size."""
    sender = crash_server.Sender(trial.server.port, trial.next, trial.args.outstanding, FILLED)
    end = time.monotonic() + REACHES
    while len(sender.answered) < FILLED:
        if time.monotonic() > end:
            raise SystemExit("crash: the zone can't be filled")
        sender.send()
        sender.receive()
        trial.server.drain()
    sender.close()
    trial.next = sender.next
    trial.held = crash_zone.zone(trial.server.port)


def followed(trial, times):
    """Rounds in one folder, with both secondaries behind."""
    ports = trial.args.port + 1, trial.args.port + 2
    for port in ports:
        trial.options = [*trial.options, "--notify", f"127.0.0.1:{port}"]
    trial.begin(0, is_calm=True)
    filled(trial)
    secondaries = {"NSD": nsd(trial.room, ports[0], trial.args.port), "BIND": bind(trial.room, ports[1], trial.args.port)}
    try:
        began, number, waits = time.monotonic(), 0, [reach(trial, secondaries)]
        while number < times and time.monotonic() < began + SECONDS:
            trial.round(trial.chance.choice((0.002, 0.02, 1.0)))
            waits.append(reach(trial, secondaries))
            number += 1
            if number % 20 == 0:
                print(f"{number} rounds: {trial.told()}; both at the serial after {sorted(waits)[len(waits) // 2]:.2f} s (middle), {max(waits):.2f} s at most", flush=True)
        compare(trial, secondaries, number)
    finally:
        for secondary in secondaries.values():
            secondary.end()

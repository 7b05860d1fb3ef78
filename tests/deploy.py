#!/usr/bin/env python3
"""Tries `dnsd deploy`: a zone's file is brought to a running server by one update. Against `dnsd serve`, BIND and Knot, unsigned and by a key (RFC 8945), the zone that is
transferred afterwards is that of the file, the last line says what changed, and a second deployment changes nothing. A dry run sends nothing; who may not transfer or
update, another apex, a change of more than one message, other keys and other secrets get a sentence and a status; where others change the zone in between, the update is
made again, three times in all. Servers that the script itself plays send transfers of many messages, signed as RFC 8945, 5.3.1 permits and otherwise, replies of another
ID, and less than a message. Usage: [DNSD=PROGRAM] tests/deploy.py, by the program crates/dnsd/out/dnsd. It listens on 127.0.0.1 alone. Without Debian's bind9 or knot
their part is left out, which it says. It needs dig. Its status is 1 where something failed."""
import base64
import hashlib
import hmac
import os
import random
import shutil
import socket
import struct
import subprocess
import sys
import tempfile
import threading
import time

top = os.path.dirname(os.path.dirname(os.path.abspath(__file__)))
program = os.environ.get("DNSD", f"{top}/crates/dnsd/out/dnsd")
os.environ["PATH"] += ":/usr/sbin:/sbin"
APEX = bytes.fromhex("076578616d706c65047465737400")
SECRET = base64.b64encode(bytes(range(32))).decode()
OTHER = base64.b64encode(bytes(range(1, 33))).decode()
failed = 0

SOA = "example.test. 3600 IN SOA ns1.example.test. admin.example.test. {} 7200 900 1209600 300"
OLD = [SOA.format(1), "example.test. 3600 IN NS ns1.example.test.", 'note.example.test. 3600 IN TXT "two  blanks" "; and a semicolon"', "ns1.example.test. 3600 IN A 192.0.2.1",
       "web.example.test. 3600 IN A 192.0.2.10", "www.example.test. 3600 IN CNAME web.example.test."]
NEW = [SOA.format(2026112801), "example.test. 3600 IN NS ns1.example.test.", "caa.example.test. 3600 IN TYPE257 \\# 22 000569737375656c657473656e63727970742e6f7267",
       "ns1.example.test. 300 IN A 192.0.2.1", "web.example.test. 3600 IN A 192.0.2.11", "www.example.test. 3600 IN A 192.0.2.11"]
CAA = 'caa.example.test. 3600 IN CAA 0 issue "letsencrypt.org"'
CHANGED = "example.test.: serial 1 to 2026112801, 4 records deleted, 4 added\n"
UNCHANGED = "example.test.: nothing to change, serial 2026112801\n"
CHANGE = """- example.test. 3600 IN SOA ns1.example.test. admin.example.test. 1 7200 900 1209600 300
- note.example.test. 3600 IN TXT "two  blanks" "; and a semicolon"
- ns1.example.test. 3600 IN A 192.0.2.1
- web.example.test. 3600 IN A 192.0.2.10
- www.example.test. 3600 IN CNAME web.example.test.
+ example.test. 3600 IN SOA ns1.example.test. admin.example.test. 2026112801 7200 900 1209600 300
+ caa.example.test. 3600 IN TYPE257 \\# 22 000569737375656c657473656e63727970742e6f7267
+ ns1.example.test. 300 IN A 192.0.2.1
+ web.example.test. 3600 IN A 192.0.2.11
+ www.example.test. 3600 IN A 192.0.2.11
"""


def check(what, right, got):
    global failed
    failed += right != got
    print(("ok     " if right == got else "FAILED ") + what, flush=True)
    if right != got:
        print(f"           right: {right!r:.900}\n           got:   {got!r:.900}", flush=True)


def write(path, text, mode=0o644):
    with open(path, "w", encoding="ascii") as file:
        file.write(text)
    os.chmod(path, mode)
    return path


def deploy(port, *words):
    """The status of a deployment, what it printed, and what it wrote on standard error, where the server's port is left out."""
    done = subprocess.run([program, "deploy", *words[:-1], f"127.0.0.1:{port}", words[-1]], capture_output=True, text=True, timeout=900)
    return done.returncode, done.stdout, done.stderr.replace(f"127.0.0.1:{port}", "SERVER")


def free_port():
    """A port that is free by TCP and UDP, below those that the system gives to clients."""
    for port in random.sample(range(20_000, 30_000), 200):
        with socket.socket() as stream, socket.socket(type=socket.SOCK_DGRAM) as datagrams:
            try:
                stream.bind(("127.0.0.1", port))
                datagrams.bind(("127.0.0.1", port))
            except OSError:
                continue
            return port
    raise RuntimeError("no free port")


def zone_of(port, *words):
    """The records of a server's zone, in order, as dig transfers them."""
    words = ["dig", "@127.0.0.1", "-p", str(port), "+noall", "+answer", "+onesoa", *words, "example.test", "AXFR"]
    done = subprocess.run(words, capture_output=True, text=True, timeout=60)
    lines = [" ".join(line.split()) for line in done.stdout.splitlines() if line and not line.startswith(";")]
    return sorted(line for line in lines if " ANY TSIG " not in line)


def serial_of(port):
    done = subprocess.run(["dig", "@127.0.0.1", "-p", str(port), "+short", "+tcp", "+tries=1", "+timeout=1", "example.test", "SOA"], capture_output=True, text=True, timeout=30)
    return done.stdout.split()[2:3]


class Server:
    """A server that runs until the end of a block: its program's words, its port, and what tells that it serves."""

    def __init__(self, words, port=None):
        self.port, self.words = port, words

    def __enter__(self):
        self.log = tempfile.TemporaryFile("w+")
        self.process = subprocess.Popen(self.words, stdout=self.log, stderr=self.log)
        for _ in range(2400):
            if self.is_ready():
                return self
            if self.process.poll() is not None:
                break
            time.sleep(0.05)
        raise RuntimeError(f"{self.words[0]} doesn't serve: {self.said()}")

    def said(self):
        self.log.seek(0)
        return self.log.read()

    def is_ready(self):
        return serial_of(self.port) != []

    def __exit__(self, *_):
        self.process.terminate()
        self.process.wait()


class Dnsd(Server):
    """`dnsd serve` over a zone's file, with these options."""

    def __init__(self, zone, *words):
        super().__init__([program, "serve", "--listen", "127.0.0.1:0", "--workers", "1", *words, zone])

    def is_ready(self):
        lines = [line for line in self.said().splitlines() if line.startswith("listening on")]
        if lines:
            self.port = int(lines[-1].split(": ")[0].rsplit(":", 1)[1])
        return bool(lines)


def named(room, zone, key):
    """BIND with a primary zone of its own copy of a file: who has the key may transfer and update, or without one 127.0.0.1."""
    port, folder = free_port(), tempfile.mkdtemp(dir=room)
    shutil.copy(zone, f"{folder}/zone")
    who = 'key "deploy.key"' if key else "127.0.0.1"
    write(f"{folder}/conf", f"""options {{ directory "{folder}"; pid-file none; session-keyfile none; listen-on port {port} {{ 127.0.0.1; }}; listen-on-v6 {{ none; }};
  recursion no; notify no; dnssec-validation no; }};
controls {{ }};
{key}
zone "example.test" {{ type primary; file "zone"; allow-transfer {{ {who}; }}; allow-update {{ {who}; }}; }};
""")
    return Server(["named", "-g", "-n", "1", "-c", f"{folder}/conf"], port)


def knotd(room, zone, key):
    """The same of Knot."""
    port, folder = free_port(), tempfile.mkdtemp(dir=room)
    shutil.copy(zone, f"{folder}/zone")
    who = "key: deploy.key" if key else "address: 127.0.0.1"
    keys = f"key:\n  - id: deploy.key\n    algorithm: hmac-sha256\n    secret: {SECRET}\n" if key else ""
    write(f"{folder}/conf", f"""server:
    rundir: "{folder}"
    listen: 127.0.0.1@{port}
    udp-workers: 1
    tcp-workers: 1
database:
    storage: "{folder}"
{keys}acl:
  - id: deploy
    {who}
    action: [transfer, update]
zone:
  - domain: example.test.
    storage: "{folder}"
    file: zone
    acl: deploy
log:
  - target: stderr
    any: info
""")
    return Server(["knotd", "-c", f"{folder}/conf"], port)


# Messages of a server that the script plays.
def name(text):
    return b"".join(bytes([len(label)]) + label.encode() for label in text.rstrip(".").split(".")) + b"\0"


def record(owner, rtype, data, ttl=3600):
    return owner + struct.pack(">2HIH", rtype, 1, ttl, len(data)) + data


def soa(serial):
    return record(APEX, 6, name("ns1.example.test") + name("admin.example.test") + struct.pack(">5I", serial, 7200, 900, 1209600, 300))


NS = record(APEX, 2, name("ns1.example.test"))
HOSTS = [record(name(owner), 1, bytes([192, 0, 2, last])) for owner, last in (("ns1.example.test", 1), ("web.example.test", 10))]


def reply(query, records, code=0, opcode=0):
    return query[:2] + bytes([0x80 + 8 * opcode + 4, code]) + struct.pack(">4H", 0, len(records), 0, 0) + b"".join(records)


def signed(secret, prior, since, plain, later, when=None):
    """A message with its TSIG, and its MAC, behind a MAC and unsigned messages (RFC 8945, 4.3 and 5.3.1)."""
    when = int(time.time()) if when is None else when
    owner, algorithm = name("deploy.key"), name("hmac-sha256")
    timers = struct.pack(">HIH", when >> 32, when & 0xFFFFFFFF, 300)
    variables = timers if later else owner + struct.pack(">HI", 255, 0) + algorithm + timers + struct.pack(">2H", 0, 0)
    text = struct.pack(">H", len(prior)) + prior + since + plain + variables
    mac = hmac.new(base64.b64decode(secret), text, hashlib.sha256).digest()
    data = algorithm + timers + struct.pack(">H", len(mac)) + mac + plain[:2] + struct.pack(">2H", 0, 0)
    tsig = owner + struct.pack(">2HIH", 250, 255, 0, len(data)) + data
    return plain[:10] + struct.pack(">H", struct.unpack(">H", plain[10:12])[0] + 1) + plain[12:] + tsig, mac


def mac_of(message):
    """The MAC of a request by hmac-sha256 that is signed: 32 octets before the last six."""
    return message[-38:-6]


def read_exactly(client, count):
    octets = b""
    while len(octets) < count:
        more = client.recv(count - len(octets))
        if not more:
            raise ConnectionError("closed")
        octets += more
    return octets


def read_message(client):
    return read_exactly(client, struct.unpack(">H", read_exactly(client, 2))[0])


def framed(message):
    return struct.pack(">H", len(message)) + message


class Played:
    """A server whose replies a function gives: the octets to be sent for a request, on each connection one."""

    def __init__(self, answer):
        self.answer, self.requests = answer, []

    def __enter__(self):
        self.socket = socket.create_server(("127.0.0.1", 0))
        self.port = self.socket.getsockname()[1]
        threading.Thread(target=self.run, daemon=True).start()
        return self

    def run(self):
        while True:
            try:
                client, _ = self.socket.accept()
            except OSError:
                return
            with client:
                try:
                    request = read_message(client)
                    self.requests.append(request)
                    client.sendall(self.answer(request))
                    client.shutdown(socket.SHUT_WR)
                    client.settimeout(2)
                    client.recv(1)
                except OSError:
                    pass

    def __exit__(self, *_):
        self.socket.close()


def is_update(request):
    return request[2] // 8 % 16 == 5


def asked(port, message):
    """The reply of a server to a message over TCP."""
    with socket.create_connection(("127.0.0.1", port), 30) as client:
        client.sendall(framed(message))
        return framed(read_message(client))


def transfer_by(port, message):
    """All messages of a transfer, up to the end of the connection's silence."""
    with socket.create_connection(("127.0.0.1", port), 30) as client:
        client.sendall(framed(message))
        octets = framed(read_message(client))
        client.settimeout(0.3)
        try:
            while more := client.recv(65536):
                octets += more
        except TimeoutError:
            pass
        return octets


def added(number):
    """An update that adds an address."""
    owner = name(f"moved{number}.example.test")
    return struct.pack(">6H", 7, 0x2800, 1, 0, 1, 0) + APEX + struct.pack(">2H", 6, 1) + record(owner, 1, bytes([192, 0, 2, 99]))


def servers(room, old, key):
    yield "dnsd", Dnsd(old, *(("--allow", "", "--keys", f"{room}/keys", "--may", "key deploy.key: transfer, update") if key else ()))
    for tool, made in (("named", named), ("knotd", knotd)):
        if shutil.which(tool):
            yield tool, made(room, old, key)
        else:
            print(f"       no {tool}: its part is left out")


def beside_servers(room):
    old, new = write(f"{room}/old", "\n".join(OLD) + "\n"), write(f"{room}/new", "\n".join(NEW) + "\n")
    key = f'key "deploy.key" {{ algorithm hmac-sha256; secret "{SECRET}"; }};'
    write(f"{room}/keys", key + "\n", 0o600)
    right = sorted(CAA if "TYPE257" in line else line for line in NEW)
    dig_key = ["-y", f"hmac-sha256:deploy.key:{SECRET}"]
    for by in ("", key):
        words, dig_words = (["--key", f"{room}/keys"], dig_key) if by else ([], [])
        form = "by a key" if by else "unsigned"
        for tool, server in servers(room, old, by):
            with server:
                check(f"{tool}, {form}, dry run", (0, CHANGE + CHANGED, ""), deploy(server.port, *words, "--dry-run", new))
                check(f"{tool}, {form}, dry run sends nothing", ["1"], serial_of(server.port))
                check(f"{tool}, {form}", (0, CHANGED, ""), deploy(server.port, *words, new))
                check(f"{tool}, {form}, what is transferred then", right, zone_of(server.port, *dig_words))
                check(f"{tool}, {form}, again", (0, UNCHANGED, ""), deploy(server.port, *words, new))
                check(f"{tool}, {form}, by a serial that is lesser",
                      (0, "example.test.: serial 2026112801 to 2026112802, 4 records deleted, 4 added\n", "serial 1 of ZONE isn't greater than 2026112801: 2026112802 is served\n"),
                      deploy(server.port, *words, old))
                check(f"{tool}, {form}, the serial then", ["2026112802"], serial_of(server.port))
                if by:
                    refused(tool, room, server.port, new)


def refused(tool, room, port, new):
    """What deployments by no key, an unknown one and another secret get from a server with keys."""
    status, printed, told = deploy(port, new)
    check(f"{tool}, without the key", (1, "", True), (status, printed, told.startswith("error: SERVER refused the transfer: ")))
    write(f"{room}/unknown", f"hmac-sha256:unknown.key:{SECRET}\n", 0o600)
    check(f"{tool}, an unknown key", (1, "", "error: SERVER refused the transfer: NOTAUTH, BADKEY\n"), deploy(port, "--key", f"{room}/unknown", new))
    write(f"{room}/other", f"hmac-sha256:deploy.key:{OTHER}\n", 0o600)
    check(f"{tool}, another secret", (1, "", "error: SERVER refused the transfer: NOTAUTH, BADSIG\n"), deploy(port, "--key", f"{room}/other", new))


def large(room):
    """A zone whose transfer has many messages, and changes of it that fit into a message, and that don't."""
    hosts = [f"h{n}.example.test. 3600 IN A 10.0.{n // 256}.{n % 256}" for n in range(4000)]
    old = write(f"{room}/large", "\n".join(OLD + hosts) + "\n")
    few = write(f"{room}/few", "\n".join(NEW + hosts[:3000]) + "\n")
    none = write(f"{room}/none", "\n".join(NEW) + "\n")
    for by in ("", f'key "deploy.key" {{ algorithm hmac-sha256; secret "{SECRET}"; }};'):
        words, form = (["--key", f"{room}/keys"], "by a key") if by else ([], "unsigned")
        for tool, server in servers(room, old, by):
            with server:
                check(f"{tool}, {form}, 4,000 records, a change of more than a message", (1, "", "error: the update doesn't fit into one message\n"), deploy(server.port, *words, none))
                check(f"{tool}, {form}, 4,000 records, dry run of it", 1, deploy(server.port, *words, "--dry-run", none)[0])
                check(f"{tool}, {form}, 4,000 records, the serial after it", ["1"], serial_of(server.port))
                check(f"{tool}, {form}, 4,000 records, a change of 1,000", (0, "example.test.: serial 1 to 2026112801, 1004 records deleted, 4 added\n", ""), deploy(server.port, *words, few))
                check(f"{tool}, {form}, 4,000 records, again", (0, UNCHANGED, ""), deploy(server.port, *words, few))


def rights(room):
    """What a server says that permits less, or serves another zone; and files that are refused."""
    old, new = f"{room}/old", f"{room}/new"
    with Dnsd(old, "--allow", "") as server:
        check("no right", (1, "", "error: SERVER refused the transfer: REFUSED\n"), deploy(server.port, new))
    with Dnsd(old, "--may", "127.0.0.1: transfer") as server:
        check("no right to update", (1, "", "error: SERVER refused the update: REFUSED\n"), deploy(server.port, new))
        check("a dry run needs none", (0, CHANGE + CHANGED, ""), deploy(server.port, "--dry-run", new))
    with Dnsd(old) as server:
        other = write(f"{room}/apex", "\n".join(NEW).replace("example.test.", "example.net.") + "\n")
        check("another apex", (1, "", "error: SERVER refused the transfer: NOTAUTH\n"), deploy(server.port, other))
        wrong = write(f"{room}/wrong", "\n".join(NEW + ["web.example.test. 3600 IN A 192.0.2.300"]) + "\n")
        status, printed, told = deploy(server.port, wrong)
        check("a text that is refused", (1, "", True), (status, printed, "line 7" in told))
        check("a file that isn't there", (3, ""), deploy(server.port, f"{room}/nothing")[:2])
        check("a key file that isn't there", (3, ""), deploy(server.port, "--key", f"{room}/nothing", new)[:2])
        loose = write(f"{room}/loose", f"hmac-sha256:deploy.key:{SECRET}\n", 0o644)
        check("a key file that others may read", (3, ""), deploy(server.port, "--key", loose, new)[:2])
        check("a key file without a key", (3, "", f"error: the key file '{room}/empty' has no key\n"), deploy(server.port, "--key", write(f"{room}/empty", "// none\n", 0o600), new))
        check("and nothing was changed", ["1"], serial_of(server.port))
    status, printed, told = deploy(free_port(), new)
    check("no server", (3, "", "error: SERVER: "), (status, printed, told[:15]))


def moved(room):
    """Where others change the zone between the transfer and the update, the update is made again, three times in all."""
    for times, right in ((1, 0), (2, 0), (3, 1)):
        with Dnsd(f"{room}/old") as server:
            moves = iter(range(times))

            def relay(request):
                if is_update(request) and (number := next(moves, None)) is not None:
                    asked(server.port, added(number))
                return (asked if is_update(request) else transfer_by)(server.port, request)

            with Played(relay) as between:
                got = deploy(between.port, f"{room}/new")
                updates = sum(is_update(request) for request in between.requests)
            check(f"the zone is changed by others {times} times", right, got[0])
            check("how many updates were sent then", min(times + 1, 3), updates)
            if right == 0:
                check("what it prints", f"example.test.: serial {times + 1} to 2026112801, {4 + times} records deleted, 4 added\n", got[1])
            else:
                check("what it says", "error: SERVER: its zone was changed by others 3 times before the update came\n", got[2])
            check("the serial then", ["2026112801"] if right == 0 else [str(times + 1)], serial_of(server.port))


def plain_parts(query):
    """A transfer's messages: one record each, as some servers send them."""
    return [reply(query, [one]) for one in (soa(1), NS, *HOSTS, soa(1))]


def chained(query, signs, secret=SECRET, spoil=None, when=None):
    """A transfer of one record a message, of which some are signed: the sum of them as octets."""
    prior, since, octets, later = mac_of(query), b"", b"", False
    for index, part in enumerate(plain_parts(query)):
        if index in signs:
            message, prior = signed(secret, prior, since, part, later, when)
            since, later = b"", True
        else:
            message, since = part, since + part
        if index == spoil:
            message = message[:-1] + bytes([message[-1] ^ 1])
        octets += framed(message)
    return octets


def played(room):
    """Servers that the script plays."""
    new = write(f"{room}/same", "\n".join([SOA.format(1), OLD[1], OLD[3], OLD[4]]) + "\n")
    nothing = "example.test.: nothing to change, serial 1\n"
    no_transfer, no_reply = "error: SERVER sent no transfer of a whole zone\n", "error: SERVER sent something other than a reply to the transfer\n"
    not_signed = "error: SERVER sent a reply to the transfer that is not signed by the key\n"
    whole = [soa(1), NS, *HOSTS, soa(1)]
    cases = [
        ("a record a message", (0, nothing, ""), lambda q: b"".join(framed(part) for part in plain_parts(q))),
        ("all in one message", (0, nothing, ""), lambda q: framed(reply(q, whole))),
        ("an empty message between", (0, nothing, ""), lambda q: framed(reply(q, whole[:2])) + framed(reply(q, [])) + framed(reply(q, whole[2:]))),
        ("another SOA at the end", (3, "", no_transfer), lambda q: framed(reply(q, whole[:-1] + [soa(2)]))),
        ("a record before the SOA", (3, "", no_transfer), lambda q: framed(reply(q, [NS] + whole))),
        ("a record of no zone", (3, "", "error: SERVER sent a transfer whose records are not a zone of this name\n"), lambda q: framed(reply(q, whole[:1] + whole[2:]))),
        ("a reply of another ID", (3, "", no_reply), lambda q: framed(bytes([q[0] ^ 1]) + reply(q, whole)[1:])),
        ("a second message of another ID", (3, "", no_reply), lambda q: framed(reply(q, whole[:2])) + framed(bytes([q[0] ^ 1]) + reply(q, whole[2:])[1:])),
        ("a reply of another OPCODE", (3, "", no_reply), lambda q: framed(reply(q, whole, opcode=5))),
        ("the query itself", (3, "", no_reply), framed),
        ("eleven octets", (3, "", no_reply), lambda q: framed(reply(q, whole)[:11])),
        ("SERVFAIL", (1, "", "error: SERVER refused the transfer: SERVFAIL\n"), lambda q: framed(reply(q, [], 2))),
        ("a code without a name", (1, "", "error: SERVER refused the transfer: RCODE 11\n"), lambda q: framed(reply(q, [], 11))),
        ("REFUSED in the second message", (1, "", "error: SERVER refused the transfer: REFUSED\n"), lambda q: framed(reply(q, whole[:2])) + framed(reply(q, [], 5))),
    ]
    for what, right, answer in cases:
        with Played(answer) as server:
            check(f"played: {what}", right, deploy(server.port, new))
    for what, answer in (("less than a message", lambda q: framed(reply(q, whole))[:-1]), ("a transfer that isn't closed", lambda q: framed(reply(q, whole[:-1]))), ("nothing", lambda q: b"")):
        with Played(answer) as server:
            status, printed, told = deploy(server.port, new)
            check(f"played: {what}", (3, "", "error: SERVER: "), (status, printed, told[:15]))
    every = set(range(5))
    now = int(time.time())
    cases = [
        ("each message signed", (0, nothing, ""), lambda q: chained(q, every)),
        ("the first and the last signed", (0, nothing, ""), lambda q: chained(q, {0, 4})),
        ("the first, the third and the last signed", (0, nothing, ""), lambda q: chained(q, {0, 2, 4})),
        ("the last not signed", (3, "", not_signed), lambda q: chained(q, {0, 1, 2, 3})),
        ("the first not signed", (3, "", not_signed), lambda q: chained(q, {1, 2, 3, 4})),
        ("nothing signed", (3, "", not_signed), lambda q: chained(q, set())),
        ("another secret", (3, "", not_signed), lambda q: chained(q, every, OTHER)),
        ("a message between that was changed", (3, "", not_signed), lambda q: chained(q, {0, 4}, spoil=2)),
        ("a time of ten minutes ago", (3, "", not_signed), lambda q: chained(q, every, when=now - 600)),
        ("the first behind another MAC", (3, "", not_signed), lambda q: chained(q[:-38] + bytes(32) + q[-6:], every)),
        ("REFUSED, signed", (1, "", "error: SERVER refused the transfer: REFUSED\n"), lambda q: framed(signed(SECRET, mac_of(q), b"", reply(q, [], 5), False)[0])),
        ("REFUSED, not signed", (3, "", not_signed), lambda q: framed(reply(q, [], 5))),
    ]
    for what, right, answer in cases:
        with Played(answer) as server:
            check(f"played by a key: {what}", right, deploy(server.port, "--key", f"{room}/keys", new))
    for count, right in ((99, (0, nothing, "")), (100, (3, "", not_signed))):

        def answer(query, count=count):
            first, prior = signed(SECRET, mac_of(query), b"", reply(query, whole[:2]), False)
            between = [reply(query, []) for _ in range(count)]
            last, _ = signed(SECRET, prior, b"".join(between), reply(query, whole[2:]), True)
            return b"".join(map(framed, [first, *between, last]))

        with Played(answer) as server:
            check(f"played by a key: {count} messages that aren't signed", right, deploy(server.port, "--key", f"{room}/keys", new))
    updates(room)


def updates(room):
    """Replies to the update of a server that the script plays."""
    whole = [soa(1), NS, *HOSTS, soa(1)]
    new = f"{room}/new"
    not_signed = "error: SERVER sent a reply to the update that is not signed by the key\n"
    no_reply = "error: SERVER sent something other than a reply to the update\n"
    done = "example.test.: serial 1 to 2026112801, 2 records deleted, 4 added\n"
    cases = [
        ("NOERROR", (0, done, ""), lambda q: reply(q, [], 0, 5)),
        ("NOTZONE", (1, "", "error: SERVER refused the update: NOTZONE\n"), lambda q: reply(q, [], 10, 5)),
        ("another ID", (3, "", no_reply), lambda q: bytes([q[0] ^ 1]) + reply(q, [], 0, 5)[1:]),
        ("OPCODE QUERY", (3, "", no_reply), lambda q: reply(q, [], 0, 0)),
    ]
    for what, right, answer in cases:
        with Played(lambda q: framed(answer(q) if is_update(q) else reply(q, whole))) as server:
            check(f"played, the update's reply: {what}", right, deploy(server.port, new))
    cases = [
        ("signed", (0, done, ""), lambda q: signed(SECRET, mac_of(q), b"", reply(q, [], 0, 5), False)[0]),
        ("not signed", (3, "", not_signed), lambda q: reply(q, [], 0, 5)),
        ("signed behind another MAC", (3, "", not_signed), lambda q: signed(SECRET, bytes(32), b"", reply(q, [], 0, 5), False)[0]),
        ("NXRRSET, signed", (1, "", "error: SERVER: its zone was changed by others 3 times before the update came\n"),
         lambda q: signed(SECRET, mac_of(q), b"", reply(q, [], 8, 5), False)[0]),
    ]
    for what, right, answer in cases:
        with Played(lambda q: framed(answer(q)) if is_update(q) else chained_whole(q, whole)) as server:
            check(f"played by a key, the update's reply: {what}", right, deploy(server.port, "--key", f"{room}/keys", new))


def chained_whole(query, whole):
    return framed(signed(SECRET, mac_of(query), b"", reply(query, whole), False)[0])


def main():
    if not shutil.which("dig"):
        sys.exit("deploy: no dig: it needs Debian's bind9-dnsutils")
    with tempfile.TemporaryDirectory() as room:
        os.chmod(room, 0o755)
        beside_servers(room)
        rights(room)
        moved(room)
        played(room)
        large(room)
    print(f"{failed} failed")
    sys.exit(failed != 0)


main()

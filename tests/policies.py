#!/usr/bin/env python3
"""Tries thirty updates on `dnsd` with rules, on BIND with `update-policy` and on Knot with `acl`, as alike as each can say it: each gets NOERROR or REFUSED by all three, but
where the table says what BIND or Knot does otherwise. Knot says NOTAUTH in place of REFUSED, which counts as the same. BIND knows a sender by its key, dnsd and Knot by its address: all three get the same octets, with a TSIG (RFC 8945),
from the same address.
Usage: [DNSD=PROGRAM] tests/policies.py, by default crates/dnsd/out/dnsd. It needs named and knotd, takes ten seconds, and listens on 127.0.0.1 alone; status 1 where one
differs."""
import base64
import hashlib
import hmac
import os
import re
import shutil
import socket
import struct
import subprocess
import sys
import tempfile
import time

from rules import A, ANY, NOERROR, NS, REFUSED, TXT, added, gone, name, program, top, update, zone

AAAA, SOA, PTR, CAA, NOTAUTH = 28, 6, 12, 257, 9
SECRET = bytes(range(32))
# who, by the last octet of 127.0.0.0/8 and by the key of that number: names, types
GRANTS = [
    (2, "at-or-below", "dyn.example.test.", "A AAAA TXT"),
    (3, "exact", "_acme-challenge.www.example.test.", "TXT"),
    (4, "exact", "_acme-challenge.www.example.test.", ""),
    (5, "at-or-below", "example.test.", ""),
    (6, "at-or-below", "example.test.", "A NS TYPE257"),
]
HOST = bytes([192, 0, 2, 1])
ACME = "_acme-challenge.www.example.test"
NEW_SOA = name("ns1.example.test") + name("admin.example.test") + struct.pack(">5L", 1000, 7200, 900, 1209600, 300)
SAME = (None, None)
# what: who, records, the code of dnsd, and those of BIND and of Knot where they differ
TABLE = [
    ("a type of the rule", 2, [added("h1.dyn.example.test", A, HOST)], NOERROR, SAME),
    ("another type of it", 2, [added("h1.dyn.example.test", AAAA, bytes(16))], NOERROR, SAME),
    ("the name itself", 2, [added("dyn.example.test", TXT, b"\1a")], NOERROR, SAME),
    ("deep below it", 2, [added("a.b.c.dyn.example.test", A, HOST)], NOERROR, SAME),
    ("in capitals", 2, [added("H2.DYN.Example.TEST", A, HOST)], NOERROR, SAME),
    ("a type that isn't the rule's", 2, [added("h1.dyn.example.test", PTR, name("a.example.test"))], REFUSED, SAME),
    ("beside the name", 2, [added("h1.dynamic.example.test", A, HOST)], REFUSED, SAME),
    ("above the name", 2, [added("example.test", A, HOST)], REFUSED, SAME),
    ("two of the rule", 2, [added("h3.dyn.example.test", A, HOST), added("h4.dyn.example.test", A, HOST)], NOERROR, SAME),
    ("the second isn't", 2, [added("h5.dyn.example.test", A, HOST), added("h5.example.test", A, HOST)], REFUSED, SAME),
    ("the first isn't", 2, [added("h5.example.test", A, HOST), added("h5.dyn.example.test", A, HOST)], REFUSED, SAME),
    ("a set of its type goes", 2, [gone("h3.dyn.example.test", A)], NOERROR, SAME),
    ("a set of another type goes, which isn't there", 2, [gone("h3.dyn.example.test", PTR)], REFUSED, (NOERROR, None)),
    ("all sets of a name that isn't there go", 2, [gone("nothing.dyn.example.test", ANY)], REFUSED, (NOERROR, None)),
    ("all sets go, of types of the rule", 2, [gone("h4.dyn.example.test", ANY)], REFUSED, (NOERROR, None)),
    ("one record of its type goes", 2, [name("h2.dyn.example.test") + struct.pack(">HHIH", A, 254, 0, 4) + HOST], NOERROR, SAME),
    ("the one name", 3, [added(ACME, TXT, b"\1a")], NOERROR, SAME),
    ("the one name, another type", 3, [added(ACME, A, HOST)], REFUSED, SAME),
    ("below the one name", 3, [added("a." + ACME, TXT, b"\1a")], REFUSED, SAME),
    ("each type of the one name", 4, [added(ACME, PTR, name("a.example.test"))], NOERROR, SAME),
    ("all sets of the one name", 4, [gone(ACME, ANY)], NOERROR, SAME),
    ("all sets of another name", 4, [gone("web.example.test", ANY)], REFUSED, SAME),
    ("the whole zone", 5, [added("any.example.test", TXT, b"\1a"), gone("any.example.test", ANY)], NOERROR, SAME),
    ("an NS below the apex", 5, [added("sub.example.test", NS, name("ns.sub.example.test"))], NOERROR, (REFUSED, None)),
    ("an NS of the apex", 5, [added("example.test", NS, name("ns7.example.net"))], NOERROR, (REFUSED, None)),
    ("the SOA", 5, [added("example.test", SOA, NEW_SOA)], NOERROR, (REFUSED, None)),
    ("an NS below the apex, by its type", 6, [added("sub2.example.test", NS, name("ns.sub.example.test"))], NOERROR, SAME),
    ("an NS of the apex, by its type", 6, [added("example.test", NS, name("ns8.example.net"))], REFUSED, (NOERROR, NOERROR)),
    ("a type by its number", 6, [added("caa.example.test", CAA, b"\0\5issuea.test")], NOERROR, SAME),
    ("by an address without a rule", 7, [added("h6.dyn.example.test", A, HOST)], REFUSED, SAME),
]
failed = 0


def told(is_right, what):
    global failed
    failed += not is_right
    print(("ok     " if is_right else "FAILED ") + what, flush=True)


def signed(message, key):
    """A message with the TSIG of a key (RFC 8945, 4.2 and 4.3.3)."""
    owner, algorithm = name(f"k{key}"), name("hmac-sha256")
    clock = struct.pack(">HLH", 0, int(time.time()), 300)
    mac = hmac.new(SECRET, message + owner + struct.pack(">HL", 255, 0) + algorithm + clock + bytes(4), hashlib.sha256).digest()
    data = algorithm + clock + struct.pack(">H", len(mac)) + mac + message[:2] + bytes(4)
    return message[:10] + struct.pack(">H", 1) + message[12:] + owner + struct.pack(">HHLH", 250, 255, 0, len(data)) + data


def free_port():
    with socket.socket() as one:
        one.bind(("127.0.0.1", 0))
        return one.getsockname()[1]


def asked(port, message, last):
    """The code of the reply to a message on a connection from an address."""
    with socket.create_connection(("127.0.0.1", port), 10, (f"127.0.0.{last}", 0)) as client:
        client.sendall(struct.pack(">H", len(message)) + message)
        code = client.recv(4096)[5] & 15
        return REFUSED if code == NOTAUTH else code


def dnsd_words(folder, port):
    words = [program, "serve", "--listen", f"127.0.0.1:{port}", "--workers", "1"]
    for who, scope, owner, types in GRANTS:
        words += ["--may", f"127.0.0.{who}: update {scope} {owner} {types}".strip()]
    return words + [zone]


def named_words(folder, port):
    keys = "".join(f'key "k{who}" {{ algorithm hmac-sha256; secret "{base64.b64encode(SECRET).decode()}"; }};\n' for who in range(2, 8))
    scopes = {"exact": "name", "at-or-below": "subdomain"}
    grants = " ".join(f"grant k{who} {scopes[scope]} {owner} {types};" for who, scope, owner, types in GRANTS)
    with open(f"{folder}/named.conf", "w") as conf:
        conf.write(
            f'options {{ directory "{folder}"; pid-file none; session-keyfile none; listen-on port {port} {{ 127.0.0.1; }}; listen-on-v6 {{ none; }}; recursion no; notify no; }};\n'
            f'controls {{ }};\n{keys}zone "example.test" {{ type primary; file "zone"; update-policy {{ {grants} }}; }};\n'
        )
    return ["named", "-g", "-n", "1", "-c", f"{folder}/named.conf"]


def knotd_words(folder, port):
    keys = "".join(f"  - id: k{who}\n    algorithm: hmac-sha256\n    secret: {base64.b64encode(SECRET).decode()}\n" for who in range(2, 8))
    matches = {"exact": "equal", "at-or-below": "sub-or-equal"}
    rules = ""
    for who, scope, owner, types in GRANTS:
        rules += f"  - id: a{who}\n    address: 127.0.0.{who}\n    key: k{who}\n    action: update\n    update-owner: name\n    update-owner-match: {matches[scope]}\n    update-owner-name: [{owner}]\n"
        if types:
            rules += f"    update-type: [{', '.join(types.split())}]\n"
    names = ", ".join(f"a{it[0]}" for it in GRANTS)
    with open(f"{folder}/knot.conf", "w") as conf:
        conf.write(
            f"server:\n  listen: 127.0.0.1@{port}\n  rundir: {folder}\n  udp-workers: 1\n  tcp-workers: 1\ndatabase:\n  storage: {folder}\nlog:\n  - target: stderr\n    any: info\n"
            f"key:\n{keys}acl:\n{rules}zone:\n  - domain: example.test\n    storage: {folder}\n    file: zone\n    acl: [{names}]\n    zonefile-sync: -1\n    journal-content: none\n    semantic-checks: off\n"
        )
    return ["knotd", "-c", f"{folder}/knot.conf"]


def codes_of(words_for):
    """The codes that a server gives the updates of the table; None where it doesn't answer."""
    port = free_port()
    with tempfile.TemporaryDirectory() as folder:
        os.chmod(folder, 0o755)
        shutil.copy(zone, f"{folder}/zone")
        with open(f"{folder}/log", "w") as log:
            process = subprocess.Popen(words_for(folder, port), stderr=log, stdout=log)
            try:
                for _ in range(100):
                    try:
                        asked(port, struct.pack(">6H", 1, 0, 1, 0, 0, 0) + name("example.test") + struct.pack(">HH", 6, 1), 2)
                        break
                    except OSError:
                        time.sleep(0.1)
                return [asked(port, signed(update(*records), who), who) for _what, who, records, _code, _others in TABLE]
            except OSError as fault:
                print(open(f"{folder}/log").read()[-3000:], fault, file=sys.stderr)
                return None
            finally:
                process.terminate()
                process.wait()


def main():
    lacking = [it for it in ("named", "knotd") if not shutil.which(it)]
    if lacking:
        print(f"policies: no {' and no '.join(lacking)}: apt-get install bind9 knot", file=sys.stderr)
        return 1
    servers = {"dnsd": dnsd_words, "BIND": named_words, "Knot": knotd_words}
    names = sys.argv[1:] or list(servers)
    codes = {it: codes_of(servers[it]) for it in names}
    for it in names:
        told(codes[it] is not None, f"{it} answers")
    for place, (what, _who, _records, code, (bind, knot)) in enumerate(TABLE):
        wanted = {"dnsd": code, "BIND": code if bind is None else bind, "Knot": code if knot is None else knot}
        for it in names:
            if codes[it]:
                told(codes[it][place] == wanted[it], f"{what}: {it}: {codes[it][place]}" + ("" if wanted[it] == code else ", otherwise than dnsd"))
    print(f"{len(TABLE)} updates, {failed} failed")
    return failed > 0


if __name__ == "__main__":
    sys.exit(main())

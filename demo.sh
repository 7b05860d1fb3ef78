#!/usr/bin/env bash
# Compiles dnsd and runs `dnsd serve` over zones/example.test.zone on a free port of 127.0.0.1, asks it two questions, one over UDP and
# one over TCP, by a client of its own, and prints each request with its reply; then it has ended. The program runs as it is compiled:
# nothing is proved here (`make dnsd` proves it). It needs python3.
set -euo pipefail
cd "$(dirname "$0")/crates/dnsd"
port=$(python3 -c '
import socket
with socket.create_server(("127.0.0.1", 0)) as listener:
    print(listener.getsockname()[1])')
echo "compiling dnsd; nothing is proved here (make dnsd proves it)"
said=$(mktemp)
trap 'rm -f "$said"; kill "$tried" 2>/dev/null || true' EXIT
# compiled with checks, functions have large frames: `serve` needs more than 8 MiB of stack
ulimit -s 32768 2>/dev/null || true
# its one worker ends after a datagram and a connection
rt try -- serve --listen "127.0.0.1:$port" --workers 1 --count 2 - <../../zones/example.test.zone >"$said" 2>&1 &
tried=$!
python3 - "$port" "$tried" <<'end' || { cat "$said" >&2; exit 1; }
import os, socket, struct, sys, time
server, tried = ("127.0.0.1", int(sys.argv[1])), int(sys.argv[2])

def request_for(name, rtype):
    """A query (RFC 1035, 4.1): the ID 0x1234, RD, one question of class IN."""
    labels = b"".join(bytes([len(label)]) + label.encode() for label in name.rstrip(".").split("."))
    return struct.pack(">6H", 0x1234, 0x0100, 1, 0, 0, 0) + labels + b"\0" + struct.pack(">2H", rtype, 1)

def over_udp(request):
    """The reply to a datagram, sent anew while nobody listens there yet."""
    while True:
        os.kill(tried, 0)
        with socket.socket(socket.AF_INET, socket.SOCK_DGRAM) as client:
            client.settimeout(1)
            try:
                client.connect(server)
                client.send(request)
                return client.recv(512)
            except (ConnectionRefusedError, TimeoutError):
                time.sleep(0.1)

def over_tcp(request):
    """The reply on a connection, where two octets with the length stand before a message (RFC 1035, 4.2.2)."""
    with socket.create_connection(server, timeout=5) as client, client.makefile("rb") as replies:
        client.sendall(struct.pack(">H", len(request)) + request)
        return replies.read(*struct.unpack(">H", replies.read(2)))

for ask, over, name in ((over_udp, "UDP", "www.example.test."), (over_tcp, "TCP", "nope.example.test.")):
    request = request_for(name, 1)
    reply = ask(request)
    code = {0: "NOERROR", 3: "NXDOMAIN"}.get(reply[3] & 15, "another code")
    answers = struct.unpack(">H", reply[6:8])[0]
    print(f"{name} A over {over}: {code}, {answers} records in the answer\nrequest {request.hex()}\nreply   {reply.hex()}")
end
wait "$tried"
sed -n '1p' "$said"

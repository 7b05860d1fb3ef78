#!/usr/bin/env python3
"""Passes on what a resolver asks a name server, over UDP and TCP, and writes a line a request: `udp` or `tcp`, the name asked, its type,
and `opt` where its additional section has an OPT record (RFC 6891, 6.1.1), else `bare`.

Usage: tests/relay.py PORT SERVER-PORT LOG; both ports are of 127.0.0.1. It runs until it is ended."""
import socket
import struct
import sys
import threading


def name_at(octets, at):
    """The name at a position, without pointers, as text, and the position behind it."""
    labels = []
    while octets[at]:
        labels.append(octets[at + 1 : at + 1 + octets[at]].decode("latin-1"))
        at += 1 + octets[at]
    return ".".join(labels) + ".", at + 1


def asked(octets):
    """The question of a request, and whether its last record is an OPT: a root owner and type 41 behind the question."""
    questions, answers, authorities, additionals = struct.unpack(">4H", octets[4:12])
    name, at = name_at(octets, 12)
    rtype = struct.unpack(">H", octets[at : at + 2])[0]
    behind = octets[at + 4 : at + 7]
    has_opt = (questions, answers, authorities) == (1, 0, 0) and additionals == 1 and behind == b"\0\0\x29"
    return f"{name} {rtype} {'opt' if has_opt else 'bare'}"


def over_udp(port, server, log):
    """Passes on datagrams, one after another."""
    ours = socket.socket(socket.AF_INET, socket.SOCK_DGRAM)
    ours.bind(("127.0.0.1", port))
    while True:
        octets, client = ours.recvfrom(65535)
        print(f"udp {asked(octets)}", file=log, flush=True)
        with socket.socket(socket.AF_INET, socket.SOCK_DGRAM) as theirs:
            theirs.settimeout(5)
            theirs.sendto(octets, ("127.0.0.1", server))
            ours.sendto(theirs.recv(65535), client)


def whole(stream, count):
    """So many octets of a stream; none where it ends before."""
    octets = b""
    while len(octets) < count:
        more = stream.recv(count - len(octets))
        if not more:
            return b""
        octets += more
    return octets


def frame(stream):
    """A message with its length in front (RFC 1035, 4.2.2); none at the end."""
    length = whole(stream, 2)
    return length and length + whole(stream, struct.unpack(">H", length)[0])


def one_connection(client, server, log):
    """Passes on the requests of a connection, and the reply of each."""
    with client, socket.create_connection(("127.0.0.1", server)) as theirs:
        while request := frame(client):
            print(f"tcp {asked(request[2:])}", file=log, flush=True)
            theirs.sendall(request)
            client.sendall(frame(theirs))


def over_tcp(port, server, log):
    """Takes connections, each by a thread of its own."""
    listener = socket.create_server(("127.0.0.1", port))
    while True:
        client, _ = listener.accept()
        threading.Thread(target=one_connection, args=(client, server, log), daemon=True).start()


def main():
    port, server, path = int(sys.argv[1]), int(sys.argv[2]), sys.argv[3]
    with open(path, "w", encoding="utf-8") as log:
        threading.Thread(target=over_tcp, args=(port, server, log), daemon=True).start()
        over_udp(port, server, log)


main()

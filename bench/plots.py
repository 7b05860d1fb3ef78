#!/usr/bin/env python3
"""plots.py: draws bench/tcp_connections.svg, bench/updates.svg and bench/memory.svg from the figures in bench/data/*.csv.

Python's standard library alone. Run it again after a figure has changed, and commit what it draws."""
import csv
import math
import os

HERE = os.path.dirname(os.path.abspath(__file__))
# Colours that are told apart also by those who see few of them (Okabe and Ito), each with a mark of its own.
BLUE, ORANGE, GREEN = "#0072b2", "#d55e00", "#009e73"
INK, FAINT = "#222222", "#d8d8d8"
FONT = 'font-family="Helvetica, Arial, DejaVu Sans, sans-serif"'


def read(name):
    with open(os.path.join(HERE, "data", name), encoding="utf-8", newline="") as file:
        return list(csv.DictReader(file))


def text(x, y, words, size=12, anchor="start", weight="normal", turn=0, fill=INK):
    turned = f' transform="rotate({turn} {x:.1f} {y:.1f})"' if turn else ""
    return (
        f'<text x="{x:.1f}" y="{y:.1f}" font-size="{size}" text-anchor="{anchor}" font-weight="{weight}" fill="{fill}"{turned}>{words}</text>'
    )


def mark(x, y, shape, colour):
    if shape == "square":
        return f'<rect x="{x - 4:.1f}" y="{y - 4:.1f}" width="8" height="8" fill="{colour}"/>'
    if shape == "triangle":
        return f'<path d="M{x:.1f} {y - 5.5:.1f} L{x + 5:.1f} {y + 4:.1f} L{x - 5:.1f} {y + 4:.1f} Z" fill="{colour}"/>'
    return f'<circle cx="{x:.1f}" cy="{y:.1f}" r="4.5" fill="{colour}"/>'


def legend(x, y, entries, gap):
    drawn = []
    for at, (name, shape, colour) in enumerate(entries):
        left = x + at * gap
        drawn.append(f'<line x1="{left}" y1="{y}" x2="{left + 26}" y2="{y}" stroke="{colour}" stroke-width="2"/>')
        drawn += [mark(left + 13, y, shape, colour), text(left + 33, y + 4, name)]
    return drawn


class Panel:
    """An area with two axes; the one across is of logarithms but where `log_across` is unset."""

    def __init__(self, left, top, width, height, across, up, log_across=True):
        self.left, self.top, self.width, self.height = left, top, width, height
        self.across, self.up, self.log_across = across, up, log_across

    @staticmethod
    def part(value, ends, log):
        low, high = (math.log(end) if log else end for end in ends)
        return ((math.log(value) if log else value) - low) / (high - low)

    def x(self, value):
        return self.left + self.width * self.part(value, self.across, self.log_across)

    def y(self, value):
        return self.top + self.height * (1 - self.part(value, self.up, False))

    def axes(self, across_ticks, up_ticks, up_labels=True):
        right, bottom = self.left + self.width, self.top + self.height
        drawn = []
        for value, label in up_ticks:
            drawn.append(f'<line x1="{self.left}" y1="{self.y(value):.1f}" x2="{right}" y2="{self.y(value):.1f}" stroke="{FAINT}"/>')
            if up_labels:
                drawn.append(text(self.left - 8, self.y(value) + 4, label, anchor="end"))
        for value, label in across_ticks:
            drawn.append(f'<line x1="{self.x(value):.1f}" y1="{bottom}" x2="{self.x(value):.1f}" y2="{bottom + 5}" stroke="{INK}"/>')
            drawn.append(text(self.x(value), bottom + 19, label, anchor="middle"))
        drawn.append(f'<path d="M{self.left} {self.top} V{bottom} H{right}" fill="none" stroke="{INK}"/>')
        return drawn

    def line(self, points, shape, colour):
        path = " ".join(f"{self.x(x):.1f},{self.y(y):.1f}" for x, y in points)
        return [f'<polyline points="{path}" fill="none" stroke="{colour}" stroke-width="2"/>'] + [
            mark(self.x(x), self.y(y), shape, colour) for x, y in points
        ]


def write(name, width, height, title, drawn):
    body = "\n".join([text(16, 26, title, 15, weight="bold"), *drawn])
    with open(os.path.join(HERE, name), "w", encoding="utf-8") as file:
        file.write(
            f'<svg xmlns="http://www.w3.org/2000/svg" width="{width}" height="{height}" viewBox="0 0 {width} {height}" {FONT}>\n'
            f"<title>{title}</title>\n"
            f'<rect width="{width}" height="{height}" fill="#ffffff"/>\n{body}\n</svg>\n'
        )


def tcp_connections():
    rows = read("tcp_connections.csv")
    servers = [("dnsd", "circle", BLUE), ("Knot", "square", ORANGE), ("NSD", "triangle", GREEN)]
    connections = sorted({int(row["connections"]) for row in rows})
    drawn = legend(560, 22, servers, 84)
    for at, outstanding in enumerate((1, 2, 8)):
        panel = Panel(96 + at * 242, 74, 212, 236, (0.9, 60), (0, 600_000))
        drawn += panel.axes(
            [(value, str(value)) for value in connections],
            [(value, f"{value:,}") for value in range(0, 600_001, 100_000)],
            at == 0,
        )
        plural = "request" if outstanding == 1 else "requests"
        drawn.append(text(panel.left + panel.width / 2, 62, f"{outstanding} {plural} outstanding on each", anchor="middle"))
        for server, shape, colour in servers:
            points = [
                (int(row["connections"]), int(row["replies_a_second"]))
                for row in rows
                if row["server"] == server and int(row["outstanding"]) == outstanding
            ]
            drawn += panel.line(points, shape, colour)
    drawn.append(text(444, 352, "TCP connections", anchor="middle"))
    drawn.append(text(24, 192, "replies a second", anchor="middle", turn=-90))
    write("tcp_connections.svg", 820, 366, "Replies over TCP, one worker", drawn)


def updates():
    """An update waits for as many as are outstanding: its mean latency is their number by the updates a second."""
    rows = read("updates.csv")
    servers = [("dnsd --store", "dnsd", BLUE), ("named (BIND)", "named", ORANGE)]
    panel = Panel(76, 58, 416, 236, (0, 2), (0, 10.8), log_across=False)
    drawn = []
    for at, (name, _, colour) in enumerate(servers):
        drawn.append(f'<rect x="{268 + at * 120}" y="15" width="12" height="12" fill="{colour}"/>')
        drawn.append(text(285 + at * 120, 26, name))
    drawn += panel.axes([(0.5, "1"), (1.5, "32")], [(value, str(value)) for value in range(0, 11, 2)])
    for group, outstanding in enumerate((1, 32)):
        for at, (_, server, colour) in enumerate(servers):
            rate = next(int(row["updates_a_second"]) for row in rows if row["server"] == server and int(row["outstanding"]) == outstanding)
            latency = 1000 * outstanding / rate
            left, top = panel.x(group + 0.5) + (at - 1) * 62 + 4, panel.y(latency)
            bottom = panel.top + panel.height
            drawn.append(f'<rect x="{left:.1f}" y="{top:.1f}" width="54" height="{bottom - top:.1f}" fill="{colour}"/>')
            drawn.append(text(left + 27, top - 6, f"{latency:.2f}", anchor="middle"))
    drawn.append(text(panel.left + panel.width / 2, 336, "updates outstanding", anchor="middle"))
    drawn.append(text(32, 176, "mean latency, milliseconds", anchor="middle", turn=-90))
    write("updates.svg", 520, 350, "Updates that are stored", drawn)


def memory():
    rows = read("memory.csv")
    kinds = [("while the zone is read", "most_while_read", "square", ORANGE, -10), ("once it is served", "bytes_a_record", "circle", BLUE, 20)]
    panel = Panel(76, 66, 416, 228, (700, 1_300_000), (0, 500))
    drawn = legend(150, 48, [(name, shape, colour) for name, _, shape, colour, _ in kinds], 180)
    drawn += panel.axes(
        [(1000, "1,000"), (10_000, "10,000"), (100_000, "100,000"), (1_000_000, "1,000,000")], [(value, str(value)) for value in range(0, 501, 100)]
    )
    for _, column, shape, colour, below in kinds:
        points = [(int(row["records"]), int(row[column])) for row in rows]
        drawn += panel.line(points, shape, colour)
        drawn += [text(panel.x(x), panel.y(y) + below, str(y), anchor="middle", fill=colour) for x, y in points]
    drawn.append(text(panel.left + panel.width / 2, 336, "records of the zone", anchor="middle"))
    drawn.append(text(24, 176, "bytes a record", anchor="middle", turn=-90))
    write("memory.svg", 520, 350, "Memory of a zone, one address a name", drawn)


if __name__ == "__main__":
    tcp_connections()
    updates()
    memory()

#!/usr/bin/env python3
"""Tries edits of a crate by the prover, many in one check: each of another function, and none of a function that calls another edited
one, since the prover doesn't look at a function whose callee isn't proved. An edit is refused where the check names its function as not
proved; one of which no check says so is tried alone, and then the crate must not be proved.
Usage: try_edits.py NAME.., at the top of the repository: the edits of the folders crates/NAME/mistakes are made in copies of the crates. It
prints a line an edit and one a crate, and its status is 1 where an edit wasn't refused."""
import os
import re
import shutil
import subprocess
import sys
import tempfile
from concurrent.futures import ThreadPoolExecutor

HEAD = re.compile(r"^( *)(?:pub(?:\([a-z]+\))? )?(?:unsafe )?fn (\w+)", re.M)
ROW = re.compile(r"^fn (\S+): (?!proved)(.*)$", re.M)
BY_CALL = re.compile(r"it calls (.*), which (?:is|are) not proved")


class Crate:
    """A crate: its folder, and the texts of its sources as they stand."""

    def __init__(self, folder):
        self.folder, self.name = folder, os.path.basename(os.path.normpath(folder))
        self.sources = {}
        for at, _, files in os.walk(f"{folder}/src"):
            for file in files:
                path = os.path.relpath(f"{at}/{file}", folder)
                with open(f"{folder}/{path}", encoding="utf-8") as it:
                    self.sources[path] = it.read()
        self.calls = self.named_calls()

    def function_at(self, file, source, text):
        """The file and the name of the function in which a text of a source stands, whose name is None where it stands in none."""
        last = source.find(text) + len(text)
        found = None
        for head in HEAD.finditer(source, 0, last):
            end = re.compile(rf"^{head[1]}(?:\}}|\{{\}})", re.M).search(source, head.end())
            found = head[2] if end is None or end.end() >= last else None
        return file, found

    def named_calls(self):
        """Which functions each one calls, as far as names tell: those that one function of the crate has. Checks tell of others."""
        texts = {}
        for file, source in self.sources.items():
            heads = [*HEAD.finditer(source)]
            for head, after in zip(heads, [*heads[1:], None]):
                texts[file, head[2]] = texts.get((file, head[2]), "") + source[head.end() : after.start() if after else len(source)]
        names = [name for _, name in texts]
        alone = {key[1]: key for key in texts if names.count(key[1]) == 1}
        return {key: {alone[it] for it in re.findall(r"\b(\w+)\(", text) if it in alone and alone[it] != key} for key, text in texts.items()}

    def reached(self, keys):
        """All functions that some reach by calls."""
        found, more = set(), set(keys)
        while more:
            more = set().union(*(self.calls.get(it, set()) for it in more)) - found
            found |= more
        return found

    def key_of(self, path):
        """The file and name of a function, or of that around a closure, from its path in what a check says."""
        return next((it for it in self.calls if is_in(path, it)), None)

    def check(self, edits):
        """Makes edits, checks the crate, and puts its files back. Returns whether it is proved, the functions that aren't for a reason of their
        own, each with that reason, and what was said."""
        texts = dict(self.sources)
        for edit in edits:
            edit.make(texts)
        self.write(texts)
        ran = subprocess.run(["rt", "check", "--jobs", "1"], cwd=self.folder, stdin=subprocess.DEVNULL, stdout=subprocess.PIPE, stderr=subprocess.STDOUT, errors="replace")
        self.write(self.sources)
        rows = ROW.findall(ran.stdout)
        for path, why in rows:
            for other in re.findall(r"`(\S+?)`", (BY_CALL.search(why) or [""])[0]):
                self.learn(path, other)
        return ran.returncode == 0, {path: why for path, why in rows if not BY_CALL.search(why)}, ran.stdout

    def learn(self, path, other):
        """Keeps that a function calls another."""
        one, below = self.key_of(path), self.key_of(other)
        if one and below and one != below:
            self.calls[one].add(below)

    def write(self, texts):
        for file, text in texts.items():
            with open(f"{self.folder}/{file}", "w", encoding="utf-8") as it:
                it.write(text)


class Edit:
    """An edit: its name, its triples of a file, an old text and a new one, and the functions that these stand in."""

    def __init__(self, crate, path):
        self.name, self.pairs, file, old = os.path.basename(path), [], None, None
        with open(path, encoding="utf-8") as lines:
            words = [it.rstrip("\n").split(": ", 1) for it in lines if it.strip()]
        for word, text in words:
            if word == "new":
                self.pairs.append((file, old, text))
            file, old = (text, old) if word == "file" else (file, text)
        texts, self.keys = dict(crate.sources), set()
        for file, old, new in self.pairs:
            self.keys.add(crate.function_at(file, texts.get(file, ""), old))
            make_pair(texts, file, old, new) or sys.exit(f"{crate.name}/{self.name}: it can't be made")

    def make(self, texts):
        """Makes the edit in texts by their files; returns whether it can be made there."""
        made = dict(texts)
        if not all(make_pair(made, *it) for it in self.pairs):
            return False
        texts.update(made)
        return True

    def refused_in(self, rows):
        """Why its function isn't proved, or None."""
        return next((why for key in self.keys for path, why in rows.items() if is_in(path, key)), None)


def make_pair(texts, file, old, new):
    """Puts a new text in the place of an old one, which has to stand in a file once; returns whether it does."""
    if texts.get(file, "").count(old) != 1:
        return False
    texts[file] = texts[file].replace(old, new)
    return True


def is_in(path, key):
    """Whether a path that a check names is that of a function of a file, or of a closure in it."""
    file, name = key
    inside = [it for it in file.removesuffix(".rt").split("/")[1:] if it not in ("lib", "main", "mod")]
    parts = path.split("::")[1:]
    return name is not None and parts[: len(inside)] == inside and name in [it.split("+")[0] for it in parts[len(inside) :]]


def side_by_side(crate, edits):
    """Edits that one check can tell of: first of the functions that have most."""
    chosen, keys, texts = [], set(), dict(crate.sources)
    weight = {key: sum(key in it.keys for it in edits) for edit in edits for key in edit.keys}
    for edit in sorted(edits, key=lambda it: (-max(weight[key] for key in it.keys), it.name)):
        if not edit.keys & keys and not crate.reached(edit.keys) & keys and not crate.reached(keys) & edit.keys and edit.make(texts):
            chosen.append(edit)
            keys |= edit.keys
    return chosen


def tried(crate, edits):
    """Tries edits of a crate that is proved as it stands, and prints what is said of each. Returns how many are refused, and in how many checks."""
    alone = [it for it in edits if any(name is None for _, name in it.keys)]
    left, refused, checks = [it for it in edits if it not in alone], 0, 0
    while left or alone:
        chosen = side_by_side(crate, left) or [alone.pop()]
        is_proved, rows, said = crate.check(chosen)
        checks += 1
        made = {key for it in chosen for key in it.keys}
        for edit in chosen:
            why = edit.refused_in(rows)
            if why is None and len(chosen) == 1 and not is_proved and "logic=not-proved" in said:
                why = f"it isn't proved: {next(iter(rows), 'what the prover says names no function')}"
            if why is None and len(chosen) > 1:
                if not crate.reached(edit.keys) & made:
                    left.remove(edit)
                    alone.append(edit)
                continue
            left = [it for it in left if it is not edit]
            refused += why is not None
            verdict = f"refused, as it must be: {why[:160]}" if why else f"NOT REFUSED: {said.rstrip().splitlines()[-1][:200]}"
            print(f"{crate.name}/{edit.name}: {verdict}", flush=True)
    return refused, checks


def libraries():
    """The libraries of this repository that each crate names in crates.txt."""
    with open("crates.txt", encoding="utf-8") as it:
        rows = [line.split("#")[0].partition(":") for line in it if ":" in line.split("#")[0]]
    named = {head.split()[0]: below.split() for head, _, below in rows}
    return {name: [it for it in below if it in named] for name, below in named.items()}


def below(named, name):
    """All libraries of this repository below a crate."""
    return set(named[name]).union(*(below(named, it) for it in named[name]))


def try_crate(name):
    """Tries the edits of a crate's folder mistakes in a copy of it and of the libraries below. Returns whether each is refused."""
    named = libraries()
    with tempfile.TemporaryDirectory() as room:
        with open("crates.txt", encoding="utf-8") as it, open(f"{room}/crates.txt", "w", encoding="utf-8") as to:
            to.writelines(line for line in it if re.match(r"\w*", line)[0] in {name, *below(named, name)})
        shutil.copy("HANDLES", room)
        for other in below(named, name):
            shutil.copytree(f"crates/{other}", f"{room}/crates/{other}", ignore=shutil.ignore_patterns("incremental", "mistakes", "must-fail"))
        shutil.copytree(f"crates/{name}", f"{room}/crates/{name}")
        crate, folder = Crate(f"{room}/crates/{name}"), f"crates/{name}/mistakes"
        edits = [Edit(crate, f"{folder}/{it}") for it in sorted(os.listdir(folder)) if it.endswith(".edit")]
        is_proved, _, said = crate.check([])
        refused, checks = tried(crate, edits) if is_proved else (0, 0)
    if not is_proved:
        print(f"{name}: it isn't proved as it stands\n{said[-900:]}", flush=True)
    print(f"{name}: {refused} of {len(edits)} refused, in {checks} checks", flush=True)
    return refused == len(edits)


def main():
    """Builds the libraries below the crates, lowest first, and tries the edits of as many crates side by side as there are processors."""
    named = libraries()
    for name in sorted(set().union(*(below(named, it) for it in sys.argv[1:])), key=lambda it: len(below(named, it))):
        if subprocess.run(["rt", "lib"], cwd=f"crates/{name}", stdout=subprocess.DEVNULL).returncode:
            sys.exit(f"{name}: it isn't proved as it stands")
    with ThreadPoolExecutor(min(4, os.cpu_count() or 1)) as pool:
        return not all([*pool.map(try_crate, sys.argv[1:])])


if __name__ == "__main__":
    sys.exit(main())

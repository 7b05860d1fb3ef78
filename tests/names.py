#!/usr/bin/env python3
"""names.py: checks that what the documents name is there; names what isn't, and exits with status 1.

Each back-quoted name of docs/ARCHITECTURE.md, docs/DEFINITIONS.md and docs/PROVED.md is looked for in crates/*/src and crates/*/specs: a
path in the crate or the type that it begins with (`zone_tree::Zone::new`, `Zone::new`), a name alone in all of them. A claim of
docs/PROVED.md, an item that begins with a path, names functions, each followed by labels of its own clauses, with definitions in
parentheses. A row of docs/DEFINITIONS.md names definitions of the file at its end. docs/ARCHITECTURE.md names each crate but those of
tests. Of these pages, README.md and CONTRIBUTING.md each path is found, and each file that is named exists."""
import glob
import os
import re
import sys

ROOT = os.path.dirname(os.path.dirname(os.path.abspath(__file__)))
PAGES = ["docs/ARCHITECTURE.md", "docs/DEFINITIONS.md", "docs/PROVED.md"]
FRONT = ["README.md", "CONTRIBUTING.md"]
FILE = re.compile(r"[\w./-]+/|[\w.-]*[\w./-]*\.(?:md|py|sh|rt|antt|txt|edit|log|zone|c|8)")
MADE = ("out/", "crates/dnsd/out/")  # what a build makes isn't in the repository
PLACEHOLDERS = re.compile(r"\b(?:NAME|CRATE|DIR|ZONE|N)\b")
STANDARD = {"std", "mem"}  # where paths begin that aren't ours
WORDS = {"Ok", "None", "Vec", "Wait", "Files"}  # of the standard library


class Crate:
    """What a crate declares: free functions and methods with the labels of their clauses, types with what they have, definitions."""

    def __init__(self):
        self.functions = {}  # name, or (type, name) -> labels of clauses
        self.types = {}  # type or trait -> names in its declaration
        self.items = set()  # consts, modules
        self.definitions = set()  # of specs/

    def has(self, path):
        if len(path) == 1:
            return path[0] in self.functions or path[0] in self.types or path[0] in self.items or path[0] in self.definitions
        if path[0] in self.types and (tuple(path) in self.functions or path[1] in self.types[path[0]]):
            return len(path) == 2
        return path[0] in self.items and self.has(path[1:])  # a module

    def labels(self, path):
        return self.functions.get(path[0] if len(path) == 1 else tuple(path))


HEAD = re.compile(r"^( *)(?:pub(?:\([^)]*\))? )?(?:ghost )?(?:unsafe )?(?:const )?(fn|struct|enum|union|trait|type|const|static|mod) (\w+)")
IMPL = re.compile(r"^impl\b")
LABEL = re.compile(r"\b(?:requires|ensures) (\w+) \{")


def head_of_impl(text):
    """The type of an impl's head: what stands after `for`, else after the parameters."""
    text = text.split("{")[0].split(" where")[0]
    depth, plain = 0, ""
    for at, char in enumerate(text):
        if char == "<":
            depth += 1
        elif char == ">" and text[at - 1] != "-":
            depth -= 1
        elif depth == 0:
            plain += char
    words = plain.replace("impl", " ", 1).split(" for ")
    names = re.findall(r"\w+", words[-1])
    return names[-1] if names else ""


def read_source(crate, text):
    lines = text.split("\n")
    holder, function, inside = None, None, None
    for at, line in enumerate(lines):
        if line.startswith("}"):
            holder, function, inside = None, None, None
        if IMPL.match(line):
            head = line
            while "{" not in head and at + 1 < len(lines):
                at += 1
                head += " " + lines[at].strip()
            holder, function, inside = head_of_impl(head), None, None
            continue
        match = HEAD.match(line)
        if match and (not match.group(1) or holder and match.group(2) in ("fn", "type", "const")):
            kind, name = match.group(2), match.group(3)
            if kind == "fn":
                function = (holder, name) if match.group(1) and holder else name
                crate.functions.setdefault(function, set())
            elif match.group(1):
                crate.types.setdefault(holder, set()).add(name)
            elif kind in ("struct", "enum", "union", "trait", "type"):
                crate.types.setdefault(name, set())
                function, inside = None, name
                holder = name if kind == "trait" else None
                if line.rstrip().endswith((";", "}")):
                    inside = None
            else:
                crate.items.add(name)
        elif inside:
            match = re.match(r"^ {4}(?:pub(?:\([^)]*\))? )?(?:ghost )?(\w+)", line)
            if match:
                crate.types[inside].add(match.group(1))
        if function:
            crate.functions[function].update(LABEL.findall(line))


def read_specs(crate, text):
    for match in re.finditer(r"^ *(?:(?:abbrev|unfoldable) )?pub (?!(?:mod|use)\b)(?:(?:data|record) )?([^\s:({]+)", text, re.M):
        crate.definitions.add(match.group(1))
    for match in re.finditer(r"^ +(\w+) : ", text, re.M):  # constructors
        crate.definitions.add(match.group(1))


def crates():
    found = {}
    for folder in sorted(glob.glob(os.path.join(ROOT, "crates", "*", ""))):
        crate = found[os.path.basename(folder[:-1])] = Crate()
        for path in sorted(glob.glob(os.path.join(folder, "src", "**", "*.rt"), recursive=True)):
            crate.items.add(os.path.basename(path)[: -len(".rt")])
            with open(path, encoding="utf-8") as file:
                read_source(crate, file.read())
        for path in sorted(glob.glob(os.path.join(folder, "specs", "*.antt"))):
            crate.items.add(os.path.basename(path)[: -len(".antt")])
            with open(path, encoding="utf-8") as file:
                read_specs(crate, file.read())
    return found


def is_there(path):
    """Whether a file or a folder is named from the top, from docs/, from crates/, or from a crate's own folder."""
    return any(os.path.exists(os.path.join(ROOT, front, path)) for front in ("", "docs", "crates")) or bool(
        glob.glob(os.path.join(ROOT, "crates", "*", path))
        or not os.path.dirname(path)
        and glob.glob(os.path.join(ROOT, "crates", "*", "*", path))
        or not os.path.dirname(path)
        and glob.glob(os.path.join(ROOT, "tests", "**", path), recursive=True)
    )


def main():
    known = crates()
    labels = {label for crate in known.values() for found in crate.functions.values() for label in found}
    methods = {name[1] for crate in known.values() for name in crate.functions if isinstance(name, tuple)}
    members = {name for crate in known.values() for found in crate.types.values() for name in found}
    faults = []

    def resolve(path):
        """The crates in which a path is found, with the rest of the path."""
        if path[0] in known and len(path) > 1:
            return [(known[path[0]], path[1:])] if known[path[0]].has(path[1:]) else []
        return [(crate, path) for crate in known.values() if crate.has(path)]

    def look(page, line, word, strict):
        word = word.strip()
        first = word.split(" ")[0]
        if FILE.fullmatch(first) and not first.startswith(MADE) and not PLACEHOLDERS.search(first) and not first.startswith("/"):
            if not is_there(first.rstrip("/")):
                faults.append(f"{page}:{line}: no file {first}")
        elif re.fullmatch(r"\w+(?:::\w+)+", word):
            path = word.split("::")
            if path[0] not in STANDARD and not resolve(path):
                faults.append(f"{page}:{line}: {word} isn't found")
        elif strict and re.fullmatch(r"[A-Za-z_]\w*", word) and word not in WORDS:
            if os.path.exists(os.path.join(ROOT, word)):
                return
            if word not in known and word not in labels and word not in methods and word not in members and not resolve([word]):
                faults.append(f"{page}:{line}: {word} isn't found")

    def claim(page, line, text):
        """A claim's names: functions, each with labels of its clauses; definitions in parentheses."""
        function = None
        for match in re.finditer(r"\(([^)]*)\)|`([^`]+)`", text):
            if match.group(1) is not None:
                for word in re.findall(r"`([^`]+)`", match.group(1)):
                    if not any(word in crate.definitions for crate in known.values()):
                        faults.append(f"{page}:{line}: no definition {word}")
                continue
            word = match.group(2)
            if "::" in word:
                function = word
                found = resolve(word.split("::"))
                sets = [crate.labels(rest) for crate, rest in found]
                own = set().union(*[one for one in sets if one is not None])
                if not any(one is not None for one in sets):
                    faults.append(f"{page}:{line}: no function {word}")
            elif function is not None and word not in own:
                faults.append(f"{page}:{line}: {function} has no clause {word}")

    for page in PAGES + FRONT:
        with open(os.path.join(ROOT, page), encoding="utf-8") as file:
            lines = file.read().split("\n")
        if page == "docs/ARCHITECTURE.md":
            for name in known:
                if f"`{name}`" not in "\n".join(lines):
                    faults.append(f"{page}: the crate {name} isn't named")
        fenced, item, begun = False, "", 0
        for number, line in enumerate(lines + [""], 1):
            if line.startswith("```"):
                fenced = not fenced
            if fenced or line.startswith("```"):
                continue
            for word in re.findall(r"`([^`]+)`", line):
                look(page, number, word, page in PAGES)
            row = page == "docs/DEFINITIONS.md" and re.fullmatch(r"\| (`[^|]+`) \|.*\| `([\w/]+\.antt)` \|", line)
            if row and os.path.exists(os.path.join(ROOT, "crates", row.group(2))):
                crate = Crate()
                with open(os.path.join(ROOT, "crates", row.group(2)), encoding="utf-8") as file:
                    read_specs(crate, file.read())
                for word in re.findall(r"`([^`]+)`", row.group(1)):
                    if word not in crate.definitions:
                        faults.append(f"{page}:{number}: {row.group(2)} has no definition {word}")
            for target in re.findall(r"\]\(([^)#]+)", line):
                if "://" not in target and not os.path.exists(os.path.join(ROOT, os.path.dirname(page), target)):
                    faults.append(f"{page}:{number}: no file {target}")
            if page == "docs/PROVED.md":
                if item and (not line.strip() or line.startswith(("- ", "#"))):
                    head = re.match(r"- ((?:[^:]|::)*):(?: |$)", item)
                    if head and re.match(r"- `\w+::", item):
                        claim(page, begun, head.group(1))
                    item = ""
                if line.startswith("- "):
                    item, begun = line, number
                elif item:
                    item += " " + line.strip()
    for fault in faults:
        print(fault, file=sys.stderr)
    return 1 if faults else 0


if __name__ == "__main__":
    sys.exit(main())

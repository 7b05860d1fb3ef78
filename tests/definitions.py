#!/usr/bin/env python3
"""definitions.py [NAME ..]: the public definitions of crates/*/specs/, a line each: name, file and line, sentence. With NAMEs,
those of that name, of that file of specs/ or of that crate alone.
definitions.py --check: prints nothing where each has its sentence; else names each that has none, and exits with status 1.

The sentence is the comment right above a definition. One comment may stand above a group of definitions, as of the numbers of types: one
that has no comment of its own belongs to the group of the definition above it, and is printed with that one's name. A group ends at the
next comment. The comment at the head of a file stands above no definition, but for the files named below."""
import glob
import os
import re
import sys

ROOT = os.path.dirname(os.path.dirname(os.path.abspath(__file__)))
HEADED = {"crates/dns_rdata/specs/Numbers.antt"}  # the numbers of types: the comment at the head is theirs
DEFINITION = re.compile(r" *(?:(?:abbrev|unfoldable) )?pub (?!(?:mod|use)\b)(?:(data|record) )?([^\s:({]+)")


def definitions_of(text, headed):
    """(name, line, sentence) of each public definition of a file; the sentence is empty where there is none."""
    found, comment, group, inside = [], [], "", None
    for number, line in enumerate(text.split("\n"), 1):
        if not line.strip():
            comment = []
            continue
        indent = len(line) - len(line.lstrip(" "))
        if inside is not None and indent > inside:
            continue  # a field of a record, or a constructor of a type
        inside = None
        if line.lstrip(" ").startswith("--"):
            comment.append(line.strip()[2:].strip())
            continue
        match = DEFINITION.match(line)
        if match:
            kind, name = match.groups()
            if comment:
                group, sentence = f"with {name}: " + " ".join(comment), " ".join(comment)
            else:
                sentence = group
            found.append((name, number, sentence))
            if kind:
                inside = indent
        elif headed and comment and number < 9 and not found:
            group = " ".join(comment)
        comment = []
    return found


def main():
    words = sys.argv[1:]
    check = "--check" in words
    names = [word for word in words if word != "--check"]
    missing = 0
    for path in sorted(glob.glob(os.path.join(ROOT, "crates", "*", "specs", "*.antt"))):
        short = os.path.relpath(path, ROOT)
        crate, module = short.split(os.sep)[1], os.path.basename(path)[: -len(".antt")]
        with open(path, encoding="utf-8") as file:
            for name, line, sentence in definitions_of(file.read(), short in HEADED):
                if names and not {name, module, crate} & set(names):
                    continue
                if not check:
                    print(f"{name}  {short}:{line}  {sentence}")
                elif not sentence:
                    print(f"{short}:{line}: no sentence above {name}", file=sys.stderr)
                    missing += 1
    return 1 if missing else 0


if __name__ == "__main__":
    try:
        sys.exit(main())
    except BrokenPipeError:
        os.dup2(os.open(os.devnull, os.O_WRONLY), 1)

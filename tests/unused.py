#!/usr/bin/env python3
"""unused.py: lists each public item of crates/*/src that the program doesn't use, a line each, and exits with status 1 if there is one.

An item is a `pub` function, struct, enum, union, trait, type, constant or method, or a function of a public trait. It is used where the
text of a crate of the program names it: of another one, or of its own beyond its definition and `pub use`. What an item that isn't used
names is no use, so what one alone needs is listed beside it. Crates of tests (those with `#[test]` in src) and memory devices aren't of
the program: what they alone use is listed.

Names are found over the text, without types: a method is used where a crate that may have its type calls one of its name with as many
arguments, so that of two such methods the one that nobody calls isn't found. Functions and methods are looked for in what runs, types and
constants in contracts too. A law, a function without code, is used where another crate's contracts or proofs name it, and allowed where
docs/PROVED.md names it. `--private` prints what isn't public and isn't used, too."""
import glob
import os
import re
import sys

ROOT = os.path.dirname(os.path.dirname(os.path.abspath(__file__)))
DEVICES = {"memory_devices"}  # in memory, for crates of tests

# What is there to be called by others than the program, each with why: `crate::Item`, `crate::Type::method`.
PUBLIC = {
    "cell_core::WordMachine::step": "public call: one step of the cell's words",
    "counted_handles::Lapsed::freed": "reads what the public call Weak::release gives",
    "counted_handles::Released::buried": "reads what the public call Strong::release gives",
    "dns_engine::Engine::update": "public call: judges an update and publishes what it makes",
    "dns_message::put_frame": "public call: the frame of a message over TCP",
    "dns_name::Name::labels": "public call: the labels of a name",
    "hmac::Key::mac_of": "public call: the MAC of a text (RFC 2104)",
    "lookup_core::answer": "public call: what a zone answers",
    "lookup_core::answer_from": "public call: the same, of a name that is sought",
    "lookup_core::place": "public call: where a name lies in a zone",
    "requests::Counted": "public type: a stream, with its failures counted",
    "requests::Counted::new": "makes a Counted",
    "requests::Datagrams::faults": "public call: the sends that failed",
    "requests::Gate": "public trait: what each request passes",
    "requests::serve_udp": "public call: datagrams answered one by one",
    "shared_tree::Tree::new": "the tree of no pair, with which a sequence of calls of `with` begins",
    "tcp_connections::serve_stream": "public call: a stream served to its end",
    "tsig_laws::signed_is_taken": "law, whose body calls another law",
    "wide_file::WideRecords::new": "public call: the records of the text of one file",
    "wide_file::read_wide_zone": "public call: the zone of a zone file as other servers read it",
    "wide_text::write_wide_data": "public call: a record's data in the words of its type",
    "wide_text::write_wide_type": "public call: the word of its type",
    "worker_jobs::Job": "public trait: what a worker's thread does",
    "worker_jobs::run_workers": "public call: jobs done, each on a thread",
    "zone_server::answer_now": "public call: a reply by one load, or later",
    "zone_server::Server::new": "public call: a server of a cell and an engine, which has no update thread",
    "zone_server::serve_one": "public call: an update or a transfer answered",
}

HEAD = re.compile(r"^(?: {4})?(?:pub(?:\([^)]*\))? )?(?:unsafe )?(?:const )?(fn|struct|enum|union|trait|type|const|static) (\w+)")
CONTRACT = re.compile(r"\b(?:requires|ensures|keeps)\b(?: \w+)? \{|\bprove!\(|\bghost\b")
WORD = re.compile(r"[A-Za-z_]\w*")
STRING = re.compile(r"//[^\n]*|b?\"(?:\\.|[^\"\\])*\"|b?'(?:\\(?:x[0-9a-f]{2}|u\{[0-9a-f]+\}|.)|[^\\'\n])'", re.S)


def blank(text, start, end):
    return text[:start] + re.sub(r"[^\n]", " ", text[start:end]) + text[end:]


def without_strings(text):
    """The text without comments, strings and characters, but for names in a string's braces, as of a line that is printed."""

    def plain(match):
        found = match.group(0)
        if found.startswith("//") or "'" in found[:2]:
            return " " * len(found)
        kept = [" " if char != "\n" else char for char in found]
        for name in re.finditer(r"\{(\w+)[:}]", found):
            kept[name.start(1) : name.end(1)] = name.group(1)
        return "".join(kept)

    return STRING.sub(plain, text)


def end_of_group(text, at):
    """The position after the bracket that closes the one at this position."""
    depth = 0
    for here in range(at, len(text)):
        if text[here] in "{([":
            depth += 1
        elif text[here] in "})]":
            depth -= 1
            if depth == 0:
                return here + 1
    return len(text)


def end_of_ghost(text, at):
    """The position after what `ghost` begins at this position: up to a `;` or a `,`, or the end of a line that ends a group."""
    while at < len(text):
        if text[at] in "{([":
            at = end_of_group(text, at)
            if text[at : at + 1] == "\n":
                return at
        elif text[at] in ";," or text[at] in "})]":
            return at + (text[at] in ";,")
        else:
            at += 1
    return at


def without_contracts(text):
    """The text that runs."""
    at = 0
    while match := CONTRACT.search(text, at):
        end = end_of_ghost(text, match.end()) if match.group(0) == "ghost" else end_of_group(text, match.end() - 1)
        text = blank(text, match.start(), end)
        at = end
    return text


def without(pattern, text):
    for match in reversed(list(re.finditer(pattern, text, re.M | re.S))):
        text = blank(text, match.start(), match.end())
    return text


class Item:
    def __init__(self, crate, path, kind, name, holder, lines):
        self.crate, self.path, self.kind, self.name, self.holder, self.lines = crate, path, kind, name, holder, lines
        self.law = self.method = self.public = False
        self.taken = 0  # parameters, with `self`

    def key(self):
        return f"{self.crate}::" + (f"{self.holder}::" if self.holder else "") + self.name


class File:
    """A file of a crate: its text that runs, its text with contracts, and the traits that it imports, as lines."""

    def __init__(self, crate, path):
        self.crate, self.path = crate, os.path.relpath(path, ROOT)
        with open(path, encoding="utf-8") as file:
            text = without_strings(file.read())
        text = without(r"^ *ghost use [^;]*;", text)
        text = without(r"^ *#!?\[[^\n]*$", text)
        self.imports = re.findall(r"^ *use ([^;]*);", text, re.M)
        self.exports = re.findall(r"^ *pub use ([^;]*);", text, re.M)
        text = without(r"^ *(?:pub(?:\([^)]*\))? )?use [^;]*;", text)
        self.told = text.split("\n")
        self.runs = without_contracts(text).split("\n")
        self.items, self.impls, self.aliases = [], [], []
        self.read()

    def end(self, at, indent):
        """The last line of the item that begins at this line."""
        for line in range(at, len(self.told)):
            text = self.told[line].rstrip()
            if re.match(rf"^ {{{indent}}}(?:\}}|\{{\}})", text) or line == at and text.endswith(("{}", "}")):
                return line
            if text.endswith(";") and len(text) - len(text.lstrip()) == indent and (line == at or text.strip() in (");", "];", "};")):
                return line
            if line > at and text.endswith(";") and not any("{" in one for one in self.runs[at:line + 1]):
                return line
        return len(self.told) - 1

    def read(self):
        holder, until, public, made = None, -1, False, False
        for at, line in enumerate(self.told):
            if re.match(r"^impl\b", line):
                last = self.end(at, 0)
                head = ""
                for more in range(at, last + 1):
                    head += " " + self.told[more].strip()
                    if "{" in head:
                        break
                made = " for " in without_generics(head)  # of a trait: its functions are the trait's
                holder, until, public = head_of_impl(head), last, False
                self.impls.append((holder, at, last, made))
            match = HEAD.match(line)
            if not match:
                continue
            indent = len(line) - len(line.lstrip())
            if indent and (at > until or made):
                continue
            kind, name = match.groups()
            last = self.end(at, indent)
            item = Item(self.crate, self.path, kind, name, holder if indent else None, (at, last))
            if kind == "fn":
                body = "".join(self.runs[at : last + 1]).replace(" ", "")
                item.law = body.endswith("){}") and not indent
                taken = "\n".join(self.runs[at : last + 1])
                opens = re.search(rf"fn {name}(?:<[^(]*>)?\(", taken)
                taken = taken[opens.end() : end_of_group(taken, opens.end() - 1) - 1] if opens else ""
                item.method = bool(indent) and re.match(r"\s*(?:&(?:'\w+ )?)?(?:mut )?self\b", taken) is not None
                item.taken = count(taken)
            if not indent and kind == "trait":
                holder, until, public, made = name, last, line.startswith("pub "), False
            if not indent and kind == "type":
                self.aliases.append((name, "\n".join(self.told[at : last + 1]), line.startswith("pub ")))
            item.public = line.lstrip().startswith("pub ") or bool(indent) and public and kind == "fn"
            self.items.append(item)


def without_generics(text):
    depth, plain = 0, ""
    for at, char in enumerate(text):
        if char == "<":
            depth += 1
        elif char == ">" and text[at - 1] != "-":
            depth -= 1
        elif depth == 0:
            plain += char
    return plain


def head_of_impl(text):
    """The type of an impl's head: what stands after `for`, else after the parameters."""
    words = without_generics(text.split("{")[0].split(" where")[0]).replace("impl", " ", 1).split(" for ")
    names = re.findall(r"\w+", words[-1])
    return names[-1] if names else ""


def crates():
    """The crates of the program with their files; of each the crates on which it stands; and those on which these stand, near or far."""
    files, direct, on = {}, {}, {}
    with open(os.path.join(ROOT, "crates.txt"), encoding="utf-8") as file:
        for line in file:
            name, _, rest = line.partition(":")
            direct[name.strip()] = set(rest.split())
            on[name.strip()] = set(rest.split())
    for name in list(on):
        todo = list(on[name])
        while todo:
            for further in on.get(todo.pop(), ()):
                if further not in on[name]:
                    on[name].add(further)
                    todo.append(further)
    for folder in sorted(glob.glob(os.path.join(ROOT, "crates", "*", ""))):
        name = os.path.basename(folder[:-1])
        paths = sorted(glob.glob(os.path.join(folder, "src", "**", "*.rt"), recursive=True))
        texts = [open(path, encoding="utf-8").read() for path in paths]
        if name not in DEVICES and not any("#[test]" in text for text in texts):
            files[name] = [File(name, path) for path in paths]
    return files, direct, on


def is_definition(file, at, column):
    return re.search(r"\b(?:fn|struct|enum|union|trait|type|const|static|mod) $", file.told[at][:column]) is not None


def proofs():
    """Of each crate the names in its proofs and specs, and in its lists of lemmas."""
    names = {}
    for folder in sorted(glob.glob(os.path.join(ROOT, "crates", "*", ""))):
        found = names[os.path.basename(folder[:-1])] = set()
        for path in glob.glob(os.path.join(folder, "**", "*.antt"), recursive=True):
            if os.sep + "out" + os.sep not in path:
                with open(path, encoding="utf-8") as file:
                    found.update(WORD.findall(file.read()))
        for path in glob.glob(os.path.join(folder, "src", "**", "*.rt"), recursive=True):
            with open(path, encoding="utf-8") as file:
                text = file.read()
            for match in re.finditer(r"^ghost use [^;]*;|#!?\[tactic[^\n]*", text, re.M):
                found.update(WORD.findall(match.group(0)))
    return names


def arguments(text, at):
    """How many arguments a call has whose parentheses open at this position; None where a closure is among them."""
    end = end_of_group(text, at)
    inside = text[at + 1 : end - 1]
    if "|" in inside:
        return None
    return count(inside)


def count(text):
    """How many parts a list has, in brackets of any kind, with commas between them."""
    depth, parts, some = 0, 0, False
    for at, char in enumerate(text):
        if char in "([{" or char == "<" and not text[at - 1 : at].isspace():
            depth += 1
        elif char in ")]}" or char == ">" and text[at - 1] not in "-= ":
            depth -= 1
        if char == "," and depth == 0:
            parts, some = parts + 1, False
        elif not char.isspace():
            some = True
    return parts + some


class Program:
    """The crates of the program, and which of their items are used."""

    def __init__(self):
        self.files, self.direct, self.on = crates()
        self.cited = proofs()
        with open(os.path.join(ROOT, "docs", "PROVED.md"), encoding="utf-8") as file:
            self.proved = set(re.findall(r"`([\w:]+)`", file.read()))
        every = [file for found in self.files.values() for file in found]
        self.items = [item for file in every for item in file.items]
        self.imports = [(file.crate, text) for file in every for text in file.imports]
        self.declared = {(item.crate, item.name) for item in self.items if not item.holder}
        self.traits = {item.name for item in self.items if item.kind == "trait"}
        self.makers = {}  # name -> the items that have it
        for item in self.items:
            self.makers.setdefault(item.name, set()).add(item.key())
        self.words, self.runs, self.told = {}, {}, {}  # names of a crate; name -> where what runs mentions it, or contracts too
        for file in every:
            texts = [*file.told, *file.imports, *file.exports]
            self.words.setdefault(file.crate, set()).update(word for text in texts for word in WORD.findall(text))
            for lines, places in ((file.runs, self.runs), (file.told, self.told)):
                for at, line in enumerate(lines):
                    for match in WORD.finditer(line):
                        places.setdefault(match.group(0), []).append((file, at, match.start()))
        self.gone = {}  # file -> lines of items that aren't used

    def is_seen(self, crate, item):
        """Whether a crate stands on that of an item, or on one that stands on it and names the item or its type."""
        near = self.direct.get(crate, ())
        if crate == item.crate or item.crate in near:
            return True
        return any(item.crate in self.on.get(one, ()) and (item.holder or item.name) in self.words.get(one, ()) for one in near)

    def is_another(self, file, item):
        """Whether a file means an item of its own crate by this name."""
        if item.holder or file.crate == item.crate or (file.crate, item.name) not in self.declared:
            return False
        others = [text for text in file.imports if not text.startswith(("crate::", "super::", "self::"))]
        return not any(item.name in WORD.findall(text) for text in others)

    def is_use(self, item, file, at, column):
        """Whether this mention of an item's name is a use of it."""
        if not self.is_seen(file.crate, item) or self.is_another(file, item) or is_definition(file, at, column):
            return False
        if any(first <= at <= last for first, last in self.gone.get(file.path, ())):
            return False
        if file.path == item.path and item.lines[0] <= at <= item.lines[1] and item.kind != "trait":
            return False
        if item.kind in ("struct", "enum", "union") and file.crate == item.crate:
            return not any(holder == item.name and first <= at <= last for holder, first, last, _ in file.impls)
        if item.kind != "fn":
            return True
        before = file.runs[at][:column].rstrip()
        if not before and at and not file.runs[at - 1].strip().endswith(("{", "}", ";")):
            before = file.runs[at - 1].rstrip()
        after = "\n".join([file.runs[at][column + len(item.name) :], *file.runs[at + 1 : at + 30]])
        return self.is_call_of_type(item, file, at, before, after) if item.holder else self.is_call(item, file, before, after)

    def is_call(self, item, file, before, after):
        """Whether a free function is called, or passed, between these texts."""
        if before.endswith(".") and not before.endswith(".."):
            return False
        if before.endswith("::") or re.match(r"\(|::", after):
            return True
        if not re.match(r"[),]", after):
            return False
        # A variable of that name, where the file has one.
        bound = rf"\b{item.name}\s*:(?!:)|\blet\b[^=;]*\b{item.name}\b|\|[^|\n]*\b{item.name}\b[^|\n]*\||\bfor {item.name}\b|\(\s*{item.name}\s*\)\s*=>"
        return re.search(bound, "\n".join(file.runs)) is None

    def is_call_of_type(self, item, file, at, before, after):
        """Whether a type's function is called, or named by a path, between these texts."""
        path = before.endswith("::")
        if not path and not (before.endswith(".") and item.method and re.match(r"\(|::<", after)):
            return False
        call = re.match(r"(?:::<[^()]*>)?\(", after)
        given = arguments(after, call.end() - 1) if call else None
        if given is not None and given != item.taken - (item.method and not path):
            return False
        if not path:
            return True
        plain = re.sub(r"[-=]>", "", before)
        while plain != (plain := re.sub(r"<[^<>]*>", "", plain)):
            pass
        head = re.search(r"(\w+)(?:::)+$", plain)
        if head and head.group(1)[0].islower():
            return False  # a module's
        return head is None or len(self.makers[item.name]) == 1 or self.is_named(item, file, at, head.group(1))

    def is_named(self, item, file, at, head):
        """Whether a path that begins with this word may name the item's type."""
        if head == "Self":
            return any(holder == item.holder and first <= at <= last for holder, first, last, _ in file.impls)
        if head == item.holder:
            return True
        if len(head) == 1:  # a type that is given: its functions are a trait's
            return item.holder in self.traits
        for crate in {file.crate, *self.on.get(file.crate, ())} & set(self.files):
            for one in self.files[crate]:
                for name, text, public in one.aliases:
                    if name == head and (public or crate == file.crate) and item.holder in WORD.findall(text):
                        return True
        made = item.holder in self.traits  # of a trait: any type that has an impl of one
        return made and any(holder == head and of for found in self.files.values() for one in found for holder, _, _, of in one.impls)

    def is_used(self, item):
        if item.name == "main" or item.key() in PUBLIC:
            return True
        if item.law:
            named = bool({item.name, item.key()} & self.proved)
            return named or any(item.name in found for crate, found in self.cited.items() if crate != item.crate)
        places = self.runs if item.kind == "fn" else self.told
        if any(self.is_use(item, *place) for place in places.get(item.name, ())):
            return True
        if item.kind == "trait":  # a trait whose functions are called
            return any(item.name in WORD.findall(text) for crate, text in self.imports if crate != item.crate)
        return any(re.search(rf"\b{item.name} as \w", text) for _, text in self.imports)

    def unused(self):
        """The items that aren't used, nor by any that is."""
        found, last = [], None
        while found != last:
            last = found
            found = [item for item in self.items if not self.is_used(item)]
            self.gone = {}
            for item in found:
                self.gone.setdefault(item.path, []).append(item.lines)
                if item.kind in ("struct", "enum", "union"):
                    for file in self.files[item.crate]:
                        own = [(first, end) for holder, first, end, _ in file.impls if holder == item.name]
                        self.gone.setdefault(file.path, []).extend(own)
        return found


def main():
    program = Program()
    found = program.unused()
    if "--private" in sys.argv:
        print(*[f"{item.key()}  {item.path}:{item.lines[0] + 1}" for item in found if not item.public], sep="\n")
    found = {item.key(): item for item in found if item.public}
    known = {item.key() for item in program.items}
    faults = [f"{key}  {item.path}:{item.lines[0] + 1}" for key, item in found.items()]
    faults += [f"{key} is in the list of this script, and isn't there" for key in PUBLIC if key not in known]
    for fault in faults:
        print(fault, file=sys.stderr)
    return 1 if faults else 0


if __name__ == "__main__":
    sys.exit(main())

#!/usr/bin/env python3
"""log_list.py: prints each text that `dnsd serve` logs, and each reason of a reply to `dnsd control`, that docs/OPERATING.md hasn't, a line each, and
exits with status 1 if there is one. A text is a string of one of the files below; of one with values in braces the page has what is between them."""
import os
import re
import sys

ROOT = os.path.dirname(os.path.dirname(os.path.abspath(__file__)))
FILES = """
command_line/src/start_fault.rt dnsd/src/main.rt dnsd/src/secondaries.rt dnsd_setup/src/bound.rt dnsd_setup/src/control.rt dnsd_setup/src/keys.rt
dnsd_setup/src/kept.rt dnsd_setup/src/lines.rt dnsd_setup/src/may.rt dnsd_setup/src/metrics.rt dnsd_setup/src/peer_lines.rt dnsd_setup/src/reload.rt
dnsd_setup/src/writer.rt dnsd_setup/src/zone_text.rt server_control/src/control_job.rt server_control/src/control_reload.rt server_control/src/control_text.rt
server_control/src/serve_fault.rt store_compaction/src/compacted_store.rt store_server/src/event.rt zone_server/src/service_log.rt
""".split()

# What isn't logged, nor replied to `reload`, each with why.
OTHERS = {
    "error: no server answers on": "of `dnsd control`",
    "ended before it replied": "of `dnsd control`",
    "error: the request is": "of `dnsd may`",
    "outside of the update's zone": "of `dnsd may`",
    "no command: reload": "a reply to a word that is no command",
    "store none": "of `status`",
    "store ok": "of `status`",
    "store failing": "of `status`",
    "journal {journal}": "of `status`",
}

STRING = re.compile(r'//[^\n]*|b?"((?:\\.|[^"\\])*)"', re.S)


def texts(path):
    """The strings of a file that have several words, each with its line."""
    with open(path, encoding="utf-8") as file:
        text = file.read()
    for match in STRING.finditer(text):
        found = re.sub(r"\\\n\s*", "", match.group(1) or "").replace("\\n", " ").strip()
        if " " in found:
            yield text.count("\n", 0, match.start()) + 1, found


def main():
    with open(os.path.join(ROOT, "docs", "OPERATING.md"), encoding="utf-8") as file:
        page = re.sub(r"\s+", " ", file.read())
    faults = []
    for name in FILES:
        for line, found in texts(os.path.join(ROOT, "crates", name)):
            parts = [part.strip(" '") for part in re.split(r"\{[^}]*\}", found)]
            known = all(part in page for part in parts if len(part) > 3 or part.isalpha())
            if not known and not any(other in found for other in OTHERS):
                faults.append(f"crates/{name}:{line}: not in docs/OPERATING.md: {found}")
    print(*faults, sep="\n", end="\n" if faults else "", file=sys.stderr)
    return 1 if faults else 0


if __name__ == "__main__":
    sys.exit(main())

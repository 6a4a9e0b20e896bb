#!/usr/bin/env python3
"""Brings the repository's own words to snake case, once, right after port.py: definitions, lemmas, fields and constructors of specs/ and
proofs/, where they stand and wherever they are cited (clauses, comments, must-fail edits, the pages). Types and modules are in camel case
already. Names that Rust source, inputs or outputs have are left alone.

usage: python3 tools/respell.py            at the top of the repository: writes
       python3 tools/respell.py --check    prints the names and what falls together, and writes nothing
"""
import collections
import glob
import os
import re
import sys

# A lemma that would take the name of the definition that it is about.
TAKEN = {
    "clocks-told": "clocks_told_lem", "reset-voice": "reset_voice_lem", "fresh-voice": "fresh_voice_lem", "motion-taken": "motion_taken_lem",
    "phase-up": "phase_up_lem", "end_line": "end_line_lem", "sample-due": "sample_due_lem", "block-of": "block_of_lem", "is-nothing": "is_nothing_lem",
    "driven-read": "driven_read_lem", "has-table": "has_table_lem", "entry-at": "entry_at_lem", "on-stamp": "on_stamp_lem",
}
# A word that has the name of a field or of a variable beside it.
TAKEN.update({"nextExpiry": "next_expiry_for", "potX": "set_pot_x", "potY": "set_pot_y", "staticLoad": "static_load_of", "byOffset": "by_offset_of"})
# Variables.
TAKEN.update({"sourceControl": "source_control", "capturedCharge": "captured", "sourceSync": "source_sync", "sourceRising": "source_rising", "openBus": "open_bus"})
# Local lemmas that would hide the word that they are about: (file, old, new), before anything else.
FIRST = [("./crates/release/proofs/Sustain.antt", "to_level", "to_level_lem"), ("./crates/release/proofs/Sustain.antt", "top_reached", "top_reached_lem")]
# Names that a walk by hand has of Rattle.
KEPT = re.compile(r"^(#.*|\d+·\d+|[a-z][\w-]*·[\w-]+|the-written-\w+|\+.*)$")
TOP = re.compile(r"^(?:abbrev pub |unfoldable pub |pub |abbrev |unfoldable )?([^\s:(){}.,;λ-][^\s:(){}.,;]*)(?: *[({][^)}]*[)}])* +:(?: (.*))?$")
PART = re.compile(r"^ +(?:abbrev |unfoldable )?(?:pub )?([^\s:(){}.,;|λ-][^\s:(){}.,;]*)(?: *[({][^)}]*[)}])* +:(?: (.*))?$")
TOKEN = re.compile(r"(?<![\w'·₀-₉-])([A-Za-z][\w'₀-₉]*(?:[-·][\w'₀-₉]+)*)(?![\w'·-])")


def snake(name):
    name = name.replace("-", "_").replace("·", "_").replace("′", "'")
    return re.sub(r"(?<=[a-z0-9])([A-Z])", lambda m: "_" + m.group(1).lower(), name)


def files():
    for at, folders, names in os.walk("."):
        folders[:] = [f for f in folders if f not in (".git", "out", "target", "data")]
        for name in names:
            yield os.path.join(at, name)


def antt():
    return sorted(f for f in files() if f.endswith(".antt"))


def collect():
    """old name -> new name"""
    new = dict.fromkeys(["sourceControl", "capturedCharge", "sourceSync", "sourceRising", "openBus"])
    for path in antt():
        walked = path.endswith("/Proof.antt")
        for line in open(path, encoding="utf-8"):
            m = re.match(r" *(?:abbrev pub |unfoldable pub |pub |abbrev |unfoldable )?([A-Za-z][\w'·-]*)$", line)
            if m and not walked:
                new.setdefault(m.group(1), None)
            m = TOP.match(line)
            if m and not (walked and (m.group(2) or "").startswith("tie.")):
                new.setdefault(m.group(1), None)
            if not walked:
                m = PART.match(line)
                if m:
                    new.setdefault(m.group(1), None)
            for old, alias in re.findall(r"([^\s{},]+) as ([^\s{},;]+)", line) if line.lstrip().startswith(("use ", "ghost use ")) else []:
                new.setdefault(alias, None)
    for old in list(new):
        if old in TAKEN:
            new[old] = TAKEN[old]
        elif KEPT.match(old) or not re.search(r"[a-z]", old):
            del new[old]
        elif re.match(r"[A-Z]\w*(-as-|·)[A-Z]\w*$", old):
            new[old] = re.sub(r"-as-|·", "", old)
        elif old[0].isupper() and "·" not in old and "-" not in old:
            del new[old]
        else:
            name = snake(old)
            if "·" in old:
                name = name[0].lower() + name[1:]
            if name == old:
                del new[old]
            else:
                new[old] = name
    return new


def prose(line, turn):
    """In prose a name stands between backticks or has the form of no English word."""
    line = re.sub(r"`[^`\n]+`", lambda m: turn(m.group(0), True), line)
    return turn(line, False)


def main(check):
    new = collect()
    back = collections.defaultdict(list)
    for old, name in new.items():
        back[name].append(old)
    for name, olds in sorted(back.items()):
        if len(olds) > 1:
            print("together:", name, olds)

    def turn(text, all_names):
        def one(m):
            old = m.group(1)
            if old not in new or (not all_names and "-" in old):
                return m.group(0)
            return m.group(0)[: m.start(1) - m.start()] + new[old] + m.group(0)[m.end(1) - m.start():]

        return TOKEN.sub(one, text)

    for path in sorted(files()):
        if not path.endswith((".antt", ".rt", ".edit", ".md")) or path.endswith("tools/respell.py"):
            continue
        with open(path, encoding="utf-8") as f:
            old = f.read()
        text = old
        for where, a, b in FIRST:
            if path == where:
                text = re.sub(r"(?<![\w'.-])" + a + r"(?![\w'-])", b, text)
        out = []
        clause = 0
        for line in text.split("\n"):
            if path.endswith(".antt"):
                if line.lstrip().startswith("--"):
                    out.append(prose(line, turn))
                elif " -- " in line:
                    a, b = line.split(" -- ", 1)
                    out.append(turn(a, True) + " -- " + prose(b, turn))
                else:
                    out.append(turn(line, True))
            elif path.endswith(".rt"):
                bare = line.lstrip()
                if bare.startswith("//"):
                    out.append(prose(line, turn))
                elif clause or re.match(r"(ghost|requires|ensures)\b", bare):
                    clause = max(0, clause) + line.count("{") - line.count("}")
                    if bare.startswith("ghost use"):
                        clause = 0 if line.rstrip().endswith(";") else 1
                    out.append(turn(line, True))
                else:
                    out.append(line)
            elif path.endswith(".edit"):
                out.append(turn(line, True) if line.startswith("# refuses:") else prose(line, turn) if line.startswith("#") else turn(line, True) if re.match(r"(old|new):", line) else line)
            else:
                out.append(prose(line, turn))
        text = "\n".join(out)
        if check and path.endswith((".antt", ".rt")):
            had = set(re.findall(r"(?<![\w.'-])[a-z][\w']*(?:-[\w']+)*", "\n".join(l for l in old.split("\n") if not l.lstrip().startswith(("--", "//")))))
            used = {o for o in TOKEN.findall(old) if o in new}
            for o in sorted(used):
                if new[o] in had:
                    print("falls on a name:", path, o, "->", new[o])
        if text != old and not check:
            with open(path, "w", encoding="utf-8") as f:
                f.write(text)
    if check:
        for old in sorted(new):
            print(old, "->", new[old])


if __name__ == "__main__":
    main("--check" in sys.argv[1:])

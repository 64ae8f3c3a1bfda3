#!/usr/bin/env python3
"""Brings the names of this repository's own definitions, lemmas, fields and constructors to snake case.

usage: python3 tools/respell.py       once, at the top, right after port.py; it says what it renamed

A name that a specs/ or proofs/ file declares and that holds a dash or a capital inside becomes snake case: nodesMost, nodes_most;
part-start, part_start. Where two of them would fall together, NAMED has another name for one. Answers to goals in Proof.antt keep the
names of their goals; what a file imports from a library keeps the library's name. It turns .antt and .rt files, the edits of must-fail/
and held/, and the pages: there names with a capital inside anywhere, and names with a dash between backticks or after a module's name.
"""

import os
import re
import sys

# a lemma that would have the name of what it is about, and other pairs that would fall together
NAMED = {
    "and-rest": "and_rest_lem",
    "event-line": "event_line_lem",
    "leaves_by": "leaves_by_lem",
    "not-formed": "not_formed_lem",
    "of-kind": "of_kind_lem",
    "out-link": "out_link_lem",
    "refused-line": "refused_line_lem",
    "spoilt-line": "spoilt_line_lem",
    "total-line": "total_line_lem",
    "turns-line": "turns_line_lem",
    "badAt": "bad_link_at",
    "event-at": "reads_event_at",
    "flight-most": "flight_fits",
    "links-most": "links_fit",
    "nodes-most": "nodes_fit",
    "goesOn": "history_after",
    "inAll": "count_in_all",
    "lane-empty": "lane_bare",
    "no-lane": "no_lane_down",
    "number-of": "number_from",
    "on-lane": "on_some_lane",
    "out-of-step": "if_out_of_step",
    "turns-in": "turns_inside",
    "wayOut": "way_out_of",
}
WORD = r"[\w'′-]"
NAME = re.compile(rf"(?<!{WORD})([A-Za-z_][\w'′-]*)(?!{WORD})")
SIGNATURE = re.compile(r"^\s*(?:pub |abbrev |unfoldable |data |record |ruleset )*([A-Za-z][\w'′-]*)\s*:(.*)$")
USE = re.compile(r"^(?:pub |ghost )*use\s+([\w.·'+-]+?)\.\{([^}]*)\};?\s*$", re.M)
CAPITAL_INSIDE = re.compile(r"[a-z0-9][A-Z]")


def found(top, wanted):
    for folder, dirs, names in os.walk(top):
        dirs[:] = sorted(d for d in dirs if d not in ("out", "target", ".git"))
        yield from (os.path.join(folder, n) for n in sorted(names) if wanted(n))


def text_of(path):
    with open(path, encoding="utf-8") as f:
        return f.read()


def declared(path):
    """The names that a file declares; none of its answers to goals."""
    for line in text_of(path).splitlines():
        m = SIGNATURE.match(line)
        if m and not re.match(r"\s*(?:let|use|in)\s", line) and not m.group(2).lstrip().startswith("tie."):
            yield m.group(1)


def spelled(name):
    if name[0].islower():
        name = re.sub(r"([a-z0-9])([A-Z])", lambda m: m.group(1) + "_" + m.group(2).lower(), name)
    return name.replace("-", "_").replace("′", "'")


def imports(text, own):
    """The names that a file imports from libraries."""
    names = set()
    for m in USE.finditer(text):
        if not any(m.group(1).startswith(f"Rattle.{c}.") for c in own):
            names |= {w.split(" as ")[-1].strip() for w in m.group(2).split(",")}
    return names


def turned(text, new, keep=frozenset()):
    return NAME.sub(lambda m: m.group(1) if m.group(1) in keep else new.get(m.group(1), m.group(1)), text)


def page(text, new):
    camel = {k: v for k, v in new.items() if CAPITAL_INSIDE.search(k)}
    text = re.sub(r"`[^`\n]*`", lambda m: turned(m.group(0), new), text)
    text = re.sub(rf"(?<=[A-Za-z]\.)([a-z][\w'-]*)(?!{WORD})", lambda m: new.get(m.group(1), m.group(1)), text)
    return turned(text, camel)


def main():
    own = sorted(os.listdir("crates"))
    sources = list(found("crates", lambda n: n.endswith(".antt")))
    names = {n for p in sources for n in declared(p)}
    new = {n: NAMED.get(n, spelled(n)) for n in names if n in NAMED or spelled(n) != n}
    met = {}
    for n in sorted(names):
        other = met.setdefault(new.get(n, n), n)
        if other != n:
            print(f"falls together: {other} and {n}")
    for p in sources + list(found("crates", lambda n: n.endswith(".rt"))):
        text = text_of(p)
        keep = imports(text, own) - (set(declared(p)) if p.endswith(".antt") else set())
        after = turned(text, new, keep)
        if p.endswith("Proof.antt"):
            f = os.path.basename(os.path.dirname(p)).lstrip("+")
            after = re.sub(rf"(?<!{WORD}){re.escape(f.replace('_', '-'))}-spec(?!{WORD})", f + "_spec", after)
        clash = {new[n] for n in new if re.search(rf"(?<!{WORD}){re.escape(n)}(?!{WORD})", text)} & keep
        if clash:
            print(f"{p}: imported from a library too: {sorted(clash)}")
        if after != text:
            with open(p, "w", encoding="utf-8") as f:
                f.write(after)
    for p in list(found("crates", lambda n: n.endswith(".edit"))):
        text = text_of(p)
        head, _, rest = text.partition("\n")
        with open(p, "w", encoding="utf-8") as f:
            f.write(page(head, new) + "\n" + turned(rest, new))
    for p in ["README.md"] + list(found("docs", lambda n: n.endswith(".md"))):
        text = text_of(p)
        with open(p, "w", encoding="utf-8") as f:
            f.write(page(text, new))
    for n in sorted(new):
        print(f"{n} {new[n]}")
    return 0


if __name__ == "__main__":
    sys.exit(main())

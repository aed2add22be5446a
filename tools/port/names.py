#!/usr/bin/env python3
"""Brings the definitions, lemmas, fields and constructors of specs/ and proofs/ to snake case, everywhere they are named.

usage: tools/port/names.py [ROOT]      after port.py, once; without ROOT the checkout that holds this file

Functions of src/, types and modules keep their names, and so does what the kit's libraries define. Must-fail edits that name
a definition are turned too. It stops, and writes nothing, where two names of one file would fall together.
"""
import os
import re
import sys

KIT = "/opt/rattle/rattle"
TOKEN = re.compile(r"[A-Za-z_\u0370-\u03ff][\w'\u2080-\u2089\u2032?!\u2262\u2261\u2264-]*", re.U)
HEAD = re.compile(r"^ *((?:(?:abbrev|unfoldable|opaque|pub|rec)\s+)*)([a-z][\w'\u2080-\u2089?-]*)\s*(?:\{[^{}]*\}\s*|\([^()]*\)\s*)*:(?!:)", re.U)
# names that would fall together with another of their file, or with a crate's
OTHERS = {
    "twoAt": "two_at", "sizes-at": "sizes_read", "methods-at": "methods_read", "passedOn": "handed_on", "all-bytes": "are_bytes", "with-bit": "with_bit_of", "all-alone": "locates_alone",
    "clz-count": "clz_counted", "name-count": "name_counted", "key-of": "key_found", "textOut": "text_outcome", "tooLarge": "is_too_large",
    "indexSet": "index_set_of", "typeIds": "type_ids", "type-ids": "type_groups_ids", "start-words": "two_start_words",
    "is-hit": "hit_is", "whole-build": "build_whole", "first-bucket": "bucket_first", "found-hits": "hits_found", "confirmed-from": "from_confirmed",
    "first-of": "first_of_list", "alone-out": "out_alone", "units-by": "units_told", "first-zero": "zero_first", "search-fault": "search_faults",
    "first-fault": "first_faults", "filter-fault": "filter_faults", "method-fault": "method_faults", "string-text": "text_of_string",
}
# files of one function's proof, in its folder of proofs/
MADE = re.compile(r"/proofs/.*/(Proof|Answers|Invariants)\.antt$")
NOT_HEADS = {"use", "module", "let", "in", "record", "data", "where", "unfolding", "elim", "rw", "case"}


def snake(name):
    """first-zero, firstZero -> first_zero; a name without either stays."""
    s = re.sub(r"(?<=[a-z0-9'])([A-Z])", lambda m: "_" + m.group(1).lower(), name)
    return s.replace("-", "_")


def files(root, folders, ends):
    for c in sorted(os.listdir(os.path.join(root, "crates"))):
        for f in folders:
            for d, dirs, names in os.walk(os.path.join(root, "crates", c, f)):
                dirs.sort()
                for n in sorted(names):
                    if n.endswith(ends):
                        yield os.path.join(d, n)


def read(p):
    with open(p, encoding="utf-8") as f:
        return f.read()


def heads(text):
    for line in text.splitlines():
        m = HEAD.match(line)
        if m and m.group(2) not in NOT_HEADS:
            yield m.group(2)


def turn(text, names, made=False):
    """made: a file of answers, where what follows a dot, and each goal, has a name that Rattle made."""
    goals = set(re.findall(r"^(?:abbrev )?pub (\S+) : goal\.", text, re.M)) if made else ()

    def new(m):
        word = m.group(0)
        if made and (word in goals or text[m.start() - 1 : m.start()] == "."):
            return word
        return names.get(word, word)

    return TOKEN.sub(new, text)


def main():
    root = os.path.abspath(sys.argv[1]) if len(sys.argv) > 1 else os.path.dirname(os.path.dirname(os.path.dirname(os.path.abspath(__file__))))
    own, where = set(), {}
    for p in files(root, ("specs", "proofs"), ".antt"):
        if MADE.search(p):
            continue
        for h in heads(read(p)):
            own.add(h)
            where.setdefault(h, set()).add(p)
    kit = set()
    for d, dirs, names in os.walk(KIT):
        for n in names:
            if n.endswith(".antt"):
                kit.update(h for h in heads(read(os.path.join(d, n))))
    names = {h: snake(h) for h in own if snake(h) != h and not h.startswith("_")}
    names |= OTHERS
    if "twoAt" in own:
        names["two_at"] = "two_read"
    both = sorted(h for h in names if h in kit)
    clash = []
    for p in files(root, ("specs", "proofs"), ".antt"):
        made = {}
        text = "\n".join(l.split("--")[0] for l in read(p).splitlines())
        for h in TOKEN.findall(re.sub(r"Rattle(\.\w+)+", "", text)):
            made.setdefault(names.get(h, h), set()).add(h)
        clash += [f"{p}: {sorted(v)} -> {k}" for k, v in made.items() if len(v) > 1]
    for line in both:
        print("also the kit's: " + line)
    for line in clash:
        print("clash: " + line)
    if clash or "--look" in sys.argv:
        return 2 if clash else 0
    for p in list(files(root, ("specs", "proofs"), ".antt")) + list(files(root, ("must-fail",), ".edit")):
        old = read(p)
        new = turn(old, names, bool(MADE.search(p)))
        if new != old:
            with open(p, "w", encoding="utf-8") as f:
                f.write(new)
    # in src/ the clauses alone name definitions: ghost lines, and what stands in a contract
    for p in files(root, ("src",), ".rt"):
        old = read(p)
        new = contracts(old, names)
        if new != old:
            with open(p, "w", encoding="utf-8") as f:
                f.write(new)
    return 0


def contracts(text, names):
    """Turns names in `ghost` items and in the braces of requires and ensures."""
    out, at = [], 0
    start = re.compile(r"(?:\bghost\b[^;{]*[;{]|\b(?:requires|ensures)\b[^{;]*\{)")
    while True:
        m = start.search(text, at)
        if not m:
            out.append(text[at:])
            return "".join(out)
        end = m.end()
        out.append(text[at:m.start()])
        if text[m.end() - 1] == "{":
            depth = 1
            while depth and end < len(text):
                depth += {"{": 1, "}": -1}.get(text[end], 0)
                end += 1
        out.append(turn(text[m.start():end], names))
        at = end


if __name__ == "__main__":
    raise SystemExit(main())

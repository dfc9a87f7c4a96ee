#!/usr/bin/env python3
"""Brings this repository's own names to the toolchain's spelling: definitions, fields and lemmas in snake case, a dash only between two names.

usage: python3 tools/respell.py      once, at the top, right behind the toolchain's own script for older repositories

Rewrites the texts of crates/*/specs, crates/*/proofs, the ghost names of crates/*/src and the names in crates/*/must-fail/*.edit. Names of functions in src/,
exported names, strings, inputs and outputs have no capitals inside and stay.
"""

import collections
import glob
import re

# Lemmas named as a definition but for the dash, which the toolchain's script took away.
LEMMAS = ["by_code", "entry_in", "none_passes", "takes_one", "word_good"]
# In one file alone: a local of the name of a definition.
LOCALS = {"crates/machine/proofs/Good.antt": ["word_sound"]}
# Where that script saw a variant's name.
VARIANTS = {"is_Known": "is_known", "Access-of": "access-of", "None-found": "none-found"}
# Own names that it turned: the must-fail edits still have them.
TURNED = {
    "noSlot": "no_slot", "anyOf": "any_of", "allOf": "all_of", "sideOf": "side_of", "slotsOf": "slots_of", "placeIn": "place_in", "stateOf": "state_of",
    "runOf": "run_of", "isEmpty": "is_empty", "wordsOf": "words_of", "inRange": "in_range", "allBelow": "all_below", "widthOf": "width_of", "bitsOf": "bits_of",
    "contextOf": "context_of", "isSet": "is_set", "tagOf": "tag_of", "slotOf": "slot_of", "keyOf": "key_of", "isAt": "is_at", "entryOf": "entry_of",
    "fieldsOf": "fields_of", "nameOf": "name_of", "partOf": "part_of", "listOf": "list_of", "isRefused": "is_refused", "takenOf": "taken_of", "headOf": "head_of",
    "baseOf": "base_of", "lineAt": "line_at", "answerOf": "answer_of", "entryAt": "entry_at", "withTag": "with_tag", "noPart": "no_part", "orElse": "or_else",
    "tablesOf": "tables_of", "getD": "get_or", "bitXor": "bit_xor", "bitOr": "bit_or", "bitAnd": "bit_and",
}

TOKEN = re.compile(r"(?<![A-Za-z0-9_'])[A-Za-z_][A-Za-z0-9_']*(?:-[A-Za-z0-9_']+)*")
CAMEL = re.compile(r"^[a-z][a-z0-9']*(?:[A-Z][a-zA-Z0-9']*)+$")
HEAD = re.compile(r"^\s*(?:abbrev\s+|unfoldable\s+)?(?:pub\s+)?([a-z][\w'-]*)\s*(?:\{[^}]*\}\s*)?:\s")


def snake(word):
    return re.sub(r"(?<=[a-z0-9])([A-Z]+)", lambda m: "_" + m.group(1).lower(), word)


def part(word):
    return snake(word) if CAMEL.match(word) else word


def files():
    antt = sorted(glob.glob("crates/*/specs/**/*.antt", recursive=True) + glob.glob("crates/*/proofs/**/*.antt", recursive=True))
    return antt, sorted(glob.glob("crates/*/src/*.rt")), sorted(glob.glob("crates/*/must-fail/*.edit"))


def read(path):
    with open(path, encoding="utf-8") as f:
        return f.read()


def by_token(text, turn):
    return TOKEN.sub(lambda m: turn(m.group(0), text[: m.start()]), text)


def first(text, path):
    """Names of one word: definitions, fields, variables; and the lemmas that would fall together with them."""
    locals_ = LOCALS.get(path, [])

    def turn(word, before):
        projected = before.endswith(".")
        if word in LEMMAS and path.endswith(".antt") and not (projected and re.search(r"\bc(\.\w[\w-]*)*\.$", before)):
            return word + "_lem"
        if word in locals_ and not projected:
            return word + "_lem"
        if word in VARIANTS:
            return VARIANTS[word]
        return "-".join(part(w) for w in word.split("-"))

    return by_token(text, turn)


def definitions(antt):
    names, lemmas = set(), collections.defaultdict(set)
    for path in antt:
        proof = path.endswith("/Proof.antt")
        for line in read(path).splitlines():
            m = HEAD.match(line)
            if not m:
                continue
            if "-" in m.group(1):
                if not proof:
                    lemmas[m.group(1)].add(path)
            else:
                names.add(m.group(1))
    return names, lemmas


def joined(word, names):
    """A dash stays between two names; the words of one name are joined by an underscore."""
    parts, out = word.split("-"), []
    while parts:
        for n in range(len(parts), 0, -1):
            one = "_".join(parts[:n])
            if n == 1 or one in names:
                out.append(one)
                parts = parts[n:]
                break
    return "-".join(out)


def main():
    antt, rt, edits = files()
    if any("none_passes_lem" in read(path) for path in antt):
        raise SystemExit("respell: it has run here")
    for path in antt + rt + edits:
        text = read(path)
        new = text
        if path in edits:
            new = by_token(new, lambda w, b: TURNED.get(w, w)).replace("Bool\u00b7", "").replace(" .entry", ".old")
            new = re.sub(r"(?<=[\w')]) \.(?=[\w(])", ".", new)
            new = re.sub(r"(?<=[ (])\(([\w']+(?:\.[\w']+)+)\)", r"\1", new)
            new = re.sub(r"\(now ([\w.]+)\)", r"\1.now", new)
        new = first(new, path)
        if new != text:
            with open(path, "w", encoding="utf-8") as f:
                f.write(new)
    names, lemmas = definitions(antt)
    for path in rt:
        names |= {m for m in re.findall(r"\bfn (\w+)", read(path)) if "_" in m}
    multi = {n for n in names if "_" in n}
    turned = {}
    for lemma in sorted(lemmas):
        new = joined(lemma, multi)
        if new in names:
            new += "_lem"
        if new != lemma and new not in names and new not in lemmas and new not in turned.values():
            turned[lemma] = new
    aliases = collections.defaultdict(set)
    for path in antt:
        text = read(path)
        for m in re.finditer(r"^use Rattle\.\S+ as ([\w-]+)$", text, re.M):
            aliases[path].add(m.group(1))

    for path in antt:
        text = read(path)
        mine = aliases[path] - {"tie", "goal"}

        def turn(word, before):
            if word not in turned:
                return word
            q = re.search(r"([\w'-]+)\.$", before)
            if q and q.group(1) not in mine:
                return word
            return turned[word]

        new = by_token(text, turn)
        if new != text:
            with open(path, "w", encoding="utf-8") as f:
                f.write(new)
    print(f"respell: {len(turned)} lemmas: " + ", ".join(f"{a} {b}" for a, b in turned.items()))


main()

#!/usr/bin/env python3
"""Brings the repository's own definitions and lemmas to today's spelling, once, right after port.py: snake case, with no dash and no capital within.

usage: python3 tools/respell.py        at the top of the repository

What it renames is what the files of specs/ and proofs/ declare; words of the libraries and names that Rattle makes stay as they are.
Where two names would fall together, or a name would meet another in one file, GIVEN and GIVEN_IN say the new one.
"""
import glob
import os
import re

WORD = r"[^\s(){}\[\];,.\"`]+"
KEYWORDS = "abbrev|unfoldable|pub|record|data|ruleset|opaque"
DECLARED = re.compile(r"^\s*(?:(?:" + KEYWORDS + r") )*(" + WORD + r")(?:\s+(?:\{[^}]*\}|\([^)]*\)|" + WORD + r"))*?\s*:(?:\s|$)")

# A lemma that would have its function's name gets `_lem`; the others are told apart by a word more.
GIVEN = {
    "pairWith": "paired_with", "pair-below": "pair_below_lem", "link-back": "link_back_lem", "same-link": "same_link_lem",
    "record-if": "record_if_lem", "oneLocation": "at_one_location", "oneLocation?": "at_one_location?", "kept-part": "kept_part_lem", "same-location": "same_location_lem",
    "read-u": "read_u_lem", "written-u": "written_u_lem", "flags-rest": "flags_rest_lem", "columns-by": "columns_by_lem", "reads-kind": "reads_kind_lem",
    "kind-byte": "kind_byte_lem", "order-byte": "order_byte_lem", "parent-byte": "parent_byte_lem", "writes-kind": "writes_kind_lem",
    "finding-at": "finding_at_lem", "link-number": "link_number_lem", "acquires-code": "acquires_code_lem", "number-if": "number_if_lem",
    "last-child": "last_child_lem", "word-of": "word_of_lem", "in-row": "in_row_lem", "tooLarge": "too_large_text", "inOrder": "all_in_order",
    "figures-of": "with_figures", "valueOr0": "value_or_0", "numberOr0": "number_or_0", "first_below": "first_below_lem",
}
GIVEN_IN = {
    "judge/proofs/Reporting.antt": {"any_found": "any_found_lem"},
    "columns/proofs/BytesTell.antt": {"source_byte": "source_byte_lem"},
    "columns/proofs/read/Proof.antt": {"source_byte": "source_byte_lem"},
}
# Bound names that no signature declares.
BOUND = "wb-ok po-ok cf-ok hb-ok race-ok no-source' source-a source-b no-W no-W' no-next no-closed record-8 none-shows by-source no-x is-records e-last e-x e-part above-v by-write not-placed".split()


def is_old(name):
    return bool("-" in name and re.match(r"^[A-Za-z][\w'?₀-₉-]*$", name)) or bool(re.match(r"^[a-z][a-z0-9]*[A-Z][\w'?₀-₉]*$", name))


def respelled(name):
    if name in GIVEN:
        return GIVEN[name]
    if "-" in name:
        return name.replace("-", "_")
    return re.sub(r"(?<=[a-z0-9])(?=[A-Z])", "_", name).lower()


def is_walk(path):
    return "/proofs/" in path and path.split("/proofs/")[1].count("/") > 0


def main():
    crates = sorted(c for c in os.listdir("crates") if os.path.isdir(os.path.join("crates", c, "src")))
    antt = sorted(p for c in crates for p in glob.glob(f"crates/{c}/specs/**/*.antt", recursive=True) + glob.glob(f"crates/{c}/proofs/**/*.antt", recursive=True))
    rust = sorted(p for c in crates for p in glob.glob(f"crates/{c}/src/**/*.rt", recursive=True))
    texts = {p: open(p, encoding="utf-8").read() for p in antt + rust}
    functions = {n.replace("_", "-") for p in rust for n in re.findall(r"\bfn (\w+)", texts[p])}
    shared, local = set(BOUND) | {"first_below"}, {}
    for p in antt:
        for line in texts[p].split("\n"):
            found = DECLARED.match(line)
            if found and not line.strip().startswith("--") and is_old(found[1]):
                (local.setdefault(p, set()) if is_walk(p) else shared).add(found[1])
    for p, text in texts.items():
        names = shared | local.get(p, set())
        more = next((g for end, g in GIVEN_IN.items() if p.endswith(end)), {})

        def turn(found):
            word, before = found[0], text_of_line[: found.start()]
            if is_walk(p) and before.endswith(".") and word in functions:
                return word
            if word in more:
                return more[word]
            return respelled(word) if word in names else word

        lines = []
        for line in text.split("\n"):
            mark = "//" if p.endswith(".rt") else "--"
            if line.strip().startswith(mark):
                lines.append(re.sub(r"`[^`]*`", lambda q: re.sub(WORD, lambda f: respelled(f[0]) if f[0] in names else f[0], q[0]), line))
                continue
            text_of_line = line
            pieces = re.split(r"(\"(?:[^\"\\]|\\.)*\")", line) if p.endswith(".rt") else [line]
            for i in range(0, len(pieces), 2):
                text_of_line = pieces[i]
                pieces[i] = re.sub(WORD, turn, pieces[i])
            lines.append("".join(pieces))
        new = "\n".join(lines)
        if new != text:
            with open(p, "w", encoding="utf-8") as f:
                f.write(new)


main()

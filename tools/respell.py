#!/usr/bin/env python3
"""Brings the repository's own definitions and lemmas to today's spelling. Run once, at the top, after the port's script.

Words in camel case that begin small become snake case, in .antt and .rt files, in must-fail edits and in the code spans of pages; a dash that joins
two names stays. Fields of specs/ lose their dashes. A lemma that would have its function's name ends in _lem.
It prints names that fall together, and writes nothing then.
"""

import os
import re
import sys

HUMP = re.compile(r"(?<=[a-z0-9])([A-Z])")
WORD = re.compile(r"(?<![\w'])[a-z]\w*")
LEMMA = {  # lemmas and fields that would have the name of a definition
    "crates/text/proofs/Inverse.antt": ["count_at"],
    "crates/text/proofs/Fields.antt": ["first_field", "is_pos"],
    "crates/promises/proofs/Demands.antt": ["last_set"],
    "crates/points/proofs/Memory.antt": ["last_set"],
    "crates/bantameasel/proofs/Points.antt": ["last_set"],
    "crates/visits/proofs/Gone.antt": ["last_set"],
    "crates/promises/proofs/Misspelt.antt": ["line_before"],
    "crates/write/proofs/TableLaws.antt": ["number_is", "count_at"],
    "crates/order/proofs/Rule.antt": ["of_size"],
    "crates/order/proofs/Turns.antt": ["of_size"],
}
FIELDS = [
    "bit-on", "body-unsatisfied", "from-last-set", "is-full", "is-gapped", "is-stray", "is-wrong-zero", "line-names", "no-answer-set",
    "not-minimal", "pair-refused", "past-exceptions", "past-statements", "ranked-within", "some-statement", "taken-has", "text-refused",
    "then-called", "with-body", "rule-at", "line-at", "lines-named", "not-refused",
]


def snake(word):
    return HUMP.sub(lambda m: "_" + m[1].lower(), word)


def camel(word):
    return bool(HUMP.search(word))


def texts(endings, *roots):
    for root in roots:
        for folder, dirs, names in os.walk(root):
            # a crate's own out/ is made by rt
            dirs[:] = sorted(d for d in dirs if d != "out" or "proofs" in folder)
            for name in sorted(names):
                if name.endswith(endings):
                    path = os.path.join(folder, name)
                    with open(path, encoding="utf-8") as f:
                        yield path, f.read()


def respelt(path, text):
    text = text.replace("′", "'")
    for lemma in LEMMA.get(path, []):
        text = re.sub(rf"(?<![\w'-]){lemma}(?![\w'-])", lemma + "_lem", text)
    for field in FIELDS:
        text = re.sub(rf"(?<![\w'-]){field}(?![\w'-])", field.replace("-", "_"), text)
    text = WORD.sub(lambda m: snake(m[0]) if camel(m[0]) else m[0], text)
    # an import under its own name needs no second one
    return re.sub(r"(?<![\w'-])([a-z][\w'-]*) as \1(?![\w'-])", r"\1", text)


def main():
    code = dict(texts((".antt", ".rt"), "crates"))
    names = {w for t in code.values() for w in WORD.findall(t) if camel(w)}
    together = 0
    for path, text in code.items():
        here = set(WORD.findall(text))
        if path.endswith(".antt"):
            for lemma in LEMMA.get(path, []):
                here.discard(lemma)
            declared = set(re.findall(r"(?m)^ *(?:(?:pub|abbrev|unfoldable|pattern|record|data) )*([a-z][\w'-]*)(?: [^\n:]*)?:", text))
            declared -= set(LEMMA.get(path, []))
            for w in sorted(here & names):
                if snake(w) in declared:
                    print(f"together: {path}: {w} and {snake(w)}")
                    together += 1
            for field in (f for f in FIELDS if f != "line-at"):  # a field, reached by a dot only, beside a local word
                if re.search(rf"(?<![\w'-]){field}(?![\w'-])", text) and field.replace("-", "_") in here:
                    print(f"together: {path}: {field} and {field.replace('-', '_')}")
                    together += 1
    if together and "--anyway" not in sys.argv:
        return 1
    for path, text in list(code.items()) + list(texts((".edit",), "crates")):
        new = respelt(path, text)
        if new != text:
            with open(path, "w", encoding="utf-8") as f:
                f.write(new)
    for path, text in texts((".md",), "docs", "examples", "tests", "crates"):
        if path.startswith("docs/PORT"):
            continue
        new = re.sub(r"`[^`\n]*`", lambda span: WORD.sub(lambda m: snake(m[0]) if m[0] in names else m[0], span[0]), text)
        if new != text:
            with open(path, "w", encoding="utf-8") as f:
                f.write(new)
    return 0


if __name__ == "__main__":
    sys.exit(main())

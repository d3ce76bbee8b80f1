#!/usr/bin/env python3
"""Respells this repository's own definitions and lemmas as today's Rattle spells names: words in snake case. Run once at the top, right after
the kit's port.py. Functions of src/, exported C names, strings, inputs and outputs keep their names."""
import glob
import re

# A name of letters with a capital inside; types begin with a capital and stay.
CAMEL = re.compile(r"(?<=[a-z0-9])[A-Z]")
TOKEN = re.compile(r"[A-Za-z_][A-Za-z0-9_'?-]*")
# Strings of antt and Rust, and characters of Rust, are kept.
KEPT = re.compile(r"""b?"(?:\\.|[^"\\\n])*"|b'(?:\\.|[^'\\])'""")

# Where the snake case of a function is the name of a lemma or a field, one of them takes another: (files, name, new name).
APART = [
    (["crates/canonical/specs/RenamedFine.antt"], "bit_in", "bit_in_lem"),
    (["crates/canonical/specs/Parse.antt"], "in_cell", "in-cell"),
    (["crates/replay/proofs/PlaceLaws.antt"], "in_tail", "in_tail_lem"),
    (["crates/signal_list/proofs/ReadLaws.antt", "crates/signal_list/proofs/signals_from/Proof.antt"], "list_on", "list_on_lem"),
    (["crates/wire_names/specs/NowLaws.antt", "crates/listing/proofs/LineLaws.antt", "crates/rename_rules/proofs/RenamedLaws.antt",
      "crates/show/proofs/PartLaws.antt"], "name_by", "name_by_lem"),
    (["crates/context/proofs/SizeLaws.antt", "crates/context/proofs/sizes/within/Proof.antt"], "or_from", "or_from_lem"),
    (["crates/admitted/specs/StepLaws.antt", "crates/canonical/specs/Following.antt"], "same_step", "same_step_lem"),
    (["crates/show/proofs/PartLaws.antt"], "shown_of", "shown_of_lem"),
    (["crates/module_text/specs/BlockLaws.antt"], "text_in", "text_in_lem"),
    (["crates/**/*"], "bitsPut", "bits_put_at"),
    (["crates/**/*"], "stepSignals", "signals_of_step"),
    (["crates/**/*"], "stringBytes", "bytes_of_string"),
    (["crates/**/*"], "Option·elim", "Option-elim"),
]


def snake(name):
    if name[0].isupper():
        return name
    return CAMEL.sub(lambda m: "_" + m.group(0).lower(), name.replace("getD", "get_or"))


def respell(text, of):
    """`of` of each name outside strings."""
    parts, at = [], 0
    for kept in KEPT.finditer(text):
        parts += [TOKEN.sub(lambda m: of(m.group(0)), text[at:kept.start()]), kept.group(0)]
        at = kept.end()
    return "".join(parts) + TOKEN.sub(lambda m: of(m.group(0)), text[at:])


def files(patterns):
    names = {name for pattern in patterns for name in glob.glob(pattern, recursive=True)}
    return sorted(name for name in names if name.endswith((".antt", ".rt", ".edit")) and "/out/" not in name)


def rewrite(names, change):
    for name in names:
        with open(name, encoding="utf-8") as file:
            old = file.read()
        new = change(old)
        if new != old:
            with open(name, "w", encoding="utf-8") as file:
                file.write(new)


def main():
    for patterns, old, new in APART:
        if "·" in old:
            rewrite(files(patterns), lambda text: text.replace(old, new))
        else:
            rewrite(files(patterns), lambda text: respell(text, lambda name: new if name == old else name))
    # Of these pages only what is in backquotes is code.
    pages = ["README.md", *glob.glob("docs/**/*.md", recursive=True)]
    rewrite(files(["crates/**/*"]), lambda text: respell(text, snake))
    rewrite(pages, lambda text: re.sub(r"`[^`\n]*`", lambda m: TOKEN.sub(lambda t: snake(t.group(0)), m.group(0)), text))


main()

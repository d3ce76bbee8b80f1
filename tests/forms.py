#!/usr/bin/env python3
"""Counts, for docs/DESIGN-PASS.md, the places in crates/*/src that are written in an older form: `forms.py [COMMIT]` counts each kind,
`forms.py [COMMIT] --list KIND` prints its places. Without a commit the files on disk are read."""
import collections
import re
import subprocess
import sys

ROOT = subprocess.check_output(["git", "rev-parse", "--show-toplevel"], text=True).strip()


def sources(commit):
    """Each file of crates/*/src by its path."""
    said = ["git", "-C", ROOT]
    if commit:
        paths = subprocess.check_output([*said, "ls-tree", "-r", "--name-only", commit, "crates"], text=True).split()
    else:
        paths = subprocess.check_output([*said, "ls-files", "crates"], text=True).split()
    found = {}
    for path in paths:
        if re.fullmatch(r"crates/\w+/src/.*\.rt", path):
            if commit:
                found[path] = subprocess.check_output([*said, "show", f"{commit}:{path}"], text=True)
            else:
                found[path] = open(f"{ROOT}/{path}").read()
    return found


def functions(text):
    """Name, line, parameters with types, clauses and body of each function."""
    for it in re.finditer(r"^( *)(?:pub )?(?:extern \"C\" )?fn (\w+)(?:<[^(]*>)?\(([^{]*?)\)((?:(?!\n\1\{\n).)*?)\s*\{\n(.*?)\n\1\}$", text, re.S | re.M):
        yield it[2], text.count("\n", 0, it.start()) + 1, it[3], it[4], it[5]


def enums(text):
    for it in re.finditer(r"^(?:pub )?enum (\w+)(?:<.*?>)? \{\n(.*?)\n\}", text, re.S | re.M):
        body = re.sub(r"//.*", "", it[2])
        variants = re.findall(r"^    (\w+)( \{|\()?", body, re.M)
        yield it[1], text.count("\n", 0, it.start()) + 1, [(name, bool(rest)) for name, rest in variants]


NONE = {"Nothing", "NoShape", "Absent", "Bad", "Past", "Outside", "Broken", "Breaks", "Damaged", "Refused", "Stop", "Wrong", "BadNumber", "MissingWire"}


def option_like(files):
    for path, text in files.items():
        for name, line, variants in enums(text):
            if len(variants) == 2 and any(it in NONE for it, _ in variants):
                yield f"{path}:{line} {name}"


def none_variant(files):
    for path, text in files.items():
        for name, line, variants in enums(text):
            if len(variants) > 2 and any(it in NONE for it, _ in variants):
                yield f"{path}:{line} {name}"


def flags(files):
    for path, text in files.items():
        for at, line in enumerate(text.split("\n"), 1):
            if re.match(r"\s+(pub )?(number|fault|some): (u32|bool),", line) and "(" not in line:
                yield f"{path}:{at} {line.strip()}"


def number_answers(files):
    for path, text in files.items():
        for name, line, _, rest, body in functions(text):
            if "-> u32" in rest and re.search(r"\b(0|n|number|fault)\b\s*$", body) and re.search(r"(BAD|TOO|NOT|TAKEN|NO_SHAPE|DAMAGED|WRONG|PORT_RENAME)_?[A-Z]*", body):
                yield f"{path}:{line} {name}"


def codes(files):
    for path, text in files.items():
        for at, line in enumerate(text.split("\n"), 1):
            if re.match(r"(pub )?const \w+(_KIND|_STEP|_READ|_SORT|_CODE): ", line) or re.match(r"pub const (TOP|IN_\w+): ", line):
                yield f"{path}:{at} {line.strip()}"
            elif path.endswith(("/results.rt", "/words.rt", "/class.rt")) and re.match(r"pub const \w+: (u8|u32|usize) = \d+;", line):
                yield f"{path}:{at} {line.strip()}"


def code_parameters(files):
    for path, text in files.items():
        for name, line, parameters, _, _ in functions(text):
            for it in re.findall(r"\b(kind|step|scope|sort|class|direction|k): (u32|usize|u8)\b", parameters):
                if it[0] != "k":
                    yield f"{path}:{line} {name} {it[0]}"


def twins(files):
    seen = collections.defaultdict(list)
    for path, text in files.items():
        for name, line, parameters, _, body in functions(text):
            known = {}
            words = []
            whole = re.sub(r"//.*", "", parameters + "{" + body)
            for word in re.findall(r"\w+|[^\w\s]", whole):
                if word in ("u8", "u16", "u32", "usize"):
                    word = "T"
                elif word[0].isdigit():
                    word = "0"
                elif word[0].isalpha() and word not in ("while", "for", "if", "else", "return", "let", "mut", "match", "loop", "in", "as", "true", "false", "bool"):
                    word = known.setdefault(word, f"x{len(known)}")
                words.append(word)
            if len(words) > 30:
                seen[" ".join(words)].append(f"{path}:{line} {name}")
    for places in seen.values():
        if len(places) > 1:
            yield " = ".join(places)


def loops(files):
    for path, text in files.items():
        for at, line in enumerate(text.split("\n"), 1):
            if re.match(r"\s*(while|loop)\b", line) and not line.strip().startswith("while let"):
                yield f"{path}:{at} {line.strip()}"


def by_hand(files):
    names = r"(same_bytes|comes_before|merge|pick|or|one_if|count_if|is_given|at_most_one|one_if_module|put_bytes|put_words|put_word|number_of|max|min|minimum|copy\w*)"
    for path, text in files.items():
        for name, line, _, _, _ in functions(text):
            if re.fullmatch(names, name):
                yield f"{path}:{line} {name}"


GROUPS = [("names", "wires", "rows"), ("heads", "chain"), ("renames", "room"), ("f", "tokens"), ("out", "at"), ("strings", "bits")]


def together(files):
    for path, text in files.items():
        for name, line, parameters, _, _ in functions(text):
            has = set(re.findall(r"\b(\w+):", parameters))
            for group in GROUPS:
                if has.issuperset(group):
                    yield f"{path}:{line} {name} ({', '.join(group)})"


def facts(files):
    seen = collections.defaultdict(list)
    for path, text in files.items():
        for name, line, _, clauses, _ in functions(text):
            for it in set(re.findall(r"requires(?: \w+)? \{ (.*) \}", clauses)):
                seen[re.sub(r"\.(old|now)", "", it)].append(f"{path}:{line} {name}")
    for clause, places in seen.items():
        if len(places) > 2:
            yield f"{len(places)} {clause}"


def buffers(files):
    for path, text in files.items():
        for at, line in enumerate(text.split("\n"), 1):
            if re.search(r"\[0(u8|u32)?; \w+\]", line):
                yield f"{path}:{at} {line.strip()}"


def switches(files):
    for path, text in files.items():
        for name, line, _, _, body in functions(text):
            tests = re.findall(r"if (?:\()?(?:\w+\.)?(?:kind|step|c|k|scope) (?:==|<=|<) [A-Z_]+\b", body)
            if len(tests) > 3:
                yield f"{path}:{line} {name} ({len(tests)} tests)"


KINDS = {
    "1-option-like": option_like,
    "1-none-variant": none_variant,
    "1-flag-fields": flags,
    "1-number-answers": number_answers,
    "1-codes": codes,
    "1-code-parameters": code_parameters,
    "2-twins": twins,
    "3-loops": loops,
    "4-by-hand": by_hand,
    "5-together": together,
    "5-facts": facts,
    "6-buffers": buffers,
    "7-switches": switches,
}


def main():
    words = sys.argv[1:]
    wanted = words[words.index("--list") + 1] if "--list" in words else None
    commit = words[0] if words and words[0] != "--list" else None
    files = sources(commit)
    for kind, find in KINDS.items():
        places = list(find(files))
        if wanted is None:
            print(f"{kind} {len(places)}")
        elif wanted == kind:
            print("\n".join(places))


main()

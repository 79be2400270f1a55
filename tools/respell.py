#!/usr/bin/env python3
"""Respells this repository's own definitions, lemmas and bound names from kebab-case and camelCase to snake_case.

usage: tools/respell.py [--check]      (at the top of the repository, once, after the toolchain's port.py)

Turned: code of crates/*/specs and crates/*/proofs; clauses and ghost lines of crates/*/src; own names in comments, where
they are quoted or in camelCase. Kept: names that a file takes from a library, the labels that the toolchain makes of a
function's code, types, modules, strings, and everything else of src/. Names that would meet another are in OTHERWISE.
--check writes nothing and lists the names that would fall together.
"""
import re
import sys
from collections import defaultdict
from pathlib import Path

CRATES = [line.split(":")[0].split()[0] for line in Path("crates.txt").read_text().splitlines()
          if ":" in line and not line.startswith("#")]
NAME = re.compile(r"[^\s(){}.;,@\"«»\[\]]+")
USE = re.compile(r"^\s*(?:ghost )?use ([^\s{;]+)(?:\{([^}]*)\})?(?: as (\S+))?", re.M)
DECLARED = re.compile(r"(?m)^ *(?:(?:abbrev|pub|unfoldable|data|record|field|private) )*([^\s:(){}]+)(?: [({][^\n]*?[)}])* :(?= |$)")
FN = re.compile(r"\bfn (\w+)")
CODE_OR_REST = re.compile(r'"(?:[^"\\\n]|\\.)*"|--[^\n]*|[^"\-]+|.', re.S)
GENERATED = {"Goals", "Given", "Tie", "Statement", "Lts", "Symbol", "Met", "Code", "Key"}

# A name whose plain spelling would meet another in some file.
OTHERWISE = {
    "area-image-page": "area_image_page_lem",
    "byte-address": "byte_address_lem",
    "cut-reads": "cut_reads_lem",
    "empty-queue": "empty_queue_lem",
    "errors-fit": "errors_fit_lem",
    "first-denied": "first_denied_lem",
    "first-unused": "first_unused_lem",
    "flash-fits": "flash_fits_lem",
    "groups-value": "groups_value_lem",
    "next-bank": "next_bank_lem",
    "none-waits": "none_waits_lem",
    "page-fits": "page_fits_lem",
    "progress-after": "progress_after_lem",
    "put-errors": "put_errors_lem",
    "put-inputs": "put_inputs_lem",
    "put-progress": "put_progress_lem",
    "put-region": "put_region_lem",
    "region-at": "region_at_lem",
    "region-encoded": "region_encoded_lem",
    "region-fits": "region_fits_lem",
    "running-fits": "running_fits_lem",
    "setting-at": "setting_at_lem",
    "setting-encoded": "setting_encoded_lem",
    "slot-at": "slot_at_lem",
    "span-start": "span_start_lem",
    "then-numbers": "then_numbers_lem",
    "valid-with": "valid_with_lem",
    "words-at": "words_at_lem",
    "write-refused": "write_refused_lem",
}

# Names that port.py has already put into snake_case beside a camelCase name of the same words.
MET = {
    "crates/shuffles/proofs/Applied.antt": {"one_way": "one_way_shuffles", "other_way": "other_way_shuffles"},
    "crates/shuffles/proofs/Touched.antt": {"is_read": "reads_here"},
    "crates/steps/proofs/Left.antt": {"told_moved": "told_moved_lem"},
}


def snake(name):
    if name in OTHERWISE:
        return OTHERWISE[name]
    if not re.match(r"#?[a-z]", name):
        return name
    if not re.search(r"[a-z0-9']-[A-Za-z0-9]|[a-z0-9][A-Z]", name):
        return name
    words = re.sub(r"(?<=[a-z0-9])([A-Z])", lambda m: "_" + m[1].lower(), name)
    return words.replace("-", "_")


def turns(name):
    return snake(name) != name


def own_path(path):
    steps = path.strip(".").split(".")
    return len(steps) > 1 and steps[0] == "Rattle" and steps[1] in CRATES


def kept_names(text):
    """The names that a file takes from libraries, and from what the toolchain makes of a function."""
    kept = set()
    for path, names, _ in USE.findall(text):
        made = any(step in GENERATED for step in path.split("."))
        if own_path(path) and not made:
            continue
        for item in names.split(","):
            item = item.strip()
            if item:
                kept.add(item.split(" as ")[-1].strip() if " as " in item and turns(item.split(" as ")[0]) else item.split(" as ")[0].strip())
    return kept


files = sorted(p for c in CRATES for sub in ("specs", "proofs") for p in Path("crates", c).glob(f"{sub}/**/*.antt"))
sources = sorted(p for c in CRATES for p in Path("crates", c).glob("src/**/*.rt"))
texts = {p: p.read_text() for p in files + sources}
before = dict(texts)
for name, words in MET.items():
    for old, new in words.items():
        texts[Path(name)] = re.sub(rf"(?<![\w'.-]){old}(?![\w'-])", new, texts[Path(name)])

functions = {n for p in sources for n in FN.findall(texts[p])}
own = set()
for p in files:
    body = re.sub(r"--[^\n]*", "", texts[p])
    own |= {n for n in DECLARED.findall(body) if turns(n)}
    # variables of records' parameters and of constructors are found where they are used
labels = {f.replace("_", "-") for f in functions if "_" in f}


def turn_code(code, kept):
    out, at = [], 0
    for m in NAME.finditer(code):
        out.append(code[at:m.start()])
        word = m[0]
        behind = code[m.start() - 1] if m.start() else " "
        new = word
        if turns(word) and word not in kept:
            if behind == ".":
                if word in labels:
                    new = word.replace("-", "_")
                elif word in own:
                    new = snake(word)
            else:
                new = snake(word)
        out.append(new)
        at = m.end()
    out.append(code[at:])
    return "".join(out)


def turn_comment(comment, kept):
    def quoted(m):
        return m[1] + turn_code(m[2], kept) + m[3]
    comment = re.sub(r"(`)([^`\n]+)(`)", quoted, comment)
    comment = re.sub(r"(')([a-z][\w-]*)(')", lambda m: m[1] + (snake(m[2]) if m[2] in own and m[2] not in kept else m[2]) + m[3], comment)
    return re.sub(r"\b[a-z]+[a-z0-9]*[A-Z]\w*\b", lambda m: snake(m[0]) if m[0] in own and m[0] not in kept else m[0], comment)


def turn_antt(text):
    kept = kept_names(text)
    # code was cut at single dashes: join what lies between comments and strings, and turn it
    joined, run = [], []
    for m in CODE_OR_REST.finditer(text):
        part = m[0]
        if part.startswith("--") and (not run or not run[-1][-1:].strip() or run[-1][-1:] in "(){};,"):
            joined.append(turn_code("".join(run), kept)); run = []
            joined.append(turn_comment(part, kept))
        elif part.startswith('"') and len(part) > 1:
            joined.append(turn_code("".join(run), kept)); run = []
            joined.append(part)
        else:
            run.append(part)
    joined.append(turn_code("".join(run), kept))
    return "".join(joined)


def turn_rt(text):
    kept = kept_names(text)
    out = []
    for part in re.split(r"(//[^\n]*|\"(?:[^\"\\\n]|\\.)*\")", text):
        if part.startswith("//"):
            out.append(turn_comment(part, kept))
        elif part.startswith('"'):
            out.append(part)
        else:
            out.append(re.sub(r"(?<![\w'-])[a-z]\w*(?:-\w+)*", lambda m: snake(m[0]) if m[0] in own and m[0] not in kept else m[0], part))
    return "".join(out)


def main():
    check = "--check" in sys.argv
    for p, text in texts.items():
        kept = kept_names(text)
        new = turn_antt(text) if p.suffix == ".antt" else turn_rt(text)
        if check:
            met = defaultdict(set)
            body = re.sub(r"--[^\n]*|//[^\n]*", "", text)
            for m in NAME.finditer(body):
                w = m[0]
                if body[m.start() - 1:m.start()] == ".":
                    continue
                if p.suffix == ".rt":
                    for w in re.findall(r"(?<![\w'-])[a-z]\w*(?:-\w+)*", m[0]):
                        met[snake(w) if w in own and w not in kept else w].add(w)
                else:
                    met[snake(w) if w not in kept else w].add(w)
            for new_name, olds in sorted(met.items()):
                if len(olds) > 1:
                    print(f"{p}: {new_name}: {', '.join(sorted(olds))}")
        elif new != before[p]:
            p.write_text(new)


main()

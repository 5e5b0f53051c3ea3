#!/usr/bin/env python3
"""Brings the definitions, lemmas, fields and constructors that port.py left in an older spelling to today's: words in snake case.

usage: tools/respell.py            at the top of the repository, once, after port.py
       tools/respell.py --check    writes nothing, and prints the names that fall together

A name that a file of specs/ or proofs/ declares, with a small first letter, is respelled wherever it stands as a whole word in specs/,
proofs/ and the clauses of src/: 'planOf' is 'plan_of', 'runs-right' is 'runs_right'. Types, modules, operators and the kit's names stay.
Names of goals and steps, which the kit makes, are no declared names of these and stay.
"""
import collections
import os
import re
import sys

WORD = r"[^\s(){}\[\].,;:\"«»@`|∷×→≡≤<>+*/%=]+"
TOKEN = re.compile(r'"(?:[^"\\]|\\.)*"|«[^»]*»|' + WORD)
HEAD = re.compile(r"^(?:(?:abbrev|unfoldable|pub|opaque|data|record|ruleset)\s+)*(" + WORD + r")\s*(?:\(|\{|:)")
FIELD = re.compile(r"^\s+(?:pub\s+)?(" + WORD + r")(?=\s+:\s)")
USE = re.compile(r"^(?:ghost )?(?:unfoldable )?(?:pub )?use (\S+?)\.\{(.*)\}")


def texts(ends):
    for folder, dirs, files in os.walk("crates"):
        dirs[:] = sorted(d for d in dirs if d != "out")
        for f in sorted(files):
            if f.endswith(ends):
                yield os.path.join(folder, f)


def respelled(name):
    name = re.sub(r"(?<=[a-z0-9])([A-Z]+)", lambda m: "_" + m[1].lower(), name)
    return name.replace("-", "_")


# A lemma that would get its function's name has '_lem' after it. These are the ones that port.py has respelled already.
LEMMAS = set(
    "answer_at bit_in bits_in by_tests digits_of first_bit frame_right given_by half_in halves_in input_ok label_after line_kept no_room"
    " one_bit part_left read_number step_by value_in".split()
)

# These are lemmas in one crate alone: elsewhere a field has the name, without '_lem'.
HOMES = {"one_bit_lem": ("coding",), "whole_bits_lem": ("mapper",), "stream_in_lem": ("modulator", "demands")}


def older(name):
    return bool(re.fullmatch(r"[a-zμ][A-Za-z0-9_'₀₁₂-]*", name)) and respelled(name) != name and not name.startswith("invariant-")


def declared():
    names = collections.defaultdict(set)
    for p in texts(".antt"):
        for line in open(p, encoding="utf-8"):
            m = HEAD.match(line) or FIELD.match(line)
            if m:
                names[m[1]].add(p)
    return names


def of_the_kit(text):
    """The names that the file has from elsewhere than this repository's crates."""
    ours, got = {c for c in os.listdir("crates")}, set()
    for line in text.splitlines():
        m = USE.match(line)
        if m:
            parts = m[1].split(".")
            if not (parts[0] == "Rattle" and len(parts) > 1 and parts[1] in ours):
                for it in m[2].split(","):
                    got.update(it.strip().split(" as "))
    return got


def main():
    names = declared()
    change = {n: respelled(n) for n in names if older(n)}
    functions = {respelled(n) for n in names if older(n) and "-" not in n} | {n for n in names if "-" not in n and "_" in n}
    change = {n: now + "_lem" if "-" in n and now in functions else now for n, now in change.items()}
    change.update((n, n + "_lem") for n in LEMMAS)
    check = sys.argv[1:] == ["--check"]
    # Where two names of one file become one.
    for p in texts(".antt"):
        text = open(p, encoding="utf-8").read()
        words = set(TOKEN.findall(re.sub(r"--.*", "", text)))
        kit = of_the_kit(text)
        new = collections.defaultdict(set)
        for w in words:
            new[change.get(w, w) if w not in kit else w].add(w)
        for n, olds in sorted(new.items()):
            if len(olds) > 1:
                print(f"look: {p}: {n} from {' '.join(sorted(olds))}")
    if check:
        return
    fields = {m[1] for p in texts(".antt") if not p.endswith("Proof.antt") for m in map(FIELD.match, open(p, encoding="utf-8")) if m}
    for p in texts((".antt", ".rt")):
        text = open(p, encoding="utf-8").read()
        kit, walk, source = of_the_kit(text), p.endswith("Proof.antt"), p.endswith(".rt")

        def one(m):
            word = m[0]
            if word not in change or word in kit or (source and word in LEMMAS):
                return word
            # In a proof that walks the code what follows a '.' is a step, but for a field of a record of ours.
            if walk and m.string[: m.start()].endswith(".") and (word not in fields or word in LEMMAS):
                return word
            now = change[word]
            away = now in HOMES and p.split(os.sep)[1] not in HOMES[now]
            return now[: -len("_lem")] if away else now

        out = []
        for line in text.split("\n"):
            use = re.match(r"^(?:ghost )?(?:unfoldable )?(?:pub )?use \S+?(?:\.(?=\{)| as )", line)
            head = use[0] if use else ""
            out.append(head + TOKEN.sub(one, line[len(head) :]))
        now = "\n".join(out)
        if now != text:
            open(p, "w", encoding="utf-8").write(now)
    for old, now in sorted(change.items()):
        print(f"{old} {now}")


main()

#!/usr/bin/env python3
"""Spells the repository's own names as today's Rattle has them: words in snake case, a prime as an apostrophe.

usage: tools/respell.py            at the top of the repository, once, right behind the kit's own script

A name is the repository's own where a file of specs/ or proofs/ declares it. It turns in .antt files, in the clauses and ghost items of .rt
files, in must-fail edits and in the code spans of pages. Functions of src/, labels of clauses, texts and exported names stay.
Two names that would fall together are told apart by TOLD_APART.
"""
import collections
import os
import re
import subprocess

TOP = os.path.join(os.path.dirname(os.path.realpath(__file__)), "..")
CRATES = os.path.join(TOP, "crates")
WORD = re.compile(r'[^\s(){}.;,@"«»]+')
DECLARED = re.compile(r"^(\s*)(?:(?:abbrev|unfoldable|pub|data|record) +)*([^\s(){}.;,@\"«»:]+)(?: [({][^\n]*[)}])? :(?!=)")

# Names that snake case would make one: a lemma takes _lem, a constructor of a reason by_.
TOLD_APART = {}
for name in (
    "address-cells begun-by digit-worth engine-answer every-video is-at is-mark line-text line-video lines-in list-answer looked-at "
    "mark-at name-3d name-3D line-3D name-video packet-writes pair-kept read-leaves refused-by same-list scaler-at section-lines taken-by target-words "
    "told-by video-rows which-held wrote-pair write-answer one-of cell-of "
    "all_apart goes_on group_at left_by no_address of_row read_answer run_in written_in fed_by"
).split():
    TOLD_APART[name] = name.replace("-", "_").replace("3D", "3d") + "_lem"
for name in (
    "bad-state bad-grants bad-offset bad-count bad-run bad-setting bit-set bad-value not-granted ends-inside bad-pair not-writable "
    "not-listing bad-buffer no_room no_register"
).split():
    TOLD_APART[name] = "by_" + name.replace("-", "_")
TOLD_APART["alpha-constants"] = "alpha_constants_row"
TOLD_APART["alpha-select"] = "alpha_select_row"
TOLD_APART["Rows-hold"] = "RowsHold"
# Turned in these files alone, since elsewhere a function of src/ is called so.
ONLY_IN = {"with_pair": ("meaning/proofs/Outputs.antt", "writer/proofs/Answers.antt")}
LEM_IN = {"with_pair": "with_pair_lem"}
# Names that no line declares as DECLARED sees it: of a `let`, of a case, of a parameter.
LOCAL = "is-end no-j not-nil on-video on-3D in-video in-3D is-header split-m split-a the-house zero-os zero-adr cellLine marked-between is-setting"


def snake(n):
    m = n.replace("-", "_")
    m = re.sub(r"(?<=[a-z0-9])3D(?=[A-Z])", "_3d_", m)
    m = re.sub(r"_?3D", "_3d", m)
    m = re.sub(r"(?<=[a-z])OS$", "_os", m)
    m = re.sub(r"(?<=[a-z])Or(10|16)$", r"_or_\1", m)
    m = re.sub(r"_([A-Z])", lambda x: "_" + x[1].lower(), m)
    return re.sub(r"(?<=[a-z0-9])([A-Z])", lambda x: "_" + x[1].lower(), m)


def files(ending):
    for folder, dirs, names in os.walk(CRATES):
        dirs[:] = sorted(d for d in dirs if d != "out")
        for f in sorted(names):
            if f.endswith(ending):
                yield os.path.join(folder, f)


def read(path):
    with open(path, encoding="utf-8") as f:
        return f.read()


def short(path):
    return os.path.relpath(path, CRATES)


def declared():
    names = set()
    for path in files(".antt"):
        if path.endswith("/Proof.antt") or path.endswith("/Lib.antt"):
            continue
        for line in read(path).split("\n"):
            m = DECLARED.match(line)
            if m:
                names.add(m[2])
            own = re.match(r"use Rattle\.\w+\.\S+ as ([a-z][\w-]*)$", line)
            if own:
                names.add(own[1])
    return names | set(LOCAL.split())


def own_types():
    types = set()
    for path in files(".antt"):
        types |= set(re.findall(r"\b(?:data|record) ([^\s(){}]+)", read(path)))
    return types


OWN_TYPES = own_types()


def table():
    rows = {}
    for n in declared():
        if not n[0].islower():
            continue
        to = TOLD_APART.get(n, snake(n))
        if to != n:
            rows[n] = to
    rows.update(TOLD_APART)
    return rows


def turn_words(text, rows, path, proof=False):
    """The words of text by rows; right behind a dot only what a module or a record of the repository has."""
    here = dict(rows)
    for n, where in ONLY_IN.items():
        if short(path) in where:
            here[n] = LEM_IN[n]
    aliases = set(re.findall(r"use (?:Rattle\.\w+\.(?:specs|proofs)\.[\w.]+) as (\w+)", read(path))) if proof else set()
    aliases -= set(re.findall(r"use \S+\.Tie as (\w+)", read(path))) if proof else set()

    def one(m):
        w = m[0]
        if w not in here:
            return w
        if m.start() > 0 and text[m.start() - 1] == ".":
            before = re.search(r"([^\s(){}.;,@\"«»]+)\.$", text[: m.start()])
            head = before[1] if before else ""
            camel = re.search(r"[a-z0-9][A-Z]", w)
            if head[:1].isupper() and len(head) > 1 and not camel and head not in OWN_TYPES:
                return w
            if proof and not camel and not (head[:1].isupper() or head in aliases):
                return w
            if not proof and "_" in w and not camel and not head[:1].isupper():
                return w
        return here[w]

    return WORD.sub(one, text)


PIECE = re.compile(r'"(?:[^"\\\n]|\\.)*"|(?<![^\s(){}.;,@"«»])--[^\n]*')


def turn_comment(text, rows, path, proof):
    """Outside its quotes."""
    parts = re.split(r'("[^"]*")', text)
    rows = {n: to for n, to in rows.items() if "_" not in n}
    return "".join(p if k % 2 else turn_words(p, rows, path, proof) for k, p in enumerate(parts))


def turn_antt(text, rows, path):
    proof = path.endswith("/Proof.antt")
    out, at = [], 0
    for m in PIECE.finditer(text):
        out.append(turn_words(text[at : m.start()], rows, path, proof))
        out.append(turn_comment(m[0], rows, path, proof) if m[0].startswith("--") else m[0])
        at = m.end()
    out.append(turn_words(text[at:], rows, path, proof))
    return "".join(out)


CLAUSE = re.compile(r"\b(?:requires|ensures)\*?\s*(?:\w+\s*)?\{|\bghost\s*(?:\w+\s*(?::\s*(?:(?:owns|lends)\s*)?|=\s*))?\{|\bghost\s+use\b")


def turn_rt(text, rows, path):
    out, at = [], 0
    rows = {n: to for n, to in rows.items() if "_" not in n}
    while True:
        m = CLAUSE.search(text, at)
        if not m:
            out.append(text[at:])
            return "".join(out)
        end = m.end()
        if m[0].endswith("{"):
            depth = 1
            while depth:
                depth += {"{": 1, "}": -1}.get(text[end], 0)
                end += 1
        else:
            end = text.index(";", end)
        out.append(text[at : m.start()])
        out.append(text[m.start() : m.end()])
        out.append(turn_words(text[m.end() : end], rows, path))
        at = end


def turn_edit(text, rows, path):
    m = re.search(r"(?m)^file: (\S+)", text)
    if not m or not m[1].endswith(".antt"):
        return text
    return "\n".join(turn_antt(l, rows, path) if re.match(r"(old|new): ", l) else l for l in text.split("\n"))


def turn_page(text, rows, path):
    rows = {n: to for n, to in rows.items() if "_" not in n}
    return re.sub(r"(?<!`)`([^`\n]+)`(?!`)", lambda m: "`" + turn_words(m[1], rows, path) + "`", text)


def main():
    rows = table()
    made = collections.defaultdict(set)
    for n, to in rows.items():
        made[to].add(n)
    for to, froms in sorted(made.items()):
        if len(froms) > 1:
            print(f"look: {sorted(froms)} fall together as {to}")
    turned = 0
    for ending, turn in ((".antt", turn_antt), (".rt", turn_rt), (".edit", turn_edit)):
        for path in files(ending):
            old = read(path)
            new = turn(old, rows, path)
            if new != old:
                turned += 1
                with open(path, "w", encoding="utf-8") as f:
                    f.write(new)
    pages = [os.path.join(TOP, "README.md")] + [os.path.join(TOP, "docs", p) for p in sorted(os.listdir(os.path.join(TOP, "docs"))) if p.endswith(".md")]
    for path in pages:
        if os.path.basename(path) in ("CHANGES.md", "PORT.md"):
            continue
        old = read(path)
        new = turn_page(old, rows, path)
        if new != old:
            turned += 1
            with open(path, "w", encoding="utf-8") as f:
                f.write(new)
    # The library has a module `specs.contracts` of its own in each crate.
    old = os.path.join(CRATES, "promises", "specs", "Contracts.antt")
    if os.path.exists(old):
        subprocess.run(["git", "mv", old, os.path.join(CRATES, "promises", "specs", "CallContracts.antt")], check=True, cwd=TOP)
        for path in list(files(".antt")):
            text = read(path)
            new = text.replace("Rattle.promises.specs.Contracts", "Rattle.promises.specs.CallContracts")
            if path.endswith("promises/specs/Lib.antt"):
                new = re.sub(r"\bmod Contracts\b", "mod CallContracts", new)
            if new != text:
                with open(path, "w", encoding="utf-8") as f:
                    f.write(new)
    print(f"{len(rows)} names, {turned} files turned")


if __name__ == "__main__":
    main()

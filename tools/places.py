#!/usr/bin/env python3
"""Counts the places of docs/DESIGN-PASS.md in the crates' src/: places.py [COMMIT] prints them by point, of a commit or of the files as they stand."""

import collections
import re
import subprocess
import sys
from pathlib import Path

TOP = Path(__file__).resolve().parent.parent


def files(commit, pattern):
    """The files of a commit, or as they stand, whose names match, each with its text."""
    git = ["git", "-C", str(TOP)]
    if commit is None:
        names = subprocess.run(git + ["ls-files"], capture_output=True, text=True, check=True).stdout.split()
        return {n: (TOP / n).read_text() for n in names if re.fullmatch(pattern, n) and (TOP / n).exists()}
    names = subprocess.run(git + ["ls-tree", "-r", "--name-only", commit], capture_output=True, text=True, check=True).stdout.split()
    return {n: subprocess.run(git + ["show", f"{commit}:{n}"], capture_output=True, text=True, check=True).stdout for n in names if re.fullmatch(pattern, n)}


def functions(text):
    """Each function: its name, its parameters, its clauses and its body."""
    for m in re.finditer(r"^( *)(?:pub )?(?:extern \"C\" )?fn (\w+)(?:<[^>]*>)?\(", text, re.M):
        end = text.find("\n" + m.group(1) + "}\n", m.end())
        whole = text[m.end() : end if end >= 0 else len(text)]
        parts = re.split(r"\n" + m.group(1) + r"\{\n| \{\n", whole, maxsplit=1)
        head, body = parts[0], parts[1] if len(parts) > 1 else ""
        params = re.findall(r"(\w+): ((?:&(?:'\w+ )?)?(?:mut )?[\w\[\]; :<>()]+)", re.split(r"\) ->|\)\n|\)$", head)[0])
        yield m.group(2), params, re.findall(r"requires (?:\w+ )?\{(.*)\}", head), body


def say(point, what, places):
    print(f"{point}. {what}: {len(places)}")
    for p in places:
        print(f"     {p}")


def shape(body):
    """A body with its names and numbers taken away, to find those that differ in nothing else."""
    return re.sub(r"\b\w+\b", lambda w: w.group(0) if w.group(0) in KEPT else "x", re.sub(r"//.*", "", body))


KEPT = {"if", "else", "for", "in", "while", "return", "match", "let", "mut", "as", "true", "false", "Ok", "Err", "Some", "None"}


def main():
    commit = sys.argv[1] if len(sys.argv) > 1 else None
    texts = files(commit, r"crates/\w+/src/.*\.rt")
    lines = [(n, i + 1, l) for n, t in texts.items() for i, l in enumerate(t.split("\n"))]

    def found(pattern):
        return [f"{n}:{i}: {l.strip()}" for n, i, l in lines if re.search(pattern, l) and not l.lstrip().startswith("//")]

    say(1, "own enums", found(r"^(pub )?enum "))
    say(1, "a number or a flag of a refusal or a kind", found(r"\b(number|fault|kind|accepted)\b: (u8|bool)\b"))
    say(1, "an answer beside a value in a struct", found(r"^    pub (verdict|judged|answer|pair|owed|end): "))
    shapes, groups, facts, lengths = collections.defaultdict(list), collections.defaultdict(list), collections.defaultdict(list), []
    types = collections.defaultdict(list)
    for n, t in texts.items():
        for name, cases in re.findall(r"^pub enum (\w+)(?:<[^>]*>)? \{\n(.*?)^\}", t, re.M | re.S):
            if "(" in cases:
                types[re.sub(r"\w+", "x", cases)].append(f"{n.split('/')[1]}::{name}")
        for name, params, requires, body in functions(t):
            where = f"{n.split('/')[1]}::{name}"
            if body.count("\n") >= 3:
                shapes[shape(body)].append(where)
            if {"count: usize", "n: usize", "at: usize"} & {f"{p}: {q}" for p, q in params} and ("out", "&mut [u8]") in params:
                lengths.append(where)
            for k in range(len(params) - 3):
                groups[tuple(p + ": " + q.strip() for p, q in params[k : k + 4])].append(where)
            for r in requires:
                facts[r.strip()].append(where)
    say(2, "bodies that differ in names, types and numbers alone", [" ~ ".join(v) for v in shapes.values() if len(v) > 1])
    say(2, "enums that differ in names, and in what comes with a case, alone", [" ~ ".join(v) for v in types.values() if len(v) > 1])
    say(3, "loops by `while`", found(r"^ *while "))
    say(4, "equality, choice, conversion by hand", found(r"\bfn (same\w*|greater|fewer|nearer|count_if|row_if|\w+_number|uncovering_lifts|answer_of|untrue_of|byte_at|value_at|row_at)\("))
    say(5, "four parameters that stand together in three functions or more", [", ".join(g) + ": " + " ".join(v) for g, v in groups.items() if len(v) > 2])
    say(5, "a fact that three contracts or more ask for", [f"{f}: " + " ".join(v) for f, v in facts.items() if len(set(v)) > 2])
    say(6, "a count of what is used beside the lent slice", lengths)
    say(7, "dyn, function pointers", found(r"\bdyn\b|\bfn\("))
    say(7, "closures, which are the new form", found(r"[(,] ?\|\w*\| "))
    counts = [text.count("\n") for text in files(commit, r"crates/\w+/proofs/.*\.antt").values()]
    print(f"8. files of proofs/: {len(counts)}, lines: {sum(counts)}")


if __name__ == "__main__":
    main()

#!/usr/bin/env python3
"""Brings the repository's own names in specs/ and proofs/ to snake case (docs/PORT.md): run once at the top, after the kit's port.py.

A name is turned that a file of specs/, or a file of lemmas in proofs/, declares, and that has a dash or a capital letter inside. Types and modules keep
their names, and so do functions of src/, strings, inputs and outputs. `--conflicts` prints the names that would fall together, and changes nothing.
"""
import glob
import re
import sys

# lemmas whose name would fall together with a definition's
LEMMAS = (
    "after-lift cassettes-below fault-number follow-alike goal-told no-marks one-shaft pair-told part-is read-image rows-in-place rule-test same-frame "
    "same-list same-store slot-in-place slot-there slots-after write-told"
).split()
# the same of lemmas that port.py has turned, where the definition has a capital letter inside
TURNED = "agree_on moved_on none_true read_alike read_told".split()
INSTEAD = {name: name.replace("-", "_") + "_lem" for name in LEMMAS}

TOKEN = re.compile(r"[^\s(){}\[\],;.`\"]+")
DECLARED = re.compile(r"\s*(?:(?:abbrev|unfoldable|pub|data|record|ruleset)\s+)*([^\s(){}\[\],;.:]+)\s*(?:\{[^}]*\}\s*|\([^)]*\)\s*)*(?::\s|:$|where)")


def antt_files():
    return sorted(glob.glob("crates/*/specs/**/*.antt", recursive=True) + glob.glob("crates/*/proofs/**/*.antt", recursive=True))


def of_a_function(path):
    """a file of a function's own proof, where the names are Rattle's"""
    return re.search(r"/proofs/.+/", path) is not None


def declared():
    names = {}
    for path in antt_files():
        if of_a_function(path):
            continue
        for line in open(path, encoding="utf-8"):
            found = DECLARED.match(line)
            if found:
                names.setdefault(found.group(1), set()).add(path)
    return names


def snake(name):
    turned = re.sub(r"([a-z0-9])([A-Z])", lambda m: m.group(1) + "_" + m.group(2).lower(), name)
    return turned.replace("-", "_")


def renamed(names):
    turned = {}
    for name in names:
        if name[0].islower() and re.fullmatch(r"[a-zA-Z0-9_'-]+", name) and (("-" in name) or re.search(r"[a-z0-9][A-Z]", name)):
            turned[name] = INSTEAD.get(name, snake(name))
    return turned | {name: name + "_lem" for name in TURNED}


def replaced(text, turned):
    return TOKEN.sub(lambda m: turned.get(m.group(0), m.group(0)), text)


def in_backticks(text, turned):
    return re.sub(r"`[^`]*`", lambda m: replaced(m.group(0), turned), text)


def turned_antt(text, turned):
    lines = []
    for line in text.split("\n"):
        code, dashes, comment = line.partition("-- ") if not line.startswith("--") else ("", "--", line[2:])
        lines.append(replaced(code, turned) + dashes + in_backticks(comment, turned))
    return "\n".join(lines)


def turned_rt(text, turned):
    lines = []
    clause = 0
    for line in text.split("\n"):
        stripped = line.strip()
        if stripped.startswith("//"):
            lines.append(in_backticks(line, turned))
            continue
        if clause or re.match(r"(pub )?ghost |requires|ensures", stripped):
            clause = max(0, clause + line.count("{") - line.count("}"))
            lines.append(replaced(line, turned))
        else:
            lines.append(line)
    return "\n".join(lines)


def turned_text(path, text, turned):
    if path.endswith(".antt"):
        return turned_antt(text, turned)
    if path.endswith(".rt"):
        return turned_rt(text, turned)
    return in_backticks(text, turned)


def conflicts(names, turned):
    back = {}
    for name, new in turned.items():
        back.setdefault(new, []).append(name)
    for new, olds in sorted(back.items()):
        if len(olds) > 1 or (new in names and new not in turned):
            print("declared twice:", new, olds, sorted(set().union(*(names[o] for o in olds)) | names.get(new, set())))
    for path in antt_files() + sorted(glob.glob("crates/*/src/**/*.rt", recursive=True)):
        text = open(path, encoding="utf-8").read()
        code = "\n".join(line.split("-- ")[0] for line in text.split("\n") if not line.startswith("--"))
        tokens = set(TOKEN.findall(code))
        for name, new in turned.items():
            if name in tokens and new in tokens:
                print("together:", path, name, new)


def main():
    names = declared()
    turned = renamed(names)
    if "--conflicts" in sys.argv:
        conflicts(names, turned)
        return
    paths = antt_files() + sorted(glob.glob("crates/*/src/**/*.rt", recursive=True))
    paths += ["README.md"] + sorted(glob.glob("docs/*.md")) + sorted(glob.glob("tests/**/*.md", recursive=True))
    for path in paths:
        text = open(path, encoding="utf-8").read()
        new = turned_text(path, text, turned)
        if new != text:
            open(path, "w", encoding="utf-8").write(new)
    print(len(turned), "names turned")


if __name__ == "__main__":
    main()

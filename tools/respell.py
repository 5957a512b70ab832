#!/usr/bin/env python3
"""Brings this repository's own names to today's spelling, after port.py: definitions, lemmas, fields, constructors, aliases and
bound names whose first letter is small become snake case (callReply is call_reply, byte-past is byte_past). Types, modules, the
functions of src/, exported names and strings keep their names.

usage: tools/respell.py spread    before port.py: for each must-fail edit, writes its file as the edit leaves it beside the file
       tools/respell.py names     after port.py: respells the names
       tools/respell.py gather    after names: writes each edit's old and new lines from the two files, and takes the copies away

Where two names would fall together and a file knows both, the lemma is called NAME_lem (the style's word for a lemma that would
have its function's name).
"""
import collections
import glob
import json
import os
import re
import sys

ROOT = os.path.join(os.path.dirname(os.path.abspath(__file__)), "..")
WORD = r"[^\s(){}.;,@\"«»`]+"
CLAUSE = re.compile(r"(?s)ghost use[^;]*;|\b(?:requires|ensures)\s*\*?\s*(?:\w+\s*)?\{.*?\}(?=\s*\n)|ghost\s+\w+\s*:\s*\{.*?\}(?=\s*;?\n)")
KEYWORDS = r"(?:pub |abbrev |unfoldable |ruleset |data |record |syntax )*"
# names that fall together with another in one file and are no lemmas
CHOSEN = {"bad-name": "bad_name_case", "map-byte": "map_byte_case", "record-AB": "record_of_ab"}


def snake(name):
    name = name.replace("-", "_")
    return re.sub(r"(?<=[a-z0-9'_])([A-Z])(?![A-Z])", lambda m: ("" if name[m.start() - 1] == "_" else "_") + m[1].lower(), name)


def bare(text):
    return re.sub(r"(?m)(?<!\S)--[^\n]*", "", text)


def read(path):
    with open(path, encoding="utf-8") as f:
        return f.read()


def sources():
    for kind in ("specs", "proofs"):
        yield from sorted(glob.glob(f"{ROOT}/crates/*/{kind}/**/*.antt", recursive=True))


def own_crates():
    return {os.path.basename(p) for p in glob.glob(f"{ROOT}/crates/*")}


def declared(text):
    names = set()
    text = bare(text)
    for m in re.finditer(r"(?m)^\s*" + KEYWORDS + "(" + WORD + r")(?:\s+(?:[({][^\n]*)?)?\s*(?::|=|$)", text):
        names.add(m[1])
    names.update(m[1] for m in re.finditer(r"\bas (" + WORD + ")", text))
    for m in re.finditer(r"[({]((?:" + WORD + r"\s+)+):\s", text):
        names.update(m[1].split())
    return names


def foreign(text, own):
    """The names that a file has from libraries."""
    names = set()
    for m in re.finditer(r"use\s+([\w.'-]+)\.\{([^}]*)\}", text):
        parts = m[1].split(".")
        if not (parts[0] == "Rattle" and parts[1] in own):
            for item in m[2].split(","):
                names.add(item.split(" as ")[0].strip())
    return names


def table():
    own = own_crates()
    decl, where, has = collections.defaultdict(set), collections.defaultdict(set), {}
    for p in sources():
        if "Zz" in os.path.basename(p):
            continue
        text = read(p)
        has[p] = foreign(text, own)
        for name in declared(text):
            decl[name].add(p)
        for m in re.finditer(WORD, bare(text)):
            where[m[0]].add(p)
    small = [d for d in decl if re.match(r"[a-z]", d) and ("-" in d or re.search("[A-Z]", d))]
    groups = collections.defaultdict(list)
    for d in small:
        if snake(d) != d:
            groups[snake(d)].append(d)
    rows, lems = {}, {}
    for new, olds in groups.items():
        camel = [d for d in olds if "-" not in d]
        dashed = [d for d in olds if "-" in d]
        for d in camel:
            rows[d] = new
        stands = new in decl
        for d in dashed:
            others = [o for o in camel + ([new] if stands else []) if o != d]
            meets = any(where[d] & where[o] for o in others)
            lemma = not all("/specs/" in q for q in decl[d])
            rows[d] = CHOSEN[d] if d in CHOSEN and (meets or not others) else new + "_lem" if meets or camel and lemma else new
        # a lemma that port.py has spelled so already
        if camel and stands:
            lems[new] = set().union(*(where[d] for d in camel))
    return rows, lems, decl, own


def turn(text, rows, skip, made):
    def one(m):
        word, at = m[0], m.start()
        if word not in rows or word in skip:
            return word
        if made and at and text[at - 1] == ".":
            head = re.search(r"([\w'-]+)(?:\.[\w'-]+)*\.$", text[:at][-200:])
            if head and head[1] in ("c", "l", "g", "w", "tie", "lts", "reads", "kinds"):
                return word
        return rows[word]

    return re.sub(WORD, one, text)


def imported(path, of):
    """What a file has from another."""
    names = set()
    for m in re.finditer(r"use\s+Rattle\.(\w+)\.(specs|proofs)\.([\w.]+)\.\{([^}]*)\}", read(path)):
        target = f"{ROOT}/crates/{m[1]}/{m[2]}/{m[3].replace('.', '/')}.antt"
        if os.path.realpath(target) == os.path.realpath(of):
            names.update(item.split(" as ")[0].strip() for item in m[4].split(","))
    return names


def names():
    rows, lems, decl, own = table()
    # a lemma with an underscore that meets a definition of its new name
    for new, where in lems.items():
        for q in decl[new]:
            knows = {q} | {p for p in sources() if new in imported(p, q)}
            if "Zz" in q or not knows & where:
                continue
            other = new + ("_case" if "/specs/" in q else "_lem")
            for p in knows:
                write(p, re.sub(r"(?<![\w.'-])" + re.escape(new) + r"(?![\w.'-])", other, read(p)))
            print(new, "is", other, "in", len(knows))
    for p in sources():
        text = read(p)
        made = os.path.basename(p).startswith(("Proof", "Answers", "Invariants"))
        write(p, turn(text, rows, foreign(text, own), made))
    for p in sorted(glob.glob(f"{ROOT}/crates/*/src/**/*.rt", recursive=True)):
        text = read(p)
        text = CLAUSE.sub(lambda m: turn(m[0], rows, (), False), text)
        text = re.sub(r"(?m)//[^\n]*", lambda m: re.sub(r"`[^`]*`", lambda s: turn(s[0], rows, (), False), m[0]), text)
        write(p, text)
    spans = lambda t: re.sub(r"`[^`\n]+`", lambda s: "`" + re.sub(r"[\w'-]+", lambda w: rows.get(w[0], w[0]), s[0][1:-1]) + "`", t)
    for p in sorted(glob.glob(f"{ROOT}/docs/*.md") + [f"{ROOT}/README.md"]):
        if os.path.basename(p) not in ("PORT.md",):
            write(p, spans(read(p)))
    for p in sorted(glob.glob(f"{ROOT}/tools/slips/*.slip")):
        write(p, turn(read(p), rows, (), False))
    with open("/tmp/respelled.tsv", "w", encoding="utf-8") as f:
        for d in sorted(rows):
            f.write(f"{d}\t{rows[d]}\n")
    print(len(rows), "names; the table is in /tmp/respelled.tsv")


def write(path, text):
    if read(path) != text:
        with open(path, "w", encoding="utf-8") as f:
            f.write(text)


def edit_of(path):
    """The lines of an edit: what it says, and pairs of a file, an old line and a new one."""
    head, pairs, file, old = [], [], None, None
    for line in read(path).split("\n"):
        if line.startswith("file: "):
            file = line[6:].strip()
        elif line.startswith("old: "):
            old = line[5:]
        elif line.startswith("new:"):
            pairs.append((file, old, line[5:]))
        elif line:
            head.append(line)
    return head, pairs


def edits():
    return sorted(glob.glob(f"{ROOT}/crates/*/must-fail/*.edit"))


def spread():
    count, rows = 0, []
    for path in edits():
        crate = os.path.dirname(os.path.dirname(path))
        head, pairs = edit_of(path)
        files = {}
        for file, old, new in pairs:
            text = files.get(file) or read(f"{crate}/{file}")
            assert text.count(old) == 1, (path, old)
            files[file] = text.replace(old, new, 1)
        for file, text in files.items():
            count += 1
            stem, dot, end = file.rpartition(".")
            copy = f"{stem}Zz{count}.{end}"
            with open(f"{crate}/{copy}", "w", encoding="utf-8") as f:
                f.write(text)
            rows.append({"edit": os.path.relpath(path, ROOT), "file": file, "copy": copy, "head": head})
    with open(f"{ROOT}/crates/edits.json", "w", encoding="utf-8") as f:
        json.dump(rows, f, indent=1, ensure_ascii=False)
    print(count, "copies")


def gather():
    import difflib

    with open(f"{ROOT}/crates/edits.json", encoding="utf-8") as f:
        rows = json.load(f)
    by_edit = collections.OrderedDict()
    for row in rows:
        by_edit.setdefault(row["edit"], []).append(row)
    for edit, parts in by_edit.items():
        crate = os.path.dirname(os.path.dirname(f"{ROOT}/{edit}"))
        out = list(parts[0]["head"])
        for row in parts:
            was, now = read(f"{crate}/{row['file']}").split("\n"), read(f"{crate}/{row['copy']}").split("\n")
            out.append(f"file: {row['file']}")
            for tag, a, b, c, d in difflib.SequenceMatcher(None, was, now, autojunk=False).get_opcodes():
                if tag == "equal":
                    continue
                if tag != "replace" or b - a != d - c:
                    print("by hand:", edit, tag, was[a:b], now[c:d])
                    continue
                for old, new in zip(was[a:b], now[c:d]):
                    whole = "\n".join(was)
                    if whole.count(old) != 1:
                        print("stands more than once:", edit, old)
                    out += [f"old: {old}", f"new: {new}"]
            os.remove(f"{crate}/{row['copy']}")
        with open(f"{ROOT}/{edit}", "w", encoding="utf-8") as f:
            f.write("\n".join(out) + "\n")
    os.remove(f"{ROOT}/crates/edits.json")


if __name__ == "__main__":
    todo = {"spread": spread, "names": names, "gather": gather}
    if len(sys.argv) != 2 or sys.argv[1] not in todo:
        sys.exit(__doc__)
    todo[sys.argv[1]]()

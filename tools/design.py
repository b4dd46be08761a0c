#!/usr/bin/env python3
"""Counts the places of docs/DESIGN-PASS.md in crates/*/src, in this tree or in a commit.

    python3 tools/design.py [--list] [COMMIT]
"""
import collections
import re
import subprocess
import sys


def sources(commit):
    if commit is None:
        names = subprocess.run(["git", "ls-files", "crates"], capture_output=True, text=True, check=True).stdout.split()
    else:
        names = subprocess.run(["git", "ls-tree", "-r", "--name-only", commit, "crates"], capture_output=True, text=True, check=True).stdout.split()
    for name in names:
        if not name.endswith((".rt", "Answers.antt")):
            continue
        if commit is None:
            try:
                text = open(name, encoding="utf-8").read()
            except FileNotFoundError:
                continue
        else:
            text = subprocess.run(["git", "show", commit + ":" + name], capture_output=True, text=True, check=True).stdout
        yield name, text


def until(text, start):
    pairs = {"(": ")", "{": "}", "[": "]"}
    close, depth = pairs[text[start]], 0
    for i in range(start, len(text)):
        if text[i] == text[start]:
            depth += 1
        elif text[i] == close:
            depth -= 1
            if depth == 0:
                return i + 1
    return len(text)


def plain(text):
    return re.sub(r"//[^\n]*", "", text)


def enums(text):
    for m in re.finditer(r"\benum (\w+) \{", text):
        body = text[m.end():until(text, m.end() - 1) - 1]
        depth, item, items = 0, "", []
        for c in body:
            depth += c in "({["
            depth -= c in ")}]"
            if c == "," and depth == 0:
                items.append(item.strip())
                item = ""
            else:
                item += c
        items.append(item.strip())
        yield m.group(1), [i for i in items if i]


def functions(text):
    for m in re.finditer(r"(?m)^ *(?:pub(?:\([a-z]+\))? )?fn (\w+)(?:<[^>(]*>)?\(", text):
        end = until(text, m.end() - 1)
        params = text[m.end():end - 1]
        at = end
        clauses = []
        while True:
            c = re.compile(r"[^;{]*?\b(requires|ensures)(?: \w+)? \{").match(text, at)
            if not c or "\n{\n" in text[at:c.start(1)]:
                break
            stop = until(text, c.end() - 1)
            clauses.append((c.group(1), " ".join(text[c.end():stop - 1].split())))
            at = stop
        k = text.find("{", at)
        body = text[k:until(text, k)] if k >= 0 else ""
        yield m.group(1), params, clauses, body


def shaped(items):
    """Whether an enum has the shape of Option or of Result: two outcomes, at least one with a value."""
    return len(items) == 2 and any(re.search(r"[({]", i) for i in items)


def absent(items):
    """Whether an enum says absence by a variant of its own, besides values."""
    return len(items) > 2 and any(re.fullmatch(r"(No|Not)[A-Z]\w*|None", i) for i in items) and any(not re.fullmatch(r"(No|Not)[A-Z]\w*|None", i) for i in items)


def skeleton(body):
    body = re.sub(r'b?"[^"]*"|b?\'[^\']*\'', "S", body)
    body = re.sub(r"\b[A-Z][A-Za-z]*(::[A-Z]\w*)*\b", "T", body)
    body = re.sub(r"\b\d\w*\b", "0", body)
    return " ".join(body.split())


def main():
    args = [a for a in sys.argv[1:] if a != "--list"]
    files = list(sources(args[0] if args else None))
    found = collections.defaultdict(list)
    skeletons = collections.defaultdict(list)
    facts = collections.defaultdict(set)
    answers = [0, 0, 0]
    for name, raw in files:
        if name.endswith("Answers.antt"):
            answers[0] += 1
            answers[1] += raw.count("\n")
            answers[2] += len(re.findall(r"(?m)^pub enum_(?:known|told)", raw))
        if not re.match(r"crates/\w+/src/.*\.rt$", name):
            continue
        crate = name.split("/")[1]
        text = plain(raw)
        for enum, items in enums(text):
            if shaped(items) or absent(items):
                found["1 enums"].append(crate + "::" + enum)
        for fn, params, clauses, body in functions(text):
            where = crate + "::" + fn
            flat = " ".join(params.split())
            if re.search(r"\bhas_(\w+): bool, \1: ", flat):
                found["1 flags"].append(where)
            arms = re.findall(r"=> ([^,{]+),", body)
            if len(arms) >= 3 and re.search(r"\bmatch \w+ \{", body):
                if all(re.fullmatch(r"\d+", a) for a in arms):
                    found["4 kind to number"].append(where)
                elif len(re.findall(r"(?m)^\s+\d+ => \w+::\w+", body)) >= 3:
                    found["4 number to kind"].append(where)
                elif len({re.sub(r"^[\w:.]+", "", a) for a in arms}) == 1 and "(" in arms[0]:
                    found["7 steps"].append(where)
            if re.match(r"(is_)?(same|equal|alike)", fn):
                found["4 equality"].append(where)
            for loop in re.findall(r"\b(while\b|loop \{)", body):
                found["3 " + loop.split()[0]].append(where)
            if re.search(r"\b(\w+): &\[u8\], (table|\1_table): &\[u64\]", flat):
                found["5 lists"].append(where)
            if re.search(r"\b(count|n|len|have): (&mut )?usize", flat) and re.search(r": &(mut )?\[", flat):
                found["6 lengths"].append(where)
            if crate != "knobstream_c" and len(body) > 120:
                skeletons[skeleton(body)].append(where)
            for kind, clause in clauses:
                if kind == "requires":
                    facts[re.sub(r"\b\w+\.(now|old|new)\b", "x", clause)].add(where)
    for same in skeletons.values():
        if len(same) > 1:
            found["2 twins"].append(" ".join(same))
    for fact, places in facts.items():
        if len(places) > 2:
            found["5 facts"].append("%d times: %s" % (len(places), fact))
    for key in ("1 enums", "1 flags", "2 twins", "3 while", "3 loop", "4 kind to number", "4 number to kind", "4 equality", "5 lists", "5 facts", "6 lengths", "7 steps"):
        print("%-18s %d" % (key, len(found[key])))
        if "--list" in sys.argv:
            for place in found[key]:
                print("    " + place)
    print("%-18s %d files, %d lines, %d answers on an enum's variants" % ("8 answers", *answers))


main()

#!/usr/bin/env python3
"""Brings the repository's own definitions and laws to today's spelling, once, behind port.py.

usage: tools/respell.py [--check]     at the top of the repository

Functions, fields, constructors and laws in snake case, a dash between the names that a law joins; types and modules in camel case.
  1. a part of a name in lower camel case: isCont is is_cont, lenIn-le is len_in-le
  2. a dash in a field or a constructor of a definition: some-years is some_years
  3. the theorem of a function: byte-at-spec of byte_at is byte_at_spec
  4. the module aliases that ended in an underscore, which port.py read for a hole: ascii_ is ascii_specs
It reads the .antt, .rt and .edit files of crates/ and tests/, and changes no string, no name of a function or a type
of src/, and no exported name. --check prints what would be turned and writes nothing.
"""
import os
import re
import sys

TOKEN = re.compile(r"(?<![\w'])[A-Za-z_][\w'₀-₉]*(?:-[\w'₀-₉]+)*")
STRING = re.compile(r'"(?:[^"\\]|\\.)*"')


def files(*ends):
    for top in ("crates", "tests"):
        for d, ds, fs in os.walk(top):
            ds[:] = sorted(x for x in ds if x not in ("out", ".git"))
            for f in sorted(fs):
                if f.endswith(ends):
                    yield os.path.join(d, f)


def read(p):
    with open(p, encoding="utf-8") as f:
        return f.read()


def snake(part):
    if not re.match(r"[a-z][a-z0-9_]*[A-Z]", part) or re.match(r"[a-z0-9]+_[A-Z]", part):
        return part
    return re.sub(r"(?<=[a-z0-9])(?=[A-Z])", "_", part).lower()


def members():
    """Fields and constructors that are declared in the bodies of data and record."""
    found = set()
    for p in files(".antt"):
        inside = None
        for l in read(p).splitlines():
            m = re.match(r"(\s*)(?:pub )?(data|record) ", l)
            if m and (l.rstrip().endswith("where") or ":" in l):
                inside = len(m.group(1))
                continue
            if inside is None or not l.strip() or l.strip().startswith("--"):
                continue
            if len(l) - len(l.lstrip()) <= inside:
                inside = None
                continue
            if len(l) - len(l.lstrip()) == inside + 2:
                m = re.match(r"\s*(?:pub )?([\w'-]+) :", l)
                if m:
                    found.add(m.group(1))
    return found


def functions():
    found = set()
    for p in files(".rt"):
        found |= set(re.findall(r"\bfn (\w+)", read(p)))
    return found


def library():
    """Names that come from the library: nothing of them is turned."""
    found = set()
    for p in files(".antt", ".rt"):
        for path, names in re.findall(r"(?m)^\s*(?:pub )?(?:ghost )?use ([^\s{]+)\.\{([^}]*)\}", read(p)):
            if not path.startswith("Rattle.") or path.startswith(("Rattle.std.", "Rattle.core.")):
                found |= {n.strip().split(" as ")[0] for n in names.split(",")}
    return found


def table():
    lib, fns, mem = library(), functions(), members()
    spec = {f.replace("_", "-") + "-spec": f + "_spec" for f in fns}
    turned = {}
    for p in files(".antt", ".rt"):
        for w in set(TOKEN.findall(STRING.sub('""', read(p)))):
            if w in lib or re.match(r"0?x[0-9A-F]+$", w):
                continue
            if w in spec:
                turned[w] = spec[w]
                continue
            n = APART.get(w) or "-".join(snake(x) for x in w.split("-"))
            if w in mem:
                n = n.replace("-", "_")
            if n != w:
                turned[w] = n
    return turned


# Two names of one file that would fall together: the law, the constructor or the rarer one has another name.
APART = {
    "noTime": "without_time",
    "noOffset": "without_offset",
    "inBytes": "to_bytes",
}
APART_IN = {
    "code_laws/proofs/Parts.antt": {"small_of": "small_of_lem"},
    "code_laws/proofs/NoYear.antt": {"no-year": "no_year_lem"},
    "codes/proofs/Short.antt": {"has_room": "has_room_lem"},
    "codes/proofs/Unpacking.antt": {"time-in": "time_in_lem"},
    "csv/proofs/Pieces.antt": {"plain_by": "plain_by_lem"},
    "csv/proofs/Found.antt": {"plain_by": "plain_by_lem"},
    "days/proofs/Cases.antt": {"year-in": "year_in_lem"},
    "days/proofs/asked/Proof.antt": {"year-in": "year_in_lem"},
    "knobstream/proofs/Words.antt": {"four_bytes": "four_bytes_lem"},
    "pages/proofs/Back.antt": {"all_ascii": "all_ascii_lem"},
    "points/proofs/Clocks.antt": {"zone-in": "zone_in_lem"},
    "roundtrip_laws/proofs/Strictly.antt": {"zone-in": "zone_in_lem"},
    "roundtrip_laws/proofs/Days.antt": {"on_value": "on_value_lem"},
    "xranges/proofs/Accepted.antt": {"on_value": "on_value_lem"},
    "xranges/proofs/Written.antt": {"on_value": "on_value_lem"},
    "scanner/proofs/Scanner/run/Proof.antt": {"run_at": "the_run_at"},
    "sheets/proofs/Bounds.antt": {"row_step": "row_step_lem", "skip_step": "skip_step_lem", "step_in": "step_in_lem"},
    "sheets/proofs/Parts.antt": {"is-over": "alike_over"},
    "strict/proofs/Sound.antt": {"no-offset": "no_offset_lem", "point_at": "point_at_lem"},
    "verdicts/proofs/Means.antt": {"run_at": "run_at_lem"},
    "verdicts/proofs/SixMeans.antt": {"six-read": "reads_six"},
}


def turn(text, table, apart):
    def word(m):
        w, at = m.group(0), m.start()
        # not the name of a module in a path, nor a field
        if w in apart and (at == 0 or m.string[at - 1] != "."):
            return apart[w]
        return table.get(w, w)

    def words(t):
        return re.sub(r"(\w)◌(?=[.;])", r"\1_specs", TOKEN.sub(word, t))

    out, at = [], 0
    for m in STRING.finditer(text):
        out += [words(text[at : m.start()]), m.group(0)]
        at = m.end()
    out.append(words(text[at:]))
    return "".join(out)


def turn_lines(text, table, path):
    apart = next((v for k, v in APART_IN.items() if path.endswith(k)), {})
    return "".join(turn(l, table, apart) for l in text.splitlines(keepends=True))


def main(argv):
    t = table()
    if "--check" in argv:
        for a, b in sorted(t.items()):
            print(a, b)
        return 0
    for p in files(".antt", ".rt", ".edit"):
        old = read(p)
        new = turn_lines(old, t, p)
        if new != old:
            with open(p, "w", encoding="utf-8") as f:
                f.write(new)
    return 0


if __name__ == "__main__":
    sys.exit(main(sys.argv[1:]))

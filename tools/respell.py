#!/usr/bin/env python3
"""Brings the repository's own definitions and lemmas to one spelling: words in snake case, types in camel case.

usage: python3 tools/respell.py [--try]     at the top of the repository, once, after port.py
       --try lists the new names and what may fall together, and writes nothing

A definition, a lemma or a field that specs/ or proofs/ declares goes from `termOf` or `formula-first` to `term_of` or
`formula_first`, and a lemma that would have a definition's name gets `_lem` at its end. A name is turned only in the files that declare it or import it, so a goal's generated name stays;
a field is turned wherever it stands. Types, modules, src/ functions and strings keep their names.
"""
import collections
import os
import re
import sys

# Lemmas that port.py had turned already, and whose names now fall together with a definition's, by the file that declares them.
OVERRIDES = {
    ("Rattle.lines.proofs.WordLaws", "same_bytes"): "same_bytes_lem",
    ("Rattle.lines.proofs.NumberLaws", "all_digits"): "all_digits_lem",
    ("Rattle.counted_lines.proofs.SetLaws", "set_line"): "set_line_lem",
    ("Rattle.load_metric.proofs.Refusals", "in_order"): "in_order_lem",
    ("Rattle.migrate.proofs.CoveredLaws", "load_after"): "load_after_lem",
    ("Rattle.migrate.proofs.LineCauses", "lines_fit"): "lines_fit_lem",
    ("Rattle.netting.proofs.ShareCells", "share_cells"): "share_cells_lem",
    ("Rattle.slots.proofs.GroupLaws", "in_group"): "in_group_lem",
    ("Rattle.groups.proofs.GroupLaws", "first_group"): "first_group_lem",
    # Definitions whose plain name is a struct's field.
    ("Rattle.tariff.specs.Sizes", "tenYear"): "ten_year_mark",
    ("Rattle.source_evidence.specs.Evidence", "tenYearKw"): "ten_year_kw_of",
}
NAME = r"[^\W\d][\w'\-]*"
TOP = re.compile(r"^(?:\s*(?:(?:pub|abbrev|unfoldable)\s+)*(?:abbrev|unfoldable)\s+(?:pub\s+)?|(?:pub\s+)?)(" + NAME + r")\s*(?:\{[^}]*\}\s*)*:\s")
FIELD = re.compile(r"^\s+pub\s+(" + NAME + r")\s*:\s")
IMPORT = re.compile(r"^\s*(?:ghost\s+|pub\s+)?use\s+(Rattle\.[\w.+]+)\.\{([^}]*)\}", re.M)
EDGE = r"(?<![\w'\-])%s(?![\w'\-])"
# Constructors, nested definitions and locals: what is left of mixed case, but for names of the library and the unit.
MIXED = re.compile(r"(?<![\w'\-\"])([a-z][a-z0-9_]*[A-Z][A-Za-z0-9_']*)(?![\w'\-])")
KEPT = {"kW", "arrayTy", "uint_Makes", "uint_Tells", "walk_Meets", "shr_slice_Tells"}


def files(root):
    for folder, dirs, names in os.walk(os.path.join(root, "crates")):
        dirs[:] = sorted(d for d in dirs if d not in ("out", "data"))
        for n in sorted(names):
            if n.endswith((".rt", ".antt", ".edit")):
                yield os.path.join(folder, n)


def snake(name):
    if name[0].isupper() or name[0] == "#":
        return name
    s = re.sub(r"(?<=[a-z0-9])([A-Z])", lambda m: "_" + m.group(1).lower(), name)
    return s.replace("-", "_")


def kind_of(path):
    if "/src/" in path:
        return "src"
    if "/specs/" in path:
        return "specs"
    if path.endswith(".edit"):
        return "edit"
    return "lemmas" if os.path.basename(os.path.dirname(path)) == "proofs" else "proof"


def module_of(path):
    m = re.match(r".*crates/(\w+)/(specs|proofs)/(\w+)\.antt$", path)
    return f"Rattle.{m.group(1)}.{m.group(2)}.{m.group(3)}" if m else None


def spelled(module, name, taken):
    plain = snake(name)
    return OVERRIDES.get((module, name), plain + "_lem" if "-" in name and plain in taken else plain)


def main(argv):
    texts = {p: open(p, encoding="utf-8").read() for p in files(".")}
    taken = set()
    for p, t in texts.items():
        if kind_of(p) in ("specs", "lemmas"):
            found = [f.match(l) for l in t.splitlines() for f in (TOP, FIELD)]
            taken |= {snake(f.group(1)) for f in found if f and (kind_of(p) == "specs" or re.search("[A-Z]", f.group(1)))}
    declared, fields = collections.defaultdict(dict), {}
    for p, t in texts.items():
        if kind_of(p) in ("specs", "lemmas"):
            m = module_of(p)
            for line in t.splitlines():
                for form in (TOP, FIELD):
                    found = form.match(line)
                    if found and spelled(m, found.group(1), taken) != found.group(1):
                        declared[m][found.group(1)] = spelled(m, found.group(1), taken)
                        if form is FIELD:
                            fields[found.group(1)] = declared[m][found.group(1)]
            for (of, old), new in OVERRIDES.items():
                if of == m:
                    declared[m][old] = new
    every = {n for names in declared.values() for n in names}
    said = []
    for p, t in texts.items():
        kind, turn = kind_of(p), {}
        for n in fields:
            if re.search("[A-Z]", n) or kind in ("specs", "lemmas"):
                turn[n] = fields[n]
        if kind == "edit":
            turn.update({n: snake(n) for n in every if re.search("[A-Z]", n)})
            turn.update({old: new for (_, old), new in OVERRIDES.items() if re.search("[A-Z]", old)})
        else:
            for m, inner in IMPORT.findall(t):
                for n in inner.split(","):
                    n = n.strip().split(" as ")[0].strip()
                    if n in declared.get(m, ()):
                        turn[n] = declared[m][n]
            turn.update(declared.get(module_of(p), {}))
        out, made = t, collections.defaultdict(set)
        for n in sorted(turn, key=len, reverse=True):
            if not re.search(EDGE % re.escape(n), t):
                continue
            made[turn[n]].add(n)
            code = "\n".join(l.split("-- ")[0] for l in t.splitlines())
            hit = re.search(r"(?<![\w'\-.])" + re.escape(turn[n]) + r"(?![\w'\-])", code)
            if hit and kind != "src" and turn[n] not in turn:
                at = code[: hit.start()].count("\n") + 1
                said.append(f"{p}:{at}: `{turn[n]}` stands already, beside `{n}`: {t.splitlines()[at - 1].strip()[:110]}")
            out = re.sub(EDGE % re.escape(n), turn[n], out)
        said += [f"{p}: {sorted(v)} fall together" for v in made.values() if len(v) > 1]
        if kind == "proof":
            for n in sorted(set(fields) - set(turn)):
                out = re.sub(r"(?<=\.)" + re.escape(n) + r"(?![\w'\-])", fields[n], out)
        mixed = {n for n in MIXED.findall(out)} - KEPT
        for n in sorted(mixed, key=len, reverse=True):
            code = "\n".join(l.split("-- ")[0] for l in out.splitlines())
            if kind != "src" and re.search(r"(?<![\w'\-.])" + re.escape(snake(n)) + r"(?![\w'\-])", code):
                said.append(f"{p}: `{snake(n)}` stands already, beside `{n}`")
            out = re.sub(EDGE % re.escape(n), snake(n), out)
        if "--try" not in argv and out != t:
            with open(p, "w", encoding="utf-8") as f:
                f.write(out)
    print("\n".join(said))
    print(f"{len(every)} definitions and lemmas, {len(fields)} of them fields; {len(said)} places to look at")
    return 0


if __name__ == "__main__":
    raise SystemExit(main(sys.argv[1:]))

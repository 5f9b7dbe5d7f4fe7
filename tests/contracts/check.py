#!/usr/bin/env python3
"""Sees that docs/CONTRACTS.md has a row for each clause of upstream, in upstream's own words, that what a row cites
stands in the crates, and that docs/DIFFERENCES.md has an entry for each row that differs and for no other.

    check.py

digests.txt, beside this file, has upstream's clauses as digests of their words (digests.py says how they are made). A
row names its function and its clause, as `ensures x == y`: the kind, and then upstream's words. What is seen:

- a clause that has no row, or two; a row whose words are no clause of its function; a group that the page doesn't name
- a list that isn't the one that was made from upstream's text: SEAL is its digest
- a cited name, as `whole.Mul.lemma-mul-basics`, that isn't declared `pub` in crates/whole/proofs/Mul.antt,
  crates/whole/specs/Mul.antt or crates/whole/src/Mul.rt; a law, or a definition, of another name than the row's function
- a part, `.1`, that the law's statement doesn't have, or that two `ensures` of one function are given by
- a verdict that the page doesn't explain; one but `same` that has no reason; a clause that is given by nothing
- a row that is different, left out or refused with no entry in docs/DIFFERENCES.md, and an entry for any other row

That a cited law states the clause no check sees: whoever reads the page compares the two.
It prints what is wrong, a line each, and then exits 1. Where nothing is wrong, it damages the pages in each of these
ways (`damages`), and must say of each what is wrong with it.
"""
import collections
import hashlib
import os
import re
import sys

sys.dont_write_bytecode = True
from digests import digest

HERE = os.path.dirname(os.path.abspath(__file__))
TOP = os.path.dirname(os.path.dirname(HERE))
SEAL = "4c48b8f3dc174b06"
KINDS = {"takes", "requires", "ensures", "recommends", "decreases", "is", "calls", "holds", "instance", "says"}
# the clause holds here; it doesn't, and docs/DIFFERENCES.md says why
GIVEN = {"same", "stronger"}
DIFFERS = {"refused instead of required", "different", "left out"}
CITED = re.compile(r"`([a-z_0-9]+(?:\.[^\s`.]+){2,})`")
CELL = re.compile(r"(?<!\\)\|")
QUOTED = re.compile(r"`([^`]*)`")
LAWS = {"mul.rs": "Mul", "div_mod.rs": "DivMod", "power.rs": "Power", "logarithm.rs": "Logarithm"}
METHODS = "checked.number"
SOURCES = {}

Row = collections.namedtuple("Row", "line file function kind words here verdict reason")


def source(*path):
    """The text of a file of the crates, or none."""
    if path not in SOURCES:
        file = os.path.join(TOP, "crates", *path)
        text = ""
        if os.path.exists(file):
            with open(file, encoding="utf-8") as f:
                text = f.read()
        SOURCES[path] = text
    return SOURCES[path]


def statement(name):
    """What a cited name is declared as: a law's type, '' for anything else that is there, None where nothing is."""
    crate, *path, last = name.split(".")
    antt = re.compile(rf"^([ \t]*)(?:unfoldable |abbrev )*pub (data |record )?{re.escape(last)}(?=\s|$)", re.M)
    rt = re.compile(rf"^\s*pub (?:extern \"C\" )?(?:fn|enum|struct|const|type) {re.escape(last)}\b", re.M)
    for room in ("proofs", "specs"):
        text = source(crate, room, *path[:-1], path[-1] + ".antt")
        found = antt.search(text)
        if found:
            after = text[found.end() :]
            end = re.search(rf"^{found.group(1)}(?:{re.escape(last)}\b|unfolding )", after, re.M)
            return after[: end.start()] if end and not found.group(2) else ""
    return "" if rt.search(source(crate, "src", *path[:-1], path[-1] + ".rt")) else None


def cut(text, sign):
    """The text cut at a sign outside brackets."""
    pieces, depth = [""], 0
    for c in text:
        depth += (c in "([{") - (c in ")]}")
        if c == sign and depth == 0:
            pieces.append("")
        else:
            pieces[-1] += c
    return pieces


def parts(type_of_law):
    """How many facts a law states: those that `×` joins behind its last arrow."""
    return len(cut(cut(type_of_law, "→")[-1], "×"))


def rows_of(page):
    """The page's rows, and what can't be read as one."""
    found, faults, section = [], [], None
    for number, line in enumerate(page.split("\n"), 1):
        if line.startswith("## "):
            section = line[3:].strip()
        cells = [c.strip() for c in CELL.split(line)[1:-1]]
        if section is None or not section.endswith(".rs") or not cells or cells[0] in ("function", "---"):
            continue
        if len(cells) != 5:
            faults.append(f"line {number}: {len(cells)} cells, where a row has 5")
            continue
        function, clause, here, verdict, reason = cells
        kind, _, words = clause.strip("`").replace("\\|", "|").partition(" ")
        if kind not in KINDS:
            faults.append(f"line {number}: the clause begins with '{kind}', which is no kind")
        found.append(Row(number, section, function.strip("`"), kind, words, here, verdict, reason))
    return found, faults


def clause_faults(rows, listing, page):
    """What the rows lack of upstream's clauses, and have beside them."""
    faults = []
    if hashlib.sha256(listing.encode()).hexdigest()[:16] != SEAL:
        faults.append("tests/contracts/digests.txt isn't the list that was made from upstream's text")
    wanted = collections.Counter()
    for line in listing.split("\n"):
        if line and not line.startswith("#"):
            file, function, kind, sum_ = line.split()
            if kind != "group":
                wanted[file, function, kind, sum_] += 1
            elif f"`{function}`" not in page:
                faults.append(f"{file}: the page doesn't name {function}")
    have = collections.Counter((r.file, r.function, r.kind, digest(r.words)) for r in rows)
    for file, function, kind, _ in (wanted - have).elements():
        faults.append(f"{file} {function}: a clause '{kind} ..' has no row in upstream's words")
    for row in rows:
        key = row.file, row.function, row.kind, digest(row.words)
        if have[key] > wanted[key]:
            faults.append(f"line {row.line}: upstream's {row.function} has no such clause, or not as often")
    return faults


def own(row):
    """The law here that has the name of a row's function, with dashes; or the definition, whose name is upstream's."""
    law = re.match(r"lemma\d*_", row.function)
    return f"whole.{LAWS.get(row.file)}.{row.function.replace('_', '-') if law else row.function}"


def citation_faults(rows, page):
    """What is cited and isn't there, has another name than its function, or lacks a part."""
    faults, names = [], {}
    for number, line in enumerate(page.split("\n"), 1):
        for name in CITED.findall(line):
            names.setdefault(name, number)
    for name, number in names.items():
        if statement(name) is None:
            faults.append(f"line {number}: `{name}` does not stand in the crates")
    given = collections.Counter()
    for row in rows:
        cited = CITED.findall(row.here)
        lawful = row.file in LAWS and not row.function.startswith("comment_") and row.verdict != "left out"
        if lawful and cited and own(row) not in cited:
            faults.append(f"line {row.line}: `{own(row)}` is not among what is cited for {row.function}")
        if row.file == "overflow.rs" and row.kind in ("requires", "ensures") and row.verdict != "left out":
            if f"{METHODS}.{row.function}" not in cited:
                faults.append(f"line {row.line}: `{METHODS}.{row.function}` is not among what is cited")
        for name, rest in re.findall(CITED.pattern + r"([^`]*)", row.here):
            told = statement(name)
            for part in re.findall(r"(?<![\w.])\.(\d+)", rest):
                if not told or parts(told) == 1 or int(part) >= parts(told):
                    faults.append(f"line {row.line}: `{name}` states no fact .{part}")
                if row.kind == "ensures":
                    given[row.function, name, part] += 1
    for (function, name, part), times in given.items():
        if times > 1:
            faults.append(f"{function}: two clauses are given by `{name}` .{part}")
    return faults, len(names)


def verdict_faults(rows, differences):
    """Verdicts that are none, lack what they need, or disagree with docs/DIFFERENCES.md."""
    faults = []
    for row in rows:
        if row.verdict not in GIVEN | DIFFERS:
            faults.append(f"line {row.line}: the verdict '{row.verdict}' is none of those that the page explains")
        if row.verdict != "left out" and not CITED.search(row.here):
            faults.append(f"line {row.line}: '{row.verdict}', and nothing is cited that gives the clause")
        if row.verdict != "same" and not row.reason:
            faults.append(f"line {row.line}: '{row.verdict}', and no reason is given")
    entered = set()
    for number, line in enumerate(differences.split("\n"), 1):
        cells = [c.strip() for c in CELL.split(line)[1:-1]]
        if len(cells) != 5 or cells[0] in ("what", "---") or cells[4] == "-":
            continue
        for piece in cells[4].split(";"):
            first, *clauses = [q.replace("\\|", "|") for q in QUOTED.findall(piece)] or [""]
            clauses = {"".join(c.split()) for c in clauses}
            meant = [r for r in rows if first in (r.function, r.kind)]
            if clauses:
                meant = [r for r in meant if "".join((r.kind + r.words).split()) in clauses]
            if len(meant) < max(len(clauses), 1):
                faults.append(f"docs/DIFFERENCES.md, line {number}: '{piece.strip()}' is no row of docs/CONTRACTS.md")
            entered.update(r.line for r in meant)
    for row in rows:
        if row.verdict in DIFFERS and row.line not in entered:
            faults.append(f"line {row.line}: '{row.verdict}', and docs/DIFFERENCES.md has no entry for it")
        if row.verdict in GIVEN and row.line in entered:
            faults.append(f"line {row.line}: '{row.verdict}', and docs/DIFFERENCES.md says that it differs")
    return faults


def faults_of(page, differences, listing):
    """What is wrong with the pages, and how many rows and names there are."""
    rows, faults = rows_of(page)
    faults += clause_faults(rows, listing, page)
    more, names = citation_faults(rows, page)
    return faults + more + verdict_faults(rows, differences), len(rows), names


def damages(page, differences, listing):
    """The pages with one thing made wrong, for each way in which a row can be false, and what must be said of it."""
    lines = page.split("\n")
    rows, _ = rows_of(page)

    def text(row):
        return lines[row.line - 1]

    def changed(row, old, new):
        line = re.sub(old, new, text(row))
        assert line != text(row), (old, text(row))
        return page.replace(text(row), line, 1), differences, listing

    def without(text_of_page, start):
        return "\n".join(line for line in text_of_page.split("\n") if not line.startswith(start))

    same = [r for r in rows if r.verdict == "same" and r.kind == "ensures" and r.file == "div_mod.rs"]
    row, other = same[len(same) // 2], same[len(same) // 3]
    split = next(r for r in same if re.search(r"` \.0", r.here))
    apart = next(r for r in rows if r.verdict == "different")
    gone = next(r for r in rows if r.verdict == "left out" and r.kind == "ensures")
    more = next(r for r in rows if r.verdict == "stronger")
    cited = re.escape(f"`{CITED.search(row.here).group(1)}`")
    of_row = f"| `{row.function}` |"
    nowhere = "`whole.DivMod.lemma-nowhere`"
    differs = r"\| same \|[^|]*\|$"
    no_entry, no_clause, no_row = "has no entry for it", "no such clause", "has no row in upstream's words"
    yield "a name that stands nowhere", "does not stand in the crates", changed(row, cited, nowhere)
    yield "another law", "is not among what is cited", changed(row, cited, f"`{CITED.search(other.here).group(1)}`")
    yield "`ensures true`", no_clause, changed(row, r"`ensures [^`]*`", "`ensures true`")
    yield "`ensures true`, for the clause", no_row, changed(row, r"`ensures [^`]*`", "`ensures true`")
    yield "a clause of another kind", no_clause, changed(row, "`ensures ", "`requires ")
    yield "same made different", "no reason is given", changed(row, differs, "| different |  |")
    yield "same made different, with a reason", no_entry, changed(row, differs, "| different | why |")
    yield "different made same", "says that it differs", changed(apart, r"\| different \|", "| same |")
    exchanged = changed(row, r"\| same \|", "| different |")[0].replace(
        text(apart), text(apart).replace("| different |", "| same |"), 1)
    yield "verdicts exchanged", no_entry, (exchanged, differences, listing)
    yield "verdicts exchanged, the other row", "says that it differs", (exchanged, differences, listing)
    yield "left out made same", "says that it differs", changed(gone, r"\|  \| left out \|", f"| {nowhere} | same |")
    yield "stronger with no reason", "no reason is given", changed(more, r"\| stronger \|[^|]*\|$", "| stronger |  |")
    yield "a verdict of nobody's", "none of those that the page explains", changed(row, r"\| same \|", "| fine |")
    yield "same, and nothing is cited", "nothing is cited", changed(row, cited, "")
    yield "an index of 99", "states no fact .99", changed(split, r"` \.0", "` .99")
    yield "an index that another clause has", "two clauses are given", changed(split, r"` \.0", "` .1")
    yield "an index where the law states one fact", "states no fact .0", changed(row, f"({cited})", r"\1 .0")
    yield "a row doubled", no_clause, (page.replace(text(row), text(row) + "\n" + text(row), 1), differences, listing)
    yield "a row taken out", no_row, (page.replace(text(row) + "\n", "", 1), differences, listing)
    yield "a function dropped from the page", no_row, (without(page, of_row), differences, listing)
    yield "a function dropped from page and list", "isn't the list that was made", (
        without(page, of_row), differences, without(listing, f"{row.file} {row.function} "))
    left_out = [re.sub(r"\| [^|]* \|[^|]*\|$", "| left out | not wanted |", line) for line in lines]
    of_file = {r.line for r in rows if r.file == "power.rs"}
    yield "a whole file left out", no_entry, (
        "\n".join(left_out[n - 1] if n in of_file else line for n, line in enumerate(lines, 1)), differences, listing)
    yield "a group that isn't named", "the page doesn't name", (
        page.replace("`group_mul_basics`", "some"), differences, listing)
    yield "different with no entry", no_entry, (
        page, re.sub(r"\|[^|\n]*\|$", "| - |", differences, flags=re.M), listing)
    yield "an entry for no row", "is no row of docs/CONTRACTS.md", (
        page, differences.replace("| `clone` |\n", "| `clone`; `cloned` |\n"), listing)


def read(*path):
    with open(os.path.join(*path), encoding="utf-8") as f:
        return f.read()


def main():
    pages = read(TOP, "docs", "CONTRACTS.md"), read(TOP, "docs", "DIFFERENCES.md"), read(HERE, "digests.txt")
    found, rows, names = faults_of(*pages)
    for fault in found:
        print(f"docs/CONTRACTS.md: {fault}", file=sys.stderr)
    if found:
        sys.exit(1)
    tried = 0
    for what, said, damaged in damages(*pages):
        tried += 1
        if not any(said in fault for fault in faults_of(*damaged)[0]):
            found.append(what)
            print(f"tests/contracts/check.py: {what} is not seen", file=sys.stderr)
    if found:
        sys.exit(1)
    print(f"contracts: {rows} rows in upstream's words, {names} names cited, all found")
    print(f"contracts: {tried} damaged pages, each seen")


if __name__ == "__main__":
    main()

#!/usr/bin/env python3
"""Sees that every public function asks nothing, promises something and has its row in docs/ENTRIES.md, and that no
theorem is named on the pages that isn't there.

    check.py

A function is written `crate::module::name`, a method `crate::Type::name`. A program has no public function, since
nothing outside it calls one: its functions are `pub(crate)` or private. A static library, NAME_c, exports functions of
the library NAME: each must have the parameters and the clauses of the one that it is named after. A row names under 'unique by' the theorem that no other
answer meets the contract. Every must-fail edit of the crates must be named on the page too, and every edit that the
page names must be there. The table 'Doors' must have every function of the libraries, by its name or by its module's
or type's; every entry for C, which the header must have too; and every function of the Python module.

A theorem is named on README.md, docs/ENTRIES.md and docs/DECISIONS.md in backquotes, as lowercase words joined by
dashes, `count-bounded`; or with its page before it, `Closed.log-equation`, as a name of one word always is. It must be
declared in the crates' proofs or specs, and where its page is named, on a page of that name. Where a row of a table
ends with a page of a crate, `recipe.Promises`, the names in the cell before it must stand there, or come there by
`pub use`.

A definition or a function is named on these pages by lowercase words joined by `_`, alone or in a formula in
backquotes, `scan_of numbers marks`. It must be declared in the crates' proofs, specs or src, in the header, the Fortran
or the Python module, or be one of upstream's (tests/contracts/digests.txt).
It prints what is wrong, a line each, and then exits 1.
"""
import ast
import glob
import os
import re
import sys

TOP = os.path.dirname(os.path.dirname(os.path.dirname(os.path.abspath(__file__))))
FUNCTION = re.compile(r'^(\s*)(?:#\[[^\]]*\]\s*)?pub (?:extern "C" )?fn ([A-Za-z_0-9]+)')
METHODS_OF = re.compile(r"^impl(?:<[^{]*>)? ([A-Za-z_0-9]+)(?:<[^{]*>)? \{")
OF_FUNCTION = re.compile(r"\| `[a-z_0-9]+::")
CLAUSE = re.compile(r"^    ensures .*?\}$", re.M | re.S)
DOORS = "\n## Doors\n"
ENTRY = re.compile(r'^pub extern "C" fn ([a-z_0-9]+)', re.M)
NAMING = ("README.md", "docs/ENTRIES.md", "docs/DECISIONS.md")
DASHED = r"[a-z0-9^]+(?:-[a-z0-9^]+)+"
THEOREM = re.compile(rf"`({DASHED}|[A-Z][A-Za-z]*\.(?!antt`)[a-z0-9^-]+)`")
ON_PAGE = re.compile(r"\|([^|]*)\|\s*`([a-z_0-9]+)\.([A-Z][A-Za-z]*)`\s*\|\s*$")
DECLARED = re.compile(r"^\s*(?:unfoldable |abbrev )*(?:pub )?([a-z0-9^][^\s:(){}]*)\s*:", re.M)
BROUGHT = re.compile(r"^pub use \S+\.\{([^}]*)\}", re.M)
QUOTED = re.compile(r"`([^`]+)`")
JOINED = re.compile(r"(?<![\w:./-])[a-z][a-z0-9]*(?:_[a-z0-9]+)+(?![\w:./-])")
IN_CODE = re.compile(r"\b(?:fn|const|mod) ([a-z_0-9]+)")
FOR_HOSTS = (("include", "razovinto.h"), ("include", "razovinto.f90"), ("python", "razovinto.py"))


def read(*path):
    with open(os.path.join(TOP, *path), encoding="utf-8") as f:
        return f.read()


def sources():
    """The code of every crate: the crate, whether it is a program, the module and the text."""
    for path in sorted(glob.glob(os.path.join(TOP, "crates", "*", "src", "**", "*.rt"), recursive=True)):
        inside = os.path.relpath(path, os.path.join(TOP, "crates")).split(os.sep)
        program = os.path.exists(os.path.join(TOP, "crates", inside[0], "src", "main.rt"))
        yield inside[0], program, os.path.splitext("::".join(inside[2:]))[0], read(path)


def public_functions(text):
    """The public functions of a file, each with the type it is a method of and the words of its contract."""
    rows = text.split("\n")
    owner = None
    for i, row in enumerate(rows):
        methods = METHODS_OF.match(row)
        if methods:
            owner = methods.group(1)
        elif row == "}":
            owner = None
        function = FUNCTION.match(row)
        if function:
            head = []
            for later in rows[i:]:
                if later.strip() == "{":
                    break
                head.append(later)
            yield owner, function.group(2), set(re.findall(r"^\s*(requires|ensures)\b", "\n".join(head), re.M))


def full_name(crate, module, owner, name):
    middle = owner or (None if module == "lib" else module)
    return "::".join(part for part in (crate, middle, name) if part)


def function_faults(files, named):
    """What is wrong with public functions, and how many there are."""
    faults, count = [], 0
    for crate, program, module, text in files:
        for owner, name, clauses in public_functions(text):
            full = full_name(crate, module, owner, name)
            if program:
                faults.append(f"{full} is public in a program")
                continue
            count += 1
            if "requires" in clauses:
                faults.append(f"{full} asks something of its caller")
            if "ensures" not in clauses:
                faults.append(f"{full} promises nothing")
            if full not in named:
                faults.append(f"{full} has no row in docs/ENTRIES.md")
    return faults, count


def static_libraries():
    """The crates that only export a library's functions to C."""
    return set(re.findall(r"^(\w+) staticlib\b", read("crates.txt"), re.M))


def heads(files, crate):
    """The public functions of a crate, each with its parameters and clauses, whatever their layout."""
    found = {}
    for text in (text for c, _, _, text in files if c == crate):
        for head in re.findall(r"^pub (?:extern \"C\" )?fn (.*?)^\{$", text, re.M | re.S):
            name, _, rest = " ".join(head.split()).partition("(")
            found[name] = rest.replace(", )", ")").lstrip()
    return found


def export_faults(files):
    """Which exports don't say what the library's function of their name says."""
    faults = []
    for crate in sorted(static_libraries()):
        library = heads(files, crate.removesuffix("_c"))
        exports = heads(files, crate)
        faults += [f"{crate} exports nothing"] * (not exports)
        faults += [f"{crate}::{n} has other parameters or clauses" for n in sorted(exports) if exports[n] != library.get(n)]
    return faults


def exports_tried(files):
    """The check must see an export without one of its clauses, in each static library."""
    for crate in static_libraries():
        own = [file for file in files if file[0] in (crate, crate.removesuffix("_c"))]
        cut = [(c, p, m, CLAUSE.sub("", text, 1) if c == crate else text) for c, p, m, text in own]
        if not any(fault.startswith(f"{crate}::") for fault in export_faults(cut)):
            return False
    return bool(static_libraries())


def cells_of(row):
    return [cell.strip() for cell in row.strip("|").split("|")]


def row_faults(page):
    """Which rows of functions name no theorem by which their answer is unique."""
    faults, column = [], None
    for number, row in enumerate(page.split("\n"), 1):
        cells = cells_of(row)
        if cells[0] == "function":
            column = cells.index("unique by") if "unique by" in cells else None
        elif OF_FUNCTION.match(row) and (column is None or not THEOREM.search(cells[column])):
            faults.append(f"docs/ENTRIES.md, line {number}: {cells[0]} has no theorem under 'unique by'")
    return faults


def in_python():
    """The functions that the Python module shows."""
    for statement in ast.parse(read("python", "razovinto.py")).body:
        if isinstance(statement, ast.Assign) and statement.targets[0].id == "__all__":
            return {name for name in ast.literal_eval(statement.value) if name.islower()}
    return set()


def door_faults(table, files):
    """Which function has no door and no word why, and which door isn't there."""
    rows = [cells_of(row) for row in table.split("\n") if row.startswith("| `")]
    columns = [{n for row in rows for n in re.findall(r"`([^`\s]+)`", row[i])} for i in range(3)]
    libraries = [(c, m, text) for c, program, m, text in files if not program]
    entries = {n for _, _, text in libraries for n in ENTRY.findall(text)}
    functions = {
        full_name(c, m, owner, n) for c, m, text in libraries for owner, n, _ in public_functions(text) if n not in entries
    }
    header = read("include", "razovinto.h")
    faults = [
        f"{f} isn't among the doors" for f in sorted(functions) if not any(f == n or f.startswith(n + "::") for n in columns[0])
    ]
    faults += [
        f"the doors have {n}, which is no function" for n in sorted(columns[0])
        if not any(f == n or f.startswith(n + "::") for f in functions)
    ]
    faults += [f"{e} isn't in the header" for e in sorted(entries) if f" {e}(" not in header]
    faults += [f"the entry {e} isn't among the doors" for e in sorted(entries - columns[1])]
    faults += [
        f"the doors have {n}, which the header doesn't have" for n in sorted(columns[1])
        if n.startswith("razovinto_") and f"{n}(" not in header
    ]
    faults += [f"Python's {n} isn't among the doors" for n in sorted(in_python() - columns[2])]
    return faults


def doors_tried(table, files):
    """The check must see a row taken out, whichever it is."""
    rows = [row for row in table.split("\n") if row.startswith("| `")]
    return bool(rows) and all(door_faults(table.replace(row, ""), files) for row in rows)


def edit_faults(named):
    """Which must-fail edits aren't named, or aren't there; and how many there are."""
    edits = {
        "/".join((os.path.relpath(e, os.path.join(TOP, "crates")).split(os.sep)[0], os.path.basename(e)[: -len(".edit")]))
        for e in glob.glob(os.path.join(TOP, "crates", "*", "must-fail", "*.edit"))
    }
    said = {n for n in named if re.fullmatch(r"[a-z_0-9]+/[a-z_0-9]+", n)}
    faults = [f"the edit {e} is not named in docs/ENTRIES.md" for e in sorted(edits - said)]
    faults += [f"docs/ENTRIES.md names the edit {e}, which is not there" for e in sorted(said - edits)]
    return faults, len(edits)


def declarations():
    """The names that each page of each crate declares, and those that it brings from other pages."""
    pages = {}
    for path in glob.glob(os.path.join(TOP, "crates", "*", "*", "**", "*.antt"), recursive=True):
        inside = os.path.relpath(path, os.path.join(TOP, "crates")).split(os.sep)
        if inside[1] in ("proofs", "specs"):
            text = read(path)
            page = pages.setdefault((inside[0], os.path.splitext(inside[-1])[0]), (set(), set()))
            page[0].update(DECLARED.findall(text))
            page[1].update(name.strip() for names in BROUGHT.findall(text) for name in names.split(","))
    return pages


def theorem_faults(texts, pages):
    """Which names of theorems on the pages don't stand where they should, and how many names there are."""
    faults, seen = [], set()
    everywhere = set().union(*(declared for declared, _ in pages.values()))
    for file, text in texts.items():
        for number, line in enumerate(text.split("\n"), 1):
            for name in THEOREM.findall(line):
                seen.add(name)
                page, _, last = name.rpartition(".")
                there = everywhere if not page else set().union(*(d for (_, p), (d, _) in pages.items() if p == page))
                if last not in there:
                    faults.append(f"{file}, line {number}: `{name}` stands nowhere in the crates' proofs or specs")
            row = ON_PAGE.search(line)
            if row:
                cell, crate, page = row.groups()
                declared, brought = pages.get((crate, page), (set(), set()))
                for name in THEOREM.findall(cell):
                    if name not in declared | brought:
                        faults.append(f"{file}, line {number}: `{name}` isn't on the page {page} of {crate}")
    return faults, len(seen)


def joined_names(pages, files):
    """The names of words joined by `_` that the pages may name."""
    names = set().union(*(declared for declared, _ in pages.values()))
    names |= {name for _, _, _, text in files for name in IN_CODE.findall(text)} | {crate for crate, *_ in files}
    names |= {name for path in FOR_HOSTS for name in JOINED.findall(read(*path))}
    clauses = [line.split() for line in read("tests", "contracts", "digests.txt").split("\n") if line[:1] not in ("", "#")]
    return names | {file.removesuffix(".rs") for file, *_ in clauses} | {function for _, function, *_ in clauses}


def joined_on(text):
    """The names of words joined by `_` on a page, each with its line."""
    for number, line in enumerate(text.split("\n"), 1):
        for quoted in QUOTED.findall(line):
            yield from ((number, name) for name in JOINED.findall(quoted))


def name_faults(texts, names):
    """Which names of definitions and functions on the pages stand nowhere, and how many names there are."""
    on = [(file, number, name) for file, text in texts.items() for number, name in joined_on(text)]
    faults = [f"{file}, line {number}: `{name}` stands nowhere" for file, number, name in on if name not in names]
    return faults, len({name for _, _, name in on})


def page_of(row):
    return "`{}.{}`".format(*ON_PAGE.search(row).groups()[1:])


def row_tried(page):
    """The check must see a row without a theorem in that cell, and a table without the column."""
    rows = page.split("\n")
    head = next(row for row in rows if cells_of(row)[0] == "function")
    first = next(row for row in rows if OF_FUNCTION.match(row))
    cells = cells_of(first)
    cells[cells_of(head).index("unique by")] = "the value itself"
    emptied = page.replace(first, "| " + " | ".join(cells) + " |")
    return bool(row_faults(emptied) and row_faults(page.replace("| unique by |", "| so |")))


def program_tried(files, named):
    """The check must see a public function in each program."""
    programs = {crate for crate, program, _, _ in files if program}
    for crate in programs:
        own = [file for file in files if file[0] == crate]
        opened = [(c, p, m, text.replace("pub(crate) fn", "pub fn", 1)) for c, p, m, text in own]
        if function_faults(own, named)[0] or not function_faults(opened, named)[0]:
            return False
    return bool(programs)


def tried(texts, pages):
    """The check must see a theorem that stands nowhere, on each page, and one that stands on another page."""
    for file, text in texts.items():
        name = THEOREM.search(text).group(0)
        if not theorem_faults({file: text.replace(name, name[:-1] + "x`")}, pages)[0]:
            return False
    rows = [row for row in texts["README.md"].split("\n") if ON_PAGE.search(row)]
    moved = rows[0].replace(page_of(rows[0]), page_of(rows[-1]))
    return bool(theorem_faults({"README.md": moved}, pages)[0])


def name_tried(texts, names):
    """The check must see a definition that stands nowhere, on each page."""
    for file, text in texts.items():
        _, name = next(joined_on(text))
        if not name_faults({file: text.replace(name, name + "x")}, names)[0]:
            return False
    return True


def main():
    page, _, table = read("docs", "ENTRIES.md").partition(DOORS)
    named = set(re.findall(r"`([^`\s]+)`", page))
    files = list(sources())
    faults, functions = function_faults(files, named)
    more, edits = edit_faults(named)
    texts, pages = {file: read(file) for file in NAMING}, declarations()
    wrong, theorems = theorem_faults(texts, pages)
    names = joined_names(pages, files)
    unknown, joined = name_faults(texts, names)
    faults += row_faults(page) + more + wrong + unknown + door_faults(table, files) + export_faults(files)
    if not faults and not tried(texts, pages):
        faults.append("tests/entries/check.py: a damaged page passes")
    if not faults and not name_tried(texts, names):
        faults.append("tests/entries/check.py: a definition that stands nowhere passes")
    if not faults and not row_tried(page):
        faults.append("tests/entries/check.py: a row without 'unique by' passes")
    if not faults and not exports_tried(files):
        faults.append("tests/entries/check.py: an export without a clause passes")
    if not faults and not program_tried(files, named):
        faults.append("tests/entries/check.py: a public function in a program passes")
    if not faults and not doors_tried(table, files):
        faults.append("tests/entries/check.py: a table of doors without a row passes")
    for fault in faults:
        print(f"entries: {fault}", file=sys.stderr)
    if faults:
        sys.exit(1)
    print(f"entries: {functions} public functions, each with a promise and a row; {edits} must-fail edits, each named")
    print(f"entries: {theorems} theorems named on the pages, each found; a door or a word why for each function")
    print(f"entries: {joined} names of definitions and functions on the pages, each found")


if __name__ == "__main__":
    main()

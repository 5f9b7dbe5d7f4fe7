#!/usr/bin/env python3
"""Makes digests.txt, the list of upstream's clauses by which check.py knows them.

    digests.py FOLDER > digests.txt

FOLDER holds upstream's five files, as `mul.rs` or under a name that ends in `mul.rs.txt`. Their text doesn't go into
the repository: of each clause the list has the file, the function, the kind, and the first 16 hexadecimal digits of
the SHA-256 of its words with all white space taken out. A clause's words are upstream's, without triggers
(`#[trigger]`, `#![trigger ..]`), comments and the comma at the end. The kinds:

    takes       a parameter of type `nat`, which asks that it isn't negative: `x: nat`
    requires, ensures, recommends, decreases     a clause of that list
    is          a definition's body (`spec fn`)
    calls       a call, in a function that runs, of a function that isn't in the file: its receiver is not `self` alone
    holds       a field of the struct
    instance    a use of the macro
    says        of a comment whose function isn't in the text: each formula that it has in backquotes, or all its words
                where it has none

A comment has no function where `/* one function left out */` stands in its place, where another comment that begins
`Proof that` follows it at once, or where it is a `/* .. */` that says what isn't ported. It is listed as
`comment_before_NAME`, of the function that follows. A group of laws is listed as a `group`, with its members' names.
The list is in the order of the text; the same folder gives the same list.
"""
import hashlib
import os
import re
import sys

FILES = ("mul.rs", "div_mod.rs", "power.rs", "logarithm.rs", "overflow.rs")
CLAUSES = ("requires", "ensures", "recommends", "decreases")
HEAD = re.compile(
    r"(?:pub )?(?:broadcast )?(?:open |closed )?(?P<mode>proof|spec|exec) fn (?P<name>\w+)"
    r"|pub broadcast group (?P<group>\w+)"
    r"|pub struct (?P<struct>\$?\w+)"
    r"|^(?P<macro>\w+!)\((?P<words>[^)]*)\);",
    re.M,
)
WORD = re.compile(r"\b(requires|ensures|recommends|decreases)\b")
OPEN, CLOSE = "([{", ")]}"


def digest(words):
    """What stands for a clause's words in the list."""
    return hashlib.sha256(re.sub(r"\s+", "", words).encode()).hexdigest()[:16]


def without_triggers(text):
    """The text without `#[..]` and `#![..]`."""
    found = []
    at = 0
    while at < len(text):
        start = re.compile(r"#!?\[").match(text, at)
        if start:
            at = closing(text, start.end() - 1) + 1
        else:
            found.append(text[at])
            at += 1
    return "".join(found)


def closing(text, at):
    """Where the bracket that opens at `at` is closed."""
    depth = 0
    for i in range(at, len(text)):
        depth += (text[i] in OPEN) - (text[i] in CLOSE)
        if depth == 0:
            return i
    raise ValueError("a bracket is not closed")


def parts(text):
    """The text cut at its commas outside brackets and outside the bars of `forall|x: int, y: int|`."""
    found, depth, bars, start = [], 0, False, 0
    for i, c in enumerate(text):
        depth += (c in OPEN) - (c in CLOSE)
        if c == "|" and (bars or re.search(r"forall\s*$", text[:i])):
            bars = not bars
        if c == "," and depth == 0 and not bars:
            found.append(text[start:i])
            start = i + 1
    found.append(text[start:])
    return [p.strip() for p in found if p.strip()]


def body_at(text, at):
    """Where a function's body opens: at the first `{` that belongs to no `match` or `if` of a clause."""
    while True:
        brace = text.index("{", at)
        if not re.search(r"\b(match [\w.]+|if [^{}]*|else)\s*$", text[at:brace]):
            return brace
        at = closing(text, brace) + 1


def clauses(head):
    """The clauses between a function's parameters and its body, as kind and words."""
    marks = list(WORD.finditer(head))
    for mark, after in zip(marks, marks[1:] + [None]):
        for words in parts(head[mark.end() : after.start() if after else len(head)]):
            yield mark.group(1), words


def calls(body):
    """The calls in a body of functions that the file doesn't have."""
    for call in re.finditer(r"((?:\w+\.)+)(\w+)\(", body):
        if call.group(1) != "self.":
            yield "calls", body[call.start() : closing(body, call.end() - 1) + 1]


def said(words):
    """What a comment without a function says: its formulas, or all its words."""
    formulas = re.findall(r"`([^`]*[^\w`][^`]*)`", words)
    return [("says", f) for f in formulas] or [("says", words)]


def orphans(text):
    """The comments that have no function: where each stands, and its words."""
    block = re.compile(r"(?:^[ \t]*///.*\n)+", re.M)
    for m in block.finditer(text):
        comments = re.split(r"(?m)^(?=[ \t]*/// Proof that)", m.group(0))
        comments = [c for c in comments if c.strip()]
        left_out = re.compile(r"\s*/\* one function left out \*/").match(text, m.end())
        for comment in comments if left_out else comments[:-1]:
            yield m.start(), re.sub(r"(?m)^[ \t]*///[ \t]?", "", comment)
    for m in re.finditer(r"/\*\s*We don't port(.*?)\*/", text, re.S):
        yield m.start(), m.group(0)[2:-2]


def listed(text):
    """Every clause of a file, in the order of the text: function, kind and words."""
    alone = list(orphans(text))
    code = re.sub(r"//[^\n]*|/\*.*?\*/", lambda m: re.sub(r"[^\n]", " ", m.group(0)), text, flags=re.S)
    heads = list(HEAD.finditer(code))
    found = []
    for at, words in alone:
        after = min((h for h in heads if h.start() > at), key=lambda h: h.start())
        name = after.group("name") or after.group("group")
        found += [(at, f"comment_before_{name}", kind, w) for kind, w in said(words)]
    for h in heads:
        at = h.start()
        if h.group("macro"):
            found.append((at, h.group("macro"), "instance", h.group("words")))
            continue
        name = h.group("name") or h.group("group") or h.group("struct")
        if not h.group("name"):
            brace = code.index("{", h.end())
            inside = parts(code[brace + 1 : closing(code, brace)])
            if h.group("struct"):
                found += [(at, name, "holds", p) for p in inside]
            else:
                found.append((at, name, "group", ",".join(inside)))
            continue
        opened = code.index("(", h.end())
        closed = closing(code, opened)
        found += [(at, name, "takes", p) for p in parts(code[opened + 1 : closed]) if re.fullmatch(r"\w+:\s*nat", p)]
        brace = body_at(code, closed + 1)
        found += [(at, name, kind, words) for kind, words in clauses(without_triggers(code[closed + 1 : brace]))]
        body = code[brace + 1 : closing(code, brace)]
        if h.group("mode") == "spec":
            found.append((at, name, "is", body))
        elif h.group("mode") == "exec":
            found += [(at, name, kind, words) for kind, words in calls(body)]
    found.sort(key=lambda f: f[0])
    return [(name, kind, " ".join(words.split()).rstrip(",")) for _, name, kind, words in found]


def main():
    if len(sys.argv) != 2:
        sys.exit(__doc__)
    names = sorted(os.listdir(sys.argv[1]))
    print("# Upstream's clauses in the order of its text: file, function, kind, digest of the words (digests.py).")
    for file in FILES:
        (name,) = [n for n in names if n == file or n.endswith("--" + file + ".txt")]
        with open(os.path.join(sys.argv[1], name), encoding="utf-8") as f:
            for function, kind, words in listed(f.read()):
                print(file, function, kind, digest(words))


if __name__ == "__main__":
    main()

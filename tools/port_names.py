#!/usr/bin/env python3
"""Respells the repository's own definitions, record fields, constructors and lemmas as today's Rattle spells names.

usage: tools/port_names.py          at the top of a checkout; a second run changes nothing

    wrongSide -> wrong_side    row-change-small -> row_change_small    widthLeast, width-least -> width_least    (written-length stays)

The table is tools/port_names.tsv: old, new, and 'field' where the name is (also) that of a record's field; 'said' where port.py has respelled
the code already, so that the name is changed in comments, documents and .edit files only. It was computed once, of what
crates/*/specs/*.antt and crates/*/proofs/*.antt declare: words of capitals become snake case, and a dash becomes '_'. It stays only in a lemma
whose parts are all names (definitions, types, fields, constructors, library names) that the lemma's own statement has. A lemma that would
get a definition's name has _lem; oneMore, leastOn, goesOn and cellIn, whose names lemmas have already, got other words.

In .antt and .rt a name is changed where it is in scope: declared in the file, or imported there from one of the repository's modules. A field is
changed after a dot and as a label too. Nothing else after a dot is changed (what Rattle generates), no string, and no path of modules. In the
texts of .edit files the scope is that of the file that they edit. In comments and documents camelCase is changed everywhere, dashed names in
backticks or brackets only. docs/PORT.md is left alone.
"""

import collections
import glob
import os
import re
import sys

W = r"[^\s(){}.;,@\"«»\[\]\\]+"
BEFORE = r"(?<![^\s(){}.;,@\"«»\[\]\\])"
TOKEN = re.compile(r"\"(?:[^\"\\\n]|\\.)*\"|«[^»]*»|" + W)
USE = re.compile(r"(?m)^\s*(?:pub |ghost )*use (Rattle\.[^\s{]+)\.\{([^}]*)\}")
DECLARED = re.compile(r"(?m)^\s*(?:(?:pub|abbrev|unfoldable) )*(%s) :(?=\s|$)" % W)
RECORD = re.compile(r"(?m)^\s*(?:pub )?(?:record|data) (%s)(?=\s)" % W)

QUALIFIED = re.compile(r"(?<![\w.])Rattle[\w.·]*\.(specs|proofs)\.(\w+\.)+\Z")

TABLE, FIELDS, SAID = {}, set(), set()
counts, strays = collections.Counter(), collections.Counter()


def read(path):
    with open(path, encoding="utf-8", newline="") as it:
        return it.read()


def imported(text, crates):
    """Returns the names that the text imports from the repository's modules, and what it calls them."""
    out = set()
    for module, names in USE.findall(text):
        parts = module.split(".")
        if parts[1] in crates and "declared" not in parts:
            for each in names.split(","):
                out.update(it.strip() for it in each.split(" as "))
    return out


def with_both(names):
    """Returns those names of the table that the text has in the old spelling or in the new one."""
    return {old for old, new in TABLE.items() if old in names or new in names}


def scope_of(path, crates):
    """Returns the old names in scope. A file of proofs/F/ declares no name of the table: its own helpers keep theirs."""
    text = read(path)
    names = imported(text, crates)
    is_shared = re.fullmatch(r"crates/[^/]+/(specs|proofs)/[^/]+\.antt", path)
    if is_shared:
        code = re.sub(r"(?m)(^|(?<=\s))--.*$", "", text)
        names.update(DECLARED.findall(code), RECORD.findall(code))
        return with_both(names)
    own = set(DECLARED.findall(text)) if path.endswith(".antt") else set()
    return with_both(names) - own


def in_code(text, scope, path):
    def one(found):
        word, at = found[0], found.start()
        new = TABLE.get(word)
        if new is None or (word in SAID and not path.endswith(".edit")):
            return word
        dotted = at > 0 and text[at - 1] == "." and not text.endswith("..", 0, at)
        is_field = word in FIELDS
        if dotted:
            fits = is_field or QUALIFIED.search(text[max(0, at - 200) : at])
        else:
            is_label = re.match(r" [=:]\s", text[found.end() : found.end() + 3]) and re.search(
                r"[{;]\s*\Z", text[max(0, at - 200) : at]
            )
            fits = word in scope or (is_field and is_label)
        if not fits:
            strays[(path, word, "after a dot" if dotted else "not in scope")] += 1
            return word
        counts[word] += 1
        return new

    return TOKEN.sub(one, text)


def in_prose(text):
    def one(found):
        word, at, end, whole = found[0], found.start(), found.end(), found.string
        # a path or a file's name
        of_a_file = re.match(r"\.(edit|antt|rt|md|py|sh)\b|/", whole[end:]) or whole[max(0, at - 1) : at] == "/"
        if word not in TABLE or of_a_file:
            return word
        counts[word] += 1
        return TABLE[word]

    camel = r"(?<![\w/'-])[a-z][a-z0-9]*[A-Z]\w*(?![\w/-]|')"
    span = r"`[^`\n]+`|\[%s(?:, %s)*\]" % (r"[\w'-]+", r"[\w'-]+")
    in_spans = re.sub(span, lambda it: re.sub(r"[^\s`/(){}.;,@\"«»\[\]\\]+", one, it[0]), text)
    # camelCase with a dash too, as planCell-is
    return re.sub(r"(?<![\w/'-])[a-z][\w'-]*[A-Z][\w'-]*[\w']|" + camel, one, in_spans)


def split_comments(text, mark, code, prose):
    """Returns the text with its code and its comments respelled each by its own rule."""
    out = []
    comment = r"(?:^|(?<=\s))--[^\n]*" if mark == "--" else r"//[^\n]*"
    at = 0
    pieces = []
    for it in re.finditer(r"(?m)\"(?:[^\"\\\n]|\\.)*\"|" + comment, text):
        if not it[0].startswith('"'):
            pieces.append((at, it.start(), it.end()))
            at = it.end()
    pieces.append((at, len(text), len(text)))
    for start, mid, end in pieces:
        out += [code(text[start:mid]), prose(text[mid:end])]
    return "".join(out)


def in_edit(text, scopes, path):
    crate = "/".join(path.split("/")[:2])
    scope, target, out = set(), "", []
    for line in text.splitlines(True):
        kind = re.match(r"(file|old|new):", line)
        if kind and kind[1] == "file":
            target = f"{crate}/{line[5:].strip()}"
            scope = scopes(target) if os.path.isfile(target) else set(TABLE)
        elif kind:
            mark = "//" if target.endswith(".rt") else "--"
            line = split_comments(line, mark, lambda it: in_code(it, scope, path), in_prose)
        elif not out or not any(it.startswith("file:") for it in out):
            line = in_prose(line)
        else:
            line = in_code(line, scope, path)
        out.append(line)
    return "".join(out)


def main():
    if len(sys.argv) != 1 or not os.path.isdir("crates"):
        sys.exit(__doc__)
    with open(os.path.join(os.path.dirname(os.path.abspath(__file__)), "port_names.tsv"), encoding="utf-8") as table:
        for line in table:
            old, new, *more = line.rstrip("\n").split("\t")
            TABLE[old] = new
            if more:
                (FIELDS if more == ["field"] else SAID).add(old)
    crates = {it.split("/")[1] for it in glob.glob("crates/*")}
    all_below = lambda top, ends: sorted(
        it for end in ends for it in glob.glob(f"{top}/**/*{end}", recursive=True) if os.path.isfile(it) and "/out/" not in it and not os.path.islink(it)
    )
    known = {}
    scopes = lambda path: known.setdefault(path, scope_of(path, crates))
    code = [it for it in all_below("crates", (".antt", ".rt")) if not it.endswith("/Lib.antt")]
    for path in code:
        scopes(path)
    turned = {}
    for path in code:
        mark = "--" if path.endswith(".antt") else "//"
        turned[path] = split_comments(read(path), mark, lambda it, path=path: in_code(it, scopes(path), path), in_prose)
    for path in all_below("crates", (".edit",)):
        turned[path] = in_edit(read(path), scopes, path)
    docs = ["README.md", "compare/README.md", *all_below("docs", (".md",))]
    for path in (it for it in docs if os.path.isfile(it) and it != "docs/PORT.md"):
        turned[path] = in_prose(read(path))
    changed = 0
    for path, text in turned.items():
        if text != read(path):
            with open(path, "w", encoding="utf-8", newline="") as it:
                it.write(text)
            changed += 1
    for (path, word, why), n in sorted(strays.items()):
        print(f"left alone, {why}: {path}: {word} ({n})")
    used = sum(1 for it in TABLE if counts[it])
    print(f"{changed} files, {used} of {len(TABLE)} names, {sum(counts.values())} places")


if __name__ == "__main__":
    main()

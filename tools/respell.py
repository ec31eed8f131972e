#!/usr/bin/env python3
"""Spells this repository's own definitions and lemmas in snake case, in specs/, proofs/, the clauses of src/ and the must-fail edits.

usage: tools/respell.py [--check]      at the top, once, right behind the toolchain's port.py, which spells what the libraries have

A name that a file of specs/ or proofs/ declares gets '_' for each dash and before each capital or number set inside it: readSheet is
read_sheet, most-steps most_steps, sumℤ sum_ℤ. Types, modules and the names of src/ stay. A name that a file brings in from a library, or that
stands behind the head of a generated module, stays there. Names that would fall together are listed, and then nothing is written.
Must-fail edits are also turned as port.py turns the texts that they edit: operators, paths, fields written tight, libraries' names.
"""
import collections
import os
import re
import subprocess
import sys

WORD = r"[^\s(){}.;,@\"«»\[\]\\]+"
DECLARED = re.compile(r"(?m)^([ \t]*)((?:(?:pub|abbrev|unfoldable|data|record) +)*)(" + WORD + r")((?: \{[^{}\n]*\}| \([^()\n]*\))*) :(?!:)")
QUIET = re.compile(r'"(?:[^"\\\n]|\\.)*"|--[^\n]*')
USE = re.compile(r"(?m)^(?:pub )?(?:ghost )?use ([^\s{;]+)(?:\{([^}]*)\})?")
LIBRARY = re.compile(r"^(?:Prim|mathlib|native|lib|mir|borrow|sem|heap|core|denote|logic|Rattle\.std)\b")
GENERATED = re.compile(r"(?:tie|goal|lts)$")


# A lemma or a field that would get the name of the definition that it speaks of.
APART = {
    "coefs-like": "coefs_like_lem",
    "front-digit": "front_digit_lem",
    "in-range": "in_range_lem",
    "line-asked": "line_asked_lem",
    "natural-read": "natural_read_lem",
    "part-within": "part_within_lem",
    "spans-laid-out": "spans_laid_out_lem",
    "query-within": "query_is_within",
    # facts are spelled as types
    "every-exact": "EveryExact",
    "every-range": "EveryRange",
    "every-definition": "EveryDefinition",
    "every-conversion": "EveryConversion",
}
# The same of names that port.py spelled already, where no definition had them yet: in these folders, behind a dot or declared.
MET = [
    ("crates/clear_rule/", "row_within", "row_is_within"),
    ("crates/clear_search/", "row_within", "row_is_within"),
    ("crates/lines/", "is_digit", "byte_is_digit"),
]
LEMMAS = [("crates/lines/proofs/AnswerNumbers.antt", "line_gives", "line_gives_lem")]


def spelled(name):
    """The name in snake case: words joined by '_'."""
    if name in APART:
        return APART[name]
    if re.match("[A-Z]", name):
        return re.sub(r"^([A-Z])-(?=[a-z])", r"\1_", name)
    new = re.sub(r"getD", "get_or", name)
    new = re.sub(r"(?<=[a-z0-9])([A-Z])(?=[a-z]|$)", lambda m: "_" + m[1].lower(), new)
    new = re.sub(r"(?<=[a-z])([ℕℤ])", r"_\1", new)
    new = re.sub(r"(?<=[A-Za-z0-9ℕℤ'])-(?=[A-Za-z0-9ℕℤ'])", "_", new)
    return new


def files():
    for folder, dirs, names in os.walk("crates"):
        dirs[:] = sorted(d for d in dirs if d != "out")
        for name in sorted(names):
            if name.endswith((".antt", ".rt", ".edit")):
                yield os.path.join(folder, name)


def read(path):
    with open(path, encoding="utf-8") as it:
        return it.read()


def is_walk(path):
    return path.endswith("/Proof.antt")


def declared(path, text):
    """The names that the text declares: those that others can cite, and its own."""
    public, own = set(), set()
    inside = None  # the depth of a data type's or a record's fields
    for line in QUIET.sub(" ", text).split("\n"):
        m = DECLARED.match(line)
        if inside is not None and line.strip() and len(line) - len(line.lstrip()) <= inside:
            inside = None
        if not m:
            continue
        space, words, name, _ = m.groups()
        if "goal." in line.split(" :", 1)[1][:40] or "tie." in line.split(" :", 1)[1][:40] or "statement M" in line:
            continue
        if "pub" in words or inside is not None:
            public.add(name)
        else:
            own.add(name)
        if re.search(r"\b(?:data|record)\b", words):
            inside = len(space)
    return public, own


def brought(text):
    """The names that a text brings in from a library."""
    out = set()
    for path, items in USE.findall(text):
        if LIBRARY.match(path):
            out.update(re.findall(WORD, items or path.rsplit(".", 1)[-1]))
    return out


def turned(text, table, keep):
    """The text with each name of the table respelled, but for those to keep and those behind a generated module's head."""
    def one(m):
        head, word = m[1], m[2]
        if word in keep or word not in table or head and GENERATED.search(head[:-1]):
            return m[0]
        return (head or "") + table[word]

    pattern = re.compile(r"((?<![^\s(){};,@\"«»\[\]\\])" + r"(?:tie|goal|lts)\.)?(?<![^\s(){}.;,@\"«»\[\]\\])(" + WORD + r")")
    return pattern.sub(one, text)


def quoted_apart(text, turn):
    """Turns what stands outside strings and comments, and the code spans of comments."""
    out, at = [], 0
    for m in QUIET.finditer(text):
        out.append(turn(text[at:m.start()]))
        out.append(re.sub(r"`[^`\n]+`", lambda s: turn(s[0]), m[0]) if m[0].startswith("--") else m[0])
        at = m.end()
    return "".join(out + [turn(text[at:])])


CLAUSE = re.compile(r"(?:requires|ensures)\s*\*?\s*(?:\w+\s*)?\{|ghost\s+use\b")


def clauses(text, turn):
    """Turns the clauses and the ghost use items of a source file."""
    out, at = [], 0
    while True:
        m = CLAUSE.search(text, at)
        if not m:
            return "".join(out + [text[at:]])
        end = m.end()
        if m[0].startswith("ghost"):
            end = text.index(";", end)
        else:
            depth = 1
            while depth:
                depth += {"{": 1, "}": -1}.get(text[end], 0)
                end += 1
        out += [text[at:m.start()], turn(text[m.start():end])]
        at = end


def plain(text):
    """A quoted name that needs no quotes any more."""
    return re.sub(r"«(\w+)»", r"\1", text)


def library_names():
    """The libraries' names, old and new, as the toolchain's port.py has them."""
    guide = subprocess.run(["rt", "doc"], capture_output=True, text=True, check=True).stdout.strip()
    notes = os.path.join(os.path.dirname(guide), "port", "notes")
    table = {}
    for where in ("2026-11-18-names-are-in-snake-case/snake.tsv", "2026-11-19-a-prime-is-an-apostrophe/respelled.tsv"):
        for row in read(os.path.join(notes, where)).split("\n"):
            it = row.split("\t")
            if len(it) == 2 and not row.startswith("# "):
                table[it[0]] = it[1]
    return table


def edit_line(text):
    """A line of an edit, as port.py turns what it edits, but for names."""
    text = text.replace("′", "'")
    text = re.sub(r"Rattle·(\w+)·(specs|proofs)\.\2\b", r"Rattle.\1.\2", text)
    text = re.sub(r"Rattle·(\w+)", r"Rattle.\1", text)
    text = text.replace("the-variants", "TheVariants")
    # an operator: _+_ is ◌+◌
    text = re.sub(r"(?<![\w◌])_([^\s\w(){}.;,_]+[ℤᶠ]?|then|and)_(?!\w)", r"◌\1◌", text)
    text = re.sub(r"\bfrom_to_", "from◌to◌", text)
    return tight(text)


ATOM = re.compile(r"[\w'·-]+(?:\.[\w'-]+)*")
WORDS = set("let in elim λ then do where as module unfold and".split())


def tight(text):
    """Fields written tight: 'x .f' is 'x.f', and 'g a .f' is '(g a).f'."""
    while True:
        m = re.search(r"(?<=[\w')]) \.(?=[a-z0-9])", text)
        if not m:
            text = bare(text)
            return re.sub(r"(?<![\w')\]] )(?<!→ )(?<!λ )\(([a-z][\w'-]*(?:\.[\w'-]+)+)\)(?!\.)|(?<= )\(([a-z][\w'-]*(?:\.[\w'-]+)+)\)(?!\.)", lambda m: m[1] or m[2], text)
        at, first, atoms = m.start(), m.start(), 0
        while True:
            end = at
            if text[end - 1] == ")":
                depth, at = 1, end - 1
                while depth and at:
                    at -= 1
                    depth += {")": 1, "(": -1}.get(text[at], 0)
                while at and re.match(r"[\w'.]", text[at - 1]):
                    at -= 1
            else:
                while at and re.match(r"[\w'.ℕℤ-]", text[at - 1]):
                    at -= 1
            word = text[at:end]
            if at == end or word in WORDS or word.endswith(".") or at and text[at - 1] not in " (":
                break
            first, atoms = at, atoms + 1
            if not at or text[at - 1] != " ":
                break
            at -= 1
        inner = text[first:m.start()]
        text = text[:first] + (inner if atoms < 2 else f"({inner})") + "." + text[m.end():]


def bare(text):
    """'((g a).f)' is '(g a).f'."""
    for m in re.finditer(r"(?:(?<=[ (])|^)\(\(", text):
        end, depth = m.end(), 1
        while depth and end < len(text):
            depth += {"(": 1, ")": -1}.get(text[end], 0)
            end += 1
        field = re.match(r"\.[a-z][\w'-]*\)", text[end:])
        if field:
            close = end + field.end() - 1
            return bare(text[:m.start()] + text[m.start() + 1:close] + text[close + 1:])
    return text


def own_words(text, body):
    """A name that the text edited has in its new spelling alone."""
    return re.sub(r"(?<![^\s(){}.;,@\"«»])" + WORD, lambda m: m[0] if stands(m[0], body) or not stands(spelled(m[0]), body) else spelled(m[0]), text)


def stands(word, body):
    return re.search(r"(?<![\w'-])" + re.escape(word) + r"(?![\w'-])", body) is not None


def marked(path, text):
    """The lines of an edit: each line, its kind (file, old, new or None), what stands behind that, and the file that is edited."""
    target = ""
    for line in text.split("\n"):
        m = re.match(r"(file|old|new): ?(.*)$", line)
        if m and m[1] == "file":
            target = os.path.join(path.split("/must-fail/")[0], m[2].strip())
        yield line, m and m[1], m and m[2], target


def main():
    check = "--check" in sys.argv[1:]
    texts = {path: read(path) for path in files()}
    for path, text in texts.items():
        new = text
        for folder, old, name in MET:
            if path.startswith(folder) and path.endswith(".antt"):
                new = re.sub(rf"(?m)(^ *pub ){old}(?= :)", rf"\1{name}", new)
                new = re.sub(rf"(?<=[\w)']\.){old}(?![\w.-])", lambda m: m[0] if re.search(r"Rattle\S*$", m.string[:m.start()]) else name, new)
                new = re.sub(rf"(?<=[{{;] ){old}(?= =)", name, new)
        for where, old, name in LEMMAS:
            if path == where:
                new = re.sub(rf"(?<![\w.-]){old}(?![\w-])", name, new)
        if new != text:
            texts[path] = new
            if not check:
                with open(path, "w", encoding="utf-8") as it:
                    it.write(new)
    every, local = {}, {}
    for path, text in texts.items():
        if path.endswith(".antt"):
            public, own = declared(path, text)
            if is_walk(path):
                own, public = own | public, set()
            local[path] = {n: spelled(n) for n in own if spelled(n) != n}
            for n in public:
                if spelled(n) != n:
                    every[n] = spelled(n)
    # ---- names that would fall together
    bad = 0
    by_new = collections.defaultdict(set)
    for old, new in every.items():
        by_new[new].add(old)
    for new, olds in sorted(by_new.items()):
        if len(olds) > 1:
            print(f"together: {' '.join(sorted(olds))} -> {new}")
            bad += 1
    for path, text in texts.items():
        if path.endswith(".edit"):
            continue
        code = QUIET.sub(" ", text)
        if path.endswith(".rt"):
            parts = []
            clauses(text, lambda t: parts.append(t) or t)
            code = " ".join(parts)
        words = set(re.findall(r"(?<![^\s(){};,@\"«»\[\]\\])" + WORD, code))
        table = {**every, **local.get(path, {})}
        for old in sorted(words & set(table)):
            if table[old] in words and old not in brought(text):
                print(f"beside: {path}: {old} -> {table[old]}, which stands there")
                bad += 1
    if bad and "--anyway" not in sys.argv:
        print(f"{bad} names fall together: nothing is written")
        return 1
    # ---- the texts
    libraries = library_names()
    count = collections.Counter()

    def put(path, new, what):
        if new != texts[path]:
            count[what] += 1
            texts[path] = new
            if not check:
                with open(path, "w", encoding="utf-8") as it:
                    it.write(new)

    for path, text in texts.items():
        keep = brought(text)
        if path.endswith(".antt"):
            table = {**every, **local[path]}
            put(path, quoted_apart(text, lambda t: plain(turned(t, table, keep))), "files")
        elif path.endswith(".rt"):
            put(path, clauses(text, lambda t: plain(turned(t, every, keep))), "files")
    # ---- the edits
    edits = [path for path in texts if path.endswith(".edit")]
    lib = {k: v for k, v in libraries.items() if k not in every}
    for path in edits:
        lines, names = [], None
        for line, kind, it, target in marked(path, texts[path]):
            if kind not in ("old", "new"):
                lines.append(line)
                continue
            # names that an edit brings in: the text edited has one line for what the libraries have
            brings = re.match(r"use ([^\s{]+)\.\{([^}]*)(?:\}|$)", it)
            if brings and LIBRARY.match(brings[1]):
                these = [n for n in edit_line(brings[2]).replace(" ", "").split(",") if n]
                if kind == "old":
                    names = these
                    continue
                have = re.search(r"use Rattle\.std\.specs\.Prelude\.\{([^}]*)\}", texts[target])
                stand = [h.strip() for h in have[1].split(",")]
                more = [n for n in (lib.get(n, n) for n in these if n not in names) if n not in stand]
                if more:
                    lines += ["old: use Rattle.std.specs.Prelude.{", "new: use Rattle.std.specs.Prelude.{" + "".join(n + ", " for n in more)]
                continue
            if target.endswith(".antt") or re.search(r"ensures|requires|ghost use", it):
                it = quoted_apart(edit_line(it), lambda t: own_words(turned(turned(t, lib, set()), every, set()), texts.get(target, "")))
            lines.append(f"{kind}: {it}")
        put(path, "\n".join(lines), "edits")
    # ---- edits whose text does not stand once
    for path in edits:
        body, old = None, None
        for _, kind, it, target in marked(path, texts[path]):
            if kind == "file":
                body = texts.get(target, "")
            elif kind == "old":
                old = it
            elif kind == "new":
                if body.count(old) != 1:
                    print(f"edit: {path}: {body.count(old)} times: {old}")
                    count["edits by hand"] += 1
                body = body.replace(old, it, 1)
    print("; ".join(f"{k} {v}" for k, v in sorted(count.items())), f"; {len(every)} names")
    return 0


if __name__ == "__main__":
    sys.exit(main())

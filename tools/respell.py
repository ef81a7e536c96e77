#!/usr/bin/env python3
"""Respells this repository's own names after the toolchain's port.py has run: words and lemmas in
snake case, types in camel case (PORTING.md, part 3). Contracts, definitions, theorems, proofs, pages
and must-fail edits follow; functions of src/, exported names, strings, inputs and outputs keep theirs.

usage: tools/respell.py LANDED        once, at the top, right after port.py

LANDED is the commit that port.py ran on. Must-fail edits are brought over by the lines that they
changed in it. What a name became is written to docs/port-names.txt."""
import difflib
import glob
import re
import subprocess
import sys

NAME = re.compile(r"[^\s(){}\[\],.;:λ\"«»`|/*&]+")

# What port.py made of names that it took for the library's.
MENDED = {
    "Area-byte": "area_byte",
    "Numbers-of": "numbers_of",
    "Load-row": "load_row",
    "Laid-one": "laid_one",
    "is_IsBody": "is_body",
    "is_Known": "is_known",
    "is_Signed": "is_signed",
    "first_Cell": "first_cell",
    "Turned-down": "turned_down",
    # two names that differ in their case or their dash alone
    "At-once": "IsAtOnce",
    "with-wen": "core_with_wen",
}


def read(path):
    with open(path, encoding="utf-8") as f:
        return f.read()


def write(path, text):
    with open(path, "w", encoding="utf-8") as f:
        f.write(text)


def code_of(text):
    """A text of antt without its comments."""
    return re.sub(r"--.*", "", text)


def snake(word):
    """camelCase to snake_case, part by part."""
    word = re.sub(r"([a-z0-9₀-₉'])([A-Z])", r"\1_\2", word)
    word = re.sub(r"([A-Z])([A-Z][a-z])", r"\1_\2", word)
    return word.lower()


def camel(word):
    return "".join(part[:1].upper() + part[1:] for part in re.split(r"[-_]", word))


def declared(files):
    """The top-level lemmas, the definitions, and every name declared in a record or locally."""
    definitions, top, inner = set(), set(), set()
    for path in files:
        for line in code_of(read(path)).splitlines():
            m = re.match(r"(?:abbrev |unfoldable )?(?:pub )?(?:record |data )?([^\s(){}:]+)\s.*?:|(?:pub )?(?:record|data) ([^\s]+)", line)
            m2 = re.match(r"\s+(?:\| ?)?(?:pub )?([^\s(){}:]+) :(?: |$)", line)
            if m2:
                inner.add(m2.group(1))
            elif m:
                name = m.group(1) or m.group(2)
                top.add(name)
                if re.match(r"(abbrev |unfoldable )(pub )?|(pub )?(record|data) ", line):
                    definitions.add(name)
    return definitions, top, inner


def library_words(files):
    """Names that are imported from outside this repository's crates."""
    words = set()
    own = {path.split("/")[1] for path in glob.glob("crates/*/")}
    for path in files:
        for m in re.finditer(r"^(?:ghost |pub )*use ([^\s;{]+?)\.\{([^}]*)\}", read(path), re.M):
            head = m.group(1).split(".")
            if head[0] == "Rattle" and head[1] in own:
                continue
            words.update(w.strip().split(" as ")[0] for w in m.group(2).split(","))
    return words


def spelling(antt):
    """Each own name that changes, with what it becomes."""
    definitions, top, inner = declared(antt)
    library = library_words(antt + glob.glob("crates/*/src/*.rt"))
    used = set()
    for path in antt:
        used.update(NAME.findall(code_of(read(path))))
    own = (definitions | top | inner) - library
    known = {d for d in definitions | library if "-" not in d}
    names = dict(MENDED)

    def joined(name):
        parts = name.split("-")
        if name in top and name not in definitions:
            for n in range(len(parts) - 1, 0, -1):
                head = "-".join(parts[:n])
                if head in known or head.replace("-", "_") in known:
                    return snake(head.replace("-", "_")) + "-" + "_".join(snake(p) for p in parts[n:])
        return "_".join(snake(p) for p in parts)

    for name in sorted(own | {w for w in used if re.match(r"[a-z][A-Za-z0-9₀-₉']*[A-Z]", w)} - library):
        if name in names or not re.match(r"[A-Za-zμ]", name) or re.search(r"_[A-Z]", name):
            continue
        if name.isupper() or re.fullmatch(r"[A-Z0-9_-]+[₀-₉']*", name):
            continue
        if name[0].isupper():
            if "-" in name and name in top:
                names[name] = camel(name)
            continue
        new = joined(name)
        if new != name:
            names[name] = new
    # of names that would fall together the definition has the plain one, a lemma or a field gets _lem
    taken = {}
    for name in sorted(own | set(names)):
        taken.setdefault(names.get(name, name), []).append(name)
    lemmas = {}
    for new, olds in sorted(taken.items()):
        if len(olds) < 2 or all(o in MENDED for o in olds):
            continue
        plain = [o for o in olds if o in definitions] or [o for o in olds if "-" not in o]
        for o in olds:
            if o in plain[:1] or o in MENDED:
                continue
            (lemmas if o == new else names)[o] = new + "_lem"
            print("falls together:", new, "is", plain[0], "and not", o)
    return names, lemmas


def respelled(text, names, lemmas=None):
    if lemmas:
        text = re.sub(r"(?<!contracts\.)" + NAME.pattern, lambda m: lemmas.get(m.group(0), m.group(0)), text)
    return NAME.sub(lambda m: names.get(m.group(0), m.group(0)), text)


def respelled_antt(text, names, lemmas=None):
    out = []
    for line in text.split("\n"):
        code, mark, comment = line.partition("--") if re.search(r"(^|\s)--(\s|$)", line) else (line, "", "")
        out.append(respelled(code, names, lemmas) + mark + in_ticks(comment, names))
    return "\n".join(out)


def in_ticks(text, names):
    return re.sub(r"`[^`\n]*`", lambda m: respelled(m.group(0), names), text)


def respelled_source(text, names):
    """A Rattle source: ghost imports, clauses, and names between ticks in comments."""
    out, depth = [], 0
    for line in text.split("\n"):
        stripped = line.strip()
        if stripped.startswith("//"):
            out.append(in_ticks(line, names))
        elif depth or stripped.startswith(("ghost use", "requires", "ensures", "ghost ")):
            depth += line.count("{") - line.count("}")
            out.append(respelled(line, names))
        else:
            out.append(line)
    return "\n".join(out)


def landed_text(commit, path):
    shown = subprocess.run(["git", "show", f"{commit}:{path}"], capture_output=True, text=True)
    return shown.stdout if shown.returncode == 0 else None


def token_pairs(old_lines, new_lines):
    """What each token of LANDED became, read off the lines that still have as many tokens."""
    pairs = {}
    for old, new in aligned(old_lines, new_lines):
        a, b = NAME.findall(old), NAME.findall(new)
        if len(a) == len(b) and not re.match(r"(ghost |pub )*use ", old):
            for x, y in zip(a, b):
                if x != y:
                    pairs.setdefault(x, {}).setdefault(y, 0)
                    pairs[x][y] += 1
    return {x: max(ys, key=ys.get) for x, ys in pairs.items()}


def aligned(old, new):
    for op, a, b, c, d in difflib.SequenceMatcher(None, old, new, autojunk=False).get_opcodes():
        if op == "equal" or (op == "replace" and b - a == d - c):
            yield from zip(old[a:b], new[c:d])
        elif op == "replace":
            # a block that grew or shrank: pair each line with the likest one
            for x in old[a:b]:
                best = max(new[c:d], key=lambda y: difflib.SequenceMatcher(None, x, y).ratio(), default=None)
                if best is not None and difflib.SequenceMatcher(None, x, best).ratio() > 0.6:
                    yield x, best


def fields_tight(text):
    """`x .f` and `f x .g` of older antt, as today writes them."""
    text = re.sub(r"(?<=[\w)'₀-₉]) \.(?=[a-z0-9])", ".", text)
    return re.sub(r"(?<=[ (])\(([\w'₀-₉]+(?:\.\w+)+)\)", r"\1", text)


def edit_text(text, words):
    return respelled(fields_tight(text), words)


def bring_edits(commit, names):
    learned = {}
    for path in sorted(glob.glob("crates/*/specs/*.antt")):
        old = landed_text(commit, path)
        if old is not None:
            learned.update(token_pairs(old.splitlines(), read(path).splitlines()))
    words = {**learned, **names}
    for edit in sorted(glob.glob("crates/*/must-fail/*.edit")):
        crate = edit.split("/must-fail/")[0]
        out, file, old_file, new_file = [], None, [], []
        for line in landed_text(commit, edit).split("\n"):
            m = re.match(r"(file|old|new):( ?)(.*)$", line)
            if not m:
                out.append(in_ticks(line, words))
            elif m.group(1) == "file":
                file = m.group(3).strip()
                old_file = (landed_text(commit, f"{crate}/{file}") or "").splitlines()
                new_file = read(f"{crate}/{file}").splitlines()
                out.append(line)
            else:
                text = m.group(3)
                if not any(text in l for l in new_file):
                    text = edit_text(text, words)
                out.append(f"{m.group(1)}:{m.group(2)}{text}")
                if m.group(1) == "old" and sum(l.count(text) for l in new_file) != 1:
                    print("edit:", edit, "stands", sum(l.count(text) for l in new_file), "times:", text)
        # the new text follows where the old one was respelled
        write(edit, "\n".join(out))


def main():
    commit = sys.argv[1]
    antt = sorted(glob.glob("crates/*/specs/**/*.antt", recursive=True) + glob.glob("crates/*/proofs/**/*.antt", recursive=True))
    names, lemmas = spelling(antt)
    for path in antt:
        write(path, respelled_antt(read(path), names, None if path.endswith("Proof.antt") else lemmas))
    for path in sorted(glob.glob("crates/*/src/*.rt")):
        write(path, respelled_source(read(path), names))
    for path in ["README.md"] + sorted(glob.glob("docs/*.md")) + ["bench/README.md", "samples/README.md"]:
        write(path, in_ticks(read(path), names))
    write("docs/port-names.txt", "".join(f"{a} {b}\n" for a, b in sorted({**names, **lemmas}.items())))
    bring_edits(commit, names)


if __name__ == "__main__":
    main()

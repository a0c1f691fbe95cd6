#!/usr/bin/env python3
"""respell.py: brings the repository's own definitions and lemmas to one spelling, once, right after the kit's port.py.

Definitions, lemmas, fields and what they bind are in snake case, types and modules in camel case: carryOk is carry_ok, words10-step is words10_step.
A dash stays where it joins two names of definitions (length-line_words_of). Where two names would fall together, the lemma's is in TOLD below.
Functions of src/, strings, inputs and outputs keep their names. Run at the top: it writes crates/*/{specs,proofs,src,must-fail} and the pages in place.
"""
import os
import re
import subprocess

WORD = re.compile(r"[^\s(){}.;,@\"«»]+")
BY_HAND = re.compile(r"proofs/.+/Proof\.antt$")
STRING_OR_COMMENT = re.compile(r'"(?:[^"\\\n]|\\.)*"|(?m:(?<![^\s(){}.;,])--(?=[\s-]|$).*$)')
GHOST = re.compile(r"ghost\s+use\b[^;]*;|(?:requires|ensures)\s*\*?\s*(?:\w+\s*)?\{")

# names that would fall together with a definition's: the lemma, or the fact that is handed in, says what it says
TOLD = {
    "bench-of": "bench_at", "codes-of": "codes_hold", "first-sync": "first_sync_holds", "in-range": "in_range_holds", "lawful-row": "lawful_row_holds",
    "layout-of": "layout_of_found", "name-of-row": "name_of_row_is_code", "line-in": "line_in_of_built", "picture-lines": "picture_lines_of_table",
    "read-in": "read_in_told", "right-packet": "right_packet_parts", "unscrambleNext-none": "unscramble_next_of_none", "unscramble-words": "unscramble_words_sent",
    "y-active": "y_active_is", "c-active": "c_active_is", "y-laid": "y_laid_is", "c-laid": "c_laid_is", "y-room": "y_room_is", "c-room": "c_room_is",
    "line-facts": "of_line_facts", "read-xyz": "of_read_xyz", "line-words": "of_line_words", "plan-of": "of_plan_of", "carry-ok": "carry_is_ok",
    "lawful-channel": "lawful_channel_holds", "y-word": "y_word_is", "c-word": "c_word_is", "word-bits": "word_bits_are", "first-row": "first_row_is", "nextRow": "row_next_to",
    "crc-run": "of_crc_run", "crc-words": "of_crc_words", "find-sync": "of_find_sync", "raster-of": "of_raster_of", "read-line": "of_read_line",
    "build-packet": "of_build_packet", "find-packet": "of_find_packet", "check-row": "of_check_row", "correct-row": "of_correct_row", "build-row": "of_build_row",
}
LISTED = {"length", "take", "drop", "set", "replicate", "get_or", "map", "reverse"}


def snake(word):
    word = re.sub(r"([a-z0-9])([A-Z])", lambda m: m[1] + "_" + m[2].lower(), word)
    return word[:1] + word[1:].lower()


def files(*ends):
    for folder, dirs, names in os.walk("crates"):
        dirs[:] = sorted(d for d in dirs if d != "out")
        for name in sorted(names):
            if name.endswith(ends):
                yield os.path.join(folder, name)


def read(path):
    with open(path, encoding="utf-8") as f:
        return f.read()


def imports(text):
    """The names that a file imports, each with whether it is of this repository."""
    for m in re.finditer(r"(?m)^(?:pub |ghost )?use ([^\s{;]+?)\.?\{([^}]*)\}", text):
        head = m[1].split(".")
        own = head[0] == "Rattle" and len(head) > 1 and head[1] in CRATES
        for item in m[2].split(","):
            for name in item.split(" as "):
                yield name.strip(), own


with open("crates.txt", encoding="utf-8") as f:
    CRATES = {line.split(":")[0].split()[0] for line in f if ":" in line and not line.startswith("#")}


def bare(text):
    return STRING_OR_COMMENT.sub(" ", text)


def table():
    """What each of the repository's own names becomes."""
    defined, words, foreign = set(LISTED), set(), set()
    for path in files(".antt"):
        text = read(path)
        foreign.update(name for name, own in imports(text) if not own)
        if BY_HAND.search(path):
            continue
        text = bare(text)
        words.update(w for w in WORD.findall(text) if re.match(r"[a-z]", w) and re.search(r"[A-Z-]", w))
        if "/specs/" in path:
            defined.update(snake(w) for w in re.findall(r"(?m)^(?:(?:pub|abbrev|unfoldable)\s+)+([a-z][^\s(){}.;,@\"«»:]*)\s*:", text))
    turned = {}
    for word in words - foreign:
        if word in TOLD:
            turned[word] = TOLD[word]
            continue
        parts = [snake(p) for p in word.split("-")]
        new = parts[0]
        for left, right in zip(parts, parts[1:]):
            new += ("-" if left in defined and right in defined else "_") + right
        if new != word:
            turned[word] = new
    return turned


def turn(text, turned, only=None):
    def one(m):
        word = m[0]
        return turned.get(word, word) if only is None or word in only else word

    return WORD.sub(one, text)


def camel(turned):
    return {w: n for w, n in turned.items() if re.search("[A-Z]", w)}


def antt(text, turned, only=None):
    """Code by the whole table; comments by the names that can be no English words."""
    out, at = [], 0
    for m in STRING_OR_COMMENT.finditer(text):
        out.append(turn(text[at : m.start()], turned, only))
        out.append(m[0] if m[0][0] == '"' else re.sub(r"[A-Za-z][\w'-]*", lambda w: CAMEL.get(w[0], w[0]), m[0]))
        at = m.end()
    return "".join(out) + turn(text[at:], turned, only)


def ghost_names(text):
    return {name for name, own in imports(text) if own}


def rt(text, turned, only):
    """The clauses, the ghost use items and the comments; nothing of the code."""
    out, at = [], 0
    for m in GHOST.finditer(text):
        if m.start() < at:
            continue
        end = m.end()
        if m[0][-1] == "{" and not m[0].startswith("ghost"):
            depth = 1
            while depth:
                depth += {"{": 1, "}": -1}.get(text[end], 0)
                end += 1
        out.append(comments(text[at : m.start()]))
        out.append(turn(text[m.start() : end], turned, only))
        at = end
    return "".join(out) + comments(text[at:])


def comments(text):
    return re.sub(r"//[^\n]*", lambda m: re.sub(r"[A-Za-z][\w'-]*", lambda w: CAMEL.get(w[0], w[0]), m[0]), text)


def edit(path, text, turned):
    """The lines of an edit by the file that it edits; what it says in words as comments are."""
    out, kind, only = [], ".antt", None
    for line in text.splitlines(keepends=True):
        head, _, rest = line.partition(":")
        if head == "file":
            target = os.path.join(os.path.dirname(os.path.dirname(path)), rest.strip())
            kind = os.path.splitext(target)[1]
            only = OF_FILE.get(target) if kind == ".rt" else None
        elif head in ("old", "new"):
            line = head + ":" + (turn(rest, turned, only) if kind == ".antt" or only is not None else rest)
        out.append(line)
    return "".join(out)


def page(text, turned):
    return re.sub(r"`[^`\n]+`", lambda m: re.sub(r"[A-Za-z][\w'-]*", lambda w: turned.get(w[0], w[0]), m[0]), text)


def write(path, text):
    with open(path, "w", encoding="utf-8") as f:
        f.write(text)


TURNED = table()
CAMEL = camel(TURNED)
OF_FILE = {path: ghost_names(read(path)) for path in files(".rt")}
for path in files(".edit"):
    write(path, edit(path, read(path), TURNED))
for path in files(".antt"):
    text = read(path)
    write(path, antt(text, TURNED, ghost_names(text) if BY_HAND.search(path) else None))
for path in files(".rt"):
    text = read(path)
    write(path, rt(text, TURNED, OF_FILE[path]))
for folder in (".", "docs", "captures", "second"):
    for name in sorted(os.listdir(folder)):
        if name.endswith(".md") and name not in ("LANDINGS.md", "PORT.md"):
            path = os.path.join(folder, name)
            write(path, page(read(path), TURNED))
for crate in sorted(CRATES):
    subprocess.run(["rt", "fmt"], cwd=os.path.join("crates", crate), check=True, stdout=subprocess.DEVNULL, stderr=subprocess.DEVNULL)
print(len(TURNED), "names turned")

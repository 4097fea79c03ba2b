#!/usr/bin/env python3
"""Brings this repository's own definitions and lemmas to the spelling of today's Rattle.

    python3 tools/spelling.py          in the pages of specs/, proofs/ and src/, and in README and docs/

A word is in snake case: `setOf` is `set_of`, `first-refused` is `first_refused`. A fact, a type and a module keep their capitals, and so does
a name that begins with one, where only its small words are joined by `_`. A name that a file imports from elsewhere stays in that file.
Run once, after the kit's port.py; a second run changes nothing.
"""
import collections
import glob
import os
import re
import sys

# Where two names would fall together, the lemma or the field gets another.
APART = {
    "bit-and": "bit_of_and",
    "bit-or": "bit_of_or",
    "edge-bytes": "edge_bytes_lem",
    "edge-count": "edge_count_lem",
    "founding-rights": "founding_rights_lem",
    "grown-all": "grown_all_lem",
    "is_open": "is_open_lem",
    "manager-at": "manager_at_lem",
    "member_of": "member_of_lem",
    "no-members": "no_members_lem",
    "rights-at": "rights_at_lem",
    "rights-left": "rights_are_left",
    "role-at": "role_at_lem",
    "role-count": "role_count_lem",
    "role-of": "role_of_lem",
    "some-done": "some_done_lem",
    "steps_up": "steps_up_lem",
}
# Parameters and names for an import that specs/ has, and one that the kit's script took for a lemma.
ALSO = {"commandRefusals": "command_refusals", "file-at": "file_at", "line_at_lem": "line_at"}
WORD = r"[^\s(){}.;,@\"«»\[\]\\`]+"
HEAD = re.compile(
    r"^(\s*)(?:(?:abbrev|unfoldable|pub|private|opaque|record|data|ruleset)\s+)*([^\s:(){}]+)(?:\s*\([^()]*\)|\s*\{[^{}]*\})*\s*:(?:\s|$)"
)
IMPORT = re.compile(r"^\s*(?:pub |ghost )?use ([^\s{};]+?)(?:\.\{([^}]*)\})?(?: as (\S+?))?;?\s*$")
TOKEN = re.compile(r"--[^\n]*|\"(?:[^\"\\]|\\.)*\"|" + WORD)


def snake(name):
    """The name in snake case, but for its capitalized parts."""
    if name.startswith("◌") or name.endswith("◌"):
        return "◌".join(snake(part) if part else "" for part in name.split("◌"))
    mark = name[-1] if name[-1:] in "?'′" else ""
    body = name[: len(name) - len(mark)]
    if not body:
        return name
    parts = []
    for part in body.split("-"):
        if part[:1].isupper():
            parts.append(part)
            continue
        part = re.sub(r"([A-Z]+)([A-Z][a-z])", r"\1_\2", part)
        part = re.sub(r"([a-z0-9])([A-Z])", r"\1_\2", part)
        parts.append(part.lower() if re.match(r"^[A-Za-z0-9_]*$", part) else part)
    out = parts[0]
    for before, part in zip(parts, parts[1:]):
        # a fact or a type beside a name keeps its dash
        out += ("-" if before[:1].isupper() or part[:1].isupper() else "_") + part
    return out + mark


def files(pattern):
    return sorted(f for f in glob.glob(pattern, recursive=True) if "/out/" not in f)


def read(path):
    with open(path, encoding="utf-8", newline="") as it:
        return it.read()


def declared():
    """The names that specs/ and the lemma files of proofs/ declare, with one place for each."""
    out = {}
    for path in files("crates/*/specs/**/*.antt") + files("crates/*/proofs/*.antt"):
        for line in read(path).split("\n"):
            if line.strip().startswith("--"):
                continue
            m = HEAD.match(line)
            if m and m.group(2) not in ("◌", "_", "module", "where", "use", "let", "infix", "infixl", "infixr"):
                out.setdefault(m.group(2), path)
    return out


def imported(text):
    """The names that a file takes from outside the repository."""
    out = set()
    for line in text.split("\n"):
        m = IMPORT.match(line)
        if not m:
            continue
        path, names = m.group(1), m.group(2)
        root = path.split(".")
        own = root[0] == "Rattle" and len(root) > 1 and os.path.isdir("crates/" + root[1])
        if not own and names:
            for one in names.split(","):
                out.update(one.strip().split(" as "))
    return out


def main():
    names = {}
    own = declared()
    for name in own:
        new = APART.get(name, snake(name))
        if new != name:
            names[name] = new
    met = collections.defaultdict(set)
    for name in own:
        met[names.get(name, name)].add(name)
    if not any(re.search(r"[a-z][A-Z]", name) for name in own if name[:1].islower()):
        print("nothing to turn")
        return
    clash = {new: olds for new, olds in met.items() if len(olds) > 1}
    for new, olds in sorted(clash.items()):
        print("fall together:", new, sorted(olds), [own[o] for o in olds])
        for old in olds:
            names.pop(old, None)
    names.update(ALSO)
    # how an operator is called: without the holes
    for old, new in list(names.items()):
        if "◌" in old:
            names[old.strip("◌")] = new.strip("◌")
    changed = 0
    sources = files("crates/*/specs/**/*.antt") + files("crates/*/proofs/**/*.antt") + files("crates/*/src/**/*.rt")
    for path in sources:
        text = read(path)
        kept = imported(text)
        here = {k: v for k, v in names.items() if k not in kept}

        def turn(m):
            word = m.group(0)
            if word.startswith('"'):
                return word
            if word.startswith("--"):
                return re.sub(r"`([^`]+)`", lambda k: "`" + re.sub(WORD, lambda w: here.get(w.group(0), w.group(0)), k.group(1)) + "`", word)
            return here.get(word, word)

        if path.endswith(".rt"):
            lines, inside = [], False
            for line in text.split("\n"):
                s = line.strip()
                if s.startswith("//"):
                    line = re.sub(r"`([^`]+)`", lambda k: "`" + re.sub(WORD, lambda w: here.get(w.group(0), w.group(0)), k.group(1)) + "`", line)
                elif s.startswith("ghost use"):
                    line = re.sub(WORD, turn, line)
                elif re.match(r"(requires|ensures|ghost|invariant)\b", s) or inside:
                    line = re.sub(WORD, turn, line)
                    inside = line.count("{") != line.count("}") if not inside else line.count("{") >= line.count("}")
                lines.append(line)
            new = "\n".join(lines)
        else:
            new = TOKEN.sub(turn, text)
        if new != text:
            with open(path, "w", encoding="utf-8", newline="") as it:
                it.write(new)
            changed += 1
    for path in ["README.md"] + files("docs/*.md") + files("tests/**/*.md"):
        if not os.path.exists(path) or "PORT" in path:
            continue
        text = read(path)
        new = re.sub(r"`([^`\n]+)`", lambda k: "`" + re.sub(WORD, lambda w: names.get(w.group(0), w.group(0)) if re.search(r"[-A-Z]", w.group(0)) else w.group(0), k.group(1)) + "`", text)
        if new != text:
            with open(path, "w", encoding="utf-8", newline="") as it:
                it.write(new)
            changed += 1
    print(len(names), "names,", changed, "files")
    if "--list" in sys.argv:
        for old, new in sorted(names.items()):
            print(old, new)


main()

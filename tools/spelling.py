#!/usr/bin/env python3
"""Brings this repository's own names of specs/ and proofs/ to the spelling of today's library, once, after the port's script:
definitions, lemmas, fields and constructors in snake case (putField is put_field). A dash stays only where it joins two names of
functions (length-put_field); elsewhere it becomes an underscore (outcome_one). Types, modules, what the toolchain generates, and
functions of src/ keep their names. It fails where two names would fall together. Usage, at the top: tools/spelling.py"""
import collections
import re
import subprocess
import sys

CRATES = [line.split(":")[0].split()[0] for line in open("crates.txt") if ":" in line and not line.startswith("#")]
WORD = re.compile(r"[A-Za-zμκ_][\w'⁻¹]*(?:-[\w'⁻¹]+|-\+\+)*")
HEAD = re.compile(r"\s*((?:pub |abbrev |unfoldable |let )*)([^\s:(){}=.]+)(?: [^:=]*)? :(?: (.*))?$")
MEMBER = re.compile(r"\s+(?:pub )?([A-Za-z_][^:(){}=.]*?) :(?: |$)")
# names of functions in the library that lemmas here are about
WORDS = set("length get_or set take drop map sum replicate append mod div mul add sub pow min max filter fold".split())
# a lemma that would have its function's name
CLASHES = {
    it: it.replace("-", "_") + "_lem"
    for it in "cut-place same-list right_child left-triple right-triple first-triple first-triangle left-triangle right-triangle known-node by-node".split()
}
GENERATED = re.compile(r"^(loop|returns|decreases|invariant|μ|κ)\b")


def listed(*patterns):
    return [it for it in subprocess.check_output(["git", "ls-files", *patterns], text=True).split("\n") if it]


def snake(name):
    return re.sub(r"(?<=[a-z0-9])([A-Z])", lambda m: "_" + m.group(1).lower(), name)


def respelled(name, functions):
    if re.match(r"[A-Z+]", name) or GENERATED.match(name):
        return name
    parts = name.split("-")
    out = snake(parts[0])
    for left, right in zip(parts, parts[1:]):
        both = left in functions and right in functions
        out += ("-" if both or right == "++" else "_") + snake(right)
    return out


def declared(path):
    """the names that a file declares, with whether it is a definition; the fields of its records; what it takes from the library"""
    names, fields, taken, inside = {}, set(), set(), -1
    for line in open(path, encoding="utf-8"):
        if line.startswith("use "):
            if not re.match(rf"use Rattle\.({'|'.join(CRATES)})\.", line):
                taken |= set(WORD.findall(line))
            continue
        if line.lstrip().startswith(("--", "pub mod ", "mod ", "unfolding ")):
            continue
        indent = len(line) - len(line.lstrip())
        if re.match(r"\s*(pub |abbrev )*(record|data) ", line):
            inside = indent
            continue
        if line.strip() and indent <= inside:
            inside = -1
        if inside >= 0:
            member = MEMBER.match(line)
            fields |= set(member.group(1).split()) if member else set()
            continue
        head = HEAD.match(line)
        if head and WORD.fullmatch(head.group(2)):
            names[head.group(2)] = "abbrev" in head.group(1) or "unfoldable" in head.group(1)
    return names, fields, taken


def in_ticks(text, table):
    return re.sub(r"`[^`\n]*`", lambda m: WORD.sub(lambda w: table.get(w.group(), w.group()), m.group()), text)


def main():
    proofs = listed("crates/*/proofs/**/Proof.antt")
    shared = [it for it in listed("crates/*.antt") if it not in set(proofs)]
    names, fields, functions = {}, set(), set(WORDS)
    for path in shared:
        own, members, taken = declared(path)
        names.update({it: own[it] or names.get(it, False) for it in own})
        fields |= members
        if "/specs/" in path:
            functions |= {it for it, defined in own.items() if defined and it[0].islower()}
    table = {it: respelled(it, functions) for it in names}
    members = {it: respelled(it, set()) for it in fields}
    table.update(CLASHES)
    texts = [set(WORD.findall(open(it, encoding="utf-8").read())) for it in shared + proofs]
    for one in (table, members):
        homes = collections.defaultdict(set)
        for old, new in one.items():
            homes[new].add(old)
        clash = {new: olds for new, olds in homes.items() if any(len(olds & it) > 1 for it in texts)}
        if clash:
            sys.exit(f"names fall together: {clash}")
    for path in shared + proofs + listed("crates/*.rt", "crates/*.edit", "*.md"):
        text = open(path, encoding="utf-8").read()
        mine = dict(table)
        if path.endswith(".antt"):
            own, _, taken = declared(path)
            mine = {it: new for it, new in table.items() if it not in taken or it in own}
        if path in set(proofs):
            for it in own:
                made = it.endswith("-spec")
                if made or not re.search(rf"\.{re.escape(it)}(?![\w-])", text):
                    mine[it] = it.replace("-", "_") if made else respelled(it, functions)

        aliases = set(re.findall(r"^use [\w.]+ as ([\w-]+)$", text, re.M)) - {"tie"}

        def turned(match):
            word, start = match.group(), match.start()
            if text[start - 1 : start] == "." and text[start - 2 : start - 1] != ".":
                owner = re.search(r"[\w.'-]*$", text[max(0, start - 200) : start]).group()
                if owner.startswith("Rattle."):
                    return word
                return (mine if owner[:-1] in aliases else members).get(word, word)
            if re.match(r" = ", text[match.end() :]) and re.search(r"(record( [\w.'()]+)? \{|;)\s*$", text[max(0, start - 60) : start]):
                return members.get(word, word)
            if re.search(r"^  (pub )?$", text[:start].rsplit("\n", 1)[-1]) and text.startswith(" : ", match.end()):
                return members.get(word, mine.get(word, word))
            return mine.get(word, word)

        if path.endswith(".antt"):
            text = re.sub(r"^\s*--.*$", lambda m: in_ticks(m.group(), table), text, flags=re.M)
            spans = [m.span() for m in re.finditer(r"^\s*--.*$", text, re.M)]
            new = WORD.sub(lambda m: m.group() if any(a <= m.start() < b for a, b in spans) else turned(m), text)
        elif path.endswith(".md"):
            new = in_ticks(text, {it: new for it, new in table.items() if it not in CLASHES})
        else:
            mine = {it: new for it, new in mine.items() if it not in CLASHES}
            new = WORD.sub(turned, text)
        if new != open(path, encoding="utf-8").read():
            open(path, "w", encoding="utf-8").write(new)


main()

#!/usr/bin/env python3
"""Counts places in the code that an older form of the language left: tools/design.py [--places] [COMMIT]

Of COMMIT, or of the files as they stand. With --places each place is printed. docs/DESIGN-PASS.md says what became of them.
"""
import collections
import re
import subprocess
import sys

places = "--places" in sys.argv
commits = [word for word in sys.argv[1:] if not word.startswith("--")]


def git(*words):
    return subprocess.run(["git", *words], capture_output=True, text=True, check=True).stdout


def files(pattern):
    if commits:
        names = git("ls-tree", "-r", "--name-only", commits[0]).split("\n")
    else:
        names = git("ls-files", "--cached", "--others", "--exclude-standard").split("\n")
    for name in sorted(set(names)):
        if re.fullmatch(pattern, name):
            try:
                yield name, git("show", f"{commits[0]}:{name}") if commits else open(name, encoding="utf-8").read()
            except FileNotFoundError:
                pass


def functions(text):
    """Each function's name, the comment above it, its parameters, its result, its clauses and its body."""
    lines = text.split("\n")
    for at, line in enumerate(lines):
        head = re.match(r"(\s*)(?:pub(?:\(crate\))? )?(?:extern \"C\" )?fn (\w+)", line)
        if not head:
            continue
        indent = head[1]
        end = next(k for k in range(at, len(lines)) if lines[k] in (indent + "}", indent + "{}") or lines[k].endswith(" {}"))
        whole = "\n".join(lines[at : end + 1])
        above = at - 1
        while above >= 0 and lines[above].lstrip().startswith("#["):
            above -= 1
        remark = ""
        while above >= 0 and lines[above].lstrip().startswith("//"):
            remark = lines[above].strip() + " " + remark
            above -= 1
        opened = re.search(r"\n" + indent + r"\{\n", whole)
        body = whole[opened.end() :] if opened else whole.partition("{")[2]
        signature = whole[: opened.start()] if opened else whole.partition("{")[0]
        clauses = re.findall(r"(?:requires|ensures)[^{]*\{(.*)\}\s*$", signature, re.M)
        signature = re.split(r"\n\s*(?:requires|ensures)", signature)[0]
        inside = signature[signature.index("(") + 1 : signature.rindex(")")]
        result = signature[signature.rindex(")") :].partition("->")[2].strip()
        parameters = [" ".join(it.split()) for it in re.split(r",\s*(?![^<\[(]*[>\])])", inside) if it.strip()]
        parameters = [re.sub(r"'\w+ ", "", it) for it in parameters]
        yield head[2], remark, parameters, result, clauses, body, whole


source = list(files(r"crates/\w+/src/.*\.rt"))
found = collections.OrderedDict()


def note(point, text):
    found.setdefault(point, []).append(text)


POINTS = [
    "1a variants of an enum that mean none",
    "1b fields that hold a refusal beside a value",
    "1c flags of a struct",
    "1d functions that answer a refusal or none of one",
    "1e functions that answer a number for none (their remark says so)",
    "2 functions that are alike but for names, types and numbers",
    "3a loops that count by hand",
    "3b maxima by hand",
    "4 conversions, comparisons and numbers of enums by hand",
    "5a parameters that travel together, in functions",
    "5b facts that stand in the contracts of three functions or more",
    "6a a buffer and a place in it, passed together",
    "6b tables with a length beside them",
    "7 switches on which function to call",
    "8 answers that are one tactic of the check's own",
]
for point in POINTS:
    found[point] = []
alike, groups, facts = collections.defaultdict(list), collections.defaultdict(set), collections.defaultdict(set)
CONVERSIONS = r"wide|same|number|part_number|part_class|code_of|operation_of|wrong_at|four|number_at|two|larger|less|digit|digits_of|minus|plus|times"
for name, text in source:
    crate = name.split("/")[1]
    for line in text.split("\n"):
        if re.match(r"\s+(None|Not|Unknown),$", line):
            note(POINTS[0], f"{crate}: {line.strip()}")
        if re.match(r"\s+(?:pub )?refusal: Refusal,$", line):
            note(POINTS[1], f"{crate}: {line.strip()}")
        if re.match(r"\s+(?:pub )?\w+: bool,$", line) and not re.match(r"\s{8}", line):
            note(POINTS[2], f"{crate}: {line.strip()}")
    for it, remark, parameters, result, clauses, body, whole in functions(text):
        place = f"{crate}::{it}"
        if result == "Refusal" and it != "wrong_at":
            note(POINTS[3], place)
        if re.search(r"or the number of|else the limit|65536 where|; 0 where|a count above|[Nn]o cycle where|no edges where|the empty form", remark) and not re.match(r"Option|Result", result):
            note(POINTS[4], place)
        for loop in re.finditer(r"^(\s*)while (.*) \{\n((?:\1\s+.*\n|\n)*)\1\}", body, re.M):
            if any(re.search(rf"^\s+{word} [+-]= 1;", loop[3], re.M) for word in re.findall(r"\b[a-z]\w*\b", loop[2])):
                note(POINTS[6], f"{place}: while {loop[2]}")
        for choice in re.finditer(r"if (\w+) < (\w+) \{\s+(?:return \2;|\1 = \2;)\s+\}", body):
            note(POINTS[7], f"{place}: {choice[1]} < {choice[2]}")
        if re.fullmatch(CONVERSIONS, it):
            note(POINTS[8], place)
        for k in range(len(parameters)):
            for n in range(3, len(parameters) - k + 1):
                groups[tuple(parameters[k : k + n])].add(place)
        for clause in clauses:
            for fact in re.split(r" × ", clause):
                facts[re.sub(r"^\(|\)$", "", fact.strip())].add(place)
        if any(re.match(r"out: &mut \[u8", it) for it in parameters) and "at: usize" in parameters:
            note(POINTS[11], place)
        if len(re.findall(r"=> (?:rsk_c::|work::|\{\s+rsk_c::)", body)) > 1:
            note(POINTS[13], place)
        tokens = re.findall(r"[A-Za-z_]\w*|\d+|[^\sA-Za-z_0-9]", re.sub(r"//.*", "", body))
        if len(tokens) >= 14:
            names, shape = {}, []
            for token in tokens:
                if re.match(r"\d", token):
                    shape.append("0")
                elif re.match(r"[A-Za-z_]", token) and token not in ("let", "mut", "if", "else", "while", "for", "in", "return", "as", "match", "true", "false"):
                    shape.append(names.setdefault(token, f"n{len(names)}"))
                else:
                    shape.append(token)
            alike[" ".join(shape)].append(place)
    for struct in re.finditer(r"struct (\w+)[^{;]*\{\n((?:.*\n)*?)\}", text):
        if re.search(r"\b(count|nodes|edges|classes): u", struct[2]) and re.search(r": &?('\w+ )?\[", struct[2]):
            note(POINTS[12], f"{crate}::{struct[1]}")
for shape, those in alike.items():
    if len(those) > 1:
        for it in those:
            note(POINTS[5], f"{it}  ({', '.join(other for other in those if other != it)})")
kept = {g: p for g, p in groups.items() if len(p) >= 3}
whole = [g for g in kept if not any(len(h) > len(g) and kept[h] == kept[g] and any(h[i : i + len(g)] == g for i in range(len(h))) for h in kept)]
members = set()
for group in sorted(whole, key=lambda g: (-len(g), g)):
    members |= kept[group]
for it in sorted(members):
    note(POINTS[9], it)
for fact, those in sorted(facts.items()):
    if len(those) >= 3:
        note(POINTS[10], f"{len(those)}: {fact}")
for name, text in files(r"crates/\w+/proofs/.*Answers\.antt"):
    for answer in re.finditer(r"^(\S+)(?: \w+)* =\s+(?:search rules|omega arith|grind \(arith, common_steps\))$", text, re.M):
        note(POINTS[14], f"{name.split('/')[1]}: {answer[1]}")
for point, those in found.items():
    print(f"{len(those):5}  {point}")
    if places:
        for it in those:
            print(f"         {it}")
if places:
    print("       groups of parameters:")
    for group in sorted(whole, key=lambda g: (-len(kept[g]), g)):
        print(f"         {len(kept[group])}: {', '.join(group)}")

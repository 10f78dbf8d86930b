#!/usr/bin/env python3
"""Counts, in crates/*/src, the places that docs/DESIGN-PASS.md speaks of: tools/count_forms.py [POINT] lists them, else it counts.

It goes by text: a place is a line, a declaration or a group of declarations that has the form; whether it is one of the
form in earnest is for the reader to say.
"""
import collections
import glob
import os
import re
import sys

TOP = os.path.dirname(os.path.dirname(os.path.abspath(__file__)))
INTEGERS = r"(?:u8|u16|u32|u64|usize)"


def sources():
    for path in sorted(glob.glob(os.path.join(TOP, "crates/*/src/*.rt"))):
        yield os.path.relpath(path, TOP), open(path, encoding="utf-8").read()


def functions():
    """Of each function: its file, line, name, the comment above it, its parameters, result, clauses and body."""
    head = re.compile(
        r"(?P<note>(?:^[ \t]*//[^\n]*\n)*)(?:^[ \t]*#\[[^\n]*\n)*^[ \t]*(?:pub )?(?:extern \"C\" )?fn (?P<name>\w+)(?:<[^>(]*>)?"
        r"\((?P<args>[^{]*?)\)(?: -> (?P<result>[^\n{]*?))?(?P<clauses>(?:\s+(?:requires|ensures)[^\n]*)*)\s*\{",
        re.M,
    )
    for path, text in sources():
        for m in head.finditer(text):
            depth, i = 1, m.end()
            while depth and i < len(text):
                depth += {"{": 1, "}": -1}.get(text[i], 0)
                i += 1
            line = text.count("\n", 0, m.start("name")) + 1
            yield path, line, m, text[m.end():i - 1]


def types():
    """Of each struct and enum: its file, which of the two it is, its name and what stands between its braces."""
    for path, text in sources():
        for m in re.finditer(r"^(?:pub )?(struct|enum) (\w+)[^{;]*\{(.*?)^\}", text, re.M | re.S):
            yield path, *m.groups()


def structs_with(field):
    for path, kind, name, inside in types():
        if kind == "struct" and re.search(field, inside):
            yield f"{path}: struct {name}"


def option_enums():
    for path, kind, name, inside in types():
        variants = re.findall(r"^    (\w+)(\(|\b)", inside, re.M)
        data = [v for v in variants if v[1] == "("]
        if kind == "enum" and data and len(variants) - len(data) <= 1:
            yield f"{path}: enum {name}"


def flags_with_values():
    yield from structs_with(r"\b(verdict|answer):")


def numbers_for_refusals():
    for path, line, m, body in functions():
        if re.match(INTEGERS, m["result"] or "") and (
            re.search(r"refusal_number\(Reason", body) or re.search(r"^\s*return (12|15|17|29);", body, re.M)
        ):
            yield f"{path}:{line}: {m['name']}"


def numbers_for_nothing():
    for path, line, m, body in functions():
        note = m["note"]
        if re.match(INTEGERS, m["result"] or "") and re.search(
            r"(1,560|1,561|1,600|image's size|778|\b0) (where|past|of|above)|[;,:] (0|1,560|1,561|1,600) where|there is none", note
        ):
            yield f"{path}:{line}: {m['name']}"


def twins():
    groups = collections.defaultdict(list)
    for path, line, m, body in functions():
        text = re.sub(r"//[^\n]*", "", body)
        text = re.sub(r"\b\d+\b", "N", re.sub(INTEGERS, "T", text))
        text = " ".join(text.split())
        args = [a.split(":")[0].strip() for a in m["args"].split(",") if a.strip()]
        for k, a in enumerate(args):
            text = re.sub(rf"\b{re.escape(a)}\b", f"p{k}", text)
        if len(text) > 12:
            groups[text].append(f"{path}:{line}: {m['name']}")
    for path, kind, name, inside in types():
        body = " ".join(re.sub(r"\bpub ", "", inside).split())
        groups[f"{kind} {body}"].append(f"{path}: {kind} {name}")
    for body, places in sorted(groups.items(), key=lambda g: g[1]):
        if len(places) > 1:
            yield " = ".join(places)


def hand_loops():
    for path, text in sources():
        for n, line in enumerate(text.split("\n"), 1):
            if re.match(r"\s*(while|loop)\b", line):
                yield f"{path}:{n}: {line.strip()}"


def hand_conversions():
    for path, line, m, body in functions():
        b = " ".join(body.split())
        if re.fullmatch(rf"\w+(\[\w+\])? as {INTEGERS}|\w+ [|&] \w+|{INTEGERS}::\w+\([^()]*\)|if (\w+) < (\w+) \{{ \w+ \}} else \{{ \w+ \}}", b):
            yield f"{path}:{line}: {m['name']}: {b}"
    for path, text in sources():
        for n, line in enumerate(text.split("\n"), 1):
            if re.search(r"(% 256\)|/ 256\)) as u8|\b(65536|16777216) \*|/ 65536|num_at\([^)]*\) \* 256|256 \* (buffers::num_at|wide)\(", line):
                yield f"{path}:{n}: {line.strip()}"


def repeated_facts():
    counts = collections.defaultdict(list)
    for path, line, m, body in functions():
        if "/points" in path or "varnucht_c" in path:
            continue
        for clause in re.findall(r"requires (?:\w+ )?\{ (.*) \}", m["clauses"]):
            for fact in re.sub(r"^\(|\)$", "", clause).split(") × ("):
                counts[(path, fact)].append(m["name"])
    for (path, fact), names in sorted(counts.items()):
        if len(names) > 2:
            yield f"{path}: {fact}: {', '.join(names)}"


def travelling_parameters():
    for path, line, m, body in functions():
        args = [a for a in re.sub(r"<[^>]*>", "", m["args"]).split(",") if a.strip()]
        if len(args) >= 6 and "varnucht_c" not in path:
            yield f"{path}:{line}: {m['name']} ({len(args)})"


def fixed_buffers():
    """An array with a length beside it: of a struct's fields, or made in a function that hands on a front of it; a table of indices."""
    yield from structs_with(r": \[\w+; [^\]]+\]")
    for path, line, m, body in functions():
        for name in re.findall(r"let mut (\w+) = (?:\[[^\]]*; ?[^\]]*\]|(?:no_\w+|blank|tracks)\(\));", body):
            if re.search(rf"\b{name}\[\.\.", body):
                yield f"{path}:{line}: {m['name']} ({name})"
        if re.search(r"\[778u16; ", body):
            yield f"{path}:{line}: {m['name']} (a table of indices)"


def step_switches():
    for path, line, m, body in functions():
        for a in re.findall(r"(\w+): bool", m["args"]):
            if re.search(rf"\b(if|&&|match) !?{a}\b|\b{a} &&", body):
                yield f"{path}:{line}: {m['name']} ({a})"
        if re.search(r"match marking\b", body):
            yield f"{path}:{line}: {m['name']} (marking)"


def proofs():
    answers = glob.glob(os.path.join(TOP, "crates/*/proofs/**/Answers.antt"), recursive=True)
    invariants = glob.glob(os.path.join(TOP, "crates/*/proofs/**/Invariants.antt"), recursive=True)
    everything = glob.glob(os.path.join(TOP, "crates/*/proofs/**/*.antt"), recursive=True)
    goals = sum(len(re.findall(r"^(?:abbrev )?pub [\w-]+ : goal\.", open(f, encoding="utf-8").read(), re.M)) for f in answers)
    lines = sum(open(f, encoding="utf-8").read().count("\n") for f in everything)
    yield f"{len(answers)} files of answers with {goals} answers; {len(invariants)} files of invariants; {len(everything)} files, {lines} lines"


POINTS = {
    "1a own enums of Option's or Result's shape": option_enums,
    "1b a flag with a value beside it": flags_with_values,
    "1c numbers for refusals": numbers_for_refusals,
    "1d numbers for nothing (a place past the end, 0)": numbers_for_nothing,
    "2 twins": twins,
    "3 loops that count by hand": hand_loops,
    "4 conversions by hand": hand_conversions,
    "5a facts in three contracts or more": repeated_facts,
    "5b six parameters or more": travelling_parameters,
    "6 fixed buffers": fixed_buffers,
    "7 switches on a step": step_switches,
    "8 proofs": proofs,
}


def main():
    for name, find in POINTS.items():
        if len(sys.argv) > 1 and not name.startswith(sys.argv[1]):
            continue
        places = list(find())
        print(f"{name}: {places[0] if find is proofs else len(places)}")
        if len(sys.argv) > 1 and find is not proofs:
            print("\n".join("  " + p for p in places))


main()

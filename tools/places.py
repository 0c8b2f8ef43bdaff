#!/usr/bin/env python3
"""Counts, in crates/*/src, the forms that docs/DESIGN-PASS.md is about, and names each place with --list.

    python3 tools/places.py [--list] [POINT..]

It goes by the text of the sources: what it finds is a place to look at, not a fault.
"""
import collections
import glob
import re
import sys

def sources():
    return [(f, open(f).read()) for f in sorted(glob.glob("crates/*/src/*.rt"))]


def code(text):
    return re.sub(r"//.*", "", text)


def line_of(text, at):
    return text.count("\n", 0, at) + 1


def functions():
    """(file, name, parameters, result, clauses, body) of each function, by a walk over its braces."""
    for f, text in sources():
        for m in re.finditer(r"^( *)(?:pub )?(?:extern \"C\" )?fn (\w+)", text, re.M):
            at = text.index("(", m.end())
            depth, i = 0, at
            while True:
                depth += {"(": 1, ")": -1}.get(text[i], 0)
                i += 1
                if depth == 0:
                    break
            params = re.sub(r"\s+", " ", text[at + 1:i - 1])
            opening = re.compile(r"(?:^%s|[^\n]* )\{$" % m[1], re.M).search(text, i)
            head = text[i:opening.start() if opening else i]
            if opening and "\n" not in text[i:opening.end()]:
                head = text[i:opening.end() - 1]
            end = text.find("\n%s}" % m[1], opening.end() if opening else i)
            result = re.match(r"\s*->\s*([^\n{]*)", head)
            yield f, line_of(text, m.start()), m[2], params, (result[1].strip() if result else ""), head, text[i:end]


def point1():
    "own enums beside Option and Result, flags with a value, numbers for refusals"
    for f, text in sources():
        for m in re.finditer(r"^(?:pub )?enum (\w+)(?:<[^>]*>)? \{\n((?: .*\n|\n)*)\}", text, re.M):
            variants = re.findall(r"^    (\w+)", m[2], re.M)
            if len(variants) <= 3:
                yield f, line_of(text, m.start()), "enum %s { %s }" % (m[1], ", ".join(variants))
        for m in re.finditer(r"^(?:pub )?struct (\w+)[^;{\n]* \{\n((?: .*\n|\n)*)\}", text, re.M):
            if re.search(r": bool\b", m[2]):
                yield f, line_of(text, m.start()), "struct %s with a flag" % m[1]
        for m in re.finditer(r"^pub const (\w+): u32 = (\d+);", text, re.M):
            if "/refusals/" in f:
                yield f, line_of(text, m.start()), "number %s" % m[1]
    for f, line, name, params, result, head, body in functions():
        if result == "u32" and re.search(r"_code\b", name):
            yield f, line, "fn %s answers a number" % name
        elif re.search(r"≡ (?:if_lt|if_eq|or_else|first_of)[^\n]*number|_code ", head) and result == "u32":
            yield f, line, "fn %s answers a number" % name


def point2():
    "functions whose bodies differ in names, types and numbers alone"
    shapes = collections.defaultdict(list)
    for f, line, name, params, result, head, body in functions():
        start = body.find("\n{") if "\n{" in body else body.find("{")
        lines = [x.strip() for x in code(body[start:]).splitlines()]
        lines = [x for x in lines if x and x not in ("{", "}")]
        text = re.sub(r"\b(?:\w+::)*\w+\b|b?\"[^\"]*\"|b?'[^']*'", lambda w: w[0] if w[0] in KEYWORDS else "x", " ".join(lines))
        if lines:
            shapes[(text, len(params.split(",")))].append((f, line, name))
    for (text, _), places in sorted(shapes.items()):
        if len(places) > 1:
            for f, line, name in places:
                yield f, line, "fn %s, of %d like it: %s" % (name, len(places), text[:60])


KEYWORDS = set("if else while for in return let mut match true false loop break as".split())


def point3():
    "loops that count by hand: a while whose body steps a variable of its test by a constant"
    for f, text in sources():
        for m in re.finditer(r"^( *)(?:'\w+: )?(?:let \w+ = )?(?:'\w+: )?(while [^\n]*|loop) \{\n", text, re.M):
            end = text.find("\n%s}" % m[1], m.end())
            body = text[m.end():end]
            steps = re.findall(r"^\s*(\w+) (?:\+=|-=) ([\w.]+);|^\s*(\w+) = \3 [+-] ", body, re.M)
            stepped = {a or c for a, b, c in steps}
            tested = set(re.findall(r"\w+", m[2]))
            kind = "counts" if stepped & tested or (m[2] == "loop" and stepped) else "goes by what it finds"
            yield f, line_of(text, m.start()), "%s: %s" % (kind, m[2])


def point4():
    "equality, order, copying, conversion and printing by hand"
    for f, line, name, params, result, head, body in functions():
        inner = [x.strip() for x in code(body[body.find("{"):]).splitlines() if x.strip() not in ("", "{")]
        if len(inner) == 1 and re.fullmatch(r"[\w.\[\]]+ as \w+", inner[0]):
            yield f, line, "fn %s only converts" % name
        elif re.match(r"(earlier|precedes|number|refusal|same\w*|eq|cmp|put2|put4|negative|wide_negative)$", name):
            yield f, line, "fn %s" % name


def point5():
    "facts in the requires of three functions or more, and parameters that travel together through three or more"
    facts = collections.defaultdict(set)
    groups = collections.defaultdict(set)
    for f, line, name, params, result, head, body in functions():
        for m in re.finditer(r"requires(?: \w+)? \{((?:[^{}]|\{[^}]*\})*)\}", head):
            for part in re.split(r"\s×\s", re.sub(r"\s+", " ", m[1])):
                facts[part.strip().strip("()")].add((f, line, name))
        names = [re.sub(r"\s", "", p.split(":")[0]).replace("mut", "") for p in re.sub(r"\[[^\]]*\]", "", params).split(",") if ":" in p]
        for i in range(len(names) - 2):
            groups[tuple(names[i:i + 3])].add((f, line, name))
    for fact, where in sorted(facts.items(), key=lambda x: -len(x[1])):
        if len(where) > 2:
            f, line, name = sorted(where)[0]
            yield f, line, "in %d functions: %s" % (len(where), fact)
    for group, where in sorted(groups.items(), key=lambda x: -len(x[1])):
        if len(where) > 2:
            f, line, name = sorted(where)[0]
            yield f, line, "through %d functions: %s" % (len(where), ", ".join(group))


def point6():
    "an array or slice with its length or a position beside it, numbered fields"
    for f, line, name, params, result, head, body in functions():
        if re.search(r"\b(?:bytes|list|out|b|run|entries|text|s): &(?:mut )?\[[^\]]*\], (?:count|n|at|p|len|i|records|end): (?:usize|u32)", params):
            yield f, line, "fn %s(%s)" % (name, params[:90])
    for f, text in sources():
        for m in re.finditer(r"^    pub (\w+?)0: .*\n    pub \1?1: ", text, re.M):
            yield f, line_of(text, m.start()), "numbered fields %s0 .." % m[1]


def point7():
    "a switch on which step to run: a match or an if on a value that names the way"
    for f, text in sources():
        for m in re.finditer(r"^.*\b(?:match|if) [^\n]*\b(held|writing|kind|step|mode|twice|fit)\b[^\n]*\{$", text, re.M):
            yield f, line_of(text, m.start()), m[0].strip()


def point8():
    "answers to goals, and lines of proofs/"
    answers = collections.Counter()
    lines = collections.Counter()
    for f in glob.glob("crates/*/proofs/**/*.antt", recursive=True):
        text = open(f).read()
        crate = f.split("/")[1]
        lines[crate] += text.count("\n")
        if f.endswith("Answers.antt"):
            answers[crate] += len(re.findall(r"^pub [\w.+-]+ : goal\.", text, re.M))
    for crate in sorted(lines):
        yield "crates/%s/proofs" % crate, 0, "%d answers, %d lines" % (answers[crate], lines[crate])
    yield "all", 0, "%d answers, %d lines" % (sum(answers.values()), sum(lines.values()))


def main():
    words = [w for w in sys.argv[1:] if not w.startswith("-")] or list("12345678")
    for word in words:
        find = globals()["point" + word]
        places = list(find())
        print("point %s: %d (%s)" % (word, len(places), find.__doc__))
        if word == "8":
            print("   ", places[-1][2])
        if "--list" in sys.argv:
            for f, line, what in places:
                print("    %s:%d %s" % (f, line, what))


main()

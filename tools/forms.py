#!/usr/bin/env python3
"""tools/forms.py [DIR]: counts, in the crates of the checkout DIR (.), the places of each point of docs/DESIGN-PASS.md, and lists them. It reads text and changes
nothing; what it lists is a place to look at, no verdict."""
import collections
import pathlib
import re
import sys

top = pathlib.Path(sys.argv[1] if len(sys.argv) > 1 else ".")


def sources():
    for path in sorted(top.glob("crates/*/src/**/*.rt")):
        yield path.relative_to(top / "crates"), path.read_text()


def code(text):
    return re.sub(r"//.*", "", text)


class Function:
    def __init__(self, path, match, text):
        self.path, self.name = path, match.group(1)
        self.head = text[match.start():match.end()]
        depth, at = 1, match.end()
        while depth:
            depth += {"{": 1, "}": -1}.get(text[at], 0)
            at += 1
        self.body = text[match.end():at - 1]
        self.parameters = re.search(r"\((.*?)\)\s*(->|requires|ensures|\{|$)", self.head, re.S)
        self.parameters = re.sub(r"\s+", " ", self.parameters.group(1)) if self.parameters else ""

    def place(self):
        return f"{self.path}:{self.name}"


def functions():
    for path, text in sources():
        text = code(text)
        for match in re.finditer(r"\bfn (\w+)(?:<[^>]*>)?\([^{]*?(?:\n?    +(?:requires|ensures)\*?[^\n]*)*\s*\n?\s*\{(?=\s)", text):
            yield Function(path, match, text)


def show(title, places):
    places = list(places)
    print(f"{title}: {len(places)}")
    for place in places:
        print(f"    {place}")


def lines(pattern, skip=None):
    for path, text in sources():
        for number, line in enumerate(code(text).splitlines(), 1):
            if re.search(pattern, line) and not (skip and re.search(skip, line)):
                yield f"{path}:{number}: {line.strip()}"


def shape(function):
    words = re.findall(r"\w+|[^\w\s]", function.body)
    seen = {}
    kept = {"if", "else", "while", "for", "in", "let", "mut", "return", "match", "as", "loop", "break"}
    return tuple(word if not re.match(r"\w", word) or word in kept else "v" for word in words), len(words)


every = list(functions())
show("1. own enums of the shape of Result", lines(r"^    Refused\(u32\),"))
show("1. numbers for refusals, answered", (f.place() for f in every if re.search(r"\) -> u32", f.head) and re.search(r"check|refusal$|set_node|fill_slopes|^pool|fill_run|fill_zoned_run|lvs_", f.name)))
show("1. numbers for refusals, written", lines(r"return [1-9]\d*;|Refused\((\w+)\)", r"\(u32\)|=>"))
show("1. tests of such a number", lines(r"(refusal|of_\w+|refusal\([^)]*\)) != 0|refusal == 0"))
show("1. numbers for kinds", lines(r"kind == |< kind"))
show("1. flags beside values", lines(r"^ +(pub )?\w+: bool,"))
shapes = collections.defaultdict(list)
for f in every:
    form, size = shape(f)
    if size >= 14:
        shapes[f.path.parts[0], form].append(f.place())
show("2. functions of one shape in one crate", (", ".join(group) for group in shapes.values() if len(group) > 1))
show("3. loops counted by hand", lines(r"^ +(while|loop)\b", r"while let"))
show("4. conversions, least and greatest, digits by hand", (f.place() for f in every if re.fullmatch(r"\s*!?\(*\w+(\[\w+\])? as \w+\)*\s*|\s*if (\w+) < (\w+) \{ \w+ \} else \{ \w+ \}\s*", f.body) or re.search(r"48 \+|\* 16777216|\* 256\b|\+ 65536\)|% 256|4294967295", f.body)))
facts = collections.Counter()
for f in every:
    for clause in re.findall(r"requires\*?(?: \w+)? \{([^\n]*)\}", f.head):
        for fact in set(re.findall(r"(?<![.\w])[A-Z][a-z]\w+", clause)):
            facts[fact] += 1
show("5. facts in three contracts or more", (f"{n} {fact}" for fact, n in facts.most_common() if n >= 3))
groups = collections.Counter()
for f in every:
    names = [p.strip() for p in re.split(r",(?![^<\[(]*[>\])])", f.parameters) if ":" in p]
    for i in range(len(names)):
        for j in range(i + 1, len(names)):
            groups[names[i], names[j]] += 1
show("5. pairs of parameters in six functions or more", (f"{n} {a}, {b}" for (a, b), n in groups.most_common() if n >= 6))
show("6. buffers with a count beside", (f.place() for f in every if re.search(r"&(mut )?\[\w+\]", f.parameters) and re.search(r"\b(count|at|places|size|budget): usize", f.parameters)))
show("6. slices searched or copied by hand", lines(r"target\[k\] = first\[k\]|while low \+ 1 < high"))
show("7. steps chosen by a number", lines(r"if kind == |match kind"))
walks = [p for p in top.glob("crates/*/proofs/**/Proof.antt")]
print(f"8. proofs that walk the code: {len(walks)}")

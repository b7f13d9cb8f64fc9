#!/usr/bin/env python3
"""Lists, point by point, the lines of src/ that docs/DESIGN-PASS.md goes over: at a commit, or as the files stand.

    python3 tools/places.py 53446e1 > before
    python3 tools/places.py > now

It finds candidates by their form. Whether a line is a place, and what became of it, docs/DESIGN-PASS.md says.
"""
import collections
import re
import subprocess
import sys

COMMIT = sys.argv[1] if len(sys.argv) > 1 else None


def git(*words):
    return subprocess.run(("git", *words), capture_output=True, text=True, check=True).stdout


def sources():
    names = git("ls-tree", "-r", "--name-only", COMMIT).split() if COMMIT else git("ls-files").split()
    for name in names:
        if re.match(r"crates/\w+/src/.*\.rt$", name):
            text = git("show", f"{COMMIT}:{name}") if COMMIT else open(name).read()
            yield name, text.splitlines()


def code(line):
    return not line.lstrip().startswith("//")


def grep(title, pattern, body=None):
    """Lines of this form; `body` must hold of the lines from there to the end of the block, if it is given."""
    found = []
    for name, lines in FILES:
        for number, line in enumerate(lines):
            if code(line) and re.search(pattern, line) and (body is None or body(line, block(lines, number))):
                found.append(f"{name}:{number + 1}: {line.strip()[:100]}")
    show(title, found)


def block(lines, number):
    """What stands in the block that the line opens."""
    indent = len(lines[number]) - len(lines[number].lstrip())
    inside = []
    for line in lines[number + 1:]:
        if line.strip() and len(line) - len(line.lstrip()) <= indent and line.strip() != "{":
            break
        inside.append(line)
    return "\n".join(inside)


def show(title, found):
    print(f"\n{title}: {len(found)}")
    for line in found:
        print("   ", line)


def shaped_as_option(_line, inside):
    variants = [re.sub(r"\s*//.*", "", v).strip() for v in inside.splitlines()]
    variants = [v for v in variants if re.match(r"[A-Z]\w*[,({]?", v)]
    return len(variants) == 2 and any("(" in v for v in variants)


def counted_by_hand(line, inside):
    """A `while` that moves a number of its own by one, or a `for` over numbers or places that serve as an index."""
    if re.match(r"\s*(?:'\w+: )?while", line):
        return re.search(r"(\w+) [+-]= 1\b", inside) is not None
    over = re.match(r"\s*(?:'\w+: )?for \(?(\w+)[^)]*\)? in (.*) \{", line)
    if not over or not (".." in over[2] or "enumerate()" in over[2]):
        return False
    return re.search(r"\[[^\]]*\b%s\b[^\]]*\]" % over[1], inside) is not None


FILES = list(sources())

print("1. Option, Result and enums in place of flags and numbers")
grep("enums of the shape of Option or Result", r"^\s*(pub(\(\w+\))? )?enum ", shaped_as_option)
grep("errors that are bare numbers", r"Result<.*, (usize|u8|u16|u32|i32)>")
grep("numbers for kinds", r"\b(marks?|kind|tag)\w*: &?(mut )?\[?u\d+|(MISSING|PRESENT): u8|const \w*GROUND\w*: u8")
grep("a number or a flag beside a value", r"-> \((bool|u\d+|usize|i\d+), ")
grep("-1 for none", r"-> (i32|\(i32, i32\))")
grep("a case handed on by hand", r"else \{$", lambda _l, b: b.strip() in ("return None;",))
grep("an error handed on by hand", r"Err\((\w+)\) => Err\(\1\)")

print("\n2. Twins (read beside: duplicates crates)")
grep("structs of a value and where it ends", r"^\s*(pub(\(\w+\))? )?struct ", lambda _l, b: re.search(r"\bend: (usize|Cursor)", b) is not None)
grep("structs of a memory and a fault", r"^\s*(pub(\(\w+\))? )?struct ", lambda _l, b: re.search(r"\bfault: ", b) is not None and "M" in b)
grep("impl blocks of Memory", r"^impl.* Memory for ")

print("\n3. Loops")
grep("all loops", r"^\s*('\w+: )?(for|while|loop)\b")
grep("an index counted by hand", r"^\s*('\w+: )?(for|while)\b", counted_by_hand)

print("\n4. Equality, order, copying, conversion and printing by hand")
grep("impl blocks of what a derive gives", r"^impl.* (Clone|PartialEq|Eq|PartialOrd|Ord|Default|Debug|Hash) for ")
grep("conversions that are methods or functions", r"fn (number|letter|channel_of|name|order|as_\w+|to_\w+)\b")
grep("From, TryFrom, Display", r"^impl.* (From<.*>|TryFrom<.*>|fmt::Display) for ")

print("\n5. Facts and parameters that are repeated")
facts = collections.Counter()
for name, lines in FILES:
    for line in lines:
        for fact in re.findall(r"requires(?: \w+)? \{ (.*?) \}", line):
            facts[re.sub(r"\.(old|now|new|entry)\b", "", fact)] += 1
show("facts asked for three times or more", [f"{n} × {fact}" for fact, n in facts.most_common() if n > 2])
travel = collections.Counter()
for name, lines in FILES:
    text = "\n".join(l for l in lines if code(l))
    for words in re.findall(r"\bfn \w+(?:<[^(]*>)?\(([^)]*)\)", text):
        words = [re.sub(r"\s+", " ", w).strip() for w in words.split(",") if ":" in w]
        for pair in zip(words, words[1:]):
            travel[pair] += 1
show("neighbouring parameters, three times or more", [f"{n} × {', '.join(p)}" for p, n in travel.most_common() if n > 2])

print("\n6. Buffers with a length beside them, parallel arrays")
grep("arrays in structs and signatures", r"(: |-> |<)&?(mut )?\[+\w+(\[|; )", None)

print("\n7. Switches on which step to run")
grep("function pointers, dyn, tables of functions", r"\bfn\(|\bdyn\b|\[fn")
grep("matches that call a function for each case", r"^\s*match \w+(\.\w+)? \{$", lambda _l, b: len(re.findall(r"=> (\w+::)*\w+(::<\w+>)?\(", b)) > 2)

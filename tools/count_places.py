#!/usr/bin/env python3
"""Lists places in src/ that an older form may be left in, under the eight heads of docs/DESIGN-PASS.md.

usage: python3 tools/count_places.py [HEAD..]    at the top of the repository; heads are 1 to 8, all by default

Each row is a place to read, not yet a fault. It goes by text: files crates/*/src/*.rt, and for head 8 crates/*/proofs.
"""

import collections
import glob
import re
import sys

FILES = sorted(glob.glob("crates/*/src/*.rt"))


def lines_of(path):
    return open(path, encoding="utf-8").read().split("\n")


def code(line):
    return line.split("//")[0]


class Fn:
    def __init__(self, path, line, text):
        self.path, self.line = path, line
        head = text
        self.name = re.search(r"fn (\w+)", head).group(1)
        start = head.index("(", head.index("fn "))
        depth, i = 0, start
        while i < len(head):
            if head[i] in "([{<" and not (head[i] == "<" and head[i - 1] == "-"):
                depth += 1
            elif head[i] in ")]}" or (head[i] == ">" and head[i - 1] not in "-="):
                depth -= 1
                if depth == 0 and head[i] == ")":
                    break
            i += 1
        self.params = []
        depth, cur = 0, ""
        for ch in head[start + 1 : i]:
            if ch in "([<":
                depth += 1
            elif ch in ")]>":
                depth -= 1
            if ch == "," and depth == 0:
                self.params.append(cur.strip())
                cur = ""
            else:
                cur += ch
        if cur.strip():
            self.params.append(cur.strip())
        rest = head[i + 1 :]
        answer = re.match(r"\s*->\s*([^\n{;]+?)\s*(?:\n|\{|;|$)", rest)
        self.answer = answer.group(1) if answer else ""
        self.clauses = re.findall(r"^\s*(?:requires|ensures)\s*(?:[a-z_]+ )?\{ (.*) \}[;]?$", rest, re.M)

    def names(self):
        return [p.split(":")[0].replace("mut ", "").strip() for p in self.params if ":" in p]


def functions():
    out = []
    for path in FILES:
        lines = lines_of(path)
        for n, line in enumerate(lines):
            if re.match(r"\s*(pub(\(crate\))? )?fn \w+", line):
                text = line
                k = n
                while k + 1 < len(lines) and not re.match(r"^\s*\{\s*(\}|$)", lines[k + 1]) and not code(lines[k]).rstrip().endswith(("{", ";", "{}")):
                    k += 1
                    text += "\n" + lines[k]
                out.append(Fn(path, n + 1, text))
    return out


def row(path, line, text):
    return f"{path}:{line}: {text.strip()}"


def grep(pattern, skip=None):
    rows = []
    for path in FILES:
        for n, line in enumerate(lines_of(path)):
            if re.search(pattern, code(line)) and not (skip and re.search(skip, line)) and "ghost" not in line:
                rows.append(row(path, n + 1, line))
    return rows


def enums():
    rows = []
    for path in FILES:
        text = open(path, encoding="utf-8").read()
        for m in re.finditer(r"enum (\w+)(?:<[^>]*>)? \{(.*?)\n\}", text, re.S):
            body = [code(b).strip().rstrip(",") for b in m.group(2).split("\n")]
            variants = [b for b in body if re.match(r"^[A-Z]\w*(\(.*\))?$", b)]
            if 1 < len(variants) <= 3 and any("(" in v for v in variants):
                rows.append(row(path, text[: m.start()].count("\n") + 1, "enum " + m.group(1) + ": " + ", ".join(variants)))
    return rows


def head1(fns):
    yield "enums of two or three cases, some with a value", enums()
    yield "answers true or false of what it changed", [row(f.path, f.line, f"fn {f.name} -> bool") for f in fns if f.answer == "bool" and any("&mut" in p for p in f.params)]
    said = r"(or zeros|or `\w+` where there is none|no slot: the|0 for too many|99 where|or 0 where there is none)"
    rows = []
    for path in FILES:
        rows += [row(path, n + 1, l) for n, l in enumerate(lines_of(path)) if re.search(said, l)]
    yield "a number said to stand for none or for a case", rows


def twins(fns):
    rows = []
    blocks = collections.defaultdict(list)
    for path in FILES:
        lines = [(n + 1, code(l).strip()) for n, l in enumerate(lines_of(path))]
        lines = [(n, l) for n, l in lines if len(l) > 2 and not l.startswith(("ghost use", "use ", "pub use", "mod "))]
        shape = [(n, re.sub(r'"[^"]*"', '""', re.sub(r"\b\d[\d_x]*\w*\b", "0", re.sub(r"\b(?!fn|let|match|if|else|for|in|return|pub|struct|enum|impl|while|requires|ensures|ghost|use)[A-Za-z_]\w*\b", "w", l)))) for n, l in lines]
        for i in range(len(shape) - 7):
            blocks["\n".join(s for _, s in shape[i : i + 8])].append((path, shape[i][0]))
    pairs = {}
    for places in blocks.values():
        if 2 <= len(places) <= 8:
            for a in places:
                for b in places:
                    if a < b and not (a[0] == b[0] and abs(a[1] - b[1]) < 8):
                        pairs.setdefault((a[0], b[0], (a[1] - b[1]) if a[0] == b[0] else 0), []).append((a[1], b[1]))
    for (p, q, _), at in sorted(pairs.items()):
        at.sort()
        rows.append(f"{p}:{at[0][0]} ~ {q}:{at[0][1]} ({len(at) + 7} lines)")
    return rows


def head2(fns):
    yield "runs of eight lines or more of one shape, in two places", twins(fns)


def head3(fns):
    yield "loops over a range of numbers", grep(r"^\s*for \w+ in [^{]*\.\.[^{]*\{")
    yield "loops with while or loop", grep(r"^\s*(while|loop)\b")
    yield "a count raised by hand", grep(r"(\+= 1;|= \w+\.(saturating|wrapping)_add\(1\);)")


def head4(fns):
    yield "impls that a derive or a library may give", grep(r"^\s*impl\b.*\b(PartialEq|Eq|PartialOrd|Ord|Clone|Copy|Default|Hash|Debug|Display|From<.*>|TryFrom<.*>|FromStr) for")
    yield "casts", grep(r"\bas (u8|u16|u32|u64|usize|i32)\b")


def head5(fns):
    count = collections.defaultdict(set)
    for f in fns:
        for c in f.clauses:
            for part in re.split(r"\) × \(", c):
                part = part.strip("() ")
                if len(part) > 8:
                    count[part].add((f.path, f.name))
    yield "a fact in the contracts of three functions or more", [f"{len(v)} times: {k}" for k, v in sorted(count.items()) if len(v) >= 3 and "result" not in k]
    groups = collections.defaultdict(set)
    for f in fns:
        names = [n for n in f.names() if n not in ("self", "&self", "&mut self")]
        for i in range(len(names) - 1):
            groups[tuple(names[i : i + 2])].add((f.path.split("/")[1], f.path, f.name))
    yield "parameters side by side in three functions or more of a crate", [
        f"{c}: {', '.join(k)} ({len(v)} functions)"
        for k, all_v in sorted(groups.items())
        for c, v in sorted(by_crate(all_v).items())
        if len(v) >= 3
    ]


def by_crate(places):
    out = collections.defaultdict(set)
    for c, p, n in places:
        out[c].add((p, n))
    return out


def head6(fns):
    size = r"^(len|count|height|at|width|most|nodes|depth)$"
    yield "a slice with a number of its length or place beside it", [
        row(f.path, f.line, f"fn {f.name}({', '.join(f.names())})")
        for f in fns
        if any(re.match(size, n) for n in f.names()) and any("[" in p or "Vec<" in p for p in f.params)
    ]
    rows = []
    for path in FILES:
        text = open(path, encoding="utf-8").read()
        for m in re.finditer(r"struct (\w+)(?:<[^>]*>)? \{(.*?)\n\}", text, re.S):
            if len(re.findall(r":\s*(?:&'?\w*\s*(?:mut )?)?(?:\[|Vec<)", m.group(2))) >= 2:
                rows.append(row(path, text[: m.start()].count("\n") + 1, "struct " + m.group(1)))
    yield "structs of two slices or lists", rows
    yield "places of a list kept in a list or a case", grep(r"(\w+\((usize|usize, usize|u8, usize)\),|Vec<usize>)")


def head7(fns):
    yield "a bool that is handed in", [row(f.path, f.line, f"fn {f.name}({', '.join(f.params)})") for f in fns if any(re.search(r": bool$", p) for p in f.params)]
    yield "function pointers and boxed calls", grep(r"(: fn\(|Box<dyn|&dyn)")


def head8(fns):
    rows = []
    for path in sorted(glob.glob("crates/*/proofs/**/Answers.antt", recursive=True)):
        for n, line in enumerate(lines_of(path)):
            if re.search(r"= search \(?rules\)?$", line):
                rows.append(row(path, n + 1, line))
    yield "answers that are the plain search", rows
    sizes = collections.Counter()
    for path in glob.glob("crates/*/proofs/**/*.antt", recursive=True):
        sizes[path.split("/")[1]] += len(lines_of(path))
    yield "lines of proofs by crate", [f"{c}: {n}" for c, n in sorted(sizes.items())]


def main():
    fns = functions()
    heads = {"1": head1, "2": head2, "3": head3, "4": head4, "5": head5, "6": head6, "7": head7, "8": head8}
    for h in sys.argv[1:] or sorted(heads):
        for title, rows in heads[h](fns):
            print(f"[{h}] {title}: {len(rows)}")
            for r in rows:
                print("   ", r)


main()

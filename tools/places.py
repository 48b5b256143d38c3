#!/usr/bin/env python3
"""Lists the places in src/ that the page of the design pass counts, a line for each: POINT FILE:LINE WHAT.

    python3 tools/places.py            the counts, a line for each point
    python3 tools/places.py 3          the places of point 3
    python3 tools/places.py all        all places
    python3 tools/places.py .. COMMIT  those of a commit
"""
import collections
import io
import pathlib
import re
import subprocess
import sys
import tarfile

POINTS = {
    1: "a bool, a pair or a number for an answer, and a flag with a value beside it",
    2: "twins",
    3: "loops that count by hand",
    4: "equality, order, copying, conversion and printing by hand",
    5: "clauses that stand in three functions or more, and parameters that travel together",
    6: "fixed arrays with a count, lent slices with a length beside",
    7: "tables of functions, and switches on which step to run",
    8: "answers and lemmas",
}


def sources(commit):
    """Each file of src/, proofs/ and specs/ with its text."""
    if commit is None:
        for path in sorted(pathlib.Path("crates").rglob("*")):
            if path.suffix in (".rt", ".antt") and "out" not in path.parts:
                yield str(path), path.read_text()
        return
    data = subprocess.run(["git", "archive", commit, "crates"], check=True, capture_output=True).stdout
    with tarfile.open(fileobj=io.BytesIO(data)) as tar:
        for member in sorted(tar.getmembers(), key=lambda m: m.name):
            if member.name.endswith((".rt", ".antt")):
                yield member.name, tar.extractfile(member).read().decode()


def functions(text):
    """Each function: its first line, its head (to the brace) and its body."""
    lines = text.split("\n")
    for i, line in enumerate(lines):
        match = re.match(r"( *)(pub(\(crate\))? )?(const )?fn (\w+)", line)
        if not match:
            continue
        indent, name = match[1], match[5]
        if re.search(r"\{.*\}$", line) and "ensures" not in line and "requires" not in line:
            yield i + 1, name, line, ""
            continue
        head, j = [line], i + 1
        while not lines[j - 1].startswith(indent + "{") and not lines[j - 1].endswith(";"):
            if lines[j - 1].endswith("{") and not re.match(r" *(requires|ensures|ghost)\b", lines[j - 1]):
                break
            if j == len(lines):
                break
            head.append(lines[j])
            j += 1
        body = []
        while j < len(lines) and lines[j] != indent + "}" and not lines[j - 1].endswith(";" if not body else "\0"):
            body.append(lines[j])
            j += 1
        yield i + 1, name, "\n".join(head), "\n".join(body)


def in_trait(text, number):
    """Whether the function at the line stands in a trait or in an impl of one."""
    for line in reversed(text.split("\n")[:number - 1]):
        if re.match(r"(pub )?trait |impl\b", line):
            return " for " in line or "trait " in line
        if line == "}":
            return False
    return False


def each(files, pattern, what):
    for path, text in files:
        for number, line in enumerate(text.split("\n"), 1):
            if re.search(pattern, line) and not line.lstrip().startswith("//"):
                yield f"{path}:{number}", what + line.strip()


def point1(files):
    for path, text in files:
        for number, name, head, body in functions(text):
            head = head.split("requires")[0].split("ensures")[0]
            if "&mut" in head and re.search(r"-> bool", head):
                yield f"{path}:{number}", f"{name}: a bool of a function that changes something"
            if re.search(r"-> u8", head) and body.strip() == "0":
                yield f"{path}:{number}", f"{name}: a number that says nothing"
            if re.search(r"Result<Result<|Result<Option<", head):
                yield f"{path}:{number}", f"{name}: a result in a result"
            if re.search(r"(?<![\w>])\(0, 0\)", body):
                yield f"{path}:{number}", f"{name}: a pair of noughts for nothing"
            if re.search(r"fn \w*number\(\) -> ", head):
                yield f"{path}:{number}", f"{name}: a call for a constant"
    yield from each(files, r"None => None,|Err\((\w+)\) => Err\(\1\)|Err\(\w+\) => Ok\(Err", "passed on by hand: ")
    for path, text in files:
        for match in re.finditer(r"let (Some|Ok)\(.*\) = [^;]*? else \{\s*return (None|Ok\(None\));", text):
            yield f"{path}:{text[:match.start()].count(chr(10)) + 1}", "passed on by hand: let .. else return None"
    for path, text in files:
        for match in re.finditer(r"struct \w+[^{;]*\{(.*?)\n\}", text, re.S):
            fields = re.findall(r"^    (?:pub(?:\(crate\))? )?(\w+): (\w+)", match[1], re.M)
            if any(kind in ("Stage", "bool") for _, kind in fields):
                yield f"{path}:{text[:match.start()].count(chr(10)) + 1}", "a flag with values beside it"


def point2(files):
    runs = collections.defaultdict(list)
    for path, text in files:
        numbered = [(n, l.strip()) for n, l in enumerate(text.split("\n"), 1)]
        numbered = [(n, l) for n, l in numbered if l and not l.startswith(("//", "ghost use", "use "))]
        for at in range(len(numbered) - 5):
            run = tuple(l for _, l in numbered[at:at + 6])
            if sum(1 for l in run if len(l) > 2) >= 3:
                runs[run].append((path, numbered[at][0]))
    for run, places in runs.items():
        if len(places) > 1:
            yield " ".join(f"{p}:{n}" for p, n in places), "six equal lines: " + run[0]
    named = collections.defaultdict(list)
    for path, text in files:
        for number, name, head, body in functions(text):
            params = re.sub(r"\s+", " ", re.split(r"\b(requires|ensures)\b", head)[0]).strip()
            if "self" not in params and name not in ("main", "new") and not in_trait(text, number):
                named[name].append(f"{path}:{number}")
    for name, places in named.items():
        if len(places) > 1:
            yield " ".join(places), f"functions of one name: {name}"


def point3(files):
    yield from each(files, r"\bfor \w+ in \(?[^{]*\.\.[^{]*\{", "")
    yield from each(files, r"\bwhile (?!let)", "")


def point4(files):
    yield from each(files, r"\bimpl\b.*\b(Clone|Copy|PartialEq|Eq|PartialOrd|Ord|Rank|Display|Debug|From(<.*>)?|TryFrom(<.*>)?) for\b", "")
    yield from each(files, r"\bfn (compare|before|is_\w+|\w+_of|or_\w+|\w+_name|is|same_\w+)\b", "")


def point5(files):
    clauses = collections.defaultdict(list)
    bundles = collections.defaultdict(set)
    for path, text in files:
        crate = path.split("/")[1]
        for number, name, head, _ in functions(text):
            for match in re.finditer(r"(requires|ensures)\*? ?\w* ?\{ (.*) \}$", head, re.M):
                clause = re.sub(r"\.(old|new|now)\b", "", match[2])
                clauses[crate, clause].append(f"{path}:{number}")
            params = re.split(r"\b(requires|ensures|where)\b", head)[0]
            names = [m for m in re.findall(r"(\w+): ", params) if m not in ("rt", "heap")]
            for a in range(len(names)):
                for b in range(a + 3, len(names) + 1):
                    bundles[crate, tuple(names[a:b])].add(f"{path}:{number}")
    for (crate, clause), places in clauses.items():
        if len(places) > 2:
            yield " ".join(places), "clause: " + clause
    seen = [(names, places) for (crate, names), places in bundles.items() if len(places) > 2]
    for names, places in seen:
        if not any(set(names) < set(more) and places <= others for more, others in seen):
            yield " ".join(sorted(places)), "parameters: " + ", ".join(names)


def point6(files):
    for path, text in files:
        for match in re.finditer(r"struct (\w+)[^{;]*\{(.*?)\n\}", text, re.S):
            buffer = re.search(r": (\[\w+; \w+\]|&'a mut \[.*\])", match[2])
            count = re.search(r"\b(count|len|top): usize", match[2])
            if buffer and count:
                yield f"{path}:{text[:match.start()].count(chr(10)) + 1}", f"{match[1]}: {buffer[1]} with {count[1]}"
        for number, name, head, _ in functions(text):
            params = re.split(r"\b(requires|ensures|where)\b", head)[0]
            if re.search(r": &(mut )?\[.*\],? .*\blen: usize", re.sub(r"\s+", " ", params)):
                yield f"{path}:{number}", f"{name}: a slice with len beside"


def point7(files):
    yield from each(files, r"\bfn\(|\bdyn\b|\[fn|Box<", "")


def point8(files):
    for path, text in files:
        if path.endswith("Answers.antt"):
            count = len(re.findall(r"^pub \S+ : ", text, re.M))
            yield path, f"{count} answers"
        elif "/proofs/" in path and not path.endswith(("Invariants.antt", "Lib.antt")):
            yield path, f"{len(re.findall(r'^(?:abbrev )?(?:pub )?[^ -]+ : ', text, re.M))} lemmas"


def main():
    words = sys.argv[1:]
    which = words.pop(0) if words and (words[0].isdigit() and len(words[0]) == 1 or words[0] == "all") else None
    everything = list(sources(words[0] if words else None))
    src = [(p, t) for p, t in everything if p.endswith(".rt") and "/tests.rt" not in p]
    for point, name in POINTS.items():
        places = list(globals()[f"point{point}"](everything if point == 8 else src))
        if which in (str(point), "all"):
            for place, what in places:
                print(point, place, what)
        if point == 8:
            answers = sum(int(w.split()[0]) for _, w in places if w.endswith("answers"))
            lemmas = sum(int(w.split()[0]) for _, w in places if w.endswith("lemmas"))
            print(f"{point}: {answers} answers, {lemmas} lemmas in proofs/  ({name})")
        else:
            print(f"{point}: {len(places)}  ({name})")


main()

"""Counts older forms in crates/*/src, one line for each point of docs/DESIGN-PASS.md, and lists their places.

    python3 tools/forms.py            the counts
    python3 tools/forms.py POINT      the places of one point, as 3 or 1b
    python3 tools/forms.py --at COMMIT [POINT]    the same of a commit

It reads functions by their layout (`rt fmt`), not by their meaning: what it lists is read by eye (docs/DESIGN-PASS.md)."""

import re
import subprocess
import sys

# Functions that answer by a number: a refusal's or a rule's. Told by what their contracts cite.
NUMBERS = re.compile(
    r"\.number\b|leaving result|guarded |fronted |refused_by|viewed |against |allowed |unknown |unlike |broken_in|lower_in"
    r"|outlook_number|rule7 |Tells |insert_number|result ≡ told|number result"
)
# Types that hold a number or a flag with a value beside, or have the shape of Option or Result, by their fields and variants.
FLAGS = re.compile(r"^\s*(pub )?(number: u32|fine: bool|kept: bool|keys: bool|hold: bool|found: bool|is: bool|some: bool|known: bool|right: bool|here: bool|there: bool|broken: u32|stays: bool|goes: bool|ok: bool|held: bool|yes: bool)\b", re.M)
SHAPES = re.compile(r"\b(Absent|Nothing|None|Refused|Lacks|Lacking|Fails|Wrong|Bad|No)\b")
SWITCHES = re.compile(r"\b(write|insert|undo|under|bad|sure|yes|root): bool|\brule: u32\b|\bedition: u8\b")


def text_of(commit, path):
    if commit:
        return subprocess.check_output(["git", "show", f"{commit}:{path}"], text=True)
    return open(path).read()


def files(commit):
    if commit:
        names = subprocess.check_output(["git", "ls-tree", "-r", "--name-only", commit, "crates"], text=True).split()
    else:
        names = subprocess.check_output(["git", "ls-files", "crates"], text=True).split()
    return sorted(n for n in names if re.match(r"crates/\w+/src/.*\.rt$", n))


def functions(path, text):
    """Each function: its place, name, signature, contract and body, as lines."""
    lines = text.split("\n")
    at = 0
    while at < len(lines):
        found = re.match(r"^(\s*)(pub(\(\w+\))? )?(unsafe )?(extern \"C\" )?fn (\w+)", lines[at])
        if not found:
            at += 1
            continue
        indent, start = found.group(1), at
        end = start
        while end < len(lines) and lines[end] != indent + "}" and not (end == start and lines[end].rstrip().endswith("}")):
            end += 1
        whole = lines[start : end + 1]
        opening = next((k for k, x in enumerate(whole) if x == indent + "{" or (x.endswith(" {") and k == 0)), 0)
        yield {
            "place": f"{path}:{start + 1}",
            "name": found.group(6),
            "head": "\n".join(whole[: opening + 1]),
            "body": whole[opening + 1 : -1],
            "public": bool(found.group(2)),
        }
        at = end + 1


def types(path, text):
    lines = text.split("\n")
    for at, line in enumerate(lines):
        found = re.match(r"^(pub(\(\w+\))? )?(struct|enum) (\w+)", line)
        if found:
            end = next(k for k in range(at, len(lines)) if lines[k].startswith("}") or lines[k].endswith(";"))
            yield f"{path}:{at + 1}", found.group(3), found.group(4), "\n".join(lines[at : end + 1])


def result(head):
    found = re.search(r"\) -> ([^\n{]+)", head)
    return found.group(1).strip() if found else ""


def shape(body):
    words = re.findall(r"\w+|[^\s\w]", re.sub(r"//.*", "", "\n".join(body)))
    keep = {"if", "else", "return", "let", "mut", "while", "for", "in", "match", "true", "false", "as", "break"}
    return " ".join(w if w in keep or not re.match(r"\w", w) else "x" for w in words)


def by_one(lines):
    """The loops of a function that count by one, whatever stands in their test."""
    for at, line in enumerate(lines):
        found = re.match(r"^(\s*)(?:'\w+: )?(while (.+)|loop) \{$", line)
        if not found or not found.group(3):
            continue
        end = next(k for k in range(at, len(lines)) if lines[k] == found.group(1) + "}")
        inner = lines[at + 1 : end]
        step = found.group(1) + "    "
        for name in set(re.findall(r"\b[a-z]\w*\b", found.group(3))):
            if any(re.match(rf"^{step}{name} [-+]= 1(usize)?;$", x) for x in inner):
                yield at
                break


def main():
    words = sys.argv[1:]
    commit = words[1] if words[:1] == ["--at"] else None
    asked = words[2:] if commit else words
    places = {}

    def add(point, place, what):
        places.setdefault(point, []).append(f"{place} {what}")

    shapes = {}
    together = {}
    for path in files(commit):
        text = text_of(commit, path)
        for place, kind, name, body in types(path, text):
            if FLAGS.search(body):
                add("1a types with a flag or a number beside a value", place, name)
            if kind == "enum" and SHAPES.search(body):
                add("1b enums of the shape of Option or Result", place, name)
            if re.search(r"\[\w+; \d+\]", body) and re.search(r"\b(n|count|len|used|top): (usize|u32)", body):
                add("6 buffers with a length beside", place, name)
        for f in functions(path, text):
            body = "\n".join(f["body"])
            given = result(f["head"])
            if given in ("u32", "usize", "Counted", "Told", "Verdict", "Lent", "Looked", "Left") and NUMBERS.search(f["head"]):
                add("1c functions that answer by a number of a refusal or a rule", f["place"], f["name"])
            elif given in ("Counted", "Told", "Verdict", "Lent", "Looked", "Left", "State", "Reached"):
                add("1d functions that answer by such a type", f["place"], f["name"])
            for at in by_one(f["body"]):
                add("3 loops that count by one by hand", f["place"], f"{f['name']}: {f['body'][at].strip()}")
            if re.fullmatch(r"\s*\w+ as \w+\s*", body):
                add("4a functions round one `as`", f["place"], f["name"])
            if given == "bool" and re.search(r"return (true|false);", body) and not re.search(r"\b(for|while|loop)\b", body):
                add("4b tests of booleans spelled as returns", f["place"], f["name"])
            for m in re.finditer(r"\b(\w+): \1,", body):
                add("4c fields named twice", f["place"], f"{f['name']}: {m.group(0)}")
            if SWITCHES.search(f["head"].split("requires")[0].split("ensures")[0]):
                add("7 functions with a switch among their parameters", f["place"], f["name"])
            if "s: &[u8], l: Limits" in re.sub(r"\s+", " ", f["head"]) or "s: &mut [u8], l: Limits" in re.sub(r"\s+", " ", f["head"]):
                add("5a functions with (s, l) among their parameters", f["place"], f["name"])
            if re.search(r"\bEdition (l|k)\b", f["head"]):
                add("5b contracts that ask `Edition`", f["place"], f["name"])
            if f["name"] != "main" and len(f["body"]) > 0:
                s = shape(f["body"])
                if len(s.split()) >= 8:
                    shapes.setdefault(s, []).append(f"{f['place']} {f['name']}")
    for s, group in shapes.items():
        if len(group) > 1:
            for one in group:
                places.setdefault("2 functions whose bodies have another's shape", []).append(one)
    for point in sorted(places):
        if not asked or point.split()[0] == asked[0]:
            print(f"{len(places[point]):5}  {point}")
            if asked:
                for one in places[point]:
                    print("       ", one)


main()

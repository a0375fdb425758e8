#!/usr/bin/env python3
"""Lists the places in crates/*/src where one of seven older forms may stand, one a line: tools/places.py POINT [FOLDER].

1  sentinels, flags and numbers in place of Option, Result and enums     2  functions of one shape
3  loops that count an index by hand                                      4  equality, order, conversion and printing by hand
5  facts that stand in three contracts or more, and parameters that travel together in three functions or more
6  buffers with a length beside, and tables of numbers                    7  a match on which step to run
It finds by text, so a line may be no place, and a place may have several lines."""
import glob, os, re, sys

POINT, ROOT = int(sys.argv[1]), (sys.argv[2] if len(sys.argv) > 2 else ".")
FILES = sorted(f for f in glob.glob(ROOT + "/crates/*/src/**/*.rt", recursive=True))
LINES = {
    1: r"\b0 for (none|an answer|a code never)|or 0 where|99999|100 \+|\bkind: u|number: u8|by_names|known: bool|letter == '|, 'R'\)"
       r"|unwrap_or\(|const (RELEASE|PULL|PAGE_KIND|TASK_PAGE_KIND)\b|Err\(_\) =>|None =>|is_err\(\)|-> bool$",
    3: r"^\s*while |^\s*for \w+ in [^{]*\.\.",
    4: r"fn (same|ahead|number|to_bits|from_bits|policy_of|low|word|print\w*|\w*digit\w*|put_\w+|field_len|text_len)\b|^impl.*\b(Display|TryFrom|From|PartialEq|Ord)\b",
    6: r"^\s+(pub )?(\w+: (\[|&('\w+ )?(mut )?\[)|(len|count|depth|used|at|size|heap): )|= \[[^\]]*; \d+\];",
    7: r"\bmatch (policy|rule|shape|kind|letter|self|i|fault\.layer|layer|policy_of\(\w+\)\?|Policy::try_from\(\w+\)\?) \{",
}


def functions(text):
    """Each function's name, parameters, clauses and body."""
    for m in re.finditer(r"^( *)(?:pub(?:\(\w+\))? )?(?:extern \"C\" )?fn (\w+)[^\n]*(?:\n(?!\1[{}]).*)*", text, re.M):
        start = text.find("{\n", m.start())
        head = text[m.start():]
        end = re.search(r"^" + m.group(1) + r"\}", head, re.M)
        if end:
            whole = head[:end.end()]
            at = re.search(r"^" + m.group(1) + r"\{|\{$", whole, re.M)
            signature = whole[:at.start()] if at else whole
            clauses = re.findall(r"^\s+(?:requires|ensures)(?: \w+)? \{ (.*) \}$", signature, re.M)
            parameters = re.findall(r"(\w+): ([^,()]+?)(?=,|\)|\n)", re.sub(r"\n\s+(requires|ensures).*", "", signature))
            yield m.group(2), parameters, clauses, whole[at.end():] if at else ""


def shape(text):
    return re.sub(r"\d+", "0", re.sub(r"[A-Za-z_]\w*(::\w+)*", "x", re.sub(r"//.*|\s+", "", text)))


def say(f, what):
    print(os.path.relpath(f, ROOT) + ": " + what)


if POINT in LINES:
    for f in FILES:
        for n, line in enumerate(open(f), 1):
            comment = line.lstrip().startswith("//")
            if re.search(LINES[POINT], line) and (not comment or POINT == 1):
                print("%s:%d:%s" % (os.path.relpath(f, ROOT), n, line.rstrip()[:150]))
elif POINT == 2:
    by = {}
    for f in FILES:
        for name, _, _, body in functions(open(f).read()):
            by.setdefault(shape(body), []).append((f, name))
    for s, places in by.items():
        if len(places) > 1 and len(s) >= 40:
            print("  ".join("%s %s" % (os.path.relpath(f, ROOT), n) for f, n in places))
else:
    facts, groups = {}, {}
    for f in FILES:
        for name, parameters, clauses, _ in functions(open(f).read()):
            for clause in clauses:
                fact = re.sub(r"\b(self|result|[a-z_]\w*)(\.(now|old|new))?\b(?=\)* (≤|<|≡) )", "_", clause)
                facts.setdefault(fact, set()).add((f, name))
            names = sorted(set(p for p in parameters))
            for i, a in enumerate(names):
                for b in names[i + 1:]:
                    groups.setdefault((a, b), set()).add((f, name))
    for fact, where in sorted(facts.items()):
        if len(where) > 2 and "result" not in fact and "≡ " not in fact:
            print("fact  %s  in %s" % (fact[:90], ", ".join(sorted(n for _, n in where))))
    for (a, b), where in sorted(groups.items()):
        if len(where) > 2:
            print("together  %s: %s, %s: %s  in %s" % (a + b + (", ".join(sorted(n for _, n in where)),)))

"""Counts, in crates/*/src of a commit, the places that docs/DESIGN-PASS.md speaks of: usage: tools/design_places.py [COMMIT] [POINT], where a point lists its places."""
import re
import subprocess
import sys


def git(*words):
    return subprocess.run(["git", *words], capture_output=True, text=True, check=True).stdout


def sources(commit):
    names = git("ls-tree", "-r", "--name-only", commit, "crates").split()
    return {n: git("show", f"{commit}:{n}") for n in names if re.search(r"/src/.*\.rt$", n)}


def lines(texts, pattern):
    found = []
    for name, text in texts.items():
        for number, line in enumerate(text.split("\n"), 1):
            if not line.lstrip().startswith("//") and re.search(pattern, line):
                found.append(f"{name}:{number}: {line.strip()}")
    return found


def functions(texts):
    """Each function with its parameters and its clauses."""
    for name, text in texts.items():
        for m in re.finditer(r"\bfn (\w+)(?:<[^({]*>)?\(([^)]*)\)(.*?)\n?\s*\{\n", text, re.S):
            parameters = [p.strip() for p in m.group(2).replace("\n", " ").split(",") if p.strip()]
            yield f"{name}:{text[:m.start()].count(chr(10)) + 1}: {m.group(1)}", parameters, m.group(3)


def many(texts):
    return [f"{at} ({len(ps)})" for at, ps, _ in functions(texts) if len(ps) >= 5]


def repeated(texts):
    """Facts of a crate's `requires` that stand in three functions and more."""
    seen = {}
    for at, _, clauses in functions(texts):
        crate = at.split("/")[1]
        for clause in re.findall(r"requires(?: \w+)? \{(.*?)\}\s*(?:requires|ensures|$)", clauses, re.S):
            for fact in clause.split(" × "):
                seen.setdefault((crate, fact.strip(" ()")), []).append(at)
    return [f"{c}: {fact}: {len(ats)}" for (c, fact), ats in seen.items() if len(ats) >= 3]


def beside(texts):
    """Parameters that are a list and how far it is filled, or two lists of one length."""
    found = []
    for at, ps, _ in functions(texts):
        lent = any(re.match(r"(page|stack|list|out): &mut \[", p) for p in ps)
        place = any(re.match(r"(at|top|waiting|count): usize", p) for p in ps)
        sizes = [m.group(1) for p in ps for m in [re.search(r"\[\w+; ([\w:]+)\]", p)] if m]
        if (lent and place) or len(sizes) != len(set(sizes)):
            found.append(at)
    return found


HELPERS = "wide|place|row|short|lesser|fewer|least|most|less|more|cut|at_most_256|at|distance|flag|held|bit|byte_at|number_at|u16_at|u32_at|u64_at|refused|first|shown|marked|put|name|same|over|times"
POINTS = {
    "1 own enums": lambda t: lines(t, r"^\s*(pub )?enum "),
    "1 refusals by number": lambda t: lines(t, r"number: [0-9]+,|refused\([0-9]+,"),
    "1 answers that are bools": lambda t: lines(t, r"-> bool\b"),
    "1 kinds by number": lambda t: lines(t, r"kind\(\w+, \w+\) [=!]= 1|pub (write|before|after|word): u64|kind: u8"),
    "2 small helpers": lambda t: lines(t, rf"\bfn ({HELPERS})(<[^>]*>)?\("),
    "2 constants of one meaning": lambda t: lines(t, r"const (TRACE|PLAN|TRACE_ROOM|PLAN_ROOM|SIZE|STORED|HEAD|RENT|RECORD): usize"),
    "2 rents read": lambda t: lines(t, r"read_rents\("),
    "3 loops that are no `for`": lambda t: lines(t, r"^\s*(while|loop)\b"),
    "4 conversions and copies": lambda t: lines(t, r"fn (wide|place|row|short|bit|word|code|same|kind)\(|% 256|/ 256|b'[A-Z]' as u64"),
    "5 five parameters and more": many,
    "5 facts required thrice": repeated,
    "6 lists beside lists or lengths": beside,
    "7 switches": lambda t: lines(t, r"match (asked|turn|command|words::asked)\b"),
}

commit = sys.argv[1] if len(sys.argv) > 1 else "HEAD"
point = sys.argv[2] if len(sys.argv) > 2 else ""
texts = sources(commit)
for title, count in POINTS.items():
    found = count(texts)
    if not point:
        print(f"{len(found):4} {title}")
    elif title.startswith(point):
        print(f"{len(found):4} {title}", *found, sep="\n")
if not point:
    names = git("ls-tree", "-r", "--name-only", commit, "crates").split()
    proofs = [n for n in names if n.endswith("/Answers.antt") or n.endswith("/Invariants.antt")]
    print(f"{len(proofs):4} 8 proof files of functions")
    print(f"{sum(git('show', f'{commit}:{n}').count(chr(10)) for n in names if '/proofs/' in n):4} 8 lines of proofs/")

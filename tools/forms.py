#!/usr/bin/env python3
"""forms.py [CRATES [--places]]: counts, in the code of the crates, the places of each form of an older language.

For each point of docs/DESIGN-PASS.md it prints how many places there are, and with --places each of them. It goes by text: a place that it
names may have its reason to stand, and then the page has it."""
import collections, glob, os, re, sys

words = [w for w in sys.argv[1:] if not w.startswith("--")]
root = words[0] if words else os.path.join(os.path.dirname(os.path.abspath(__file__)), "..", "crates")
KEYWORDS = set("as break else fn for if in let loop match mut pub ref return self while true false struct enum impl const use usize u8 u16 u32 u64 bool".split())


class Function:
    """A function: where it stands, its name, its parameters and result, its clauses and its body."""

    def __init__(self, crate, line, text):
        self.crate, self.line = crate, line
        head, self.body = split_body(text)
        self.name = re.search(r"fn (\w+)", head).group(1)
        self.signature = re.split(r"\n\s*(?:requires|ensures)\b", head)[0]
        self.requires = " ".join(re.findall(r"requires\s*\w*\s*(\{.*?\})\s*\n\s*(?=ensures|requires|$)", head + "\n", re.S))
        self.place = f"{crate}::{self.name}"


def split_body(text):
    at = text.rfind("\n{")
    return (text, "") if at < 0 else (text[:at], text[at:])


def code():
    for path in sorted(glob.glob(os.path.join(root, "*", "src", "*.rt"))):
        crate = os.path.relpath(path, root).split(os.sep)[0]
        yield crate, open(path).read()


def functions():
    for crate, text in code():
        lines = text.splitlines()
        i = 0
        while i < len(lines):
            if re.match(r"\s*(pub )?(extern \"C\" )?fn \w+", lines[i]) and "fn main" not in lines[i]:
                indent = len(lines[i]) - len(lines[i].lstrip())
                end = next((j for j in range(i, len(lines)) if lines[j] == " " * indent + "}"), i)
                yield Function(crate, i + 1, "\n".join(l[indent:] for l in lines[i : end + 1]))
                i = end
            i += 1


def shape(body):
    tokens = re.findall(r"[A-Za-z_]\w*|\d+|[^\s\w]", re.sub(r"//.*", "", body))
    return tuple("#" if t.isdigit() else t if t in KEYWORDS or not re.match(r"\w", t) else "x" for t in tokens)


def lines_that(pattern, group=0):
    for crate, text in code():
        for n, line in enumerate(text.splitlines(), 1):
            found = re.search(pattern, re.sub(r"//.*", "", line))
            if found:
                yield f"{crate}: {found.group(group).strip()}"


def flags_and_numbers():
    yield from lines_that(r"^\s+(pub )?(number|answer|why|sends|sound|form|some|whole): \w+,")


def own_enums():
    for crate, text in code():
        for name, body in re.findall(r"pub enum (\w+) \{\n(.*?)\n\}", text, re.S):
            if re.search(r"^\s+(Nothing|Good|Written\(usize\)|Same),", body, re.M):
                yield f"{crate}: enum {name}"


def answering(answer, name):
    """The functions that answer this type and whose names have one of these words."""
    for f in functions():
        if f.signature.strip().endswith(f"-> {answer}") and re.search(name, f.name):
            yield f.place


def refusals_by_number():
    yield from answering("u8", r"refus|check|number_where|form_number|lamp_number")
    yield from lines_that(r"refused\(\d+\)|stopped\(turn, \d\)|\.(number|answer|why) != 0|(number|refusal) != 0|refusal == 12")


def kinds_by_number():
    yield from lines_that(r"(kind_number\([\w.]+\)|\bkind|\bkind\[1\]|event\[1\]|frame\[1\]) (==|!=|<=|<|>|>=) \d")


def places_as_numbers():
    yield from answering("usize", r"^find|^next_marked|past_last")
    yield from lines_that(r"\b(k|past) (==|<) (queued|outstanding|0)\b")


def twins():
    alike = collections.defaultdict(list)
    for f in functions():
        s = shape(f.body)
        if len(s) >= 18:
            alike[s].append(f.place)
    for group in alike.values():
        if len(group) > 1:
            yield ", ".join(group)


def loops_by_hand():
    for f in functions():
        for _ in re.findall(r"\bwhile\b", f.body):
            yield f.place


def written_by_hand():
    for f in functions():
        body = re.sub(r"\s+", " ", f.body)
        if re.search(r"^\s*\{ match \w+ \{ (\w+::\w+( \{[^}]*\})? => (true|false|\d+|\w+::\w+), ?)+(_ => \S+,? )?\} \}", body):
            yield f.place
        elif re.search(r"^\s*\{ \w+ as \w+ \}", body):
            yield f.place
        elif re.search(r"^\s*\{ if (\w+) < (\w+) \{ return (\1|\2|\w+::\w+); \}", body):
            yield f.place
        elif len(re.findall(r"if [^{]*(!=|==|<|>|!)[^{]*\{ return (true|false); \}", body)) >= 2:
            yield f.place


def repeated_facts():
    facts = collections.Counter()
    for f in functions():
        for fact in set(re.sub(r"\s+", " ", p).strip(" {}()") for p in f.requires.split("×")):
            if fact:
                facts[fact] += 1
    for fact, count in facts.most_common():
        if count >= 3:
            yield f"{fact} ({count})"


def together():
    groups = collections.Counter()
    for f in functions():
        names = re.findall(r"(\w+): (&mut \[u8\]|&\[u8\]|Header|Settings|Machine)", f.signature)
        if len(names) >= 3:
            groups[" ".join(n for n, _ in names)] += 1
    for names, count in groups.most_common():
        if count >= 3:
            yield f"{names} ({count})"


def lengths_beside():
    for crate, text in code():
        for name, body in re.findall(r"struct (\w+)(?:<[^>]*>)? \{\n(.*?)\n\}", text, re.S):
            if re.search(r"count: \w+,\s*(pub )?(number: \[|first: \w+,\s*(pub )?second)", body) or re.search(r"(?P<name>[a-z]+)0: \w+,\s*(pub )?(?P=name)1:", body):
                yield f"{crate}: struct {name}"
            elif re.search(r"pub first: usize,\s*pub second: usize", body):
                yield f"{crate}: struct {name}"


def switches():
    for crate, text in code():
        for name, body in re.findall(r"pub enum (\w+) \{\n(.*?)\n\}", text, re.S):
            if name in ("Search",):
                yield f"{crate}: enum {name}"


def answers():
    for path in sorted(glob.glob(os.path.join(root, "*", "proofs", "**", "*.antt"), recursive=True)):
        base = os.path.basename(path)
        if base in ("Answers.antt", "Invariants.antt", "Proof.antt"):
            yield from (path for _ in open(path))


POINTS = [
    ("1a a flag or a number beside a value", flags_and_numbers),
    ("1b own enums of the shape of Option, Result or Ordering", own_enums),
    ("1c refusals as numbers", refusals_by_number),
    ("1d kinds by their numbers", kinds_by_number),
    ("1e no place as a number", places_as_numbers),
    ("2  functions of one shape", twins),
    ("3  loops with `while`", loops_by_hand),
    ("4  equality, order, conversion by hand", written_by_hand),
    ("5a facts that three functions or more ask for", repeated_facts),
    ("5b parameters that travel together in three functions or more", together),
    ("6  lengths beside, parallel fields", lengths_beside),
    ("7  switches on a step", switches),
    ("8  lines of the proofs of functions", answers),
]

if __name__ == "__main__":
    for title, places in POINTS:
        found = list(places())
        print(f"{len(found):5}  {title}")
        if "--places" in sys.argv and not title.startswith("8"):
            for place in found:
                print(f"         {place}")

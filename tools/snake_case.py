#!/usr/bin/env python3
"""snake_case.py [ROOT]: brings the repository's own definitions and lemmas to today's spelling, once, after the kit's port script.

A word of a definition, a field, a constructor or a lemma in lower camel case becomes snake case (`sameBytes` is `same_bytes`), a lemma
that would then have its definition's name gets `_lem`, and the module `inside` becomes `Inside`. Words of the language, types, modules,
Rust names, strings and must-fail edits stay as they are. It prints each file in which two names still fall together."""
import collections, os, re, subprocess, sys

os.chdir(sys.argv[1] if len(sys.argv) > 1 else ".")
files = [f for f in subprocess.run(["git", "ls-files"], capture_output=True, text=True).stdout.split("\n")
         if f.startswith("crates/") and f.endswith((".antt", ".rt"))]
WORD = re.compile(r"(?<![A-Za-z0-9_])[a-z][A-Za-z0-9_]*[A-Z][A-Za-z0-9_]*")
NAME = re.compile(r"[^\s(){}.;,λ∷\"]+")
# Words of the kit that a walk by hand cites, and no name of this repository.
KIT = re.compile(r"(uint|mut_slice|shr_slice|walk)_[A-Z]")
# Lemmas, and local names of proofs, that would have the name of the definition that they speak of, and where.
LEMMAS = {
    "same_bytes": "crates/.*", "from_first": "crates/.*", "before_last": "crates/.*", "from_last": "crates/.*",
    "one_of_two": "crates/(gateway|memory)/.*", "is_later": "crates/gateway/.*", "written_read": "crates/records/.*",
    "one_more": "crates/run/proofs/LocalChains", "is_open": "crates/run/.*", "sent_back": "crates/run/.*",
    "taken_out": "crates/take_cancel/.*",
}

def snake(word):
    return re.sub(r"(?<=[a-z0-9])([A-Z])", lambda m: "_" + m.group(1).lower(), word).lower()

def turned(path, text):
    if path.endswith(".antt"):
        for word, where in LEMMAS.items():
            if re.match(where, path):
                text = re.sub(rf"(?<![\w\-'])(?<!Rattle\.){word}(?![\w\-'])", word + "_lem", text)
    text = WORD.sub(lambda m: m.group(0) if KIT.match(m.group(0)) else snake(m.group(0)), text)
    text = re.sub(r"(?<=specs\.)inside(?=\.)", "Inside", text)
    return re.sub(r"^pub mod inside$", "pub mod Inside", text, flags=re.M)

changed, together = 0, []
for path in files:
    with open(path, encoding="utf-8") as read:
        before = read.read()
    after = turned(path, before)
    if path.endswith(".antt"):
        became = collections.defaultdict(set)
        for name in NAME.findall(re.sub(r"--.*|Rattle[.\w]*|proofs/\w*", "", before)):
            became[turned(path, name)].add(name)
        together += [f"{path}: {' '.join(sorted(names))}" for names in became.values() if len(names) > 1]
    if after != before:
        changed += 1
        with open(path, "w", encoding="utf-8") as out:
            out.write(after)
for path in files:
    if "/specs/inside" in path:
        new = path.replace("/specs/inside", "/specs/Inside", 1)
        os.makedirs(os.path.dirname(new), exist_ok=True)
        subprocess.run(["git", "mv", path, new], check=True)
print("\n".join(together))
print(f"{changed} files changed, {len(together)} names fall together")

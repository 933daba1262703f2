#!/usr/bin/env python3
"""Brings the names of this repository to one spelling, once, at its top: types in upper camel case, all else in snake case,
a dash only between two names. What comes from src/ keeps its name, and so do strings, inputs and outputs.

    python3 tools/respell.py          respells, and prints what it did and what fell together
    python3 tools/respell.py --say    only prints

A crate whose name is that of a library of the toolchain gets another (CRATES, below).
"""
import collections
import os
import re
import sys

CRATES = {"bytes": "octets"}

# characters that end a name
STOP = r"\s(){}\[\];,.λ«»⦃⦄\"'|"
TOKEN = re.compile(r"[^\s(){}\[\];,.«»\"|]+")
SIGNATURE = re.compile(r"^(?P<ind>\s*)(?P<words>(?:pub |abbrev |unfoldable )*)(?P<name>[^\s:(){}]+)\s+:\s(?P<type>.*)$")
HEAD = re.compile(r"^\s*(?:pub |abbrev )*(record|data|ruleset)\s+(?P<name>\S+)")
# names that the toolchain makes: goals, invariants and measures
MADE = re.compile(r"^(invariant|decreases|variant|returns|overflow|bounds|offset|slice|nonzero|prove|loop|invariant_of|ghost)\b")


def files(*ends):
    for base, dirs, names in os.walk("crates"):
        dirs[:] = sorted(d for d in dirs if d not in ("out", "target", "data"))
        for n in sorted(names):
            if n.endswith(ends):
                yield os.path.join(base, n)


def read(p):
    with open(p, encoding="utf-8") as f:
        return f.read()


def write(p, s):
    with open(p, "w", encoding="utf-8") as f:
        f.write(s)


def is_lemma_file(p):
    return "/proofs/" in p or p.endswith("Lemmas.antt")


def declared():
    """name -> (kind, files): type, function or lemma"""
    found = collections.defaultdict(lambda: [set(), set()])
    for p in files(".antt"):
        lines = read(p).split("\n")
        for i, l in enumerate(lines):
            if l.strip().startswith("--"):
                continue
            h = HEAD.match(l)
            if h:
                found[h.group("name")][0].add("type")
                found[h.group("name")][1].add(p)
                continue
            m = SIGNATURE.match(l)
            if not m or "=" in l[: m.start("type")]:
                continue
            name = m.group("name")
            if m.group("type").startswith("goal.") or (is_generated(p) and MADE.match(name)):
                continue
            # the whole signature
            sig = l
            j = i + 1
            while j < len(lines) and lines[j].strip() and len(lines[j]) - len(lines[j].lstrip()) > len(m.group("ind")) and not SIGNATURE.match(lines[j]):
                if lines[j].strip().startswith(("unfolding", "--")) or re.match(r"^\s*" + re.escape(name) + r"\s", lines[j]):
                    break
                sig += " " + lines[j].strip()
                j += 1
            if re.search(r"Type 0\s*$", sig):
                kind = "type"
            elif "abbrev" in m.group("words") or "unfoldable" in m.group("words") or not is_lemma_file(p):
                kind = "function"
            elif len(m.group("ind")) and in_record(lines, i):
                kind = "function"
            else:
                kind = "lemma"
            found[name][0].add(kind)
            found[name][1].add(p)
    return found


def is_generated(p):
    return os.path.basename(p) in ("Answers.antt", "Invariants.antt", "Proof.antt")


def in_record(lines, i):
    ind = len(lines[i]) - len(lines[i].lstrip())
    for j in range(i - 1, -1, -1):
        l = lines[j]
        if l.strip() and not l.strip().startswith("--") and len(l) - len(l.lstrip()) < ind:
            return bool(re.match(r"^\s*(?:pub )?(record|data)\b", l))
    return False


def camel(name):
    parts = [q for q in re.split(r"[-_]", name) if q]
    return "".join(q[0].upper() + q[1:] for q in parts)


def snake(name):
    return re.sub(r"(?<=[^\s-])-(?=[^\s-])", "_", name)


def std_words():
    """functions of the library that this repository's proofs import"""
    words = set()
    for p in files(".antt"):
        for m in re.finditer(r"^\s*use (Rattle\.(?:std|core)\.specs[^\s{]*|lib\.[^\s{]*|Rattle\.std\.proofs\.Common)\.\{([^}]*)\}", read(p), re.M):
            for w in m.group(2).split(","):
                w = w.strip()
                if re.match(r"^[a-z_]+$", w) and w not in ("refl", "sym", "ap", "arith", "subst", "inl", "inr", "zero", "suc", "true", "false"):
                    words.add(w)
    return words


def lemma_name(name, known):
    parts = name.split("-")
    best = [None] * (len(parts) + 1)
    best[0] = (0, [])
    for i in range(len(parts)):
        if best[i] is None:
            continue
        for j in range(i + 1, len(parts) + 1):
            seg = "_".join(parts[i:j])
            is_known = seg.rstrip("'") in known
            score = best[i][0] + ((j - i) if is_known else 0)
            cand = (score, best[i][1] + [(seg, is_known)])
            if best[j] is None or cand[0] > best[j][0] or (cand[0] == best[j][0] and len(cand[1]) < len(best[j][1])):
                best[j] = cand
    out = ""
    segs = best[-1][1]
    for k, (seg, is_known) in enumerate(segs):
        if k:
            out += "-" if is_known and segs[k - 1][1] else "_"
        out += seg
    return out


def plan():
    found = declared()
    kinds = {n: k[0] for n, k in found.items()}
    functions = {snake(n) for n, k in found.items() if k[0] & {"function"} and any("/specs/" in p and not p.endswith("Lemmas.antt") for p in k[1])}
    known = functions | std_words()
    turned = {}
    for n, k in kinds.items():
        core = n.strip("-")
        if "type" in k and "lemma" not in k:
            new = camel(n) if ("-" in core or n[0].islower()) and len(n) > 1 else n
        elif "-" not in core:
            continue
        elif n[0].isupper():
            new = camel(n)
        elif k == {"lemma"}:
            new = lemma_name(n, known)
        else:
            new = snake(n)
        if new != n:
            turned[n] = new
    return found, turned


def respell_text(text, turned, comment):
    out = []
    for line in text.split("\n"):
        cut = line.find(comment)
        if comment == "--":
            m = re.search(r"(^|\s)--(\s|$)", line)
            cut = m.start() if m else -1
        code, rest = (line, "") if cut < 0 else (line[:cut], line[cut:])
        code = TOKEN.sub(lambda m: one(m.group(0), turned), code)
        out.append(code + rest)
    return "\n".join(out)


def one(token, turned):
    if token in turned:
        return turned[token]
    # a token that carries a λ binder or a trailing prime stands as it is
    return token


def crates_text(text):
    for old, new in CRATES.items():
        text = re.sub(r"Rattle\." + old + r"\.(specs|proofs)", "Rattle." + new + r".\1", text)
    return text


def crates_code(text):
    for old, new in CRATES.items():
        text = re.sub(r"\buse " + old + r"::", "use " + new + "::", text)
        text = re.sub(r"(?<![\w:.])" + old + r"::(?=[a-zA-Z])", new + "::", text)
    return text


def main():
    say = "--say" in sys.argv[1:]
    found, turned = plan()
    back = collections.defaultdict(set)
    for n, new in turned.items():
        back[new].add(n)
    for n in found:
        if n not in turned and n in back:
            back[n].add(n)
    for new, olds in sorted(back.items()):
        if len(olds) > 1:
            print("fell together: %s <- %s" % (new, ", ".join("%s (%s)" % (o, " ".join(sorted(found[o][1]))) for o in sorted(olds))))
    # names of code beside a definition in one file
    for p in files(".rt"):
        text = read(p)
        ghost = set(re.findall(r"[^\s,{}]+", " ".join(re.findall(r"^\s*ghost use [^{]*\{([^}]*)\}", text, re.M))))
        code = re.sub(r"^\s*ghost use .*$|//.*$", "", text, flags=re.M)
        for n in ghost & set(turned):
            new = turned[n]
            if re.search(r"(fn|let|mut|const|static)\s+" + re.escape(new) + r"\b|[(,]\s*(mut )?" + re.escape(new) + r"\s*:[^:]|^\s*(pub )?" + re.escape(new) + r"\s*:[^:]", code, re.M):
                print("beside code: %s: %s -> %s" % (p, n, new))
    for n in sorted(turned):
        print("%s -> %s" % (n, turned[n]))
    if say:
        return
    for p in files(".antt"):
        write(p, crates_text(respell_text(read(p), turned, "--")))
    for p in files(".rt"):
        write(p, crates_code(crates_text(respell_text(read(p), turned, "//"))))
    for p in files(".edit"):
        text = read(p)
        write(p, crates_code(crates_text(respell_text(text, turned, "\0"))))
    for base, _, names in os.walk("docs"):
        for n in names:
            if n.endswith(".md"):
                p = os.path.join(base, n)
                write(p, re.sub(r"`[^`\n]+`", lambda m: TOKEN.sub(lambda t: "`" + turned[t.group(0).strip("`")] + "`" if t.group(0).strip("`") in turned and t.group(0) != t.group(0).strip("`") else turned.get(t.group(0), t.group(0)), m.group(0)), read(p)))
    if os.path.exists("crates.txt"):
        lines = []
        for l in read("crates.txt").split("\n"):
            if not l.startswith("#"):
                l = re.sub(r"\b(" + "|".join(CRATES) + r")\b", lambda m: CRATES[m.group(1)], l)
            lines.append(l)
        write("crates.txt", "\n".join(lines))
    for old, new in CRATES.items():
        if os.path.isdir("crates/" + old):
            os.rename("crates/" + old, "crates/" + new)


main()

#!/usr/bin/env python3
"""Brings the repository's own definitions and lemmas to today's spelling, after port.py: words in snake case, types in camel case.

usage: python3 tools/respell.py [ROOT]             rewrites the files below ROOT (this repository, if it is left out)
       python3 tools/respell.py --inner [ROOT]     the second half alone: the names that stand within a module or a lemma
       python3 tools/respell.py --list [ROOT]      prints the names of the first half, old and new, and changes nothing

The names are those that specs/*.antt and proofs/*.antt of a crate declare: definitions, lemmas, fields and constructors, first those at the
margin, then those within. A letter of the paper stays as the paper writes it (C, D, T, CT, ..). Functions of src/, strings, inputs and
outputs keep their names. It is run once.
"""
import collections
import os
import re
import sys

SYMBOLS = {"C", "D", "T", "G", "K", "M", "N", "F", "L", "O", "S", "R", "A", "B", "J", "CT", "DB", "LF"}
TOKEN = r"[^\s(){};,.\[\]@\"\\`]+"
# Names that would fall together with another: of a lemma and the definition that it is about, the lemma gets `_lem`; a constructor gets `by_`.
LEMMAS = "can-hold count-text count-to good-at group-on is-above just-before no_lines one_more others_below pair-for part-load part-of past_after shares-demand task-for task-text time-of time-text waits-for word-text"
READS = "all-or-none blocks-of check-of groups-in-range has-group outcome-of put-length times-in-order times-in-range totals-fit used-in-range version-byte version-for"
OTHERWISE = {"eachPair": "EachPair", "eachTask": "EachTask", "miss-listing": "miss_listing_holds", "shown-listing": "shown_listing_holds", "no-task": "no_tasks", "salvage-answer": "salvage_written"}
OTHERWISE |= {n: n.replace("-", "_") + "_lem" for n in LEMMAS.split()}
OTHERWISE |= {n: n.replace("-", "_") + "_reads" for n in READS.split()}
OTHERWISE |= {n: "by_" + n.replace("-", "_") for n in "alpha-line cpus-line group-line task-line use-line".split()}
# And by place, last of all: `_reads` where nothing else there has the name.
PLAIN = (
    (r"/Demand1(Holds)?\.antt$", r"\b((?!blocks_of)\w+|blocks_of(?=_reads [:=]))_reads\b", r"\1"),
    (r"/promises/\w+/Refusals(Hold)?\.antt$", r"\bhas_group_reads\b", "some_group"),
    (r"/(table/specs/Accepted|promises/specs/Waits)\.antt$", r"\ball_or_none_reads\b", "all_or_none"),
    (r"/proofs/(?!AlphaLaws)\w+\.antt$", r"(\.|(?m:^) +)all_or_none_reads\b(?! as)", r"\1all_or_none"),
)


def snake(name):
    parts = []
    for part in name.split("-"):
        for word in re.sub(r"(?<=[a-z0-9'])(?=[A-Z])", "_", part).split("_"):
            parts.append(word if word in SYMBOLS else word[:1].lower() + word[1:])
    return "_".join(parts)


def files(root, ending, below=("crates",)):
    for top in below:
        for folder, dirs, names in os.walk(os.path.join(root, top)):
            dirs[:] = sorted(d for d in dirs if d not in ("out", "target", ".git"))
            for n in sorted(names):
                if n.endswith(ending):
                    yield os.path.join(folder, n)


def declared(root):
    """Each name that is declared in specs/*.antt or proofs/*.antt, with its kinds."""
    kinds = collections.defaultdict(set)
    for p in files(root, ".antt"):
        if os.path.basename(os.path.dirname(p)) not in ("specs", "proofs") and "/specs/" not in p:
            continue
        with open(p, encoding="utf-8") as f:
            lines = f.read().split("\n")
        inside = None
        for i, l in enumerate(lines):
            l = re.sub(r"(^|\s)--(\s.*)?$", "", l)
            m = re.match(r"^(?:(?:abbrev|opaque|unfoldable|pub|instance)\s+)*(record|data)\s+(%s)" % TOKEN, l)
            if m:
                kinds[m[2]].add("type")
                inside = m[1]
                continue
            m = re.match(r"^(?:(?:abbrev|opaque|unfoldable|pub)\s+)*(%s)\s*:(\s|$)(.*)" % TOKEN, l)
            if m and m[1] != "use":
                sig, j = m[3], i + 1
                while j < len(lines) and lines[j].startswith(" "):
                    sig += " " + lines[j].strip()
                    j += 1
                kinds[m[1]].add("type" if re.search(r"Type\s*(0|1)?\s*$", sig.strip()) else "value")
                inside = None
                continue
            if l and not l.startswith(" "):
                inside = None
            if inside and (m := re.match(r"^\s+(?:pub\s+)?(%s)\s*:(\s|$)" % TOKEN, l)):
                kinds[m[1]].add("field")
    return kinds


def names(root):
    out = {}
    for name, kinds in declared(root).items():
        core = name.replace("◌", "")
        if core in OTHERWISE:
            new = OTHERWISE[core]
        elif kinds == {"type"} and core[:1].isupper():
            continue
        elif core in SYMBOLS or not core:
            continue
        else:
            new = snake(core)
        if new != core:
            out[core] = new
    return out


def inner_names(root):
    """The names that are declared within a module or a lemma; one that would be a definition's gets `_lem`."""
    outer, found = {n.replace("◌", "") for n in declared(root)}, set()
    for p in files(root, ".antt"):
        if os.path.basename(os.path.dirname(p)) in ("specs", "proofs"):
            with open(p, encoding="utf-8") as f:
                for l in f:
                    l = re.sub(r"(^|\s)--(\s.*)?$", "", l.rstrip("\n"))
                    m = re.match(r"^\s+(?:(?:abbrev|opaque|unfoldable|pub)\s+)*(%s)\s*:(\s|$)" % TOKEN, l)
                    if m and m[1][0].islower() and re.search(r"[\w']-[\w']|[a-z][A-Z]", m[1]):
                        found.add(m[1])
                    elif m and re.match(r"(CT|DB|[A-Z])-[a-z]", m[1]):
                        found.add(m[1])
    spelled = collections.Counter(snake(n) for n in found)
    out = {}
    for n in found:
        new = snake(n)
        taken = new in outer or n in ("sameOf", "isRead") or (spelled[new] > 1 and "-" in n)
        out[n] = new + ("_lem" if "-" in n else "_test") if taken else new
    return {k: v for k, v in out.items() if k != v}


def main(argv):
    root = next((a for a in argv if not a.startswith("-")), os.path.dirname(os.path.dirname(os.path.abspath(__file__))))
    if "--inner" not in argv:
        turn_all(root, names(root), argv)
    if "--list" not in argv:
        turn_all(root, inner_names(root), argv)
        plain(root)
    return 0


def plain(root):
    for p in files(root, ".antt"):
        with open(p, encoding="utf-8") as f:
            old = f.read()
        out = old
        for where, what, new in PLAIN:
            if re.search(where, p):
                out = re.sub(what, new, out)
        if out != old:
            with open(p, "w", encoding="utf-8") as f:
                f.write(out)


def turn_all(root, new, argv):
    if "--list" in argv:
        for k, v in sorted(new.items()):
            print(k, v)
        return
    antt = re.compile(r"(?P<dot>\.?)(?P<name>%s)" % TOKEN)
    fields = {n.replace("◌", "") for n, k in declared(root).items() if "field" in k}
    functions = set()
    own = re.compile(r"Rattle\.(%s)\b" % "|".join(sorted(os.listdir(os.path.join(root, "crates")))))
    for p in files(root, ".rt"):
        with open(p, encoding="utf-8") as f:
            functions |= set(re.findall(r"\bfn\s+(\w+)", f.read()))

    def turn(text, path):
        """Below proofs/F/ the names of what Rattle makes of F follow a rule of their own, and stay; names given to modules are turned too."""
        local = {}
        seen = {w.replace("◌", "") for w in re.findall(TOKEN, text)}
        foreign = {w.replace("◌", "") for m, ws in re.findall(r"(?m)^(?:pub )?use ([^\s{]+?)\.?\{([^}]*)\}", text) if not own.match(m) for w in re.findall(TOKEN, ws)}
        for a in re.findall(r"(?m)^use \S+ as (\S+)$", text):
            if a not in new and snake(a) != a:
                local[a] = snake(a) if snake(a) not in {new.get(w, w) for w in seen if w != a} or snake(a) in functions else snake(a) + "_reads"
        inner = bool(re.search(r"/proofs/.+/", path))

        def one(m):
            word = m["name"]
            bare = word.replace("◌", "")
            if bare in local:
                return m["dot"] + local[bare] if not m["dot"] else m[0]
            if bare not in new or bare in foreign:
                return m[0]
            if inner and m["dot"] and (bare not in fields or snake(bare) in functions):
                return m[0]
            return m["dot"] + word.replace(bare, new[bare])

        return antt.sub(one, text)

    for p in files(root, ".antt"):
        with open(p, encoding="utf-8") as f:
            old = f.read()
        out = turn(old, p)
        if out != old:
            with open(p, "w", encoding="utf-8") as f:
                f.write(out)
    # in code only what cannot be a name of the code: a hyphen or a capital within
    code = {k: v for k, v in new.items() if re.search(r"[A-Za-z]-[A-Za-z]|[a-z][A-Z]", k)}
    word = re.compile(r"(?<![\w'-])(%s)(?![\w'-])" % "|".join(re.escape(k) for k in sorted(code, key=len, reverse=True)))
    for p in [*files(root, ".rt"), *files(root, ".edit")]:
        with open(p, encoding="utf-8") as f:
            old = f.read()
        out = word.sub(lambda m: code[m[1]], old)
        if out != old:
            with open(p, "w", encoding="utf-8") as f:
                f.write(out)
    # in the pages only between backticks
    for p in files(root, ".md", ("docs", ".")):
        if "/crates/" in p or "/tests/" in p:
            continue
        with open(p, encoding="utf-8") as f:
            old = f.read()
        out = re.sub(r"`[^`\n]+`", lambda t: word.sub(lambda m: code[m[1]], t[0]), old)
        if out != old:
            with open(p, "w", encoding="utf-8") as f:
                f.write(out)


if __name__ == "__main__":
    raise SystemExit(main(sys.argv[1:]))

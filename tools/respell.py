#!/usr/bin/env python3
"""Spells the repository's own definitions, fields, lemmas and local names in snake case: camelCase and names with dashes get underscores.

usage: tools/respell.py [--check]        at the top of the repository, once, after /opt/rattle/port/port.py

Types and modules keep their capitals, functions of src/ and everything quoted from Rust their names. Names that Rattle makes (goals, steps and
fields behind `c.`, `l.`, `tie.`, `lts.` ..) keep theirs, and so do names that a file imports from a library. LEMMAS has those that would
fall together with another. Turned are the .antt files (code, and names in backquotes in comments), the .rt files (clauses and ghost uses), the
lines `old:` and `new:` of the edits, and names in backquotes in .md pages. --check prints the names and what falls together, and writes nothing.
"""
import collections
import os
import re
import sys

WORD = r"[^\s(){}.;,@\"«»]+"
TOKEN = re.compile(WORD)
DECLARED = re.compile(rf"^\s*(?:(?:pub|abbrev|unfoldable|private)\s+)*({WORD})((?:\s+\{{[^{{}}\n]*\}})*)\s+:(?=\s)")
LET = re.compile(rf"\blet\s+({WORD})\s*[:=]")
PAIR = re.compile(r"\blet\s+\(([^()]*)\)\s*=")
BINDER = re.compile(r"[({]([^(){}:]+?)\s:\s")
LAMBDA = re.compile(r"λ\s+([^.()]*?)\.(?=\s)")
CASE = re.compile(r"[|\[]\s*([^|\[\]↦]*?)\s*↦")
USE = re.compile(r"^\s*(?:pub )?use\s+(\S+?)(?:\.\{([^}]*)\})?(?:\s+as\s+(\S+))?\s*$", re.M)
MADE = re.compile(rf"^\s*(?:(?:pub|abbrev)\s+)*({WORD}) :(?: \{{[^}}]*\}} →)? (?:tie|lts|own|goal|kinds|packed|value)\.", re.M)
CRATES = ("roots", "vectors", "elements", "matrix", "bench", "bench_c", "examples", "replay")

# Lemmas that would get the name of the function that they are about.
LEMMAS = (
    "answer-by answer-of begin-rows bend-at bend-energy block_fixed block_in drape-on drape-part edge-at finite-answer fold-gradients fold-rows free-second good-record "
    "good-seat held-second in-table plus-zero root-units row-at row-times rows-plus rows_on stretch-at stretch-energy stretches-by turn_at vec3-at zero-block"
).split()
OVERRIDES = {n: n.replace("-", "_") + "_lem" for n in LEMMAS}


# Names that port.py has turned in the sources: edits and pages still have the old spelling.
TURNED = (
    "above-half above-zero add-at add-spec add-total after-kept afterOf alike-of all-blocks all-digits all-one all-stay all-three all-two alone- "
    "of and-left and-right and-zero answerOf any-of asked-of at-after at-before at-least at-most at-own below-half bits-are block-at block-fixed "
    "block-in blockAt by-difference by-form by-names by-number by-one by-order by-size by-tests caseAt caseOf clear-spec code-fits copy-spec "
    "count-small doneOf drop-at edgeAt ends-at entryOf enum-told every-append every-drop every-more every-take fill-spec first-alike first-below "
    "fixed-more flat-rows frameAt frameOf from-zero gathered-none getD-part going-on good-new half-is held-at held-first holds-row in-halves in- "
    "place in-rest in-use inTable isEmpty kept-case kept-on later-last leaves-none left-by leftAt length-part length-spec lengthAt lengths-none "
    "lent-alike lentOf load-spec loadOf look-spec make-spec mul-at mul-words new-spec no-edge no-minus no-nan no-number no-test no-tie not- "
    "earlier not-more number-is number-same numberOf numbered-of one-answer one-more one-place one-product one-same one-unit part-same parts- "
    "added pickOf place-after placeOf put-as put-back put-four put-one put-spec put-three putAll rem-is results-fit root-is row-first row-fits "
    "row-of row-same row-within rowAt rows-apart rows-on run-spec same-after same-length same-row same-spec samePair second-none shapeAt shapeBy "
    "shapeOf sign-of some-left static-keeps static-stays stays-by store-spec stored-more stored-row stored-same sub-spec sum-kept table-of table- "
    "same times-zero turn-at turns-more two-products vectorsOf zero-exponent zero-is "
).split()


def snake(name):
    if name in OVERRIDES:
        return OVERRIDES[name]
    s = re.sub(r"(?<=[a-z0-9])([A-Z])", lambda m: "_" + m[1].lower(), name)
    s = re.sub(r"(?<=[\w'])-(?=[\w'])", "_", s)
    return re.sub(r"_+", "_", s)


def turns(name):
    """Whether a name of the repository gets another spelling."""
    head = name.lstrip("+")
    return name in OVERRIDES or bool(re.match(r"[a-z_]", head)) and bool(re.search(r"[a-z0-9][A-Z]|[\w']-[\w']", head)) and snake(name) != name


def files(kinds):
    for top in ("crates", "docs", "tests", "README.md"):
        if os.path.isfile(top):
            yield top
        for folder, dirs, names in os.walk(top):
            dirs[:] = sorted(d for d in dirs if d not in ("out", "target"))
            for n in sorted(names):
                if n.endswith(kinds):
                    yield os.path.join(folder, n)


def read(p):
    with open(p, encoding="utf-8") as f:
        return f.read()


def code_of(line):
    """The part of an antt line before a comment, and the comment."""
    m = re.search(r"(?:^|(?<=\s))--(?=\s|$)", line)
    return (line, "") if not m else (line[: m.start()], line[m.start() :])


def local(code):
    """Names that a line declares or binds."""
    found = []
    m = DECLARED.match(code)
    if m:
        found.append(m[1])
    found += LET.findall(code)
    for part in PAIR.findall(code):
        found += TOKEN.findall(part)
    for part in BINDER.findall(code) + LAMBDA.findall(code) + CASE.findall(code):
        found += [w for w in TOKEN.findall(part)]
    if "=" in code and not m:  # the left side of a clause: its patterns
        found += TOKEN.findall(code.split("=")[0])
    return found


def imported(text):
    """What a file brings in from a library, and its aliases of the repository's own pages."""
    lib, own = set(), set()
    for m in USE.finditer(text):
        path, items, alias = m[1], m[2], m[3]
        mine = re.match(r"Rattle\.(\w+)\.(specs|proofs)", path)
        mine = bool(mine) and mine[1] in CRATES and ".specs.declared" not in path
        page = mine and re.search(r"\.[A-Z]\w*$", path) and not re.search(r"\.(Tie|Lts\S*|Reads|Kinds|Statement|Goals|Given)$", path)
        if items is not None:
            for item in items.split(","):
                words = item.split()
                if words and not mine:
                    lib.update(words)
        elif alias and page:
            own.add(alias)
        elif page:
            own.add(path.split(".")[-1])
    return lib, own


def record_fields():
    """The fields of the repository's own records."""
    found = set()
    for p in files((".antt",)):
        at = None
        for line in read(p).splitlines():
            code, _ = code_of(line)
            if not code.strip():
                continue
            indent = len(code) - len(code.lstrip())
            if at is not None and indent <= at:
                at = None
            if re.match(r"\s*(?:(?:abbrev|pub) )*record .*where\s*$", code):
                at = indent
            elif at is not None and DECLARED.match(code):
                found.add(DECLARED.match(code)[1])
    return found


def gather():
    own = collections.defaultdict(set)
    for p in files((".antt",)):
        text = read(p)
        lib, _ = imported(text)
        made = set(MADE.findall(text))
        for line in text.splitlines():
            code, _c = code_of(line)
            if re.match(r"\s*use\b", code):
                continue
            m = DECLARED.match(code)
            for w in local(code):
                if turns(w) and w not in lib and w not in made and not re.match(r"(returns|loop|Inv|μ)-", w):
                    own[w].add((p, bool(m) and m[1] == w))
    # a name counts as the repository's own only where some line declares or binds it, and not merely where it stands in a pattern or a left side
    return {w: ps for w, ps in own.items() if any(d for _, d in ps) or all(turns(w) for _ in ps)}


def turn_antt(text, own, kept=frozenset()):
    lib, aliases = imported(text)
    made = set(MADE.findall(text))

    def word(m, line, is_use):
        w = m[0]
        if w not in own or w in made:
            return w
        if w in lib and not is_use:
            return w
        before = line[: m.start()]
        if before.endswith(".") and ("-" in w or w in OVERRIDES):
            head = re.search(rf"({WORD})\.$", before)
            if w not in kept and not (head and head[1] in aliases):
                return w
        return snake(w)

    out = []
    for line in text.split("\n"):
        code, comment = code_of(line)
        use = re.match(r"\s*(?:pub )?use\s+(\S+?)\.\{", code)
        if re.match(r"\s*(pub )?use\b", code):
            mine = re.match(r"\s*(?:pub )?use\s+Rattle\.(\w+)\.(specs|proofs)", code)
            if mine and mine[1] in CRATES and ".specs.declared" not in code and use:
                head, items = code.split("{", 1)
                items = TOKEN.sub(lambda m: snake(m[0]) if m[0] in own else m[0], items)
                code = head + "{" + items
        else:
            code = TOKEN.sub(lambda m: word(m, code, False), code)
        comment = re.sub(r"`[^`]*`", lambda s: TOKEN.sub(lambda m: snake(m[0]) if m[0] in own else m[0], s[0].strip("`")).join("``"), comment)
        comment = re.sub(r"(?<![\w`-])[a-z]\w*(?![\w`-])", lambda m: snake(m[0]) if m[0] in own and turns(m[0]) and re.search("[A-Z]", m[0]) else m[0], comment)
        out.append(code + comment)
    return "\n".join(out)


def camel(text, own):
    return re.sub(r"(?<![\w.'-])[a-z]\w*(?![\w'])", lambda m: snake(m[0]) if m[0] in own and re.search("[A-Z]", m[0]) else m[0], text)


def fields(text, own):
    return re.sub(r"(?<=\.)[a-z]\w*(?![\w'])", lambda m: snake(m[0]) if m[0] in own and re.search("[A-Z]", m[0]) else m[0], text)


def turn_edit(text, own):
    out = []
    for line in text.split("\n"):
        m = re.match(r"(old|new): ?(.*)$", line)
        if m:
            line = m[1] + ": " + turn_antt(m[2], own)
            line = fields(camel(line, own), own)
        elif not line.startswith("file:"):
            line = camel(line, own)
        out.append(line)
    return "\n".join(out)


def turn_md(text, own):
    return re.sub(r"`[^`\n]*`", lambda s: TOKEN.sub(lambda m: snake(m[0]) if m[0] in own else m[0], s[0].strip("`")).join("``"), text)


def main(argv):
    own = gather()
    kept = record_fields()
    if any(n.endswith("_lem") for n in TOKEN.findall("\n".join(read(p) for p in files((".antt",))))):
        sys.exit("respell: has run already")
    outside = {**own, **{n: set() for n in TURNED}}
    by_new = collections.defaultdict(set)
    for w in own:
        by_new[snake(w)].add(w)
    every = collections.defaultdict(set)  # plain names that stand already, by file
    where = collections.defaultdict(set)
    for p in files((".antt",)):
        for w in set(TOKEN.findall(read(p))):
            where[w].add(p)
    clashes = []
    for new, olds in sorted(by_new.items()):
        spelled = sorted(olds | ({new} if new in where else set()))
        for i, a in enumerate(spelled):
            for b in spelled[i + 1 :]:
                both = where[a] & where[b]
                if both:
                    clashes.append((new, a, b, sorted(both)))
    if "--check" in argv:
        for w in sorted(own):
            print(w, snake(w))
        for c in clashes:
            print("CLASH", *c[:3], *[x.replace("crates/", "") for x in c[3]][:4])
        print(len(own), "names,", len(clashes), "clashes")
        return 0
    for p in files((".antt", ".rt", ".edit", ".md")):
        old = read(p)
        if p.endswith(".antt"):
            new = turn_antt(old, own, kept)
        elif p.endswith(".rt"):
            new = fields(camel(old, own), own)
        elif p.endswith(".edit"):
            new = turn_edit(old, outside)
        else:
            new = turn_md(old, outside)
        if new != old:
            with open(p, "w", encoding="utf-8") as f:
                f.write(new)
    return 0


if __name__ == "__main__":
    sys.exit(main(sys.argv[1:]))

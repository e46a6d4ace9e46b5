#!/usr/bin/env python3
"""Spells the repository's own definitions, lemmas, fields and constructors as Rattle does: words in snake case.

usage: python3 tools/respell.py          at the top, once, after the kit's port.py

A name of specs/ or proofs/ that has a dash or a capital inside becomes words joined by '_'. Names of types, modules and src/ stay. The crate
`uuid`, whose name is a library's of the kit, becomes `ble_uuid`. must-fail edits are turned with the text that they change.
"""
import glob, os, re, sys

CRATE = {"uuid": "ble_uuid"}
# two names that would fall together: the lemma gets another one
APART = {n: n.replace("-", "_") + "_lem" for n in """coded-heard encrypted-link exchanged-link found-coded fresh-item laid-at
    later-encrypted left-unsound looked-up other-handle other-order other-packet other-store other-value own-store own-tests pair-by part-ok
    last-of right-unsound shape-decodes shorter-output store-tests tail-decodes value-item wider-link""".split()}
TOKEN = re.compile(r"(?<![\w'\-])([a-zA-Zα-ω][\w'\-]*)")

# a lemma that port.py spelled as a definition of the same file will be spelled
FIRST = {"crates/answers/proofs/Premises.antt": {"one_more": "one_more_lem"}}
# what port.py turned in the files, and not in must-fail/ and docs/
TURNED = """allOf answerOf bitsOf bytesOf endOf fieldsOf firstAt firstOf fixedOf formatOf handleOf headOf inRange isRoom itemAt itemsIn itemsOf kindOf
    knownOf laidOf lastOf layoutOf lengthOf lineAt mayRead mayWrite numberAt numberIn numberOf orderBy outOf pairAt pairOf partOf placeOf plainOf
    rankOf readBy readOf readingOf restOf roomFor saidOf seenAt shapeOf shortOf sizeOf slotAt slotOf slotsEnd spaceOf stateOf stepOf textOf turnOf
    typeBy typeBytes typeOf valueAt valueOf widthOf wordOf wordsOf writesOf writtenOf zipWith number-append number-behind number-past kept-at
    laid-out part-cut read-is search-is store-is walk-is lent-back to-the-end past-the-end same-refl sent-means find-none listing-none""".split()


def snake(name):
    name = name.replace("-", "_")
    name = re.sub(r"(?<=[a-z0-9])([A-Z])", lambda m: "_" + m[1].lower(), name)
    return re.sub(r"__+", "_", name)


def own(text):
    """The names that a file of specs/ or proofs/ defines: a signature, a field, a constructor, a `where`'s or a `let`'s."""
    found = set()
    for line in text.split("\n"):
        m = re.match(r"\s*(?:abbrev |unfoldable )?(?:pub )?(?:abbrev )?([a-z][\w'\-]*) :", line)
        if m:
            found.add(m[1])
        for m in re.finditer(r"\blet ([a-z][\w'\-]*) [:=]", line):
            found.add(m[1])
        for m in re.finditer(r"[({]([a-z][\w'\- ]*) :", line):
            found.update(m[1].split())
        for m in re.finditer(r"λ ([a-z][\w'\- ]*)\.", line):
            found.update(m[1].split())
    return {n for n in found if snake(n) != n}


def files(root):
    for pattern in ("specs/*.antt", "proofs/*.antt"):
        yield from sorted(glob.glob(f"{root}/crates/*/{pattern}"))


def walks(root):
    for at, folders, names in os.walk(f"{root}/crates"):
        folders[:] = sorted(f for f in folders if f != "out")
        for n in sorted(names):
            if n.endswith((".antt", ".rt", ".edit")):
                yield f"{at}/{n}"


def turn(text, names, crates):
    def one(m):
        return names.get(m[1], m[1])
    text = TOKEN.sub(one, text)
    for old, new in crates.items():
        text = re.sub(rf"(?<![\w.:]){old}::(?!{old}::)", f"{new}::", text)
        text = re.sub(rf"\bRattle([.·]){old}(?=[.·])", rf"Rattle\1{new}", text)
    return text


def edit_line(line):
    """A line of an edit of specs/ in the spelling that port.py gives a file: a projection tight, an operator's holes round."""
    line = re.sub(r"\((\w+(?: \.\w+)+)\)", r"\1", line)
    line = re.sub(r"(?<=[\w)]) \.(?=[a-z])", ".", line)
    line = re.sub(r"(?<![\w'])_([^\w\s_]+)_(?![\w'])", r"◌\1◌", line)
    return re.sub(r"Rattle·(\w+)", r"Rattle.\1", line)


def main(root):
    names = {}
    for f in files(root):
        with open(f, encoding="utf-8") as it:
            names.update({n: APART.get(n, snake(n)) for n in own(it.read())})
    edits = {**names, **{n: snake(n) for n in TURNED}}
    for old, new in CRATE.items():
        os.rename(f"{root}/crates/{old}", f"{root}/crates/{new}")
        path = f"{root}/crates.txt"
        with open(path, encoding="utf-8") as it:
            text = it.read()
        with open(path, "w", encoding="utf-8") as it:
            it.write("\n".join(x if x.startswith("#") else re.sub(rf"\b{old}\b", new, x) for x in text.split("\n")))
    for f in walks(root):
        with open(f, encoding="utf-8") as it:
            text = it.read()
        turned = text
        for old, new in FIRST.get(os.path.relpath(f, root), {}).items():
            turned = turn(turned, {old: new}, {})
        turned = turn(turned, edits if f.endswith(".edit") else names, CRATE)
        if f.endswith(".edit") and "file: specs/" in turned:
            turned = "\n".join(edit_line(x) if x.startswith(("old: ", "new: ")) else x for x in turned.split("\n"))
        if turned != text:
            with open(f, "w", encoding="utf-8") as it:
                it.write(turned)
    # the pages name definitions between backquotes
    for f in sorted(glob.glob(f"{root}/docs/*.md")) + [f"{root}/README.md"]:
        if os.path.basename(f) in ("01-scope.md", "02-change-requests.md"):
            continue
        with open(f, encoding="utf-8") as it:
            text = it.read()
        turned = re.sub(r"`[^`\n]+`", lambda m: turn(m[0], edits, {}), text)
        if turned != text:
            with open(f, "w", encoding="utf-8") as it:
                it.write(turned)
    for n in sorted(names):
        print(n, names[n])


if __name__ == "__main__":
    main(os.getcwd())

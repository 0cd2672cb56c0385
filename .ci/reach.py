"""The items of the crates that a proof can depend on, by names: of sources, definitions and lemmas, each with the names that it declares and the words that it
has.

A function is proved by its own contract and body, and by the contracts, types, constants, definitions and lemmas that these name, and that those name in turn.
So other text can affect a proof only if it is reached by a name. A word by itself reaches the items that its own file declares, or imports by a `use` line. A
word in a `use` line, or after a dot or two colons, reaches every item that declares it, in any module: a field, a method and a module's item of one name
alike. So more is reached than is meant, never less. The limit is which text can name an item at all. No crate can name an item of a crate above it. A function
that isn't `pub` can be named only in its own crate. One without any `pub`, and a definition or a `use` line without it, can be named only in its own module and
those inside it. A line that imports a name by its complete path, `Rattle.CRATE.` and so on, names only an item that this crate declares or imports. Functions
and macros are named only in text that can call them: in the bodies that the edit changes, in macros, constants, and attributes that a derive reads, and in
`use` lines that lead there. The same holds for `use` lines of sources whose name is, in all sources, that of functions or macros alone. No clause and no
definition can name one (CONTRACTS.md, "Clauses": constants, types, variants and members of traits), except through the modules that the kit makes of it,
`Rattle.CRATE.specs.contracts` and `Rattle.CRATE.proofs`: a file that has such a path can.

Items are, without the tactics that they are proved by: the signature and contract of one function, with the head of the `impl` that it is in; a type with its
fields, variants and ghost lines; a trait; a constant; a complete macro; each name that a `use` line brings; a `mod` line; and of definitions and of shared
proofs each declaration with its equations, a block `module` or `mutual` as one. Of a declaration whose equations are hidden outside of it, as a lemma's are,
only its type: "a definition's clauses are shut to everything", except for `abbrev`, for `unfoldable`, and for the names that its module or one below it has in an
`unfolding` (antt/docs/primer-language.md, section 4.11). An `enum` or `data` is reached by its variants as well, a trait by its methods, an operator by each of
its parts. A record isn't reached by its fields: text that has a value of it uses an item that names its type.

Items that have an effect without being named, and how they are reached:
  an `impl` of a trait (operators, `?`, `for`, drop, `Model`, derived functions call it) if the type that it is for is reached, since a value of a type
    comes only from an item that names the type; an `impl` for types that the crates don't declare if its trait is reached; else, and for an alias, always;
  the lines `#![..]` of a source, and a `mod` line with a tactic, which name lemmas for all functions below them: always;
  a call of a macro among items, a glob, and text that this script can't read: always, and with a glob each word of its file reaches any item;
  a proof in a folder that begins with a +, by which several functions terminate: always;
  the words of a macro reach the items that any file declares, since they have the meaning of the place of the call; but not the names that a file of definitions imports for itself.
No lemma or definition has an effect unnamed. By the kit's pages the tactics take the hypotheses and their list (antt/docs/primer-tactics.md, section 4.10: "the
hypotheses, the lemmas of `L` and the members of the sets that it names"; a `ruleset` "is its list and nothing more"). If a goal has no answer,
`tactic(auto)` tries `search rules` and `grind` with sets of std alone, with the names in `using(..)` and `unfolding(..)` of its attribute
(SHORTER_PROOFS.md, "How to get proofs to close"). Hypotheses are facts of the context: contracts of the called functions, and invariants of types.
"""
import functools
import hashlib
import os
import re
from collections import defaultdict, namedtuple

# an item: its file, the names that it declares, its text, who can name it; whether it is always reached; whether each of its words can name what other files
# have; whether it can name functions; the name of the type, the trait or the alias that it is, or that it is a function or a macro; and of an `impl` of a
# trait the words of its type and of its trait
Item = namedtuple("Item", "file names text sight always wide calls type impl", defaults=(False, False, False, "", ()))
FUNCTION = "()"
# who can name an item: every crate above too; its crate; its own file and those below it
WORLD, CRATE, FILE = "world", "crate", "file"
# of a macro: its words mean what they mean where it is called
ANYWHERE = "anywhere"

# what stands between names, in definitions
BETWEEN = re.compile(r"[\s(){}.;,@\"«»]+")
BROUGHT = re.compile(r"\buse\b([^;]*)")
# a line that brings names of one crate by their whole path
BY_PATH = re.compile(r"(?:\b(?:pub|ghost)\s+)*\buse\s+Rattle\.(\w+)(\.[^;*\n]*)(?:;|$)", re.MULTILINE)
AFTER = re.compile(r"(?:\.|::)([^\s(){}.;,@\"«»]+)")
PARTS = re.compile(r"[◌\[\]:|=×→↦]+")
PLAIN = re.compile(r"\w+")


@functools.cache
def parts_of(word):
    """A name with each part of it, if it is an operator, and each plain word inside it, if it is put together."""
    return frozenset(it for it in (word, *PARTS.split(word), *PLAIN.findall(word)) if it)


def split(text):
    """The words of a text, with the parts of each."""
    return frozenset().union(*map(parts_of, set(BETWEEN.split(text))))


def words_of(text):
    """The words by which a text can name something; which of these stand after a dot or two colons, or in a `use`; and apart from these, by crates, those of
    lines that bring names of one crate by whole paths."""
    others, paths = BY_PATH.sub("", text), defaultdict(frozenset)
    for crate, said in BY_PATH.findall(text):
        paths[crate] |= split(said)
    after = frozenset().union(*map(parts_of, set(AFTER.findall(others))))
    return split(text), after.union(*(split(said) for said in BROUGHT.findall(others))), paths


def declared(names):
    """Names as items declare them: with the parts of an operator."""
    return frozenset(part for name in names for part in (name, *PARTS.split(name)) if part)


# ---- sources

ATTRIBUTE = re.compile(r"\s*#\[")
# the head of an item, after its attributes
HEAD = re.compile(
    r"\s*(?:ghost\s+)?(pub\s*(?:\([^)]*\))?\s+)?(?:ghost\s+)?(?:(?:default|unsafe|async|extern\s*\S*|const(?=\s+(?:unsafe\s+)?fn))\s+)*"
    r"(use|mod|fn|struct|enum|union|trait|impl|const|static|type|macro_rules)\b!?\s*(\w*)"
)
# how the functions of an item are proved themselves, by which no other is
TACTIC = re.compile(r"#\[\s*tactic\((?:[^()]|\([^()]*\))*\)\s*\]\s*")
# an attribute by which a derived function may call one
CALLING = re.compile(r"#\[\s*(?!derive\b|tactic\b|repr\b|must_use\b|non_exhaustive\b|cfg\b|allow\b)\w")
INNER_NAME = re.compile(r"\b(?:fn|struct|enum|union|trait|const|static|type|mod|ghost|macro_rules!)\s+(?:mut\s+)?(\w+)")


def cut(masked, begin, end, indent):
    """The ranges of the items between two places of a source whose comments and quoted texts are blanked: each begins at the margin, with its attributes."""
    starts, depth, at, is_open = [], 0, begin, False
    while at < end:
        stop = masked.find("\n", at, end)
        stop = end if stop < 0 else stop
        line = masked[at:stop]
        if depth == 0 and len(line) - len(line.lstrip(" ")) == indent and re.match(r"\s*(?:[^\W\d]|#)", line) and not re.match(r"\s*where\b", line):
            if not is_open:
                starts.append(at)
            is_open = bool(ATTRIBUTE.match(line))
        elif depth == 0 and line.strip() and not re.match(r"\s*[\]})]", line):
            is_open = False
        depth += sum(line.count(it) for it in "([{") - sum(line.count(it) for it in ")]}")
        at = stop + 1
    first = starts[0] if starts else end
    parts = [*zip(starts, [*starts[1:], end])]
    return [(begin, first)] + parts if masked[begin:first].strip() else parts


def fields_of(masked):
    """The names of the fields and ghost lines of a type, or of its variants."""
    begin = masked.find("{")
    if begin < 0:
        return []
    names, depth, piece = [], 0, ""
    for sign in masked[begin:] + ",":
        depth += (sign in "([{") - (sign in ")]}")
        if depth <= 1 and sign in ",;}":
            piece = re.sub(r"#\s*$", "", piece.replace("#", " "))
            found = re.match(r"[\s{]*(?:pub\s*)?(?:ghost\s+(?:use\b)?\s*)?(\w+)", piece)
            names += [found[1]] if found else []
            piece = ""
        elif depth == 1 and sign not in ")]}":
            piece += sign
        elif depth == 1:
            piece += " "
    return names


def leaves(masked):
    """The names that a `use` line brings, each with the line that would bring it alone; and whether it brings all of a module."""
    text = re.sub(r"\s+", " ", masked).strip()
    found = re.match(r"(.*?\buse )(.*?);?$", text)
    head, said, has_glob = found[1], [], False

    def walk(path, tree):
        nonlocal has_glob
        parts, depth, piece = [], 0, ""
        for sign in tree + ",":
            depth += (sign == "{") - (sign == "}")
            if sign == "," and depth == 0:
                parts.append(piece.strip())
                piece = ""
            else:
                piece += sign
        for part in filter(None, parts):
            group = re.match(r"(.*?)(?:::|\.)?\{(.*)\}$", part)
            if group:
                walk([*path, group[1]], group[2])
                continue
            has_glob |= part.endswith("*") and not re.search(r"[◌\w]\*|\*◌", part)
            name, _, other = part.partition(" as ")
            last = re.split(r"::|\.", name)[-1].strip()
            last = re.split(r"::|\.", path[-1])[-1] if last == "self" and path else last
            said.append((declared({last, other.strip()} - {""}), " ".join([head.strip(), *path, part])))

    walk([], found[2])
    return said, has_glob


def header_words(header, renamed):
    """The words of the trait and of the type of an `impl`'s head, without the parameters of the `impl`; of the trait none where it is of none. Beside a name
    that a `use` line gave stands the name that it is for."""
    text = re.sub(r"\s+", " ", header).replace("->", "  ")
    text = text[re.search(r"\bimpl\b", text).end() :].lstrip()
    params = set()
    if text.startswith("<"):
        depth = 0
        for at, sign in enumerate(text):
            depth += (sign == "<") - (sign == ">")
            if depth == 0:
                params = set(re.findall(r"(?:^<|,)\s*(?:const )?(\w+)", text[: at + 1]))
                text = text[at + 1 :]
                break
    depth, cut_at, end = 0, None, len(text)
    for at, sign in enumerate(text):
        depth += (sign in "<([") - (sign in ">)]")
        if depth == 0 and text.startswith(" for ", at) and cut_at is None:
            cut_at = at
        if depth == 0 and text.startswith(" where ", at):
            end = at
            break
    trait, kind = ("", text[:end]) if cut_at is None else (text[:cut_at], text[cut_at + 5 : end])
    words = lambda it: [name for word in re.findall(r"(?<!')\b\w+", it) if word not in params for name in (word, *renamed.get(word, ()))]
    return words(trait), words(kind)


def items_of_source(file, text, masked, made, code):
    """The items of a source. `made` takes the bodies of functions from a text, and `code` its comments."""
    found, renamed = [], defaultdict(list)
    for name, other in re.findall(r"(\w+)\s+as\s+(\w+)", masked):
        renamed[other].append(name)

    def add(names, text, sight, always=False, wide=False, calls=False, type="", impl=()):
        text = code(text) if always else TACTIC.sub("", code(text))
        found.append(Item(file, declared(names), text, sight, always, wide or always, calls or always, type, impl))

    def named(begin, end, within=""):
        # the attributes are no part of the head
        at = begin
        while ATTRIBUTE.match(masked, at):
            depth, at = 0, masked.find("[", at)
            while at < end:
                depth += (masked[at] == "[") - (masked[at] == "]")
                at += 1
                if depth == 0:
                    break
        whole, bare = text[begin:end], masked[at:end]
        head = HEAD.match(bare)
        if not code(whole):
            return
        if not head:
            add(INNER_NAME.findall(bare), whole, WORLD, always=True)
            return
        sight = FILE if not head[1] else WORLD if head[1].strip() == "pub" else CRATE
        kind, name = head[2], head[3]
        attributes = text[begin:at]
        if kind == "use":
            its, has_glob = leaves(bare)
            attributes = code(attributes)
            calls = not re.match(r"\s*(?:pub\s*)?ghost\b", bare)
            found.extend(Item(file, names, f"{attributes} {line}".strip(), sight, has_glob, True, calls) for names, line in its)
        elif kind == "mod":
            add([name, *INNER_NAME.findall(bare)], whole, CRATE if sight == FILE else sight, always=bool(re.search(r"\btactic\b", attributes)))
        elif kind == "macro_rules":
            add([name], whole, WORLD, wide=ANYWHERE, calls=True, type=FUNCTION)
        elif kind in ("struct", "enum", "union"):
            derived = [f"{name}{it}" for part in re.findall(r"derive\(([^)]*)\)", attributes) for it in PLAIN.findall(part)]
            add([name, *(fields_of(bare) if kind == "enum" else []), *derived], whole, WORLD, calls=bool(CALLING.search(code(whole))), type=name)
        elif kind == "trait":
            add([name, *INNER_NAME.findall(bare)], made(whole), WORLD, type=name)
        elif kind == "type":
            add([name], whole, WORLD, type=f"={name}")
        elif kind in ("const", "static"):
            add([name, *INNER_NAME.findall(bare)], within + whole, WORLD, calls=True)
        elif kind == "impl":
            implemented(begin, at, end)
        else:
            add([name], within + made(whole), sight, type=FUNCTION if kind == "fn" else "")

    def implemented(begin, at, end):
        opening = masked.find("{", at, end)
        opening = end if opening < 0 else opening
        trait, kind = header_words(masked[at:opening], renamed)
        if trait:
            add([f"{kind[-1] if kind else ''}{trait[-1]}", f"{next(iter(kind), '')}{trait[0]}"], made(text[begin:end]), WORLD, impl=(kind, trait))
            return
        header = text[begin : opening + 1]
        closing = masked.rfind("}", opening, end)
        for first, last in cut(masked, masked.find("\n", opening) + 1 if "\n" in masked[opening:end] else opening + 1, closing, 4):
            part = masked[first:last]
            if re.match(r"\s*ghost\s+(?!use\b|fn\b|const\b)", part):
                add(kind, text[first:last], WORLD)
            else:
                named(first, last, header + "\n")

    for begin, end in cut(masked, 0, len(text), 0):
        if re.match(r"\s*#!", masked[begin:end]):
            add([], text[begin:end], WORLD, always=True)
        else:
            named(begin, end)
    return found


# ---- definitions and lemmas

MARKS = r"(?:(?:pattern|unfoldable|abbrev|opaque|open|axiom|pub)\s+)*"
TYPE = re.compile(rf"({MARKS})(?:data|record|ruleset)\s+(?:pub\s+)?([^\s(){{}}.;,@\"]+)")
VALUE = re.compile(rf"({MARKS})([^\s(){{}}.;,@\"]+)(?:\s+\{{[^}}]*\}})?(?:\s*$|\s+:(?:\s|$))")
BLOCK = re.compile(rf"({MARKS})(?:module|mutual)\b")
INSIDE = re.compile(rf"\s+{MARKS}(?:(?:data|record|ruleset)\s+(?:pub\s+)?(\S+)|([^(){{}}.;,@\"]+?)(?:\s+\{{[^}}]*\}})?\s+:(?:\s|$))")


def inside(lines):
    """The names that the lines of a block, or of a type, declare."""
    heads = ((it[1] or it[2]).split() for it in map(INSIDE.match, lines[1:]) if it)
    return [name for names in heads if not {"=", "→", "λ", "|", "↦"} & set(names) for name in names if name != ":"]


def statement(lines):
    """A declaration without its equations, which are shut outside of it."""
    end = next((at for at, line in enumerate(lines) if at and not line[0].isspace() or re.match(r"\s*unfolding\b", line)), len(lines))
    return "\n".join(it.rstrip() for it in lines[:end])


def items_of_definitions(file, text, is_always, is_parent):
    """The items of a file of definitions or lemmas. That of a parent can be unfolded in the modules below it."""
    groups = []
    for line in text.split("\n"):
        if not line.strip():
            continue
        is_outer = not line[0].isspace()
        is_head = is_outer and bool(BLOCK.match(line) or TYPE.match(line) or VALUE.match(line) or re.match(rf"{MARKS}(?:use|mod|infix[lr]?|open)\s", line))
        if is_head or not groups:
            groups.append([line])
        else:
            groups[-1].append(line)
    found, unfolded = [], set(re.findall(r"[^\s,();]+", " ".join(re.findall(r"\bunfold(?:ing)?\b([^\n]*)", text))))
    for lines in groups:
        whole, head = "\n".join(it.rstrip() for it in lines), lines[0]
        brought = re.match(rf"{MARKS}use\s", head)
        sight = WORLD if re.search(r"\bpub\b", re.match(MARKS, head)[0]) else FILE
        if is_always:
            found.append(Item(file, frozenset(), whole, WORLD, True, True, True))
        elif brought:
            its, has_glob = leaves(whole)
            found += [Item(file, names, line, sight, has_glob, True) for names, line in its]
        elif re.match(rf"{MARKS}mod\s", head):
            found.append(Item(file, declared([head.split()[-1]]), whole, WORLD))
        elif re.match(r"infix[lr]?\s", head):
            found.append(Item(file, declared(head.split()[2:]), whole, WORLD))
        elif BLOCK.match(head):
            found.append(Item(file, declared(inside(lines)), whole, WORLD))
        else:
            kind = TYPE.match(head)
            it = kind or VALUE.match(head)
            if not it or re.match(rf"{MARKS}open\s", head):
                found.append(Item(file, frozenset(), whole, WORLD, True, True, True))
                continue
            names = [it[2]]
            if not kind and not re.search(r"\b(?:abbrev|unfoldable|axiom|pattern)\b", head[: it.start(2)]) and it[2] not in unfolded and not is_parent:
                whole = statement(lines)
            if kind and not re.match(rf"{MARKS}record\s", head):
                names += inside(lines)
            found.append(Item(file, declared(names), whole, WORLD if re.search(r"\bpub\b", head[: it.start(2)]) else FILE))
    return found


# ---- what is reached

# a crate whose inner names a text can name by their whole paths: what the kit makes of its contracts and its functions' proofs
INWARD = re.compile(r"\bRattle\.(\w+)(?!\w|\.specs\.(?!contracts\b)\w|\.proofs\.[A-Z])")


def inward(text):
    """The crates whose inner names a text can name."""
    return frozenset(INWARD.findall(text))


def chain(file):
    """The files whose private names a file sees: its own, and those of the modules that it is in."""
    base, end = os.path.splitext(file)
    parts = base.split("/")
    found = [file]
    for count in range(len(parts) - 1, 0, -1):
        above = "/".join(parts[:count])
        found += [f"{above}{end}", *(f"{above}/{name}{end}" for name in ("mod", "lib", "main", "Lib"))]
    return found


def places_in(found):
    """The places of a set of items, from the first on."""
    signs, places = bin(found)[:1:-1], []
    at = signs.find("1")
    while at >= 0:
        places.append(at)
        at = signs.find("1", at + 1)
    return places


def brings_of(it):
    """The names that an item brings, if it is of a `use` line of a source, which brings no ghost."""
    return it.names if it.file.endswith(".rt") and re.match(r"(?:pub\s*(?:\([^)]*\))?\s+)?use\b", it.text) else frozenset()


def called_alone(items):
    """The names that sources declare of functions and macros alone."""
    functions, others = set(), set()
    for it in items:
        if it.file.endswith(".rt") and not re.search(r"\buse\b", it.text.split("\n")[0]):
            (functions if it.type == FUNCTION else others).update(it.names)
    return functions - others


class Reach:
    """All items of the crates, and which of them texts reach."""

    def __init__(self, items, below):
        """`items` are those of each crate, and `below` the crates below each."""
        self.items, self.below, self.of_crate, self.seen = [], below, {}, {}
        for crate, its in items.items():
            self.of_crate[crate] = ((1 << len(its)) - 1) << len(self.items)
            self.items += [(crate, it) for it in its]
        types = {it.type for _, it in self.items} - {"", FUNCTION}
        called = called_alone(it for _, it in self.items)
        self.world, self.crate, self.local, self.inner, self.own, self.macros, self.any = (defaultdict(int) for _ in range(7))
        self.globs, self.merged = set(), {}
        self.implemented, self.always, self.functions, self.opened = defaultdict(int), 0, 0, defaultdict(set)
        for at, (crate, it) in enumerate(self.items):
            self.opened[crate, it.file] |= inward(it.text)
            bit = 1 << at
            self.always |= bit if it.always else 0
            self.functions |= bit if it.type == FUNCTION or brings_of(it) & called else 0
            if it.impl:
                self.give_impl(bit, it, types)
            if it.always and re.search(r"\buse\b", it.text):
                self.globs.add((crate, it.file))
            for name in it.names:
                self.own[name, crate, it.file] |= bit
                # a line that brings a name into a file of definitions, for this file alone, is named by no macro
                self.any[name] |= 0 if it.sight == FILE and it.text.startswith("use ") and it.file.endswith(".antt") else bit
                if it.file.endswith(".rt"):
                    self.inner[name, crate] |= bit
                if it.wide == ANYWHERE:
                    self.macros[name, crate if "macro_export" not in it.text else ""] |= bit
                if it.sight == WORLD:
                    self.world[name, crate] |= bit
                elif it.sight == CRATE:
                    self.crate[name, crate] |= bit
                else:
                    self.local[name, crate, it.file] |= bit
        self.next, self.sums, self.closures = [None] * len(self.items), {}, {}

    def give_impl(self, bit, it, types):
        """Notes by which names an `impl` of a trait is reached: its type's, or its trait's where the type is none of the crates'."""
        for words in it.impl:
            if any(f"={word}" in types for word in words):
                break
            known = [word for word in words if word in types]
            for word in known:
                self.implemented[word] |= bit
            if known:
                return
        self.always |= bit

    def named(self, text, crate, file, wide=False, calls=False):
        """The items that a text of a file can name: those of its own file and what its `use` lines bring by each word, and any by a word after a dot or two
        colons. By each word any, where the text is `wide`. Functions only where the text `calls` any."""
        words, after, paths = words_of(text)
        if wide == ANYWHERE:
            return functools.reduce(lambda found, word: found | self.any.get(word, 0) | self.implemented.get(word, 0), words, 0)
        # a line of that kind by itself names no more
        wide = (wide or (crate, file) in self.globs) and not BY_PATH.fullmatch(text)
        found, files, crates, is_source = 0, chain(file), [crate, *self.below[crate]], file.endswith(".rt")
        for word in words:
            found |= self.implemented.get(word, 0) | self.own.get((word, crate, file), 0)
            if is_source:
                found |= self.macros.get((word, crate), 0) | self.macros.get((word, ""), 0)
        for word in words if wide else after:
            if (word, crate) not in self.merged:
                self.merged[word, crate] = self.crate.get((word, crate), 0)
                for it in crates:
                    self.merged[word, crate] |= self.world.get((word, it), 0)
            found |= self.merged[word, crate]
            for it in files:
                found |= self.local.get((word, crate, it), 0)
        # of a path what its crate declares, or brings itself; nothing of these crates, where it is one of the kit's
        for of, said in paths.items():
            for word in said if of in crates else ():
                found |= self.world.get((word, of), 0)
                if of == crate:
                    found |= self.crate.get((word, crate), 0)
                    for it in files:
                        found |= self.local.get((word, crate, it), 0)
        if not calls:
            found &= ~self.functions
        # what a source hides, and functions, through what the kit makes of them
        for it in self.opened.get((crate, file), frozenset()) | inward(text):
            for word in words:
                found |= self.inner.get((word, it), 0)
        return found

    def seen_from(self, crate):
        """The items of a crate, and of those below it."""
        if crate not in self.seen:
            self.seen[crate] = self.of_crate[crate] | self.below_of(crate)
        return self.seen[crate]

    def below_of(self, crate):
        """The items of the crates below one."""
        found = 0
        for it in self.below[crate]:
            found |= self.of_crate[it]
        return found

    def closed(self, found, crate, known=0):
        """All items that are reached from these, as seen from a crate; without those that are known, whose own are known too."""
        if not known and (found, crate) in self.closures:
            return self.closures[found, crate]
        seen, done = self.seen_from(crate) & ~known, 0
        left = (found | self.always) & seen
        while left:
            done |= left
            more = 0
            for at in places_in(left):
                if self.next[at] is None:
                    of, it = self.items[at]
                    self.next[at] = self.named(it.text, of, it.file, it.wide, it.calls)
                more |= self.next[at]
            left = more & seen & ~done
        if not known:
            self.closures[found, crate] = done
        return done

    def sum(self, found):
        """A sum of items, each of its crate, its file and its text."""
        if found not in self.sums:
            said = (self.items[at] for at in places_in(found))
            self.sums[found] = hashlib.sha256("\0".join(f"{of}/{it.file}\0{it.text}" for of, it in said).encode()).hexdigest()
        return self.sums[found]

"""Must-fail edits as files: the content of each, the text that it makes, and the function that it changes.

An edit is a file `crates/NAME/must-fail/X.edit` of lines:

    # SENTENCE           the wrong body, in a sentence; the first line
    file: src/F.rt       the file that the pairs below change
    old: TEXT            a text that occurs once in the file
    new: TEXT            the wrong text in its place
    right: TEXT          the right text in its place, of the shape of the wrong one: the right twin, which the prover must prove
    stands: WHY          why the edit is valid although no clause of its own function refuses it, or although it has no right twin

Further pairs apply to what the earlier ones made. A pair without `right:` has the text of `new:` in the twin too.
"""
import functools
import glob
import hashlib
import os
import re
from collections import namedtuple

import reach

# a change of a file's text: the file, the text, what it becomes in the wrong body, and in the right twin
Pair = namedtuple("Pair", "file old new right")
# what an edit's file says
Edit = namedtuple("Edit", "path name sentence pairs stands")
# a function that an edit stands in: its file, its name, its first and last line, and the folder of its proof by hand, if it has one
Place = namedtuple("Place", "file name first last proof")

FUNCTION = re.compile(r"(?m)^([ \t]*)(?:pub(?:\([a-z]+\))? )?(?:const )?fn (\w+)")
# the head of the functions of a type, with the trait that they are of, if they are of one
IMPL = re.compile(r"(?m)^impl(?:<[^{]*?>)? (?:(\w+)(?:<[^{]*?>)? for )?(?:&?(?:'\w+ )?)(\w+)")
# what gives a body another shape, where a text has more of it than the text before it
SHAPES = (r"\bfn\b", r"\bif\b", r"\bmatch\b", r"\bfor\b", r"\bwhile\b", r"\bloop\b", r"\breturn\b", r"\?", r"\|\w*\|", r"\w!?\(")


class BadEdit(Exception):
    """An edit that can't be applied; says why."""


def text_of(path):
    with open(path, encoding="utf-8") as it:
        return it.read()


def pairs_in(lines):
    """The pairs of an edit's lines."""
    file, old, pairs = "", None, []
    for line in lines:
        word, _, rest = line.partition(":")
        rest = rest.removeprefix(" ")
        if word == "file":
            file = rest.strip()
        elif word == "old":
            old = rest
        elif word == "new":
            if not file or old is None:
                raise BadEdit("a 'new:' line stands before any 'file:' or 'old:' line")
            pairs.append(Pair(file, old, rest, None))
            old = None
        elif word == "right":
            if not pairs or pairs[-1].right is not None:
                raise BadEdit("a 'right:' line doesn't follow a 'new:' line")
            pairs[-1] = pairs[-1]._replace(right=rest)
    if not pairs:
        raise BadEdit("it has no 'old:' and 'new:' pair")
    return pairs


def read(path):
    """Reads an edit's file."""
    lines = text_of(path).split("\n")
    sentence = lines[0][2:].strip() if lines[0].startswith("# ") else ""
    stands = next((line[len("stands:") :].strip() for line in lines if line.startswith("stands:")), "")
    return Edit(path, os.path.basename(path), sentence, pairs_in(lines), stands)


def has_twin(edit):
    return any(pair.right is not None for pair in edit.pairs)


def applied(edits, folder, is_right=False):
    """The texts of a crate's files, by their path in it, where these edits, or their right twins, are made in turn."""
    texts = {}
    for pair in (pair for edit in edits for pair in edit.pairs):
        if os.path.normpath(pair.file) != pair.file or not pair.file.startswith("src/"):
            raise BadEdit("a 'file:' line names no file below src/: an edit of a definition or a proof shows nothing")
        if not os.path.isfile(f"{folder}/{pair.file}"):
            raise BadEdit(f"there is no file {pair.file}")
        text = texts.setdefault(pair.file, text_of(f"{folder}/{pair.file}"))
        if text.count(pair.old) != 1:
            raise BadEdit(f"an 'old:' text is in {pair.file} {text.count(pair.old)} times, and not once")
        new = pair.right if is_right and pair.right is not None else pair.new
        texts[pair.file] = text.replace(pair.old, new)
    if not is_right and all(text_of(f"{folder}/{file}") == text for file, text in texts.items()):
        raise BadEdit("it changes nothing")
    return texts


def owner_of(text, start):
    """The names by which the proofs know the type that a function at this place is of: the type's, and with a trait's behind it; or none."""
    heads = [*IMPL.finditer(text[:start])]
    if not heads or re.search(r"(?m)^\}", text[heads[-1].end() : start]):
        return ()
    trait, name = heads[-1][1], heads[-1][2]
    return (f"{name}{trait}",) if trait else (name,)


def proof_of(folder, file, text, start, name):
    """The folder of a function's proof by hand, in its crate, or nothing."""
    module = file.removeprefix("src/").removesuffix(".rt").removesuffix("/mod")
    module = "" if module in ("lib", "main") else f"{module}/"
    forms = [f"**/{it}/{name}" for it in owner_of(text, start)] or [f"{module}{name}"]
    found = [it for form in forms for it in glob.glob(f"{folder}/proofs/{form}", recursive=True) if os.path.isdir(it)]
    return os.path.relpath(found[0], folder) if len(found) == 1 else ""


def body_of(text, start, indent):
    """Where the body of a function at this place begins and where it ends, behind its braces; or nothing where it has none, or an empty one."""
    line = re.compile(r"(?m)^.*$").match(text, text.rfind("\n", 0, start) + 1)
    # how many braces of a clause are open: a clause may have several lines, and end one with a brace
    depth = 0
    while line:
        is_clause = depth > 0 or re.match(r"\s*(?:requires|ensures)\b", line[0])
        depth += line[0].count("{") - line[0].count("}") if is_clause else 0
        if not is_clause and line[0].endswith("{"):
            break
        if depth == 0 and (line[0].endswith(";") or line[0].strip() == "{}") or line.end() == len(text):
            return None
        line = re.compile(r"(?m)^.*$").match(text, line.end() + 1)
    end = re.compile(rf"(?m)^{indent}\}}$").search(text, line.end()) if line else None
    return (line.end(), end.end()) if end else None


def place_of(folder, pair):
    """The function in whose body a pair's text stands, or None where it stands elsewhere."""
    if not os.path.isfile(f"{folder}/{pair.file}"):
        return None
    text = text_of(f"{folder}/{pair.file}")
    at = text.find(pair.old)
    begun = [*FUNCTION.finditer(text[: at + 1])]
    if at < 0 or not begun:
        return None
    indent, name, start = begun[-1][1], begun[-1][2], begun[-1].start()
    body = body_of(text, start, indent)
    if not body or not body[0] < at < body[1]:
        return None
    line = lambda where: text.count("\n", 0, where) + 1
    return Place(pair.file, name, line(start), line(body[1]), proof_of(folder, pair.file, text, start, name))


def places_of(folder, edit):
    """The functions in whose bodies an edit stands, or none where a part of it stands elsewhere, or is a function of its own."""
    places = [place_of(folder, pair) for pair in edit.pairs]
    if not all(places) or any(re.search(r"\bfn\b", pair.old + pair.new) for pair in edit.pairs):
        return frozenset()
    return frozenset(places)


def changes_shape(edit):
    """Whether an edit's new texts have a function, a branch, a loop, a way out, a closure or a call more than the old ones."""
    count = lambda form, text: len(re.findall(form, text))
    return any(sum(count(it, pair.new) - count(it, pair.old) for pair in edit.pairs) > 0 for it in SHAPES)


def asks_for_twin(folder, edit):
    """Whether an edit shows something only beside a right twin: it stands in a function with a proof by hand, adds a helper, or changes a shape."""
    return changes_shape(edit) or any(place and place.proof for place in (place_of(folder, pair) for pair in edit.pairs))


def edits_of(folder):
    """The edits of a crate, and of the others why they are none."""
    good, bad = [], []
    for path in sorted(glob.glob(f"{folder}/must-fail/*")):
        try:
            if not re.fullmatch(r"[A-Za-z0-9_-][A-Za-z0-9_.-]*\.edit", os.path.basename(path)):
                raise BadEdit("its name is of letters, digits, _, - and . and ends in .edit")
            good.append(read(path))
        except BadEdit as why:
            bad.append((os.path.basename(path), str(why)))
    return good, bad


# ---- what the verdict on an edit rests on

# a proof of a single function, by which no other function is proved, in a folder of the function's name; a module of lemmas may have this name too, right in
# proofs/, and what several functions that call each other go down by stands in a folder that begins with a +
OWN_PROOF = re.compile(r"proofs/(?:[^/]+/)*[^/+][^/]*/(?:Answers|Invariants)\.antt")
# a text of a source, which stays; beside it a comment, which goes, or line breaks and blanks, which say nothing
TEXT = r"""r(#*)"(?s:.*?)"\1|"(?:[^"\\]|\\(?s:.))*"|'(?:[^'\\\n]|\\[^\n]{1,8}?)'"""
TEXT_OR_COMMENT = re.compile(TEXT + r"|[ \t]*//[^\n]*")
TEXT_OR_BLANKS = re.compile(TEXT + r"|\s+")
# a `use` line of several names, without another such list inside
USE_OF_SOME = re.compile(r"((?:\b(?:ghost|pub) )*\buse [^;{}\"]*)\{([^;{}\"]*)\};")
# a line of definitions or of a proof that is a comment
COMMENT_LINE = re.compile(r"(?m)^[ \t]*--(?: .*)?\n")
# where definitions begin in a source
GHOST = re.compile(r"\b(?:requires|ensures)(?: \w+)? \{|\bghost \w+ = \{")
QUOTED_OR_BRACE = re.compile(r'"(?:[^"\\]|\\.)*"|[{}]')
# what has a block of lines below it, and what else has a line of its own
OPENER = re.compile(r"\b(?:where|do)$|^(?:\w+ )*mutual$")
LINED = re.compile(r"\b(?:where|do|mutual|unfolding|deriving)\b|--")
# a text of definitions, which stays; blanks inside of brackets, with the mark behind the last of what stands there, which says nothing; and other blanks
QUOTED_OR_BLANKS = re.compile(r'("(?:[^"\\]|\\.)*")|(?<=[({])\s+|[;,]\s*(?=[)}])|\s+(?=[)}])|(\s+)')
# a line of definitions that brings several names, without another such list inside
BRINGS_SOME = re.compile(r"((?:pub )?use [^{}]*)\{([^{}]*)\}")


def tight(text):
    """Definitions with single blanks, and none inside of brackets."""
    return QUOTED_OR_BLANKS.sub(lambda it: it[1] or it[2] and " " or "", text)


def on_one_line(lines):
    """Lines of definitions as one, or with a line for each name that they bring."""
    text = tight(" ".join(lines)).strip()
    some = BRINGS_SOME.fullmatch(text)
    return [f"{some[1]}{{{name.strip()}}}" for name in some[2].split(",") if name.strip()] if some else [text]


def without_breaks(lines):
    """Lines of definitions without the breaks and blanks that say nothing. A line that is further in than the first of its block goes on from the one before,
    as does a closer. Below one that ends in `where` or `do` another block begins. Where anything else may say something by its line, all stays as it is."""
    parts, said = [], []
    for line in lines:
        if parts and (line[0].isspace() or line[0] in ")}"):
            parts[-1].append(line)
        else:
            parts.append([line])
    for part in parts:
        head = next((at + 1 for at, line in enumerate(part) if OPENER.search(line)), len(part))
        block = part[head:]
        indent = len(block[0]) - len(block[0].lstrip()) if block else 0
        if LINED.search(OPENER.sub("", " ".join(part[:head]))) or any(line[:indent].strip() for line in block):
            said += part
        else:
            said += on_one_line(part[:head]) + [f"  {line}" for line in without_breaks([line[indent:] for line in block])]
    return said


def blank(it):
    """What blanks of a source say: one, and nothing inside of brackets."""
    return "" if it.string[it.start() - 1 : it.start()] in ("(", "{") or it.string[it.end() : it.end() + 1] in (")", "}") else " "


def with_tight_clauses(code):
    """A source on one line, with the definitions in it made `tight`."""
    parts, at = [], 0
    for found in GHOST.finditer(code):
        if found.start() < at:
            continue
        depth, end = 1, len(code)
        for it in QUOTED_OR_BRACE.finditer(code, found.end()):
            depth += (it[0] == "{") - (it[0] == "}")
            if depth == 0:
                end = it.end()
                break
        parts += [code[at : found.end()], tight(code[found.end() : end])]
        at = end
    return "".join(parts) + code[at:]


def code_of(path, text):
    """A source without comments, and without line breaks and blanks that say nothing, each name of a `use` line in a line of its own; or definitions without lines
    of comments, and without the line breaks that say nothing."""
    if not path.endswith(".rt"):
        lines = [line.rstrip() for line in COMMENT_LINE.sub("", text).split("\n")]
        return text if "{-" in text else "\n".join(without_breaks([*filter(None, lines)]))
    bare = TEXT_OR_COMMENT.sub(lambda it: " " if it[0].lstrip().startswith("//") else it[0], text)
    code = TEXT_OR_BLANKS.sub(lambda it: blank(it) if it[0].isspace() else it[0], bare).strip()
    return with_tight_clauses(USE_OF_SOME.sub(lambda it: " ".join(f"{it[1]}{name.strip()};" for name in it[2].split(",")), code))


def without_bodies(text):
    """A source without the bodies of its functions: all of it by which other functions are proved. One with a macro stays whole, since that may make functions."""
    if "macro_rules!" in text:
        return text
    parts, at = [], 0
    for found in FUNCTION.finditer(text):
        body = body_of(text, found.start(), found[1]) if found.start() >= at else None
        if body:
            parts.append(text[at : body[0]])
            at = body[1]
    return "".join(parts) + text[at:]


def files_of(folder, *parts):
    """The paths of the files below these parts of a folder, from the folder on."""
    found = (f"{at}/{name}" for part in parts for at, _, names in os.walk(f"{folder}/{part}") for name in names)
    return sorted(os.path.relpath(path, folder) for path in found)


def sum_of(texts):
    return hashlib.sha256("\0".join(texts).encode()).hexdigest()


def sum_of_files(folder, paths):
    """A sum of files by their paths, each without its comments."""
    return sum_of([it for path in paths for it in (path, code_of(path, text_of(f"{folder}/{path}")))])


def masked(text):
    """A source whose comments and quoted texts are blanks."""
    return TEXT_OR_COMMENT.sub(lambda it: re.sub(r"[^\n]", " ", it[0]), text)


def items_of(folder):
    """The items of a crate: of its sources, its definitions and its shared proofs."""
    found = []
    for path in files_of(folder, "src", "specs", "proofs"):
        text, code = text_of(f"{folder}/{path}"), lambda it, path=path: code_of(path, it)
        if path.endswith(".rt"):
            found += reach.items_of_source(path, text, masked(text), without_bodies, code)
        elif not OWN_PROOF.fullmatch(path):
            is_parent = path.endswith("/Lib.antt") or os.path.isdir(f"{folder}/{path.removesuffix('.antt')}")
            found += reach.items_of_definitions(path, code(text), "/+" in path, is_parent)
    return found


def reach_of(folders, below):
    """The items of all crates, by the folder of each and the crates below it."""
    return reach.Reach({name: items_of(folder) for name, folder in folders.items()}, below)


@functools.cache
def whole(crate, folder, items):
    """A sum of a whole crate, in a list, and what it reaches in the crates below it."""
    files, found = files_of(folder, "src", "specs", "proofs"), 0
    for path in files:
        found |= items.named(code_of(path, text_of(f"{folder}/{path}")), crate, path, True, True)
    return [sum_of_files(folder, files)], items.closed(found, crate) & items.below_of(crate)


def rest_of(crate, folder, items, edit, places):
    """What the verdict on an edit rests on, beside itself: texts, of which the first are those of its file without bodies, and the items that these reach; and
    texts of the functions in whose bodies it stands, with their own proofs, and the items that these reach beside the others. Where a part of it stands
    elsewhere, the texts are the whole crate."""
    if not places:
        return *whole(crate, folder, items), 0
    named = lambda path, text, wide=False, calls=True: items.named(code_of(path, text), crate, path, wide, calls)
    said, around, found = [], 0, 0
    for file in sorted({place.file for place in places}):
        outside = without_bodies(text_of(f"{folder}/{file}"))
        said += [file, code_of(file, outside)]
        around |= named(file, outside, calls="macro_rules!" in outside)
    for place in sorted(places):
        body = "\n".join(text_of(f"{folder}/{place.file}").split("\n")[place.first - 1 : place.last])
        own = files_of(folder, place.proof) if place.proof else []
        said += [place.file, place.name, code_of(place.file, body), sum_of_files(folder, own)]
        found |= named(place.file, body)
        for path in own:
            found |= named(path, text_of(f"{folder}/{path}"), True)
    for pair in edit.pairs:
        found |= named(pair.file, "\n".join([pair.old, pair.new, pair.right or ""]))
    around = items.closed(around, crate)
    return said, around, items.closed(found, crate, around)


def digests_of(crate, folder, around, items):
    """For each edit of a crate its name, and a sum of all that the verdict on it rests on: the edit, what `rest_of` says, and what is around the crate. `items`
    are those of all crates. An edit that can't be read has none."""
    good, bad = edits_of(folder)
    said = [(name, "-") for name, _ in bad]
    for edit in good:
        own, first, more = rest_of(crate, folder, items, edit, places_of(folder, edit))
        said.append((edit.name, sum_of([text_of(edit.path), sum_of(own), items.sum(first), items.sum(more), around])))
    return sorted(said)

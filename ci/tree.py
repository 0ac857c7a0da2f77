"""What the repository's crates have: public functions with their contracts, types, and the words of their definitions.

Read from the sources by their form alone, which `rt fmt` keeps; no proof is looked at.
"""
import functools
import pathlib
import re

TOP = pathlib.Path(__file__).resolve().parent.parent
NAME = r"[\w'-]+"


@functools.cache
def text_of(path):
    return path.read_text() if path.is_file() else ""


def crates():
    """The crates of crates.txt, each with the libraries that its line lists."""
    found = {}
    for line in text_of(TOP / "crates.txt").splitlines():
        head, colon, tail = line.partition("#")[0].partition(":")
        if colon:
            found[head.split()[0]] = tail.split()
    return found


def is_test(path):
    """Whether a source has tests alone, by its name or its folder's."""
    parts = path.relative_to(TOP / "crates").parts[2:]
    return any("tests" in part for part in parts)


def sources(crate):
    """The sources of a crate, those of tests left out."""
    for path in sorted((TOP / "crates" / crate / "src").rglob("*.rt")):
        if not is_test(path):
            yield path


def end_of(text, start, opening="{", closing="}"):
    """Where the bracket that opens at `start` is closed: the place behind it."""
    depth = 0
    for m in re.compile(f"[{re.escape(opening + closing)}]").finditer(text, start):
        depth += 1 if m[0] == opening else -1
        if depth == 0:
            return m.end()
    return len(text)


class Function:
    """A function: its owner (a type, a trait, or nothing), its name, its clauses, and whether it is public."""

    def __init__(self, path, line, owner, name, public, clauses):
        self.path, self.line, self.owner, self.name = path, line, owner, name
        self.public, self.clauses = public, clauses

    def labels(self):
        return {label for kind, label, _ in self.clauses if kind == "ensures"}


CLAUSE = re.compile(r"\s*(?://[^\n]*\n\s*)*(requires|ensures)\s+(\w+\s+)?(?=\{)")


def clauses_at(text, place):
    """The clauses of the contract that stands from this place on, and the place behind them."""
    found = []
    while (m := CLAUSE.match(text, place)) is not None:
        end = end_of(text, m.end())
        found.append((m[1], (m[2] or "").strip(), text[m.end() : end]))
        place = end
    return found, place


BEHIND = re.compile(r"\s+(?:requires|ensures|where)\b|\s*//|[{;]")


def contract_at(text, place):
    """Where a function's contract begins, whose name ends at this place: behind its arguments and its answer's type."""
    angles, arguments = 0, False
    while place < len(text):
        if text.startswith("->", place):
            place += 2
        elif text[place] == "(" and (angles > 0 or arguments):
            place = end_of(text, place, "(", ")")
        elif text[place] == "(":
            place, arguments = end_of(text, place, "(", ")"), True
        elif text[place] == "[":
            place = end_of(text, place, "[", "]")
        elif text[place] in "<>":
            angles += 1 if text[place] == "<" else -1
            place += 1
        elif arguments and angles == 0 and BEHIND.match(text, place):
            return place
        else:
            place += 1
    return place


OWNER = re.compile(
    r"^(?:impl(?:<[^{]*?>)? (?:[\w:<>, ]+? for )?(?:[a-z_]+::)*&?(?:mut )?(\w+)|(pub )?trait (\w+))[^{;]*\{", re.M
)
SIGNATURE = re.compile(r"^( *)(pub(?:\(\w+\))? )?(?:const |extern \"C\" )?fn (\w+)", re.M)


@functools.cache
def functions(path):
    """The functions of a source."""
    return list(functions_in(path, text_of(path)))


def functions_in(path, text):
    owners = []
    for m in OWNER.finditer(text):
        owners.append((m.start(), end_of(text, m.end() - 1), m[1] or m[3], bool(m[3])))
    for m in SIGNATURE.finditer(text):
        owner, in_trait = next(((it[2], it[3]) for it in owners if it[0] <= m.start() < it[1]), (None, False))
        found, _ = clauses_at(text, contract_at(text, m.end()))
        public = m[2] == "pub " or in_trait or (m[2] is None and m[1] != "" and is_trait_impl(text, m.start(), owners))
        yield Function(path, text[: m.start()].count("\n") + 1, owner, m[3], public, found)


def is_trait_impl(text, place, owners):
    """Whether the block around this place gives a trait to a type."""
    return any(it[0] <= place < it[1] and " for " in text[it[0] : text.index("{", it[0])] for it in owners)


@functools.cache
def exports(crate):
    """The names that a crate hands out: those of its `pub use` lines, its public modules, and its calls for C."""
    text = text_of(TOP / "crates" / crate / "src" / "lib.rt") or text_of(TOP / "crates" / crate / "src" / "main.rt")
    found = set(re.findall(r"^pub mod (\w+);", text, re.M))
    for line in re.findall(r"^pub use ([^;]+);", text, re.M):
        found |= set(re.findall(r"\b(\w+)\b(?=\s*[,}]|\s*$)", line))
    found |= set(re.findall(r"^pub (?:const )?(?:fn|struct|enum|trait|const|static) (\w+)", text, re.M))
    for path in sources(crate):
        found |= set(re.findall(r'^#\[unsafe\(no_mangle\)\]\npub extern "C" fn (\w+)', text_of(path), re.M))
    return found


@functools.cache
def api(crate):
    """What a crate hands out, each function by the name that a caller says: `f`, `Type::f`, `module::f`."""
    handed, found = exports(crate), {}
    for path in sources(crate):
        for it in functions(path):
            if not it.public:
                continue
            if it.owner is not None and it.owner in handed:
                found.setdefault(f"{it.owner}::{it.name}", []).append(it)
            elif it.owner is None and it.name in handed:
                found.setdefault(it.name, []).append(it)
            elif it.owner is None and path.stem in handed:
                found.setdefault(f"{path.stem}::{it.name}", []).append(it)
    return found


@functools.cache
def facts(crate):
    """The facts of a crate's types and traits: type -> labels of the `ghost` lines in it."""
    handed, found = exports(crate), {}
    for path in sources(crate):
        text = text_of(path)
        for m in re.finditer(r"^pub (?:struct|trait|enum) (\w+)[^{;]*\{", text, re.M):
            if m[1] in handed:
                inside = text[m.end() : end_of(text, m.end() - 1)]
                found.setdefault(m[1], set()).update(re.findall(r"ghost (\w+):", inside))
        for m in re.finditer(r"^pub struct (\w+)", text, re.M):
            if m[1] in handed:
                found.setdefault(m[1], set())
    return found


# ---- definitions

HEAD = re.compile(rf"^(\s*)((?:abbrev |unfoldable )?(?:pub )?(?:record |data )?)({NAME}) *(?=[:(])", re.M)


@functools.cache
def words_of(path):
    """The public words of a file of definitions, each with the sentence over it and its line."""
    lines, found, section = text_of(path).splitlines(), {}, []
    for number, line in enumerate(lines):
        m = HEAD.match(line)
        if m is None or "pub" not in m[2].split() or m[1]:
            continue
        said, above = [], number - 1
        while above >= 0 and lines[above].startswith("--") and not lines[above].startswith("-- ----"):
            said.insert(0, lines[above][2:].strip())
            above -= 1
        found.setdefault(m[3], (" ".join(said), number + 1))
    return found


IMPORT = re.compile(rf"^\s*(?:pub )?(?:ghost )?use Rattle\.((?:{NAME}\.)+)\{{([^}}]*)\}}", re.M)


def imports(text, known):
    """The words that a text names of the definitions of these crates: name -> (crate, file, word)."""
    found = {}
    for m in IMPORT.finditer(text):
        parts = m[1].rstrip(".").split(".")
        if parts[0] in known and len(parts) > 2 and parts[1] == "specs" and "declared" not in parts:
            for word in m[2].split(","):
                own, _, other = word.strip().partition(" as ")
                if own:
                    found[other or own] = (parts[0], "/".join(parts[2:]) + ".antt", own)
    return found


def words_in(text):
    return set(re.findall(r"[^\W\d][\w'-]*", text))


def cited(known):
    """The words of definitions that public contracts cite: (crate, file, word) -> the functions that do."""
    found = {}
    for crate in known:
        handed = exports(crate)
        for path in sources(crate):
            text = text_of(path)
            named = imports(text, known)
            if not named:
                continue
            for it in functions(path):
                is_loose = it.owner is None and path.stem in handed
                seen = it.public and (it.owner in handed or it.name in handed or is_loose)
                if seen:
                    said = words_in(" ".join(clause for _, _, clause in it.clauses))
                    for word in said & set(named):
                        found.setdefault(named[word], set()).add(f"{crate}::{it.name}")
            head = r"^(?:pub (?:struct|trait|enum) (\w+)|impl(?:<[^{]*?>)? Model for (\w+))[^{;]*\{"
            for m in re.finditer(head, text, re.M):
                name = m[1] or m[2]
                if name in handed:
                    inside = text[m.end() : end_of(text, m.end() - 1)]
                    here = dict(named)
                    here.update(imports(inside, known))
                    said = words_in(" ".join(re.findall(r"ghost (?!use)[^\n;]*(?:[;,\n])", inside)))
                    for word in said & set(here):
                        found.setdefault(here[word], set()).add(f"{crate}::{name}")
    return found

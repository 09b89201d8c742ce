"""What a verdict on a body stands on: the definitions and the contracts that can be named from where it stands.

A function is proved from the contracts of those that it calls, never from their bodies. What its goals speak of is named in its
file, or in the statement of something that is named there, and so on. So the statements of a tree are cut into parts: each file of
specs/, each item of src/ without the bodies of its functions, and each import. A part leads to the items and imports that its text
names, of its file or behind a path; to the files of specs/ that it cites; and to each impl of a type that is reached, if its trait
is reached too, or is none of the repository's. If it can't be told which one is named, all of that name are reached. Comments and
layout, proofs and how they are sought, and the kit are no statements.
"""
import collections
import functools
import hashlib
import re

# A source file without the bodies of its functions

TOKEN = re.compile(
    r"""
      (?P<comment> //[^\n]* | /\*.*?\*/ )
    | (?P<text> b?r(?P<hashes>\#*)".*?"(?P=hashes) | b?"(?:\\.|[^"\\])*" | b?'(?:\\[^\n]+?|[^\\'\n])' )
    | (?P<fn> \bfn\s+\w+ )
    | (?P<mark> [(\[{}\])\;] )
    """,
    re.X | re.S,
)
# What stands before the braces of a clause: a condition, a promise, or a value of the proof that the others name.
CLAUSE = re.compile(r"(?:\b(?:requires|ensures)\b\*?(?:\s+\w+)?|\bghost\s+\w+\s*:)\s*$")
# What stands behind a function: the end of its block or its file, an attribute, or another item.
NEXT_ITEM = re.compile(r"\s*(?:$|[}\]#)]|(?:pub|fn|const|type|impl|ghost|use|mod|struct|enum|union|trait|unsafe|static|extern|macro_rules)\b|\w+!)")


def without_comments(text):
    return TOKEN.sub(lambda it: " " if it["comment"] else it[0], text)


def without_layout(text):
    """Returns a text without comments in which each gap outside of a literal is one space."""
    kept, at = [], 0
    for token in TOKEN.finditer(text):
        if token["text"]:
            kept += [re.sub(r"\s+", " ", text[at : token.start()]), token[0]]
            at = token.end()
    return "".join([*kept, re.sub(r"\s+", " ", text[at:])]).strip()


def without_literals(text):
    return TOKEN.sub(lambda it: '""' if it["text"] else it[0], text)


def bodies_in(text):
    """Returns where the body of each function begins and ends in a text without comments."""
    found, depth = [], 0
    # of the function that is read: the depth at which it stands, where its last clause ended, and where its body begins
    outside, behind, begins = None, 0, None
    for token in TOKEN.finditer(text):
        if begins is None and token["fn"]:
            outside, behind = depth, token.end()
        mark = token["mark"]
        if mark in ("(", "[", "{"):
            if mark == "{" and begins is None and depth == outside and not CLAUSE.search(text, behind, token.start()):
                begins = token.start()
            depth += 1
        elif mark in (")", "]", "}"):
            depth -= 1
            if mark == "}" and depth == outside:
                if begins is not None:
                    found.append((begins, token.end()))
                    outside, begins = None, None
                behind = token.end()
        elif mark == ";" and begins is None and depth == outside:
            outside = None
    return found


def is_balanced(text):
    pairs, open_ones = {")": "(", "]": "[", "}": "{"}, []
    for token in TOKEN.finditer(text):
        mark = token["mark"]
        if mark in pairs.values():
            open_ones.append(mark)
        elif mark in pairs and (not open_ones or open_ones.pop() != pairs[mark]):
            return False
    return not open_ones


def without_bodies(text):
    """Returns a text without comments and the bodies of functions, and what is odd in how it was cut."""
    kept, odd, at = [], [], 0
    for begins, ends in bodies_in(text):
        body = text[begins:ends]
        if not (body.startswith("{") and body.endswith("}") and is_balanced(body)):
            odd.append(f"a body isn't balanced: {body[:60]}")
        if not NEXT_ITEM.match(text, ends):
            odd.append(f"a body is cut too early, before: {text[ends:ends + 60].strip()}")
        kept.append(text[at:begins])
        at = ends
    rest = "{}".join([*kept, text[at:]])
    if not is_balanced(rest):
        odd.append("what is left isn't balanced")
    return rest, odd


# What stands before the name of a function: its attributes, and the words before `fn`.
ATTRIBUTES = re.compile(r"(?:^[ \t]*#\[[^\n]*\]\n\s*)+[\w \t]*\Z", re.M)


def without_private(text):
    """Returns an impl of no trait, without comments and bodies, without its functions that only its own crate can name."""
    kept, at = [], 0
    for begins, ends in bodies_in(text):
        name = [it.start() for it in re.finditer(r"\bfn\s+\w", text[at:begins])][-1] + at
        is_public = re.search(r"\bpub\b", text[text.rfind("\n", 0, name) + 1 : name])
        kept.append(text[at:ends] if is_public else ATTRIBUTES.sub("", text[at:name]))
        at = ends
    return "".join([*kept, text[at:]])


# The items of a source file


def outlined(text):
    """Returns a text without comments in which all that stands in brackets or in a literal is blank."""
    kept, depth, at = [], 0, 0

    def blank(text):
        return "".join("\n" if it == "\n" else " " for it in text)

    for token in TOKEN.finditer(text):
        between = text[at : token.start()]
        kept.append(blank(between) if depth else between)
        mark = token["mark"]
        depth -= mark in (")", "]", "}") if mark else 0
        kept.append(token[0] if (mark or token["fn"]) and not depth else blank(token[0]))
        depth += mark in ("(", "[", "{") if mark else 0
        at = token.end()
    return "".join([*kept, text[at:]])


KINDS = ("fn", "use", "ghost", "const", "static", "type", "struct", "enum", "union", "trait", "impl", "mod", "macro_rules")
KIND = re.compile(r"\b(?:(?:const\s+)?(?:unsafe\s+)?(?:extern\s+)?(fn)|(use|ghost|const|static|type|struct|enum|union|trait|impl|mod|macro_rules|\w+(?=!)))\b!?\s*(\w*)")
UP_TO_SEMICOLON = ("use", "ghost", "const", "static", "type")


# An item of a source file: `impl`, `struct` and so on, its name if it has one, its text, what stands before its braces, and of an
# import the path that it names.
Item = collections.namedtuple("Item", "kind name text header at", defaults=("", "", ()))


def items_in(text):
    """Returns the items of a text without comments."""
    outline, at, found = outlined(text), 0, []
    bodies = {begins: ends for begins, ends in bodies_in(text) if outline[begins] == "{"}
    while kind := KIND.search(outline, at):
        if kind[1]:
            begins = min((it for it in bodies if it > kind.end()), default=None)
            ends = len(text) if begins is None else bodies[begins]
        else:
            marks = ";" if kind[2] in UP_TO_SEMICOLON else ";}"
            ends = next((i + 1 for i in range(kind.end(), len(text)) if outline[i] in marks), len(text))
        braces = outline.find("{", kind.end(), ends)
        found.append(Item(kind[1] or kind[2], kind[3], text[at:ends], text[kind.start() : braces if braces > 0 else ends]))
        at = ends
    return found


def paths_in(tree):
    """Returns the paths that a `use` names, each with the name that it brings."""
    found, before, path, alias = [], [()], (), None
    for word in [*re.findall(r"\w+|[{},*]", tree), ","]:
        if word == "{":
            before.append(path)
        elif word in ",}":
            found += [(path, alias or path[-1])] if path not in ("", before[-1]) else []
            before = before[:-1] or before if word == "}" else before
            path, alias = "" if word == "}" else before[-1], None
        elif word == "as" or alias == "":
            alias = "" if word == "as" else word
        elif word == "self" and path:
            found.append((path, path[-1]))
        else:
            path = (*path, word)
    return found


def without_parameters(text):
    """Returns a type without what stands between angle brackets."""
    text = text.replace("->", "")
    while re.search(r"<[^<>]*>", text):
        text = re.sub(r"<[^<>]*>", "", text)
    return text


def heads_of(header):
    """Returns the names of the trait and of the type of an impl with this header, each as a path, or None for what has no name."""
    header = re.split(r"\bwhere\b", without_parameters(header.partition("impl")[2]))[0]
    trait, _, own = header.rpartition(" for ")
    names = (re.search(r"((?:\w+\s*::\s*)*\w+)\s*\Z", it) for it in (trait, own))
    return [tuple(re.findall(r"\w+", it[1])) if it else None for it in names]


# What the parts of a tree lead to


# What changes no contract, and no name.
HINT = re.compile(r"#\[(?:inline|must_use|cold|tactic)\b(?:[^\[\]]|\[[^\[\]]*\])*\]")


class Part:
    """A file of specs/, or an item or an import of a source file: its file, and its text without layout."""

    def __init__(self, path, text, item=None):
        self.path, self.item, self.text = path, item, without_layout(HINT.sub("", text)) if item else text


class Source:
    """A source file: its items, its imports, and those of the logic."""

    def __init__(self, path, text, is_own):
        self.path, self.whole = path, without_comments(text)
        items = items_in(self.whole)
        shown = [it if is_own else public_part(it) for it in map(without_calls, items) if it.kind not in ("use", "ghost", "mod")]
        self.parts = [Part(path, it.text, it) for it in shown if it]
        trees = re.findall(r"(?<!ghost )\buse\s+([^;]+);", without_literals(self.whole))
        imports = sorted({it for tree in trees for it in paths_in(tree)})
        self.imports = [Part(path, f"{'::'.join(at)} as {name}", Item("use", name, at=at)) for at, name in imports]
        self.cited = [cited for it in items if it.kind == "ghost" for cited in cited_in(it.text)]
        self.defines = by_name([*self.parts, *self.imports])


def by_name(parts):
    found = collections.defaultdict(set)
    for part in parts:
        if part.item.kind != "impl":
            found[part.item.name].add(part)
    return found


@functools.lru_cache(None)
def source_of(path, text, is_own):
    return Source(path, text, is_own)


def without_calls(item):
    """Returns an item without the bodies of its functions, unless what it means is found by running them."""
    is_run = item.kind == "macro_rules" or re.search(r"\bconst\s+fn\b", item.text)
    return item if is_run else item._replace(text=without_bodies(item.text)[0])


def public_part(item):
    """Returns what another crate can name of an item, if it can name something."""
    if item.kind == "fn":
        return item if re.search(r"\bpub\b", item.text.partition(item.header)[0]) else None
    is_inherent = item.kind == "impl" and not heads_of(item.header)[0]
    return item._replace(text=without_private(item.text)) if is_inherent else item


# What an import of statements names: a module, and what it brings of it.
CITED = re.compile(r"\bRattle\.([\w.+]*\w)(?:\.\{([^{}]*)\})?")


def cited_in(text):
    """Returns the modules that a text of the logic cites, each with the names that it lists, and those that these bring."""
    for module, names in CITED.findall(text):
        listed = [it.partition(" as ") for it in names.split(",")] if names else []
        yield tuple(module.split(".")), tuple((it[0].strip(), (it[2] or it[0]).strip()) for it in listed)


class Statements:
    """The statements of a tree: of a crate all, and of those below it what another crate can name.

    `texts` are the files of the tree by their paths, and `below` are the names of the crate and of those below it, itself first."""

    def __init__(self, texts, below):
        self.crates = below
        self.sources, self.specs = {}, {}
        self.cites, self.edges, self.reaches, self.sums = {}, {}, {}, {}
        for path, text in texts.items():
            _, crate, kind, *_ = path.split("/")
            if crate in below and kind == "src":
                self.sources[path] = source_of(path, text, crate == below[0])
            elif crate in below and kind == "specs":
                lines = (it for it in text.split("\n") if it.strip() and not it.lstrip().startswith("--"))
                self.specs[path] = Part(path, "\n".join(lines))
        self.items = by_name(self.of_sources())
        self.impls = [(part, *self.heads(part)) for part in self.of_sources() if part.item.kind == "impl"]

    def of_sources(self):
        return (part for source in self.sources.values() for part in source.parts)

    def all_of(self, crate):
        """Returns all parts of a crate, where it can't be told which ones are meant."""
        return {it for it in [*self.of_sources(), *self.specs.values()] if it.path.startswith(f"crates/{crate}/")}

    def named(self, words):
        """Returns the items that have one of these words as their name."""
        return set().union(*(self.items[it] for it in words if it in self.items))

    def module_of(self, source, path):
        """Returns the crate and the modules that a path in a source file begins with, and the modules behind them, if it begins in
        this repository."""
        _, crate, _, *modules = source.path.removesuffix(".rt").split("/")
        modules, first = [] if modules in (["lib"], ["main"]) else modules, path[0]
        if first in ("crate", *self.crates):
            return crate if first == "crate" else first, [], path[1:]
        if first in ("super", "self"):
            while path and path[0] in ("super", "self"):
                modules, path = modules[:-1] if path[0] == "super" else modules, path[1:]
            return crate, modules, path
        return (crate, modules, path) if self.file_of(crate, [*modules, first]) else None

    def file_of(self, crate, modules):
        names = ["/".join(modules)] if modules else ["lib", "main"]
        return next((self.sources[it] for name in names if (it := f"crates/{crate}/src/{name}.rt") in self.sources), None)

    def named_at(self, source, path):
        """Returns the items and imports that a path in a source file names: those of its module, or where this has none, all of that
        name. A path into another repository names none."""
        if len(path) == 1 and path[0] in source.defines:
            return source.defines[path[0]]
        place = self.module_of(source, path)
        if not place:
            # (it begins with what an import brings, such as a module)
            before = [it.item.at for it in source.imports if it.item.name == path[0] and it.item.at != path[:1]]
            places = [(*at, *path[1:]) for at in before if len(path) > 1 and self.module_of(source, at)]
            return set().union(*(self.named_at(source, it) for it in places))
        crate, modules, rest = place
        file = self.file_of(crate, [*modules, *rest[:-1]])
        found = file.defines.get(path[-1], set()) if file and rest else set()
        return found or self.named(path[-1:])

    def named_in(self, source, text):
        """Returns the items and imports that a text of a source file names."""
        words = set(re.findall(r"\w+", text))
        parts = set().union(*(source.defines[it] for it in words & source.defines.keys()))
        paths = [tuple(re.findall(r"\w+", it)) for it in re.findall(r"\b[a-z_]\w*(?:\s*::\s*\w+)+", text)]
        paths = {it[:count] for it in paths for count in range(2, len(it) + 1)}
        # (a macro can be named wherever it stands)
        macros = {it for it in self.named(re.findall(r"\b(\w+)!", text)) if it.item.kind == "macro_rules"}
        globs = source.defines["*"] | self.named(words) if "*" in source.defines else set()
        return parts.union(macros, globs, *(self.named_at(source, it) for it in paths))

    def behind_import(self, part):
        """Returns what stands behind the path of an import, and the enum whose values it brings."""
        source, path = self.sources[part.path], part.item.at
        return (self.named_at(source, path) | (self.named_at(source, path[:-1]) if len(path) > 2 else set())) - {part}

    def of_module(self, module, names):
        """Returns the parts of a module of the logic, or those of these names in it."""
        crate, *path = module
        if crate not in self.crates or path[:1] == ["proofs"]:
            return set()
        names = [name for name, _ in names]
        if path[1:2] in (["declared"], ["contracts"]):
            of_path, *of_names = ({it for it in self.named(words) if it.path.startswith(f"crates/{crate}/")} for words in (path[2:], *([it] for it in names)))
            # (behind an item's path stand its parts, such as the values of an enum)
            parts = of_path.union(*of_names) if of_path or all(of_names) else set()
        else:
            paths = [path, *([*path, it] for it in names)]
            files = (self.specs.get(f"crates/{crate}/{'/'.join(it[:count])}.antt") for it in paths for count in range(2, len(it) + 1))
            parts = {it for it in files if it}
        return parts or self.all_of(crate)

    def resolved(self, parts):
        """Returns the items behind these items, imports and aliases, with themselves."""
        found, left = set(), set(parts)
        while left:
            found |= left
            left = set().union(*(self.behind_import(it) for it in left if it.item.kind == "use"), *(self.behind(it) for it in left if it.item.kind == "type")) - found
        return found

    def heads(self, part):
        """Returns the parts of the trait and of the type of an impl, each None where it is none of the repository's. Where both are,
        what its text names stands for the type."""
        source = self.sources[part.path]
        trait, own = (self.resolved(self.named_at(source, it)) if it else set() for it in heads_of(part.item.header))
        trait = {it for it in trait if it.item.kind == "trait"}
        own = {it for it in own if it.item.kind not in ("fn", "macro_rules", "use")}
        own = own if own or trait else self.edges_of(part)
        return trait or None, own or None

    def behind(self, alias):
        """Returns what the type that an alias stands for begins with: all that it names, if that can't be told."""
        target = re.sub(r"^(?:\s|&|'\w+|mut\b|dyn\b)+", "", without_parameters(alias.text).partition("=")[2])
        head = re.match(r"(?:\w+::)*(\w+)", target)
        parts = {it for it in self.edges_of(alias) if it.item}
        return {it for it in parts if head and it.item.name == head[1]} or parts

    def cited_by(self, part):
        """Returns what a part cites of the logic: by itself, and an item by what its file imports of it."""
        if part not in self.cites:
            words = frozenset(re.findall(r"\w+", part.text))
            of_file = self.sources[part.path].cited if part.item and part.item.kind != "use" else ()
            brought = ((module, tuple(it for it in names if is_in(it[1], words, part.text)), not names) for module, names in of_file)
            self.cites[part] = sorted({*cited_in(part.text), *((module, names) for module, names, is_whole in brought if names or is_whole)})
        return self.cites[part]

    def edges_of(self, part):
        """Returns the parts that a part names. Where it runs nothing, it calls no function and no macro."""
        if part not in self.edges:
            items = set()
            if part.item and part.item.kind == "use":
                items = self.behind_import(part)
            elif part.item:
                items = self.named_in(self.sources[part.path], part.text)
                items = items if RUNS.search(part.text) else {it for it in items if it.item.kind not in ("fn", "macro_rules")}
            self.edges[part] = items.union(*(self.of_module(*it) for it in self.cited_by(part)))
        return self.edges[part]

    def reached(self, paths, texts=()):
        """Returns the parts that are reached from the code of these source files, and from these texts in them."""
        paths = tuple(sorted(paths))
        if paths not in self.reaches:
            self.reaches[paths] = self.closed(set().union(*(self.starts(self.sources[it]) for it in paths)))
        more = set().union(*(self.named_in(self.sources[path], text) for path in paths for text in texts))
        return self.reaches[paths] if more <= self.reaches[paths] else self.closed(self.reaches[paths] | more)

    def starts(self, source):
        """Returns the parts of a source file, and those that its code names."""
        cited = (self.of_module(*it) for it in cited_in(source.whole))
        return {*source.parts, *source.imports, *self.named_in(source, source.whole)}.union(*cited)

    def closed(self, left):
        """Returns these parts, and those that they lead to."""
        reached = set()
        while left:
            reached |= left
            left = set().union(*map(self.edges_of, left))
            left |= {part for part, trait, own in self.impls if is_met(trait, reached) and is_met(own, reached)}
            left -= reached
        return reached

    def sum_of(self, paths, texts=()):
        """Returns a sum of the code of these source files, and of what is reached from them, and from these texts in them."""
        paths, reached = tuple(sorted(paths)), frozenset(self.reached(paths, texts))
        if (paths, reached) not in self.sums:
            code = [(path, without_layout(self.sources[path].whole)) for path in paths]
            stated = [(it.path, it.text, self.cited_by(it)) for it in reached]
            self.sums[paths, reached] = hashlib.sha256(repr((code, sorted(stated))).encode()).hexdigest()
        return self.sums[paths, reached]


# What runs code where no body is left out: the value of a constant, the length of an array, a macro.
RUNS = re.compile(r"macro_rules|\bconst\s+fn\b|\bconst\s+\w+\s*:[^;{}]*=|\bstatic\b|;\s*\w+(?:::\w+)*\s*\(|\w!\s*[(\[{]")


def is_met(parts, reached):
    return parts is None or not parts.isdisjoint(reached)


@functools.lru_cache(None)
def pieces_of(name):
    """Returns what a name of the logic is made of: words, and what is none. A name such as `◌+◌` has places for what it joins."""
    pieces = [it for it in name.split("◌") if it]
    return [it for it in pieces if re.fullmatch(r"\w+", it)], [it for it in pieces if not re.fullmatch(r"\w+", it)]


def is_in(name, words, text):
    """Tells whether a name of the logic stands in a text with these words."""
    known, others = pieces_of(name)
    return words.issuperset(known) and all(it in text for it in others)


# Tests

# A source file, and what is left of it without the bodies of its functions.
CONTRACTS = [
    ("fn f(a: [u8; { 2 }]) -> u8 { if a == b { 1 } else { 2 } }", "fn f(a: [u8; { 2 }]) -> u8 {}"),
    ("fn f()\n  requires { a }\n  ensures* lends { b }\n  ensures met { IfSome result (λ r. { r }) }\n{ x }\nfn g() { y }",
     "fn f() requires { a } ensures* lends { b } ensures met { IfSome result (λ r. { r }) } {} fn g() {}"),
    ("trait T { fn f(&self) ensures { a }; // fn g() { b }\n fn h(&self) ghost n: { ℕ } ensures* { n } { fn i() { c } } }",
     "trait T { fn f(&self) ensures { a }; fn h(&self) ghost n: { ℕ } ensures* { n } {} }"),
    ("impl Model for S<'a> { ghost Value = { ℕ }; } fn f() { '{'; \"}\"; r#\"{\"#; /* } */ b'\\''; x::<'a>() } struct S { f: fn(u8) -> u8 }",
     "impl Model for S<'a> { ghost Value = { ℕ }; } fn f() {} struct S { f: fn(u8) -> u8 }"),
]
# A tree, and behind each name what is reached from its file: items by what their text begins with, and files of specs/.
LOW_ROW = """
ghost use Rattle.low.specs.Rows.{Held, two as deux};
use crate::kept::{self, Kept};
pub trait Row { fn len(&self) -> usize ensures { Held self.now result }; }
pub struct Two {}
pub type Pair = Two;
impl Row for Two { fn len(&self) -> usize { 2 } }
impl Kept for Two { fn kept(&self) -> Two ensures { deux result } { Two {} } }
impl Pair {
    pub fn first(&self) -> Other ensures { deux result } { hidden() }
    #[cold]
    fn second(&self) -> Third {}
}
pub struct Other {}
pub struct Third {}
pub type Shown<'a> = &'a Third;
impl Row for Shown<'_> { ghost shown = { Held }; }
impl From<Third> for u8 { fn from(third: Third) -> u8 { 3 } }
fn hidden() -> Third { Third {} }
"""
LOW_KEPT = """
pub trait Kept { fn kept(&self) -> Self; }
pub struct Spare {}
"""
HIGH_LIB = """
pub use low::row::Two;
mod uses;
mod wide;
mod deep;
mod odd;
fn own() -> u8 requires { ok } { 1 }
"""
TREE = {
    "crates/low/src/lib.rt": "pub mod row; pub mod kept; macro_rules! each { ($a:expr) => { $a } }",
    "crates/low/src/row.rt": LOW_ROW,
    "crates/low/src/kept.rt": LOW_KEPT,
    "crates/low/specs/Rows.antt": "use Rattle.low.specs.Base.{base}\npub Held = base",
    "crates/low/specs/Base.antt": "-- said\npub base = ok",
    "crates/low/specs/Alone.antt": "pub alone = ok",
    "crates/high/src/lib.rt": HIGH_LIB,
    "crates/high/src/uses.rt": "use crate::Two;\npub fn f(two: &Two) { two.first() }",
    "crates/high/src/wide.rt": "use low::row::*;\nuse low::kept;\npub fn g<A: Row>(a: A, s: kept::Spare) { low::each!(a) }",
    "crates/high/src/odd.rt": "#[error(\"no use of it\")]\nstruct Failed {}\nuse low::row::{Row, Third as Last};\nfn k(last: Last) -> usize { last.len() }",
    "crates/high/src/deep.rt": "pub fn h() -> u8 ensures { Rattle.low.specs.Alone.alone } { crate::own() }",
}
REACH = {
    "crates/high/src/uses.rt": ["pub fn f", "pub struct Two", "pub type Pair",
                                "impl Pair { pub fn first(&self) -> Other ensures { deux result } {} }", "pub struct Other", "specs/Rows", "specs/Base",
                                "crate::Two as Two", "low::row::Two as Two"],
    "crates/high/src/wide.rt": ["low::row::* as *", "low::kept as kept", "pub fn g", "macro_rules! each", "pub struct Spare", "pub trait Row", "specs/Rows", "specs/Base"],
    "crates/high/src/odd.rt": ["low::row::Row as Row", "low::row::Third as Last", "#[error", "fn k", "pub struct Third", "pub trait Row", "pub type Shown", "impl Row for Shown", "impl From<Third>", "specs/Rows", "specs/Base"],
    "crates/high/src/deep.rt": ["pub fn h", "fn own", "specs/Alone"],
}


def oddities_of(text):
    """Returns what is odd in how the contracts of a source file are told."""
    text = without_comments(text)
    odd = without_bodies(text)[1]
    for item in items_in(text):
        if item.kind not in KINDS:
            odd.append(f"a macro makes items: {item.header[:60]}")
        if item.kind == "mod" and "{" in item.text:
            odd.append(f"a module stands in a file: {item.header[:60]}")
        if item.kind in ("impl", "trait", "struct", "enum") and "<" in without_parameters(item.header):
            odd.append(f"a header has braces: {item.header[:60]}")
    odd += [f"it has a form that isn't read: {it}" for it in re.findall(r"\br#\w+|\bstatic\s+mut\b|\bextern\s*\{", outlined(text))]
    odd += [f"an impl stands in a body: {text[it[0]:it[1]][:60]}" for it in bodies_in(text) if re.search(r"\bimpl\b", without_literals(text[it[0] : it[1]]))]
    return odd


def stated_in(text):
    rest, odd = without_bodies(without_comments(text))
    return without_layout(rest), odd


def self_test():
    """Returns where contracts, or what is reached, are told wrongly of fixed texts."""
    failed = [f"{given!r} gives {stated_in(given)}" for given, wanted in CONTRACTS if stated_in(given) != (wanted, [])]
    tree = Statements(TREE, ("high", "low"))
    for path, wanted in REACH.items():
        found = tree.reached([path])
        told = [it.text if it.item else it.path.removeprefix("crates/low/") for it in found]
        lacks = [it for it in wanted if not any(text.startswith(it) for text in told)]
        beyond = [text for text in told if not any(text.startswith(it) for it in wanted)]
        failed += [f"from {path} {it} isn't reached" for it in lacks] + [f"from {path} is reached, too: {it}" for it in beyond]
    return failed

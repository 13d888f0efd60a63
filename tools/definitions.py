"""Reads the definitions of specs/ and the types and contracts of src/, and finds what the names in them mean.

A name is looked up as antt does it: by what is bound round it, the file's own definitions, and its `use` lines. In a
contract of the code a type parameter's ghost member is that of the trait which bounds it. Where a name can't be looked
up, or a form isn't known here, `Unread` tells which. `believed` is made of this.
"""

import re
from dataclasses import dataclass, field
from functools import cache
from pathlib import Path
from typing import NamedTuple

from words import Group, Token, Unread, binder, chain_behind, lines_of, nested, operator_parts
from words import position, split, statements, tokens_of, written

TOP = Path(__file__).resolve().parent.parent
NUMERAL = re.compile(r"\d[\dxob_a-f]*$")
SIGNS = set("→ × ↦ = | :".split())
BUILT_IN = set("Type Unit tt ⊥ absurd ¬◌ ⊔ ◌⊔◌".split())
UNREAD = set("elim where open deriving unfold hcom com coe [ ] @ ? axiom ruleset package".split())
MARKS = ("pub", "abbrev", "unfoldable", "pattern")
ALWAYS_THERE = set("Some None Ok Err Option Result".split())
RUST_KIT = set("Self Vec String Box Option Result Drop Copy Clone Sized".split())
CLAUSES = ("requires", "ensures", "requires*", "ensures*", "ghost")


class Kit(NamedTuple):
    """A name of the kit's libraries."""

    module: str
    name: str


@dataclass(eq=False, repr=False)
class Piece:
    """A part of a definition: its form, its words, and the binders of the blocks round it."""

    form: str
    items: list
    around: tuple = ()

    @property
    def lines(self):
        """The lines on which a word of it stands."""
        return set(lines_of(self.items))


@dataclass(eq=False, repr=False)
class Definition:
    """A definition of a file, with what it is made of."""

    module: object
    name: str
    kind: str
    pieces: list = field(default_factory=list)
    parts: frozenset = frozenset()
    blocks: tuple = ()

    @property
    def lines(self):
        """The lines that are its own."""
        return set().union(*(piece.lines for piece in self.pieces))

    @property
    def counted(self):
        """Its lines and the heads of the blocks that it stands in, each with its file."""
        heads = {line for block in self.blocks for line in lines_of(block)}
        return {(self.module.path, line) for line in self.lines | heads}

    @property
    def place(self):
        """Where it stands, for messages."""
        return f"{self.module.path.relative_to(TOP)}:{min(self.lines)}: {self.name}"


class Names:
    """What the words of a file mean that nothing nearer binds."""

    def __init__(self, crate, path):
        self.crate, self.path = crate, path
        self.text = path.read_text(encoding="utf-8")
        self.items, self.imports, self.passed, self.aliases = {}, {}, set(), {}

    def import_line(self, items, is_passed=False):
        """Reads a line of imports: behind a path the names in braces, or a module and maybe its other name."""
        group = next((item for item in items if isinstance(item, Group)), None)
        words = [item.text for item in items if isinstance(item, Token) and item.text not in (".", ";")]
        if not group:
            path, alias = (words[:-2], words[-1]) if "as" in words else (words, words[-1])
            self.aliases[alias] = tuple(path)
            return
        for part in split(group.items, ","):
            if part:
                name = part[-1].text
                self.imports[name] = (tuple(words), part[0].text)
                self.passed |= {name} if is_passed else set()

    def look_up(self, name):
        """What a name means in this file: a definition, a name of the kit, or None."""
        if name in self.items:
            return self.items[name]
        if name in self.imports:
            return item_at(*self.imports[name])
        return None

    @property
    def known(self):
        """The names that this file has or imports."""
        return self.items.keys() | self.imports.keys()

    def operators(self, word):
        """The operators of this file of which a word is a part."""
        return {name for name in self.known if word in operator_parts(name)}


class Specs(Names):
    """A file of definitions."""

    def __init__(self, crate, path):
        super().__init__(crate, path)
        self.block(nested(tokens_of(self.text)), ())

    def block(self, items, around):
        """Reads the statements of a block; the groups round it bind names in each."""
        latest = None
        for statement in statements(items):
            at = 0
            while statement[at].text in MARKS:
                at += 1
            word, rest = statement[at].text, statement[at + 1 :]
            if word == "use":
                self.import_line(rest, at > 0)
            elif word in ("module", "mutual"):
                head = position(rest, "where") if word == "module" else -1
                binders = tuple(item for item in rest[: max(head, 0)] if isinstance(item, Group))
                self.block(rest[head + 1 :], around + ((tuple(statement[: at + head + 2]), binders),))
            elif word in ("data", "record"):
                self.declare(word, statement, rest, around)
            elif word not in ("mod", "infix", "infixl", "infixr"):
                latest = self.define(statement, at, around, latest)

    def add(self, names, kind, pieces, around, parts=()):
        """Adds a definition under its names, and under those of its parts."""
        made = Definition(self, names[0], kind, pieces, frozenset(parts), tuple(head for head, _ in around))
        for name in (*names, *parts):
            if self.items.get(name, made) is not made:
                raise Unread(f"{made.place}: {name} stands twice in this file")
            self.items[name] = made
        return made

    def declare(self, word, statement, rest, around):
        """Reads a type that is declared with its constructors or its fields."""
        name, at = rest[0].text, position(rest, "where")
        parts = []
        for line in statements(rest[at + 1 :]) if word == "data" else ():
            parts += [item.text for item in line[: position(line, ":")]]
        self.add([name], word, [Piece(word, list(statement), self.binders(around))], around, parts)

    def define(self, statement, at, around, latest):
        """Reads a signature or a clause, and answers the definition that it belongs to."""
        colon, equals = position(statement, ":"), position(statement, "=")
        if colon < equals:
            names = [item.text for item in statement[at:colon] if isinstance(item, Token)]
            return self.add(names, "definition", [Piece("signature", statement, self.binders(around))], around)
        if not latest:
            raise Unread(f"{self.path}:{statement[0].line}: a clause of nothing")
        form = "unfolding" if statement[0].text == "unfolding" else "clause"
        latest.pieces.append(Piece(form, statement, self.binders(around)))
        return latest

    @staticmethod
    def binders(around):
        """The binders of the blocks round a definition."""
        return tuple(group for _, groups in around for group in groups)


class Walk:
    """Goes over the words of a definition, and keeps what they mean."""

    def __init__(self, definition):
        self.definition, self.names = definition, definition.module
        self.generics, self.members = {}, {}
        self.found = set()

    def refuse(self, item, why):
        """Says that something isn't known here."""
        place = f"{self.names.path.relative_to(TOP)}:{item.line}"
        raise Unread(f"{place}: {why} (in {self.definition.name})")

    def name(self, token, chain, local):
        """Finds what a name means, with the names behind its dots."""
        word = token.text
        if word in self.generics and chain:
            self.found.add(self.member(token, chain[0]))
        elif word in local or word in SIGNS or NUMERAL.match(word) or word[0] == '"':
            pass
        elif word in ("Rattle", "lib", "Prim"):
            self.refuse(token, f"the whole path {'.'.join([word, *chain])}")
        elif chain and self.qualified(token, chain):
            pass
        elif not self.plain(word, local):
            self.refuse(token, f"the name {word} means nothing")

    def plain(self, word, local):
        """Finds what a name alone means, and answers whether it means something."""
        target = self.names.look_up(word)
        if target:
            self.found.add(target)
            return True
        if any(word in operator_parts(name) for name in local):
            return True
        operators = self.names.operators(word)
        self.found |= {self.names.look_up(name) for name in operators}
        if len(operators) > 1:
            raise Unread(f"{self.definition.place}: {word} is a part of {' and of '.join(sorted(operators))}")
        return bool(operators) or word in BUILT_IN or any(word in operator_parts(name) for name in BUILT_IN)

    def qualified(self, token, chain):
        """Finds a name behind that of a module or of a type, and answers whether it is one."""
        target = self.names.look_up(token.text)
        if isinstance(target, Definition) and target.parts and chain[0] in target.parts:
            self.found.add(target)
            return True
        if not target and token.text in self.names.aliases:
            self.found.add(item_at(self.names.aliases[token.text], chain[0]))
            return True
        return False

    def member(self, token, name):
        """The trait whose ghost member a type parameter has under this name."""
        for bound in self.generics[token.text]:
            for trait in (bound, *supertraits(bound)):
                if isinstance(trait, Definition) and name in trait.parts:
                    return trait
        self.refuse(token, f"no bound of {token.text} has {name}")

    def is_constructor(self, word):
        """Whether a name in a pattern is a constructor's: of a type here, or of the kit."""
        target, declared = self.names.look_up(word), self.names.imports.get(word, (None, word))[1]
        if not isinstance(target, Definition):
            return isinstance(target, Kit)
        return declared.strip("«»'") in target.parts or declared.startswith(("more_of-", "end_of-"))

    def pattern(self, items, local):
        """Finds the constructors of a pattern, and answers the names that it binds."""
        bound, at = set(), 0
        while at < len(items):
            item, at = items[at], at + 1
            if isinstance(item, Group):
                bound |= self.pattern_group(item, local)
                continue
            chain, at = chain_behind(items, at)
            if chain:
                self.name(item, chain, local)
            elif self.heads_pattern(item):
                self.plain(item.text, set())
            elif item.text in SIGNS or item.text in UNREAD or item.text[1:] and item.text[0].isupper():
                self.refuse(item, f"{item.text} in a pattern")
            elif item.text != "_" and not NUMERAL.match(item.text):
                bound.add(item.text)
        return bound

    def pattern_group(self, group, local):
        """Reads a pattern in brackets, of which a constructor is the head where it has parts."""
        bound, inner = set(), group.items
        if group.text == "{" and position(inner, "=") < len(inner):
            inner = inner[position(inner, "=") + 1 :]
        for part in split(inner, ","):
            if len(part) > 1 and not any(map(self.heads_pattern, part)):
                self.refuse(group, f"no constructor in a pattern at {part[0].text}")
            bound |= self.pattern(part, local)
        return bound

    def heads_pattern(self, item):
        """Whether a word of a pattern is a constructor, a part of one, or a dot before one."""
        if isinstance(item, Group):
            return False
        return item.text == "." or self.is_constructor(item.text) or bool(self.names.operators(item.text))

    def term(self, items, local):
        """Finds the names of a term under those that are bound round it."""
        at, local = 0, set(local)
        while at < len(items):
            item = items[at]
            if isinstance(item, Group):
                at, local = at + 1, self.group(item, local)
                _, at = chain_behind(items, at)
            elif item.text == "λ":
                end = position(items[at:], ".") + at
                local, at = local | self.lambda_binders(items[at + 1 : end], local), end + 1
            elif item.text == "let":
                at, local = self.binding(items, at, local)
            elif item.text == "do":
                self.block(items[at + 1 :], local)
                return
            elif item.text == "record":
                at = self.record_value(items, at + 1, local)
            elif item.text in UNREAD:
                self.refuse(item, f"{item.text} isn't read here")
            else:
                chain, at = chain_behind(items, at + 1)
                if item.text != "_":
                    self.name(item, chain, local)

    def group(self, group, local):
        """Finds the names of a group, and answers what is bound behind it."""
        names, its_type = binder(group)
        if names:
            self.term(its_type, local)
            return local | set(names)
        for part in split(group.items, ","):
            equals = position(part, "=") if group.text == "{" else len(part)
            self.term(part[equals + 1 :] if equals < len(part) else part, local)
        return local

    def lambda_binders(self, items, local):
        """The names that a λ binds; the types that stand there are gone through."""
        bound = set()
        for item in items:
            if isinstance(item, Token):
                bound.add(item.text)
                continue
            names, its_type = binder(item)
            if names:
                self.term(its_type, local | bound)
            bound |= set(names) or self.pattern(item.items, local)
        return bound - {"_", ","}

    def binding(self, items, at, local):
        """Reads `let x : T = e in`, and answers where it ends and what is bound behind it."""
        colon, equals = position(items[at:], ":") + at, position(items[at:], "=") + at
        end, depth = equals, 1
        while depth:
            end += 1
            if end == len(items):
                self.refuse(items[at], "a let without in")
            if isinstance(items[end], Token):
                depth += {"let": 1, "in": -1}.get(items[end].text, 0)
        head = min(colon, equals)
        if colon < equals:
            self.term(items[colon + 1 : equals], local)
        self.term(items[equals + 1 : end], local)
        return end + 1, local | self.pattern(items[at + 1 : head], local)

    def block(self, items, local):
        """Reads the statements of a do block."""
        self.found.add(self.names.look_up("◌>>=◌") or self.refuse(items[0], "a do block without >>="))
        for statement in statements(items):
            if statement[0].column < items[0].column:
                self.refuse(statement[0], "a term behind a do block")
            arrow = position(statement, "←")
            if statement[0].text == "let":
                self.refuse(statement[0], "let in a do block")
            if arrow < len(statement):
                self.term(statement[arrow + 1 :], local)
                local = local | self.pattern(statement[:arrow], local)
            else:
                self.term(statement, local)

    def record_value(self, items, at, local):
        """Reads a record's value or type behind the word, and answers where it ends."""
        start = at
        while not (isinstance(items[at], Group) and items[at].text == "{"):
            at += 1
        self.term(items[start:at], local)
        for part in split(items[at].items, ";"):
            if part:
                sign = position(part, "=", ":")
                self.term(part[sign + 1 :], local)
                local = local | {part[0].text} if sign < len(part) and part[sign].text == ":" else local
        return chain_behind(items, at + 1)[1]

    def signature(self, items, local):
        """Reads the type behind a name; braces at the name bind levels."""
        at = position(items, ":")
        levels = {inner.text for item in items[:at] if isinstance(item, Group) for inner in item.items}
        self.term(items[at + 1 :], local | levels)

    def clause(self, items, local):
        """Reads a clause: its patterns, and its term under the names that they bind."""
        at, own = position(items, "="), {self.definition.name, *operator_parts(self.definition.name)}
        left = [item for item in items[:at] if isinstance(item, Group) or item.text not in own]
        if at == len(items) or len(left) == at:
            self.refuse(items[0], "this is no clause of it")
        self.term(items[at + 1 :], local | self.pattern(left, local))

    def declared(self, items, local):
        """Reads a type that is declared: its parameters, its own type, and its constructors or fields."""
        at, colon = position(items, "where"), position(items, ":")
        for item in items[:colon]:
            if isinstance(item, Group):
                local = self.group(item, local)
        self.term(items[colon + 1 : at], local)
        for line in statements(items[at + 1 :]):
            line = line[line[0].text == "pub" :]
            sign = position(line, ":")
            self.term(line[sign + 1 :], local)
            local = local | {item.text for item in line[:sign]}

    def specs_piece(self, piece):
        """Reads a part of a definition of a file of specs/."""
        local = set()
        for group in piece.around:
            local = self.group(group, local)
        {"signature": self.signature, "clause": self.clause, "unfolding": lambda items, local: None}.get(
            piece.form, self.declared
        )(piece.items, local)

    def rust_piece(self, piece):
        """Reads a type or a contract of the code."""
        local = {"result", "self", "Self"} | (self.definition.parts if self.definition.kind == "trait" else set())
        self.names = Inner(self.definition.module)
        start = 0
        if self.definition.kind != "trait" and piece is self.definition.pieces[0]:
            start = next((at for at, item in enumerate(piece.items) if isinstance(item, Group)), len(piece.items))
        self.contract(piece.items[start:], local | set(self.generics))

    def contract(self, items, local):
        """Reads declarations of the code: clauses as terms, and the types that the rest names."""
        at = 0
        while at < len(items):
            item, at = items[at], at + 1
            if item.text in CLAUSES:
                at = self.ghost(items, at, local)
            elif isinstance(item, Group):
                names = {word.text.rstrip(":") for word in item.items if isinstance(word, Token)}
                if item.text == "(":
                    local = local | names
                self.contract(item.items, local)
            else:
                self.rust_types(item)

    def ghost(self, items, at, local):
        """Reads a clause or a ghost item behind its word, and answers where it ends."""
        if items[at].text == "use":
            end = position(items[at:], ";") + at
            self.names.import_line(items[at + 1 : end])
            return end + 1
        while not isinstance(items[at], Group):
            at += 1
        self.term(items[at].items, local)
        return at + 1

    def rust_types(self, token):
        """Finds the types that a word of the code names."""
        if token.text.startswith('"') or token.text.startswith("#"):
            return
        for path in re.findall(r"[A-Za-z_]\w*(?:::\w+)*", token.text):
            name = path.split("::")[-1]
            own = {self.definition.name, *self.definition.parts, *self.generics}
            if name[0].isupper() and name not in own:
                self.found.add(rust_name(self.names, path) or self.refuse(token, f"the type {path} means nothing"))


class Inner(Names):
    """The names of a file of the code inside an item of it, which may import more."""

    def __init__(self, outer):
        self.crate, self.path, self.inside = outer.crate, outer.path, outer.inside
        self.items, self.uses, self.passed = outer.items, outer.uses, set()
        self.imports, self.aliases = dict(outer.imports), dict(outer.aliases)

    def look_up(self, name):
        """What a name means in a clause of the code."""
        found = super().look_up(name)
        if not found and name in ALWAYS_THERE:
            return Kit("std.specs.Prelude", name)
        return found or (rust_name(self, name) if name in self.uses else None)


class Code(Names):
    """A file of the code, with its types, traits and contracts."""

    KINDS = ("struct", "enum", "trait", "fn", "type", "const", "static")

    def __init__(self, crate, path, inside):
        super().__init__(crate, path)
        self.inside, self.uses = inside, {}
        kept = re.sub(r"//[^\n]*|b?'(?:\\.[^']*|[^\\'\n])'", lambda found: " " * len(found[0]), self.text)
        self.top = nested(tokens_of(kept))
        at = 0
        while at < len(self.top):
            at = self.item(self.top, at)

    def item(self, items, at):
        """Reads what stands at a place of the file, and answers where the next begins."""
        word = items[at].text
        end = next((k for k in range(at, len(items)) if items[k].text == ";" or is_body(items, k)), len(items) - 1) + 1
        if word == "ghost" and items[at + 1].text == "use":
            self.import_line(items[at + 2 : end - 1])
        elif word == "use":
            self.code_import("".join(written(items[at + 1 : end - 1])))
        elif word in self.KINDS:
            start = at - (at > 0 and items[at - 1].text == "pub")
            self.declare(word, items[start:end], items[at + 1].text)
        elif word == "impl" and end > at + 3 and items[at + 1].text == "Model" and items[at + 2].text == "for":
            self.declare_model(items[at:end])
        elif word != "impl":
            return at + 1
        return end

    def declare(self, kind, items, head):
        """Adds a type, a trait or a function under its name."""
        name = re.match(r"\w+", head)[0]
        body = next((item for item in items[::-1] if isinstance(item, Group) and item.text == "{"), None)
        parts = set()
        if kind == "enum":
            parts = {item.text for part in split(body.items, ",") for item in part[-2:] if isinstance(item, Token)}
        elif kind == "trait":
            ghosts = [body.items[at + 1].text for at, item in enumerate(body.items) if item.text == "ghost"]
            parts = {name.rstrip(":") for name in ghosts} - {"use"}
        if kind in ("fn", "trait"):
            items = without_bodies(items)
        self.items[name] = Definition(self, name, kind, [Piece("code", items)], frozenset(parts))

    def declare_model(self, items):
        """Adds to a type what contracts see of it: the type of its value, and how that is read off its fields."""
        name, body, kept = re.match(r"\w+", items[3].text)[0], items[-1].items, []
        for at, item in enumerate(body):
            if item.text == "ghost" and body[at + 1].text in ("use", "Value", "view"):
                kept += body[at : position(body[at:], ";") + at + 1]
        self.items[name].pieces.append(Piece("code", kept))

    def code_import(self, text):
        """Reads a line of the code's own imports."""
        self.uses |= {name: path for path, name in use_paths(text)}


def use_paths(text, before=()):
    """The paths of an import of the code, each with the name that it brings."""
    depth, part, parts = 0, "", []
    for sign in text:
        depth += (sign == "{") - (sign == "}")
        if sign == "," and not depth:
            parts.append(part)
            part = ""
        else:
            part += sign
    for part in filter(None, map(str.strip, [*parts, part])):
        head, brace, inner = part.partition("{")
        path = (*before, *filter(None, head.split(" as ")[0].strip().split("::")))
        if brace:
            yield from use_paths(inner[:-1], path)
        elif path[-1] == "self":
            yield path[:-1], path[-2]
        else:
            yield path, head.split(" as ")[-1].strip().split("::")[-1]


def is_body(items, at):
    """Whether a group in braces is what an item of the code ends with."""
    if not isinstance(items[at], Group) or items[at].text != "{":
        return False
    before = ["", "", *(item.text for item in items[:at])][-2:]
    return not (before[1] in (".", "use", *CLAUSES) or before[1].endswith("::") or before[0] in CLAUSES)


def without_bodies(items):
    """A function or a trait without the bodies of its functions."""
    kept, is_function = [], False
    for at, item in enumerate(items):
        is_function = is_function or item.text == "fn"
        if is_body(items, at) and is_function:
            is_function = False
        elif isinstance(item, Group) and item.text == "{" and is_body(items, at):
            kept.append(item._replace(items=tuple(without_bodies(item.items))))
        else:
            is_function = is_function and item.text != ";"
            kept.append(item)
    return kept


@cache
def crates():
    """The crates of the repository, lowest first, with their places."""
    lines = (TOP / "crates.txt").read_text(encoding="utf-8").split("\n")
    return {line.split(":")[0].split()[0]: at for at, line in enumerate(lines) if ":" in line and line[0] != "#"}


@cache
def is_of_kit(crate):
    """Whether a crate is one of the kit's, on which a crate of the repository stands."""
    listed = (TOP / "crates.txt").read_text(encoding="utf-8")
    is_listed = crate in ("std", "core", "lib", "Prim") or re.search(rf"(?m)^\w.*:.* {crate}\b", listed)
    return crate not in crates() and is_listed


@cache
def specs_of(crate, path):
    """The file of definitions of a module."""
    place = TOP / "crates" / crate / "specs" / ("/".join(path) + ".antt")
    if not place.exists():
        raise Unread(f"there is no {place.relative_to(TOP)}")
    return Specs(crate, place)


@cache
def code_of(crate, path):
    """The file of the code of a module."""
    top = TOP / "crates" / crate / "src"
    places = [top / ("/".join(path) + ".rt")] if path else [top / "lib.rt", top / "main.rt"]
    found = next((place for place in places if place.exists()), None)
    return Code(crate, found, path) if found else None


def item_at(path, name):
    """What a module has under a name."""
    path = path[path[0] == "Rattle" :]
    if is_of_kit(path[0]):
        return Kit(".".join(path), name)
    path = ("Rattle", *path)
    if path[1] not in crates():
        raise Unread(f"{path[1]} is no crate of the repository or of the kit")
    if path[2:4] == ("specs", "declared"):
        return declared_at(path[1], path[4:], name)
    if path[2] != "specs":
        raise Unread(f"{'.'.join(path)}.{name} is no definition of specs/")
    module = specs_of(path[1], path[3:])
    if name in module.items:
        return module.items[name]
    if name in module.passed:
        return module.look_up(name)
    raise Unread(f"{module.path.relative_to(TOP)} has no {name}")


def declared_at(crate, path, name):
    """What the code of a crate declares under a name: a type, a variant of one, or what is made of one."""
    at = next((k for k, part in enumerate(path) if part[0].isupper()), None)
    module = code_of(crate, path[:at]) if at is not None else None
    found = module and module.items.get(path[at])
    if not found or path[-1] == "TheVariants" and name.strip("«»'") not in found.parts:
        raise Unread(f"the code of {crate} has no {'.'.join(path)}.{name}")
    return found


def rust_name(module, path):
    """What a name means in the code of a file."""
    parts = tuple(path.split("::"))
    if len(parts) == 1 and parts[0] in module.items:
        return module.items[parts[0]]
    if parts[0] in module.uses:
        return rust_path(module, module.uses[parts[0]] + parts[1:])
    return Kit("std", parts[0]) if parts[0] in RUST_KIT else (rust_path(module, parts) if len(parts) > 1 else None)


def rust_path(module, parts):
    """What a path of the code leads to: into a module below, or from the root of a crate."""
    below = code_of(module.crate, module.inside + parts[:-1])
    if below:
        return rust_name(below, parts[-1])
    if parts[0] == "crate" or parts[0] in crates():
        file = code_of(module.crate if parts[0] == "crate" else parts[0], parts[1:-1])
        return rust_name(file, parts[-1]) if file else None
    return Kit("::".join(parts[:-1]), parts[-1]) if is_of_kit(parts[0]) else None


@cache
def supertraits(trait):
    """The traits that a trait of the code stands on."""
    if not isinstance(trait, Definition):
        return ()
    items = trait.pieces[0].items
    at = position(items, "trait")
    heads = [item for item in items[at + 1 :] if isinstance(item, Token)]
    names = re.findall(r"\w+", " ".join(item.text for item in heads))[1:]
    found = [rust_name(trait.module, name) for name in names]
    return tuple(found) + tuple(above for one in found for above in supertraits(one))


def generics_of(definition):
    """The type parameters of a function or a type of the code, each with its bounds."""
    heads = []
    for item in definition.pieces[0].items:
        if isinstance(item, Group):
            break
        heads.append(item.text)
    text = " ".join(heads)
    inner = re.search(r"<(.*)>", text)
    found = {}
    for part in inner[1].split(",") if inner else ():
        name, _, bounds = part.partition(":")
        if re.fullmatch(r"\s*\w+\s*", name):
            named = filter(None, map(str.strip, bounds.split("+")))
            found[name.strip()] = [rust_name(definition.module, bound) for bound in named]
    return found


@cache
def references(definition):
    """What the words of a definition mean: definitions, and names of the kit."""
    walk = Walk(definition)
    if isinstance(definition.module, Code):
        walk.generics = generics_of(definition)
    for piece in definition.pieces:
        walk.rust_piece(piece) if piece.form == "code" else walk.specs_piece(piece)
    return frozenset(walk.found - {definition})

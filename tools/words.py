"""Divides files of specs/ and src/ into words, and words in brackets into groups."""

import re
from typing import NamedTuple

TOKEN = re.compile(
    r'\s+|--[^\n]*|(?P<text>"(?:\\.|[^"\\])*")|«(?P<escaped>[^»]*)»|(?P<word>[(){}.;,@]|[^\s(){}.;,@"«»]+)'
)
RESERVED = set(
    "data record deriving module where use mod pub package open as unfoldable abbrev axiom unfold unfolding ruleset"
    " mutual infix infixl infixr elim let in do λ ∀ Type 𝕀 𝔽 coe fcoe tcoe hcom com ∨ ∧".split()
)
CLOSERS = {"(": ")", "{": "}"}


class Unread(Exception):
    """A name that can't be looked up, or a form that isn't known here."""


class Token(NamedTuple):
    """A word of a file and where it stands."""

    text: str
    line: int
    column: int
    is_glued: bool
    is_first: bool


class Group(NamedTuple):
    """What stands between two brackets."""

    text: str
    items: tuple
    line: int
    column: int
    is_glued: bool
    is_first: bool
    end: int


def tokens_of(text):
    """The words of a text, without its comments."""
    found, at, line, line_start, was_space, is_first = [], 0, 1, 0, True, True
    while at < len(text):
        match = TOKEN.match(text, at)
        if not match:
            raise Unread(f"line {line}: {text[at : at + 20]!r} is no word")
        word = match["text"] or match["word"] or match["escaped"]
        if match["escaped"] in RESERVED:
            word = match[0]
        if word:
            found.append(Token(word, line, at - line_start, not was_space, is_first))
            is_first = False
        was_space = not word
        breaks = match[0].count("\n")
        if breaks:
            line, line_start, is_first = line + breaks, match.start() + match[0].rindex("\n") + 1, True
        at = match.end()
    return found


def nested(tokens):
    """The words with each pair of brackets as a group."""
    stack, heads = [[]], []
    for token in tokens:
        if token.text in CLOSERS:
            heads.append(token)
            stack.append([])
        elif heads and token.text == CLOSERS[heads[-1].text]:
            head, items = heads.pop(), stack.pop()
            stack[-1].append(Group(*head[:1], tuple(items), *head[1:], token.line))
        elif token.text in CLOSERS.values():
            raise Unread(f"line {token.line}: a bracket that nothing opens")
        else:
            stack[-1].append(token)
    return stack[0]


def lines_of(items):
    """The lines on which these words stand."""
    for item in items:
        yield item.line
        if isinstance(item, Group):
            yield item.end
            yield from lines_of(item.items)


def split(items, *separators):
    """The items between these words."""
    parts = [[]]
    for item in items:
        if isinstance(item, Token) and item.text in separators:
            parts.append([])
        else:
            parts[-1].append(item)
    return parts


def position(items, *words):
    """Where the first of these words stands among the items, or behind them all."""
    return next((at for at, item in enumerate(items) if isinstance(item, Token) and item.text in words), len(items))


def statements(items):
    """The statements of a block, each from the block's column on."""
    found = []
    for item in items:
        if not found or (item.is_first and item.column <= items[0].column):
            found.append([])
        found[-1].append(item)
    return found


def binder(group):
    """The names that a group binds, and their type, where it does so."""
    at = position(group.items, ":")
    names = [item.text for item in group.items[:at] if isinstance(item, Token)]
    return (names, group.items[at + 1 :]) if 0 < at == len(names) < len(group.items) else ([], ())


def operator_parts(name):
    """The words of which an operator's name is made."""
    return [part for part in name.split("◌") if part] if "◌" in name else []


def chain_behind(items, at):
    """The names behind the dots that follow without a space, and where they end."""
    chain = []
    while at + 1 < len(items) and items[at].text == "." and items[at].is_glued and items[at + 1].is_glued:
        chain.append(items[at + 1].text)
        at += 2
    return chain, at


def written(items):
    """The text of items, with `as` kept apart."""
    for item in items:
        if isinstance(item, Group):
            yield "{" + "".join(written(item.items)) + "}"
        else:
            yield f" {item.text} " if item.text == "as" else item.text

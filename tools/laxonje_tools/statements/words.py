"""The words of a definition or of a clause, and which of them name something outside it.

Both are written in the same notation, so that one reader does for `specs/*.antt` and for the clauses of `src/*.rt`."""
import re
from collections.abc import Callable, Iterator
from typing import NamedTuple

TOKEN = re.compile(r'"(?:\\[\s\S]|[^"\\])*"|--[^\n]*|[(){}\[\],;]|\.(?=\s|$)|\.|[^\s(){}\[\],;."]+|\s+')
OPENING, CLOSING = "({[", ")}]"
# Words of the language, which name nothing.
LANGUAGE = set("λ → : = in let if then else where with case record data abbrev pub def unfoldable opaque by".split())


class Word(NamedTuple):
    """A word of a text: `member` if it stands directly after a dot."""

    text: str
    member: bool
    start: int


def words(text: str) -> list[Word]:
    """The words of a text, without strings and comments; a dot that ends the names of a λ is a word."""
    found, dot = [], False
    for it in TOKEN.finditer(text):
        word = it.group()
        if word.isspace() or word.startswith(("--", '"')):
            dot = False
        elif word == "." and it.end() < len(text) and not text[it.end()].isspace():
            dot = True
        else:
            found.append(Word(word, dot, it.start()))
            dot = False
    return found


def is_name(word: str) -> bool:
    return word not in LANGUAGE and word not in OPENING + CLOSING + ",;." and not word[0].isdigit()


def binder_end(found: list[Word], at: int) -> int:
    """The place of the colon of a group `(a b : T)` that opens at `at`, or 0 if it is another group."""
    at += 1
    start = at
    while at < len(found) and is_name(found[at].text) and not found[at].member:
        at += 1
    return at if start < at < len(found) and found[at].text == ":" else 0


class Reader:
    """Goes through the words of one clause, and yields those that aren't bound in it."""

    def __init__(self, found: list[Word], bound: set[str]):
        self.found, self.frames, self.brackets, self.at = found, [set(bound)], [], 0

    def is_bound(self, name: str) -> bool:
        return any(name in frame for frame in self.frames)

    def free(self) -> Iterator[tuple[str, str | None]]:
        """Each word that isn't bound, with its member if one is taken of it."""
        while self.at < len(self.found):
            yield from self.step()

    def step(self) -> Iterator[tuple[str, str | None]]:
        """Goes on by a word, or by all names of a binder."""
        word = self.found[self.at]
        self.at += 1
        if word.text in OPENING:
            self.enter()
        elif word.text in CLOSING:
            self.leave()
        elif word.text == "λ":
            yield from self.lambda_names()
        elif word.text == "let":
            yield from self.let_name()
        elif is_name(word.text) and not word.member and not self.is_field() and not self.is_bound(word.text):
            yield word.text, self.member()

    def enter(self) -> None:
        """Goes into a bracket; the names of a group `(a b : T)` are bound after it."""
        colon = binder_end(self.found, self.at - 1)
        names = {it.text for it in self.found[self.at : colon]} if colon else set()
        self.brackets.append((self.found[self.at - 1].text, names))
        self.frames.append(set())
        if colon:
            self.at = colon + 1

    def leave(self) -> None:
        """Comes out of a bracket: what is bound in it isn't known any longer."""
        if len(self.frames) > 1:
            self.frames.pop()
            self.frames[-1] |= self.brackets.pop()[1]

    def lambda_names(self) -> Iterator[tuple[str, str | None]]:
        """The names of a λ up to its dot, in brackets with their types or without."""
        while self.at < len(self.found) and self.found[self.at].text != ".":
            if self.found[self.at].text in OPENING:
                depth = len(self.frames)
                yield from self.step()
                while len(self.frames) > depth and self.at < len(self.found):
                    yield from self.step()
            else:
                self.frames[-1].add(self.found[self.at].text)
                self.at += 1
        self.at += 1

    def let_name(self) -> Iterator[tuple[str, str | None]]:
        """What a `let` binds is known after its `in`; it names nothing of its own here."""
        end = self.at
        while end < len(self.found) and self.found[end].text not in "=:":
            end += 1
        self.frames[-1] |= {it.text for it in self.found[self.at : end]}
        self.at = end
        yield from ()

    def is_field(self) -> bool:
        """Whether the word is a field's name in `record { field = .. }`."""
        at = self.at
        is_set = at < len(self.found) and self.found[at].text == "="
        return is_set and bool(self.brackets) and self.brackets[-1][0] == "{"

    def member(self) -> str | None:
        return self.found[self.at].text if self.at < len(self.found) and self.found[self.at].member else None


def free_words(text: str, bound: set[str] = frozenset()) -> Iterator[tuple[str, str | None]]:
    """Each word of an expression that it doesn't bind itself, with the member that is taken of it."""
    yield from Reader(words(text), set(bound)).free()


def clause_words(text: str, is_case: Callable[[str], bool], known: set[str] = frozenset()) -> Iterator[tuple[str, str | None]]:
    """The same of one line `name PATTERN.. = EXPRESSION` of a definition: a pattern's words are bound, but for cases."""
    found = words(text)
    depth = 0
    for at, word in enumerate(found):
        depth += (word.text in OPENING) - (word.text in CLOSING)
        if word.text == "=" and depth == 0:
            break
    else:
        yield from Reader(found, set(known)).free()
        return
    bound = set(known)
    for place, word in enumerate(found[1:at], 1):
        member = found[place + 1].text if found[place + 1].member else None
        if not is_name(word.text) or word.member:
            continue
        if member is not None or is_case(word.text):
            yield word.text, member
        else:
            bound.add(word.text)
    yield from Reader(found[at + 1 :], bound).free()

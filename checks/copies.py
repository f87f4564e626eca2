"""The false copies of checks/edits: a definition is copied with one slip, and one clause of a law cites the copy in place of the definition.

A clause cites words, as `SumsCommute`, and these cite others, as `IsSum`, and this `sum_of`. For a slip in `sum_of` all three are copied into one
file, and the clause cites the `SumsCommute` of this file. Nothing else changes: the definitions, the law's own words and its proof stay.
"""
import re
from collections import namedtuple
from functools import lru_cache
from pathlib import Path

# A definition: the word `name` in crates/CRATE/specs/MODULE.antt. In `module` a point stands for a folder.
Word = namedtuple("Word", "crate module name")
# What a `use` line brings in: the name `alias` stands for `name` of the module `path`, or for that module, if `name` is None.
Brought = namedtuple("Brought", "alias path name")

USE = re.compile(r"^(?:ghost )?use ([^;\n]+)", re.M)
NAME = re.compile(r"(?<![\w.'])[^\W\d][\w']*")
SIGNATURE = re.compile(r"(?:(?:pattern|unfoldable|abbrev) )*(?:pub )?(?:(?:record|data) )?([^\W\d][\w']*)(?= [:({])")


def brought_in(text):
    """What the `use` lines of a text bring in."""
    for line in USE.findall(text):
        path, braces, inside = line.strip().partition(".{")
        if not braces:
            path, _, alias = path.partition(" as ")
            yield Brought(alias or path.split(".")[-1], path, None)
        for item in inside.removesuffix("}").split(", ") if braces else ():
            item, _, alias = item.partition(" as ")
            *folders, name = item.split(".")
            yield Brought(alias or name, ".".join([path, *folders]), name)


@lru_cache(maxsize=None)
def definitions(path):
    """The definitions of a file, by their names, without the comments above them."""
    found = {}
    for part in re.split(r"\n\s*\n", path.read_text(encoding="utf-8")):
        text = "\n".join(it for it in part.splitlines() if not it.startswith("--"))
        if signature := SIGNATURE.match(text):
            found[signature[1]] = text
    return found


class Copies:
    """The copies for a slip in the target, which is a word. `top` is the folder of the repository."""

    def __init__(self, top, target):
        self.top, self.target = Path(top), target
        # Whether a word cites the target, itself or by way of others.
        self.leads = {}
        # The words that do, each behind those that it cites.
        self.words = []

    def path(self, word):
        return self.top / "crates" / word.crate / "specs" / f"{word.module.replace('.', '/')}.antt"

    def definition(self, word):
        """The text of the definition, or None if there is none."""
        path = self.path(word)
        return definitions(path).get(word.name) if path.is_file() else None

    def word(self, brought):
        """The word of this repository that is brought in, or None if it is another thing."""
        path = re.fullmatch(r"Rattle\.(\w+)\.specs\.([\w.]+)", brought.path)
        word = Word(*path.groups(), brought.name) if path and brought.name else None
        return word if word and self.definition(word) else None

    def cited(self, text, source, own=None):
        """The words that the text cites, by the names that it has for them. `source` is the file that it stands in, and `own` a word of that file."""
        names = set(NAME.findall(text))
        found = {it.alias: self.word(it) for it in brought_in(source) if it.alias in names}
        if own:
            found.update((it, own._replace(name=it)) for it in names & set(definitions(self.path(own))))
        return {alias: word for alias, word in found.items() if word}

    def lead(self, word):
        """Whether the word cites the target, or is the target. If so, it is among the words."""
        if word not in self.leads:
            self.leads[word] = word == self.target
            if word != self.target:
                source = self.path(word).read_text(encoding="utf-8")
                cited = self.cited(self.definition(word), source, word)
                self.leads[word] = any([self.lead(it) for _, it in sorted(cited.items())])
            if self.leads[word]:
                self.words.append(word)
        return self.leads[word]

    def needs(self, word, text):
        """What the copy of the word, with this text, has to bring in: what its own file brings in or has, but for the words that are copied."""
        source, names = self.path(word).read_text(encoding="utf-8"), set(NAME.findall(text))
        for it in brought_in(source):
            if (it.alias in names or not it.alias.isidentifier()) and self.word(it) not in self.words:
                yield it
        for name in names & set(definitions(self.path(word))):
            if word._replace(name=name) not in self.words:
                yield Brought(name, f"Rattle.{word.crate}.specs.{word.module}", name)

    def file(self, pairs):
        """The text of the file of copies, with each old text of the target's definition replaced by its new one."""
        texts, needed = [], set()
        for word in self.words:
            text = self.definition(word)
            for old, new in pairs if word == self.target else ():
                text = text.replace(old, new)
            texts.append(text)
            needed.update(self.needs(word, text))
        return "\n\n".join(["\n".join(use_lines(needed)), *texts]) + "\n"


def use_lines(needed):
    """The `use` lines that bring this in."""
    paths = {}
    for it in sorted(needed, key=lambda it: (it.path, it.name or "", it.alias)):
        paths.setdefault(it.path, []).append(it)
    for path, items in paths.items():
        for it in items:
            if it.name is None:
                yield f"use {path} as {it.alias}"
        names = [it.name if it.alias == it.name else f"{it.name} as {it.alias}" for it in items if it.name]
        if names:
            yield f"use {path}.{{{', '.join(names)}}}"


def clause_span(text, start, name):
    """Where what a clause of the function that begins at `start` says begins and ends, or None. A name is not needed if it is the only clause."""
    body = re.compile(r"^ *\{", re.M).search(text, start)
    head = text[: body.start()] if body else text
    begins = [it for it in re.finditer(r"\bensures (\w+ )?\{", head[start:]) if name is None or it[1] == f"{name} "]
    if len(begins) != 1:
        return None
    begin = end = start + begins[0].end()
    depth = 1
    while depth:
        depth += (text[end] == "{") - (text[end] == "}")
        end += 1
    return begin, end - 1

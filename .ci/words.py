#!/usr/bin/env python3
"""Reads every .md page of the repository as a reader would, and says what to mend.

    words.py [--self-test] [PAGE ...]

It finds sentences over 40 words (30 in README.md), words to be avoided, links that lead nowhere, names of files of this
repository that aren't there, names of the code that its crate or file doesn't have, a README.md over 150 lines and a
docs/DECISIONS.md over 35,000 bytes. Each is a line with page, line and sentence; the status is 1 where there is any. Code
blocks aren't read; each cell of a table and each item of a list has sentences of its own; a piece of code in a sentence is one
word.
"""
import argparse
import functools
import os
import re
import sys
import tempfile
from dataclasses import dataclass
from typing import Iterator, Optional

TOP = os.path.dirname(os.path.dirname(os.path.abspath(__file__)))
LONGEST, LONGEST_IN_README = 40, 30
README_LINES = 150
DECISIONS_BYTES = 35_000

# Words to be avoided, and what to write.
AVOIDED: list[tuple[str, str]] = [
    (r"(?:want|wants|lack) of memory", "out of memory"),
    (r"want(?:s|ed|ing)? memory", "run out of memory"),
    (r"in vain", "what failed"),
    (r"(?:is|was|are|were|be) wanting", "is missing, or runs out"),
    (r"so many", "n, or the first n"),
    (r"anew", "again"),
    (r"stands? apart", "is a function of its own"),
    (r"(?:what|which|it|that|this) (?:\w+ ){0,6}(?:comes?|came) to(?! rest| an end| the)", "is, or results in"),
    (r"as ever", "as before"),
    (r"gone over", "read"),
    (r"went over", "read"),
    (r"owes?", "must, or has to"),
    (r"be it", "whether"),
    (r"besides that", "also"),
    (r"thereof|whereof|hereby|wherein|therein|whosoever", "plain words"),
]
AVOIDED_RE = [(re.compile(r"\b(?:" + pattern + r")\b", re.I), instead) for pattern, instead in AVOIDED]

# What a page names by its bare name must be somewhere in the repository, where it ends like this.
SOURCES = (".rt", ".antt", ".edit", ".md", ".py", ".sh", ".js", ".css", ".h")
# What begins like this is a path of this repository.
PLACES = ("src", "specs", "proofs", "must-fail", ".ci", "bench", "bridges", "crates", "docs", "examples", "host", "view")
MADE = re.compile(r"(?:^|/)(?:out|__pycache__)(?:/|$)")
STANDS_FOR_ANY = re.compile(r"(?:^|/)[A-Z]+(?:[./]|$)|[*{}<>$]|\.\.\.")
PATH = re.compile(r"[\w.\-/*]+")
# Pages whose names are the code's. A name, as a definition's, a type's or an edit's, has an underscore or a capital letter.
ON_CODE = ("crates/", "docs/")
NAME = re.compile(r"(?<![\w./$\-])(?=\w*[a-z])(?=\w*[A-Z_])[A-Za-z]\w*(?<!_)(?![\w./\-])")
# The files in which names stand, each with how a comment begins.
COMMENTS = {".rt": "//", ".rattle": "//", ".antt": "--", ".py": "#", ".sh": "#", ".js": "//", ".h": "//", ".c": "//", ".cpp": "//"}
# A crate, or a file or folder of one; the names in backticks right behind it, but for one with a place of its own; and that one.
PLACE = r"`?(?:crates/)?((?:lx_\w+|cuedesk)(?:/[\w.\-/]*\w)?)`?"
OWNED = r"(?: of | in | \()" + PLACE
NAMES = r"`[^`|]+`(?!" + OWNED + ")"
BEHIND_PLACE = re.compile(rf"(?<![\w/]){PLACE}[ (|:]+({NAMES}(?:(?:,| and| or) {NAMES})*)")
BEFORE_PLACE = re.compile(r"(`[^`|]+`)" + OWNED)
# Paths that stand in a text without backticks: below a crate, or below the top.
BARE = re.compile(r"(?<![\w/.\-])(?:lx_\w+|cuedesk|" + "|".join(re.escape(place) for place in PLACES) + r")/[\w.\-/]*\w")


@dataclass(frozen=True)
class Finding:
    """What is to be mended, where."""
    page: str
    line: int
    what: str
    text: str

    def __str__(self) -> str:
        return f"{self.page}:{self.line}: {self.what}: {self.text}"


@dataclass(frozen=True)
class Text:
    """A paragraph, heading, item of a list or cell of a table, with the line at which each of its characters stands."""
    text: str
    lines: list[int]

    def line(self, place: int) -> int:
        """The line of the character at a place."""
        return self.lines[min(place, len(self.lines) - 1)]


class Tree:
    """The files and folders of the repository, without what is built."""

    def __init__(self, top: str) -> None:
        self.top = top
        self.paths: set[str] = set()
        for folder, folders, files in os.walk(top):
            folders[:] = [name for name in folders if name not in (".git", "out", "__pycache__", "node_modules")]
            here = os.path.relpath(folder, top)
            self.paths |= {os.path.normpath(os.path.join(here, name)) for name in folders + files}
        self.crates = {path.removeprefix("crates/") for path in self.paths if re.fullmatch(r"crates/\w+", path)}
        self.ends = {"/".join(parts[k:]) for parts in (path.split("/") for path in self.paths) for k in range(len(parts))}

    def pages(self) -> list[str]:
        """All pages, by name."""
        return sorted(path for path in self.paths if path.endswith(".md"))

    def has(self, name: str) -> bool:
        """Whether a file or folder ends like this, be it a spec or proof without its ending."""
        return name in self.ends or name + ".antt" in self.ends

    def read(self, page: str) -> str:
        """The text of a page."""
        with open(os.path.join(self.top, page), encoding="utf-8") as file:
            return file.read()

    def names_of(self, path: str) -> set[str]:
        """The names in a source file, comments aside, and its own name."""
        stem, ending = os.path.splitext(os.path.basename(path))
        text = re.sub(rf"(?m)(?:^|\s){COMMENTS[ending]}.*$", "", self.read(path)) if ending in COMMENTS else ""
        return {stem, *re.findall(r"\w+", text)}

    @functools.cache
    def names_in(self, place: str) -> set[str]:
        """The names in a file, which may stand without its ending, or in all files of a folder; without a place in the whole repository.
        A crate's wrong bodies that the gate leaves out are its own too."""
        folder = place and place.rstrip("/") + "/"
        edits = re.sub("^crates/", ".ci/edits/", folder)
        inside = [path for path in self.paths if path in (place, place + ".antt") or path.startswith((folder, edits))]
        return set().union(*map(self.names_of, inside))


def visible_lines(text: str) -> Iterator[tuple[int, str]]:
    """The lines that aren't code, with their numbers; a code block is one empty line."""
    fence: Optional[str] = None
    blank_before, code = True, False
    for number, line in enumerate(text.splitlines(), 1):
        mark = re.match(r"\s*(```+|~~~+)", line)
        if fence:
            fence = None if mark and mark.group(1).startswith(fence) else fence
            yield number, ""
            continue
        if mark:
            fence = mark.group(1)
            yield number, ""
            continue
        code = line.startswith(("    ", "\t")) and (blank_before or code)
        yield number, "" if code else line
        blank_before = not line.strip() or (code and blank_before)


def texts(page: str) -> Iterator[Text]:
    """The texts of a page, each whole."""
    held: list[tuple[int, str]] = []

    def whole() -> Iterator[Text]:
        if held:
            yield Text(" ".join(line for _, line in held), [number for number, line in held for _ in line + " "])
            held.clear()

    for number, line in visible_lines(page):
        stripped = line.strip()
        if not stripped or stripped.startswith(("|", "#")):
            yield from whole()
        if stripped.startswith("|"):
            for cell in re.split(r"(?<!\\)\|", stripped.strip("|")):
                if not re.fullmatch(r"[\s:\-]*", cell):
                    yield Text(cell.strip(), [number] * max(len(cell), 1))
        elif stripped.startswith("#"):
            yield Text(stripped.lstrip("# "), [number] * len(stripped))
        elif stripped:
            item = re.match(r"(?:[-*+]|\d+[.)])\s+", stripped)
            if item:
                yield from whole()
                stripped = stripped[item.end():]
            held.append((number, stripped))
    yield from whole()


def without_marks(text: str) -> str:
    """The text of the same length, with each piece of code as one word, links as what is read of them, and NUL for what isn't."""
    text = re.sub(r"`[^`]*`", lambda code: "`" + "c" * (len(code.group()) - 2) + "`", text)
    # What a picture shows is a text of its own.
    text = re.sub(r"!\[([^\]]*)\]\(([^)]*)\)", lambda link: "\0" + link.group(1) + ". " + "\0" * (len(link.group(2)) + 2), text)
    return re.sub(r"\[([^\]]*)\]\(([^)]*)\)", lambda link: "\0" + link.group(1) + "\0" * (len(link.group(2)) + 3), text)


def sentences(text: str) -> Iterator[tuple[int, str]]:
    """The sentences, each with the place at which it begins."""
    begin = 0
    for stop in re.finditer(r"(?<![.\s])[.!?][\"')*_]*\s+(?=[\"'(*_\[]*[A-Z`0-9])", text):
        yield begin, text[begin:stop.end()].strip()
        begin = stop.end()
    if text[begin:].strip():
        yield begin, text[begin:].strip()


def count_words(sentence: str) -> int:
    """How many words it has."""
    return sum(1 for word in sentence.split() if re.search(r"\w", word))


def anchors(text: str) -> set[str]:
    """The names by which a page's headings are linked to."""
    found: set[str] = set()
    for _, line in visible_lines(text):
        heading = re.match(r"#{1,6}\s+(.*?)\s*#*$", line)
        if heading:
            read = re.sub(r"\[([^\]]*)\]\([^)]*\)", r"\1", heading.group(1))
            name = re.sub(r"[^\w\- ]", "", read.lower()).replace(" ", "-")
            found.add(next(n for n in (name, *(f"{name}-{k}" for k in range(1, 100))) if n not in found))
    return found


def dead_links(tree: Tree, page: str, text: Text) -> Iterator[Finding]:
    """Links to files, folders and headings of the repository that aren't there."""
    shown = re.sub(r"`[^`]*`", lambda code: " " * len(code.group()), text.text)
    for link in re.finditer(r"\]\(([^)\s]+)[^)]*\)", shown):
        target = link.group(1)
        if re.match(r"[a-z]+:", target):
            continue
        name, _, anchor = target.partition("#")
        path = os.path.normpath(os.path.join(os.path.dirname(page), name)) if name else page
        if path != "." and path not in tree.paths:
            yield Finding(page, text.line(link.start()), "no such file", target)
        elif anchor and path.endswith(".md") and anchor not in anchors(tree.read(path)):
            yield Finding(page, text.line(link.start()), "no such heading", target)


def is_a_name(name: str) -> bool:
    """Whether this looks like a path of this repository."""
    if MADE.search(name) or STANDS_FOR_ANY.search(name) or not PATH.fullmatch(name):
        return False
    return "/" in name and name.split("/")[0] in PLACES or "/" not in name and name.endswith(SOURCES) and name not in SOURCES


def dead_names(tree: Tree, page: str, text: Text) -> Iterator[Finding]:
    """Names of files that aren't there, in backticks or not."""
    shown = re.sub(r"`[^`]*`|\]\([^)]*\)", lambda code: "`" * len(code.group()), text.text)
    for bare in BARE.finditer(shown):
        if not STANDS_FOR_ANY.search(bare.group()) and not MADE.search(bare.group()) and not tree.has(bare.group()):
            yield Finding(page, text.line(bare.start()), "no such file", bare.group())
    for code in re.finditer(r"`([^`]+)`", text.text):
        for word in code.group(1).split():
            name = re.sub(r":\d+$", "", word.strip(",;()")).removeprefix("./").rstrip("/")
            if is_a_name(name) and not tree.has(name):
                yield Finding(page, text.line(code.start()), "no such file", name)


def names_beside(line: str) -> Iterator[tuple[str, str]]:
    """Each name of the code that stands right beside a crate, or beside a file of one, with that. Beside a file any word is a name."""
    beside = [(found[1], found[2]) for found in BEHIND_PLACE.finditer(line)] + [(found[2], found[1]) for found in BEFORE_PLACE.finditer(line)]
    for place, codes in beside:
        for code in re.findall(r"`([^`]+)`", codes):
            yield from ((place, name) for name in ([code] if "/" in place and code.isidentifier() else NAME.findall(code)))


def strange_names(tree: Tree, page: str) -> Iterator[Finding]:
    """Names of the code that aren't where the page has them: in the crate or file beside them; in a crate's README.md in that crate or
    in one that is named with them; and at least somewhere in the repository."""
    home = re.fullmatch(r"crates/(\w+)/README\.md", page)
    for text in texts(tree.read(page)) if page.startswith(ON_CODE) else ():
        named = [crate for crate in tree.crates if home and (crate == home.group(1) or re.search(rf"\b{crate}\b", text.text))]
        others = tree.names_in("crates").difference(*(tree.names_in("crates/" + crate) for crate in named)) if home else set()
        for code in re.finditer(r"`[^`]+`", text.text):
            for name in set(NAME.findall(code.group())) - tree.crates:
                if name in others or name not in tree.names_in(""):
                    yield Finding(page, text.line(code.start()), "no such name", name)
    for number, line in visible_lines(tree.read(page)):
        for place, name in names_beside(line):
            if name not in tree.crates and name not in tree.names_in("crates/" + place):
                yield Finding(page, number, f"no such name in {place}", name)


def wordings(page: str, text: Text) -> Iterator[Finding]:
    """Long sentences, and words to be avoided."""
    most = LONGEST_IN_README if page == "README.md" else LONGEST
    read = without_marks(text.text)
    for begin, sentence in sentences(read):
        count = count_words(sentence)
        if count > most:
            yield Finding(page, text.line(begin), f"{count} words in a sentence (at most {most})", text.text[begin:begin + 120])
    for pattern, instead in AVOIDED_RE:
        for word in pattern.finditer(read):
            near = text.text[max(0, word.start() - 40):word.end() + 40]
            yield Finding(page, text.line(word.start()), f"'{word.group()}': write '{instead}'", near)


def sizes(page: str, text: str) -> Iterator[Finding]:
    """Pages that are too long."""
    lines, size = len(text.splitlines()), len(text.encode())
    if page == "README.md" and lines > README_LINES:
        yield Finding(page, lines, f"{lines} lines (at most {README_LINES})", "the whole page")
    if page == "docs/DECISIONS.md" and size > DECISIONS_BYTES:
        yield Finding(page, lines, f"{size:,} bytes (at most {DECISIONS_BYTES:,})", "the whole page")


def findings(tree: Tree, page: str) -> list[Finding]:
    """All that is to be mended on a page."""
    content = tree.read(page)
    found = [*sizes(page, content), *strange_names(tree, page)]
    for text in texts(content):
        found += [*wordings(page, text), *dead_links(tree, page, text), *dead_names(tree, page, text)]
    return found


# A page of each fault, and what is found there, in this order: part of what is said, and the line.
WRONG_README = "# A page\n\n" + "word " * 31 + "end. Short.\n\n" + "\n" * 147
WRONG_PAGE = f"""# A page

Short, and then one that is long {'word ' * 40}end.

- It is filled in anew. Fine.

| a | cell |
|---|---|
| one | {'word ' * 41}|

See [that](gone.md), [the page](#a-page), [README](../README.md#none) and `src/gone.rt`, `page.md`, `crates/X/gone`.

Then lx_gone/specs/Gone, and docs/page.md.

`put_all` of `lx_one`, lx_one/src/lib.rt `held` and `HasRead` (lx_two) are there.

`StaleName` isn't. `HasRead` isn't in `lx_one` (`HasRead`), nor lx_one/src/lib.rt `taken`.

    {'code ' * 50}

```console
{'code ' * 50}
```
"""
WANTED = [("README.md", 3, "32 words"), ("README.md", 151, "151 lines"), ("docs/DECISIONS.md", 3, "30,001 bytes"),
          ("docs/page.md", 3, "48 words"), ("docs/page.md", 5, "'anew'"), ("docs/page.md", 9, "41 words"), ("docs/page.md", 11, "gone.md"),
          ("docs/page.md", 11, "../README.md#none"), ("docs/page.md", 11, "src/gone.rt"), ("docs/page.md", 13, "lx_gone/specs/Gone"),
          ("docs/page.md", 17, "StaleName"), ("docs/page.md", 17, "lx_one: HasRead"), ("docs/page.md", 17, "lib.rt: taken"),
          ("crates/lx_one/README.md", 5, "HasRead")]
CRATES = {"crates/lx_one/README.md": "# lx_one\n\n`put_all` is here, and `HasRead` in `lx_two`.\n\n`HasRead` isn't.\n",
          "crates/lx_one/src/lib.rt": "// StaleName, and taken\npub fn put_all() {}\nfn held() {}\n",
          "crates/lx_two/specs/Two.antt": "pub record HasRead : Type 0 where\n"}


def self_test() -> int:
    """A small repository that has one of each fault: each is found, and nothing else."""
    with tempfile.TemporaryDirectory(prefix="words-") as top:
        pages = {"README.md": WRONG_README, "docs/page.md": WRONG_PAGE, "docs/DECISIONS.md": "# D\n\n" + "A b. " * (DECISIONS_BYTES // 5), **CRATES}
        for page, text in pages.items():
            os.makedirs(os.path.dirname(os.path.join(top, page)), exist_ok=True)
            with open(os.path.join(top, page), "w", encoding="utf-8") as file:
                file.write(text)
        tree = Tree(top)
        found = sorted((finding for page in tree.pages() for finding in findings(tree, page)), key=lambda f: (f.page, f.line))
    size = len(pages["docs/DECISIONS.md"])
    wanted = [(page, line, f"{size:,} bytes" if "bytes" in what else what) for page, line, what in WANTED]
    missed = [want for want in wanted if not any(f.page == want[0] and f.line == want[1] and want[2] in str(f) for f in found)]
    for want in missed:
        print("not found:", *want)
    if len(found) != len(wanted):
        print(f"{len(found)} found for {len(wanted)}:", *found, sep="\n")
    return 1 if missed or len(found) != len(wanted) else 0


def main() -> int:
    """All pages, or those that are named."""
    parser = argparse.ArgumentParser(description=(__doc__ or "").splitlines()[0])
    parser.add_argument("--self-test", action="store_true", help="tries the rules on pages that break each of them")
    parser.add_argument("pages", nargs="*", metavar="PAGE", help="pages by their path from the repository's top; without any, all")
    given = parser.parse_args()
    if given.self_test:
        return self_test()
    tree = Tree(TOP)
    pages = given.pages or tree.pages()
    found = [finding for page in pages for finding in findings(tree, page)]
    for finding in found:
        print(finding)
    print(f"{len(pages)} pages, {len(found)} to be mended")
    return 1 if found else 0


if __name__ == "__main__":
    sys.exit(main())

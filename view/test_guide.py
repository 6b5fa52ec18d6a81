"""The pictures of docs/GUIDE.md are of what its shows give now. `.ci/pages.py` types its commands."""
import os
import re

from asking import TOP

GUIDE = os.path.join(TOP, "docs/GUIDE.md")


def pictures(program: str, _: str) -> list[str]:
    """Each picture of the guide is there, small, and made of what its show gives now; no other is."""
    from pictures import MAKES, PICTURES, Plot, known_sums, source, sum_of
    with open(GUIDE, encoding="utf-8") as file:
        named = set(re.findall(r"\]\(pictures/([^)]+)\)", file.read()))
    there = set(os.listdir(PICTURES)) - {"sources.txt"}
    wrong = [f"{name} is named in the guide, made or there, but not all three" for name in named ^ there | named ^ set(MAKES)]
    for name in named & there:
        path, data = os.path.join(PICTURES, name), source(program, MAKES[name])
        if sum_of(data) != known_sums().get(name) or isinstance(MAKES[name], Plot) and open(path, "rb").read() != data:
            wrong.append(f"{name} is out of date: view/pictures.py makes it again")
        if os.path.getsize(path) > 150_000:
            wrong.append(f"{name} has {os.path.getsize(path):,} bytes")
    return wrong


def cases() -> list[tuple[str, object]]:
    """What is tested, by name."""
    return [("guide: pictures", pictures)]

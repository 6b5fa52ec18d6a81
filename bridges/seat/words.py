"""How levels, moments and refusals are said, as the views of this repository say them."""
import os
import sys
import textwrap
import unicodedata
from typing import List, Tuple

TOP = os.path.dirname(os.path.dirname(os.path.dirname(os.path.abspath(__file__))))
sys.path.append(os.path.join(TOP, "view"))

from shows import MEANINGS, SEPARATORS, percent  # noqa: E402

__all__ = ["TOP", "clean", "clock_text", "cut", "percent", "seconds", "tail", "tokens", "why", "wrapped"]


def tokens(line: str) -> List[str]:
    """The words of a script line, in lower case, without its comment."""
    return [token for token in SEPARATORS.split(line.split("!")[0].lower()) if token]


def why(reply: str) -> str:
    """What a reply `bad` or `refused NAME NUMBERS` means, or nothing."""
    if reply == "bad":
        return "no line of a script, or a number that is out of its range"
    words = reply.split(" ")
    return MEANINGS.get(words[1], "") if words[0] == "refused" and len(words) > 1 else ""


def seconds(hundredths: int) -> str:
    """A time in seconds, to a tenth."""
    return f"{hundredths / 100:.1f}"


def clock_text(moment: int) -> str:
    """A moment as minutes, seconds and hundredths, with hours where there are any."""
    minutes, rest = divmod(moment, 6_000)
    hours, minutes = divmod(minutes, 60)
    return (f"{hours}:{minutes:02}" if hours else f"{minutes}") + f":{rest // 100:02}.{rest % 100:02}"


def clean(text: str) -> str:
    """The text with a question mark for each character that no terminal shows."""
    return text if text.isprintable() else "".join(letter if letter.isprintable() else "?" for letter in text)


def cut(text: str, columns: int) -> Tuple[str, int]:
    """As much of the text as has room, and how many columns it takes: some letters take two, and some none."""
    if text.isascii():
        return text[:columns], min(len(text), columns)
    wide = 0
    for place, letter in enumerate(text):
        step = 0 if unicodedata.combining(letter) else 2 if unicodedata.east_asian_width(letter) in "WF" else 1
        if wide + step > columns:
            return text[:place], wide
        wide += step
    return text, wide


def tail(text: str, columns: int) -> Tuple[str, int]:
    """The same from the end of the text."""
    end, wide = cut(text[::-1], columns)
    return end[::-1], wide


def wrapped(text: str, columns: int) -> List[str]:
    """The text in lines that have room: between words, or where letters take two columns or none, wherever a line is full."""
    if cut(text, len(text)) == (text, len(text)):
        return textwrap.wrap(text, columns)
    lines = []
    while text:
        lines.append(cut(text, columns)[0])
        text = text[len(lines[-1]):]
    return lines

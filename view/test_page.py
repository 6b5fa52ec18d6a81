"""Pages, looked at as a person would: the slider is stepped, play pressed, numbers read, and compared with what the program says."""
import os
import re
import shutil
import subprocess
import sys
import time

from asking import TOP, Asked, greatest
from browser import Browser

PAGE = os.path.join(TOP, "view/page.py")
MOMENTS = 10
OPENS_IN = 2.0
# All cells of one row that are in sight, by channel, as a screen reader has them; and the words about the moment.
STAGE = "Object.fromEntries([...document.querySelectorAll('.stage .cell')].map(e => e.getAttribute('aria-label')).map(t => [/channel (\\d+)/.exec(t)[1], +((/(\\d+) of 255/.exec(t) || [0, 0])[1])]))"
CUES = "[...document.querySelectorAll('[role=row]')].slice(2).map(row => [row.querySelector('.number').textContent.replace('▶ ', ''), row.getAttribute('aria-current'), [...row.querySelectorAll('.cell')].map(e => [e.getAttribute('aria-label'), e.textContent, e.className])])"
MOMENT = "[document.getElementById('now').textContent, document.querySelector('.stage .l').textContent]"


def make(program: str, folder: str, show: str, *more: str) -> tuple[str, int]:
    """Makes a page; its path and the status."""
    path = os.path.join(folder, os.path.basename(show).encode(errors="ignore").decode() + ".html")
    with open(path, "wb") as file:
        run = subprocess.run([sys.executable, PAGE, show, "--program", program, *more], stdout=file, check=False)
    return path, run.returncode


def hundredths(text: str) -> int:
    """A moment as the page writes it."""
    parts = [float(part) for part in text.removesuffix(" s").split(":")]
    return round(sum(part * 60 ** i for i, part in enumerate(reversed(parts))) * 100)


def moment(browser: Browser, asked: Asked) -> tuple[int, int, list[str]]:
    """The line that the page says it is after, the moment, and the cues that run."""
    now, stage = browser.value(MOMENT)
    said = re.search(r"after line (\d+)", stage)
    time_said = re.match(r"([\d:.]+(?: s)?) ▶ (.*?) [\d,]+ of", now)
    running = ["0" if cue == "no cue" else cue.removeprefix("cue ") for cue in time_said[2].split(" and ")]
    return int(said[1]) if said else asked.first, hundredths(time_said[1]), running


def level_said(words: str) -> int:
    """The level in the words of a cell."""
    said = re.search(r"(\d+) of 255", words)
    return int(said[1]) if said else 0


def percent_said(level: int) -> str:
    """How a level is to be shown."""
    return "FL" if level == 255 else str(min(99, max(1, int(level / 2.55 + 0.5)))) if level else "0"


def wrong_stage(browser: Browser, asked: Asked, at: tuple[int, int, list[str]]) -> list[str]:
    """Where the outputs in sight aren't those of the program."""
    shown, wanted = browser.value(STAGE), asked.outputs(*at[:2])
    wrong = [f"channel {c}: {level} for {wanted.get(int(c), 0)}" for c, level in shown.items() if level != wanted.get(int(c), 0)]
    return wrong + ([] if shown else ["no output in sight"])


def wrong_cues(browser: Browser, asked: Asked, at: tuple[int, int, list[str]], list_at: tuple[int, int]) -> list[str]:
    """Where the tracked levels in sight aren't those of `sheet`, or the wrong cue is marked as running."""
    cues = browser.value(CUES)
    rows, wrong = asked.rows(*list_at, [cue for cue, _, _ in cues]), []
    for cue, current, cells in cues:
        if (current == "true") != (cue in at[2]):
            wrong.append(f"cue {cue} is {'' if current else 'not '}marked")
        for words, text, _ in cells:
            channel = int(re.search(r"channel (\d+)", words)[1])
            level = rows[cue].get(channel, 0)
            if level_said(words) != level or text != percent_said(level) and (level or text):
                wrong.append(f"{words} ({text}) for {level}")
    return wrong


def steps_through(program: str, folder: str, name: str, job: str = "render") -> list[str]:
    """Ten moments of a show, reached by the slider's keys."""
    show, wrong = os.path.join(TOP, "examples", name), []
    path, _ = make(program, folder, show, "--job", job.split()[0], *["--states"] * job.endswith("states"))
    asked = Asked(program, show, job)
    with Browser() as browser:
        browser.open(path)
        last = browser.value("+document.getElementById('at').max")
        browser.value("document.getElementById('at').focus()")
        browser.press("Home")
        reached = 0
        for i in range(MOMENTS):
            place = last * i // (MOMENTS - 1)
            browser.press("ArrowRight", place - reached)
            reached = place
            at = moment(browser, asked)
            if job != "two" and [asked.position(*at[:2])] != at[2]:
                wrong.append(f"at {place}: cue {at[2]} runs for {asked.position(*at[:2])}")
            wrong += [f"at {place}: {each}" for each in wrong_stage(browser, asked, at)]
            wrong += [f"at {place}: {each}" for each in wrong_cues(browser, asked, at, at[:2])] if job != "two" else []
    return wrong


def plays(program: str, folder: str, name: str) -> list[str]:
    """Play goes on in time, pause stops it, and what stands there then is right; fast play ends at the end."""
    show = os.path.join(TOP, "examples", name)
    path, _ = make(program, folder, show)
    asked, wrong = Asked(program, show), []
    with Browser() as browser:
        browser.open(path)
        began = time.monotonic()
        browser.click("document.getElementById('play')")
        time.sleep(1)
        browser.click("document.getElementById('play')")
        took = time.monotonic() - began
        at = moment(browser, asked)
        if not 0.3 <= at[1] / 100 <= took + 0.1:
            wrong.append(f"after {took:.2f} s the page stands at {at[1] / 100}")
        wrong += wrong_stage(browser, asked, at) + wrong_cues(browser, asked, at, at[:2])
        if browser.value("document.getElementById('play').getAttribute('aria-pressed')") != "false":
            wrong.append("it isn't paused")
        browser.value("document.getElementById('speed').value = 20")
        browser.click("document.getElementById('play')")
        browser.until("document.getElementById('play').getAttribute('aria-pressed') === 'false'", 10)
        if browser.value("document.getElementById('at').value !== document.getElementById('at').max"):
            wrong.append("it didn't play to the end")
        wrong += wrong_stage(browser, asked, moment(browser, asked))
    return wrong


def lines_between(browser: Browser, asked: Asked) -> list[str]:
    """The buttons go from line to line, and a line's own button to its moment."""
    wrong = []
    browser.press("Home")
    for _ in range(3):
        browser.click("document.getElementById('after')")
        at = moment(browser, asked)
        wrong += wrong_stage(browser, asked, at)
    browser.click("document.querySelector('#script button')")
    if moment(browser, asked)[0] != asked.first + 1:
        wrong.append("the first line's button doesn't lead to it")
    return wrong


# Whether the page takes the browser's own ways back and forth, by place and by key that is held.
TAKEN = """['body', '#grid', '#roll'].flatMap(place => ['altKey', 'ctrlKey', 'metaKey'].filter(held =>
  !document.querySelector(place).dispatchEvent(new KeyboardEvent('keydown', {key: 'ArrowLeft', [held]: true, bubbles: true, cancelable: true})) && !(place === '#grid' && held === 'ctrlKey')).map(held => place + ' ' + held))"""


def keyboard(program: str, folder: str) -> list[str]:
    """The keyboard alone reaches the list and each number in it, and each is said in words."""
    show = os.path.join(TOP, "examples/fades.asc")
    path, _ = make(program, folder, show)
    asked, wrong = Asked(program, show), []
    with Browser() as browser:
        browser.open(path)
        for _ in range(12):
            browser.press("Tab")
            if browser.value("document.activeElement.id") == "grid":
                break
        else:
            return ["Tab doesn't reach the cue list"]
        rows = asked.rows(asked.first, 0, ["1", "2", "3"])
        browser.press("Home", ctrl=True)
        browser.press("ArrowRight", 5)
        browser.press("ArrowDown", 1)
        for cue in ("1", "2", "3"):
            browser.press("ArrowDown")
            for channel in (1, 2, 3):
                words, active = browser.value("[document.getElementById('read').textContent, document.getElementById(document.getElementById('grid').getAttribute('aria-activedescendant')).getAttribute('aria-label')]")
                if words != active or not words.startswith(f"cue {cue}, channel {channel}: ") or level_said(words) != rows[cue].get(channel, 0):
                    wrong.append(f"cue {cue} channel {channel}: {words!r}, {active!r}")
                browser.press("ArrowRight")
            browser.press("ArrowLeft", 2)
        browser.press("Home")
        browser.press("ArrowRight", 2)
        words = browser.value("document.getElementById('read').textContent")
        if words != "up: 5 seconds":
            wrong.append(f"the up time of cue 3 is said as {words!r}")
        wrong += lines_between(browser, asked)
        wrong += [f"the browser doesn't get {each} and an arrow" for each in browser.value(TAKEN)]
    return wrong


def names(program: str, folder: str) -> list[str]:
    """A screen reader finds a name for each part that can be used, and for each number."""
    path, _ = make(program, folder, os.path.join(TOP, "examples/edits.asc"))
    wrong = []
    with Browser() as browser:
        browser.open(path)
        tree = browser.call("Accessibility.getFullAXTree")["nodes"]
        roles = {}
        for node in tree:
            role, name = node.get("role", {}).get("value"), node.get("name", {}).get("value", "")
            roles.setdefault(role, []).append(name)
            if role in ("button", "slider", "combobox", "grid", "gridcell", "columnheader", "rowheader", "region", "img", "image") and not name and not node.get("ignored"):
                wrong.append(f"a {role} without a name")
        wrong += [f"no {role}" for role in ("slider", "grid", "gridcell", "columnheader", "row", "button", "heading") if role not in roles]
        if browser.value("document.documentElement.lang") != "en" or not browser.value("document.title"):
            wrong.append("no language or title")
    return wrong


LUMINANCE = """(() => {
  const parts = c => c.match(/[\\d.]+/g).map(Number), over = (a, b) => a.slice(0, 3).map((v, i) => v * (a[3] ?? 1) + b[i] * (1 - (a[3] ?? 1)));
  const light = c => c.map(v => (v /= 255) <= .03928 ? v / 12.92 : ((v + .055) / 1.055) ** 2.4).reduce((s, v, i) => s + v * [.2126, .7152, .0722][i], 0);
  const page = parts(getComputedStyle(document.body).backgroundColor);
  return [...document.querySelectorAll('.cell.m, .cell.o, .cell.t, .number, .tag, .head .cell, td.wrong, #about, button')].filter(e => e.textContent).map(e => {
    const s = getComputedStyle(e), back = s.backgroundColor === 'rgba(0, 0, 0, 0)' ? page : over(parts(s.backgroundColor), page), a = light(over(parts(s.color), back)), b = light(back);
    return [e.className + ' ' + e.textContent, (Math.max(a, b) + .05) / (Math.min(a, b) + .05)];
  });
})()"""


def colours(program: str, folder: str) -> list[str]:
    """Light and dark are the reader's choice; text stands out from what is behind it in both; kinds of cells differ in more than colour."""
    path, _ = make(program, folder, os.path.join(TOP, "examples/edits.asc"))
    play, _ = make(program, folder, os.path.join(TOP, "examples/play.asc"))
    wrong, papers = [], set()
    for dark in (False, True):
        with Browser(dark=dark) as browser:
            for page in (path, play):
                browser.open(page, "#20")
                papers.add(browser.value("getComputedStyle(document.body).backgroundColor"))
                wrong += [f"{'dark' if dark else 'light'}: {name} stands out by {ratio:.2f} alone" for name, ratio in browser.value(LUMINANCE) if ratio < 4.5]
            kinds = browser.value("['m', 'o', 't'].map(k => (s => [s.fontWeight, s.borderLeftWidth].join())(getComputedStyle(document.querySelector('.cell.' + k))))")
            if kinds[2] in kinds[:2]:
                wrong.append("moves differ from tracked levels by colour alone")
    return wrong + ([] if len(papers) == 2 else ["dark isn't dark"])


def printed(program: str, folder: str) -> list[str]:
    """What is printed has each cue and its levels."""
    path, _ = make(program, folder, os.path.join(TOP, "examples/play.asc"))
    paper = os.path.join(folder, "page.pdf")
    with Browser() as browser:
        browser.open(path)
        browser.paper(paper)
    text = subprocess.run(["pdftotext", "-layout", paper, "-"], stdout=subprocess.PIPE, check=False).stdout.decode()
    labels = [line[5:].strip() for line in open(os.path.join(TOP, "examples/play.asc"), encoding="utf-8") if line.startswith("TEXT ")]
    wrong = [f"{label!r} isn't printed" for label in labels if label not in text]
    blue = next((line for line in text.splitlines() if "blue night" in line), "")
    return wrong + ([] if re.search(r"40\s+40\s+30\s+30\s+20\s+20", blue) else [f"the levels of cue 2 aren't printed: {blue!r}"])


def alone(program: str, folder: str) -> list[str]:
    """The page asks for nothing from elsewhere."""
    path, _ = make(program, folder, os.path.join(TOP, "examples/fades.asc"))
    with Browser() as browser:
        browser.open(path)
        asked = browser.value("performance.getEntriesByType('resource').map(e => e.name).filter(n => !n.startsWith('data:'))")
    text = open(path, encoding="utf-8").read()
    return [f"asks for {each}" for each in asked] + [f"names {each}" for each in re.findall(r"(?:https?:)?//[a-z]+\.[^\s\"']+", text)]


SCROLL = """(async () => {
  const g = document.getElementById('grid');
  for (let i = 0; i < 60; i++) { g.scrollTop += 100; await new Promise(done => requestAnimationFrame(done)); }
  return document.querySelectorAll('*').length;
})()"""


def scrolled(browser: Browser) -> tuple[float, int]:
    """Processor time of the page for a turn of a mouse's wheel over the list, in milliseconds; how many elements there are."""
    browser.call("Performance.enable", timeDomain="threadTicks")
    used = [next(m["value"] for m in browser.call("Performance.getMetrics")["metrics"] if m["name"] == "TaskDuration")]
    elements = browser.value(SCROLL)
    used.append(next(m["value"] for m in browser.call("Performance.getMetrics")["metrics"] if m["name"] == "TaskDuration"))
    return (used[1] - used[0]) / 60 * 1000, elements


def great(program: str, folder: str, report: list[str]) -> list[str]:
    """The greatest show: opens in time, draws what is in sight alone, says so, and is right at ten moments, wherever it is looked at."""
    show, wrong = os.path.join(folder, "greatest.asc"), []
    greatest(show)
    began = time.monotonic()
    path, _ = make(program, folder, show)
    report.append(f"the greatest show: page made in {time.monotonic() - began:.1f} s, {os.path.getsize(path) / 1e6:.1f} MB")
    asked = Asked(program, show)
    end = asked.first + len(asked.script)
    with Browser() as browser:
        opened = min(browser.open(path) for _ in range(3))
        step, elements = scrolled(browser)
        report.append(f"opened in {opened:.2f} s; a turn of the wheel takes {step:.1f} ms of processor time; {elements:,} elements; load {os.getloadavg()[0]:.1f}")
        # A machine with more to do than it has processors says nothing of time.
        busy = os.getloadavg()[0] > (os.cpu_count() or 1)
        wrong += [f"opens in {opened:.2f} s"] * (opened > OPENS_IN and not busy) + [f"scrolls in {step:.0f} ms"] * (step > 33 and not busy) + [f"{elements} elements"] * (elements > 6000)
        if "of 2,000 cues" not in browser.value("document.getElementById('sight').textContent") or "as the script leaves it" not in browser.value("document.getElementById('notes').textContent"):
            wrong.append("it doesn't say what it left out")
        browser.value("document.getElementById('at').focus()")
        for i in range(MOMENTS):
            browser.value(f"(g => {{ g.scrollTop = {i * 5000}; g.scrollLeft = {i * 7000}; }})(document.getElementById('grid'))")
            browser.press("ArrowRight" if i % 2 else "PageUp", 3 if i % 2 else 1)
            browser.value("new Promise(done => requestAnimationFrame(() => requestAnimationFrame(() => done(1))))")
            at = moment(browser, asked)
            wrong += [f"at {at}: {each}" for each in wrong_stage(browser, asked, at) + wrong_cues(browser, asked, at, (end, 0))][:5]
            if at[2] != [asked.position(*at[:2])]:
                wrong.append(f"at {at}: cue {asked.position(*at[:2])} runs")
        browser.value("(s => { s.value = 3; s.onchange(); })(document.getElementById('set'))")
        heads = browser.value("[...document.querySelectorAll('.head .cell')].map(e => +e.textContent)")
        if not heads or heads[0] != 513:
            wrong.append(f"group 3 begins with channel {heads[:1]}")
    return wrong


def read_page(path: str) -> str:
    """All the text of a page."""
    with Browser() as browser:
        browser.open(path)
        return browser.value("document.body.innerText")


def bad_input(program: str, folder: str) -> list[str]:
    """A show with a fault, a script with lines that can't be done, no script: a page says so, with line and cause."""
    good = "IDENT 3:0\nCUE 1\nTEXT <script>alert(1)</script> & Tür\nUP 1\nCHAN 1@FL\n"
    cases = [
        ("fault", good + "CUE 2\nCHAN 1@F9\nENDDATA\ngo\n", 1, ["refused: BadNumber, line 7", "CHAN 1@F9", "a number is malformed"]),
        ("noend", good, 1, ["refused: NoEndData, line 6", "the show ends before ENDDATA"]),
        ("empty", "", 1, ["refused: NoEndData, line 1"]),
        ("long", good + "X" * 5000 + "\nENDDATA\n", 1, ["refused: LineTooLong, line 6"]),
        ("wrong", good + "ENDDATA\ngo\ngoto 7\nflash 3\ntick 25\nset 1 chan 999 at 5\n" + "y" * 4097 + "\nquit\ngo\n", 0,
         ["4 lines of the script weren't done", "line 8", "refused AbsentCue 7 (there is no such cue)", "line 9", "bad (the line isn't one that the program knows",
          "refused AbsentChannel 999", "line 12", "longer than 4,096 bytes", "<script>alert(1)</script> & Tür"]),
        ("noscript", good + "ENDDATA\n", 0, ["There is no script", "Cue list", "FL"]),
        ("nocue", "IDENT 3:0\nENDDATA\ngo\n", 0, ["The show has no cue.", "refused NoCueAfter 0"]),
        ("groups", "IDENT 3:0\nGROUP 1\nCHAN " + " ".join(f"{c}@FL" for c in range(1, 201)) + "\nENDDATA\n", 0, ["In sight: ", " of 200 channels", "The show has no cue."]),
        ("Bühne 客席 <b>", good + "ENDDATA\ngo\n", 0, ["Bühne 客席 <b>.asc"]), (os.fsdecode(b"B\xfchne"), good + "ENDDATA\ngo\n", 0, ["B\ufffdhne.asc"]),
        ("comment", good + "ENDDATA\n!" + "y" * 4097 + "\n", 0, ["line 7", "longer than 4,096 bytes"]),
        ("skipped", good + "WEATHER fine\n$$SNAP 1\nENDDATA\n", 0, ["2 lines of the show were skipped, the first of them line 6: WEATHER fine"]),
    ]
    wrong = []
    for name, text, status, wanted in cases:
        show = os.path.join(folder, name + ".asc")
        with open(show, "w", encoding="utf-8") as file:
            file.write(text)
        path, ended = make(program, folder, show)
        said = read_page(path)
        wrong += [f"{name}: {part!r} isn't said" for part in wanted if part not in said] + ([f"{name}: status {ended}"] if ended != status else [])
    return wrong + missing(program, folder)


def lines_of_two_lists(program: str, folder: str) -> list[str]:
    """A line for the second list that says nothing is bad; a key that was refused isn't named by a cue."""
    show = os.path.join(folder, "two.asc")
    with open(show, "w", encoding="utf-8") as file:
        file.write("IDENT 3:0\nCUE 1\nCHAN 1@FL\nENDDATA\ngo\n2\ngo\n")
    path, _ = make(program, folder, show, "--job", "two")
    with Browser() as browser:
        browser.open(path)
        marks = browser.value("D.marks.map(mark => mark[2])")
    return [] if marks == ["go → 1", "2", "go"] else [f"the marks are {marks}"]


def cues_that_go(program: str, folder: str) -> list[str]:
    """The page goes on where an edit takes the last cue away, in a show of more channels than are in sight."""
    show = os.path.join(folder, "gone.asc")
    with open(show, "w", encoding="utf-8") as file:
        file.write("IDENT 3:0\nCUE 1\nCHAN " + " ".join(f"{c}@FL" for c in range(1, 201)) + "\nENDDATA\ngo\ntick 5\ndelete 1\ntick 5\n")
    path, _ = make(program, folder, show)
    with Browser() as browser:
        browser.open(path)
        last = browser.value("(show(M - 1), document.getElementById('sight').textContent)")
    return [] if re.match(r"In sight: \d+ of 200 channels;", last) else [f"at the end it says {last!r}"]


def missing(program: str, folder: str) -> list[str]:
    """A file that isn't there, and a script of its own in place of the show's."""
    wrong = []
    run = subprocess.run([sys.executable, PAGE, os.path.join(folder, "none.asc"), "--program", program], capture_output=True, check=False)
    if run.returncode != 2 or b"can't be read" not in run.stderr or run.stdout:
        wrong.append("a missing file isn't named")
    script = os.path.join(folder, "own.txt")
    with open(script, "w", encoding="utf-8") as file:
        file.write("goto 3\nback\n")
    path, _ = make(program, folder, os.path.join(TOP, "examples/fades.asc"), script)
    said = read_page(path)
    return wrong + [f"{part!r} isn't said with a script of its own" for part in ("fades.asc with own.txt", "goto 3", "a script of 2 lines") if part not in said]


def long_fade(program: str, folder: str) -> list[str]:
    """A fade of twenty minutes has more moments than are kept; the page says so, and those that are kept are right."""
    show = os.path.join(folder, "long.asc")
    with open(show, "w", encoding="utf-8") as file:
        file.write("IDENT 3:0\nCUE 1\nUP 20:00\nCHAN 1@FL\nENDDATA\ngo\ntick 70000\ngo\ntick 5\n")
    path, _ = make(program, folder, show)
    asked, wrong = Asked(program, show), []
    with Browser() as browser:
        browser.open(path)
        if "one in 2 of those" not in browser.value("document.getElementById('notes').textContent"):
            wrong.append("it doesn't say what it left out")
        for key in ["Home"] + ["PageUp"] * 8 + ["End"]:
            browser.value("document.getElementById('at').focus()")
            browser.press(key)
            wrong += wrong_stage(browser, asked, moment(browser, asked))
    return wrong


def cases(report: list[str]) -> list[tuple[str, object]]:
    """What is tested, by name."""
    shows = [("fades.asc", "render"), ("edits.asc", "render"), ("submasters.asc", "render"), ("house.asc", "render"), ("universes.asc", "render"), ("assert.asc", "render"),
             ("tracking.asc", "render states"), ("undo.asc", "undo"), ("lists.asc", "two")]
    on_paper = [("page: print", printed)] if shutil.which("pdftotext") else []
    if not on_paper:
        report.append("left out: the printed page; apt-get install poppler-utils")
    return [*[(f"page: ten moments of {name}, {job}", lambda p, f, name=name, job=job: steps_through(p, f, name, job)) for name, job in shows],
            ("page: a long fade", long_fade), ("page: play and pause", lambda p, f: plays(p, f, "fades.asc")), ("page: keyboard", keyboard), ("page: names", names), ("page: colours", colours),
            *on_paper, ("page: no network", alone), ("page: bad input", bad_input), ("page: lines of two lists", lines_of_two_lists), ("page: cues that go", cues_that_go), ("page: the greatest show", lambda p, f: great(p, f, report))]

"""The page of `abi-release`: its lines are there without scripts, in the order that a reader needs, escaped, and all are printed."""

from __future__ import annotations

import asyncio
import html
import importlib.util
import os
import re
import shutil
import subprocess
from collections import Counter
from pathlib import Path
from typing import Any, Coroutine, Iterator

import pytest
from abi_release.pages import write_page
from abi_release.tables import text_of
from conftest import ROOT, TOOLS, done, run

Json = dict[str, Any]
# How many lines are printed.
_PRINTED = int(os.environ.get("PRINTED_LINES", "3000"))
HEAD = {"old": "old", "new": "new", "rules_file": "abi.rules"}


def _browsing() -> Any:
    """The module that drives a browser."""
    spec = importlib.util.spec_from_file_location("page", ROOT / "bench/page.py")
    assert spec is not None and spec.loader is not None
    module = importlib.util.module_from_spec(spec)
    spec.loader.exec_module(module)
    return module


browsing = _browsing()


class Lines:
    """A table of these lines."""

    def __init__(self, lines: list[Json]) -> None:
        self._lines = lines
        self.counts = Counter(line["answer"] for line in lines)

    def lines(self) -> Iterator[Json]:
        """The lines."""
        return iter(self._lines)

    def summary(self) -> str:
        """How many lines there are."""
        return f"{len(self._lines)} lines"


def line(number: int, answer: str = "yes", **more: Any) -> Json:
    """A line."""
    return {"package": f"libmade{number}", "library": f"libmade{number}.so.1", "answer": answer,
            "versions": {"old": f"1.{number}", "new": f"2.{number}"}, **more}


def written(folder: Path, lines: list[Json]) -> str:
    """The page of these lines."""
    with (folder / "index.html").open("w", encoding="utf-8") as stream:
        write_page(Lines(lines), HEAD, stream)  # type: ignore[arg-type]
    return (folder / "index.html").read_text("utf-8")


SOME = [
    line(1, compared=3, typed=2, certificate="results/a b.cert", measured={"seconds": 1, "megabytes": 2}),
    line(2, "cannot tell", reason="old has no debug information", rule_file={"of": "new", "name": "usr/share/doc/a/abi.rules"}),
    line(3, "no", breaks={"L2": 3}, report="results/3.report", page="../pages/3.html", rule_file={"of": "run"},
         hit=[{"package": "hit", "depends": True, "exports": [], "imports": 0, "rebuilt": False}]),
    line(4, "gone"), line(5, "new", versions={"old": None, "new": "7"}),
    line(6, "cannot tell", library=None, reason="no space", tries=2),
]


def test_the_order_and_what_a_line_says(tmp_path: Path) -> None:
    page = written(tmp_path, SOME)
    rows = re.findall(r"<tr class=.*?(?=<tr|</tbody>)", page, re.DOTALL)
    texts = [" ".join(html.unescape(re.sub(r"<[^>]*>", " ", row)).split()) for row in rows]
    assert [text.partition(" libmade")[0] for text in texts] == ["no", "gone", "cannot tell", "cannot tell", "new", "yes"]
    assert texts[0] == ("no libmade3 1.3 → 2.3 libmade3.so.1 L2 3 rule file: that of the run what changed report "
                        "1 package hit, depends, not rebuilt")
    assert texts[2] == ("cannot tell libmade2 1.2 → 2.2 libmade2.so.1 old has no debug information "
                        "rule file: usr/share/doc/a/abi.rules of the new package")
    assert texts[3] == "cannot tell libmade6 1.6 → 2.6 no space (tried 2 times; the next run tries again)"
    assert texts[4] == "new libmade5 none → 7 libmade5.so.1"
    assert 'href="results/a%20b.cert"' in page and 'href="results/3.report"' in page and "http" not in page
    assert 'href="../pages/3.html"' in page
    assert "Rule file: abi.rules" in page


def test_the_text_of_a_line() -> None:
    assert text_of(SOME[1]) == ("cannot tell libmade2 libmade2.so.1: old has no debug information; version 1.2 to 2.2; "
                                "rule file usr/share/doc/a/abi.rules of the new package")
    assert text_of(SOME[3]) == "gone libmade4 libmade4.so.1: version 1.4 to 2.4"
    assert text_of(SOME[5]) == "cannot tell libmade6: no space, tried 2 times; version 1.6 to 2.6"


def test_a_library_without_exports(tmp_path: Path) -> None:
    """A plugin that exports nothing is no comparison of nothing."""
    one = line(7, compared=0, typed=0)
    assert text_of(one) == "yes libmade7 libmade7.so.1: no exports that can break; version 1.7 to 2.7"
    assert "<td>no exports that can break" in written(tmp_path, [one])


HOSTILE = "</script><img src=x onerror=alert(1)>\n\x1b[31m\u202e\udcff\\"


def test_hostile_names(tmp_path: Path) -> None:
    """A name can't be HTML, drive a terminal, turn the direction of text, or forge a line."""
    one = line(1, "no", breaks={HOSTILE: 1}, report=f"results/{HOSTILE}", rule_file={"of": "old", "name": HOSTILE},
               hit=[{"package": HOSTILE, "depends": True, "exports": [HOSTILE], "imports": 1, "rebuilt": False}])
    one.update(package=HOSTILE, library=HOSTILE, versions={"old": HOSTILE, "new": HOSTILE})
    other = {**line(2, "cannot tell", reason=HOSTILE, tries=1), "library": HOSTILE}
    with (tmp_path / "index.html").open("w", encoding="utf-8") as stream:
        write_page(Lines([one, other]), {"old": HOSTILE, "new": HOSTILE, "rules_file": HOSTILE}, stream)  # type: ignore[arg-type]
    page = (tmp_path / "index.html").read_text("utf-8")
    assert "<img" not in page and page.count("</script>") == 1
    assert not re.search("[\x00-\x09\x0b-\x1f\x7f-\x9f\u200b-\u200f\u202a-\u202e\u2066-\u2069\ud800-\udfff]", page)
    for text in map(text_of, (one, other)):
        assert text.isprintable() and "\u202e" not in text


def many(count: int) -> list[Json]:
    """Lines of each kind."""
    answers = ("yes",) * 7 + ("no", "cannot tell", "gone")
    return [line(number, answers[number % 10], **({"reason": "no types"} if number % 10 == 8 else {})) for number in range(count)]


def needs_chromium() -> None:
    """Skips a test if there is no browser."""
    if shutil.which("chromium") is None:
        pytest.skip("there is no chromium")


def chromium(folder: Path, *options: str) -> subprocess.CompletedProcess[bytes]:
    """Runs a browser without a window."""
    needs_chromium()
    command = ["chromium", "--headless", "--no-sandbox", "--disable-gpu", f"--user-data-dir={folder / 'browser'}", *options]
    return subprocess.run(command, capture_output=True, check=True, timeout=900)


def within(seconds: float, doing: Coroutine[Any, Any, None]) -> None:
    """Does something with a browser; fails if it takes longer."""
    asyncio.run(asyncio.wait_for(doing, seconds))


# The widest column of the page, the least contrast of a text with its ground (WCAG 2.1, "contrast ratio"; colours come with opacities), and
# the smallest text.
LOOK = """(() => {
  const parsed = text => text.match(/[0-9.]+/g).map(Number);
  const probe = document.body.appendChild(document.createElement("i"));
  probe.style.background = "Canvas";
  const canvas = parsed(getComputedStyle(probe).backgroundColor);
  probe.remove();
  const linear = part => (part /= 255) <= 0.03928 ? part / 12.92 : ((part + 0.055) / 1.055) ** 2.4;
  const luminance = ([r, g, b]) => 0.2126 * linear(r) + 0.7152 * linear(g) + 0.0722 * linear(b);
  let contrast = 99, letters = 99;
  for (const one of document.querySelectorAll("body *:not(button, input)")) {
    if (![...one.childNodes].some(node => node.nodeType === 3 && node.data.trim()) || !one.getClientRects().length) continue;
    let opacity = 1;
    for (let at = one; at; at = at.parentElement) opacity *= Number(getComputedStyle(at).opacity);
    const colour = parsed(getComputedStyle(one).color).slice(0, 3).map((part, at) => part * opacity + canvas[at] * (1 - opacity));
    const [high, low] = [luminance(colour), luminance(canvas)].sort((one, two) => two - one);
    contrast = Math.min(contrast, (high + 0.05) / (low + 0.05));
    letters = Math.min(letters, parseFloat(getComputedStyle(one).fontSize));
  }
  return [document.documentElement.scrollWidth, contrast, letters, canvas[0]];
})()"""


async def looked_at(place: Path) -> None:
    """Looks at a page on a phone and on a desktop, light and dark: all of it must be readable without scrolling to the side."""
    async with browsing.started() as browser:
        await browsing.opened(browser, place)
        for width in (320, 390, 1400):
            await browser.call("Emulation.setDeviceMetricsOverride", width=width, height=844, deviceScaleFactor=1, mobile=width < 600)
            for scheme in ("light", "dark"):
                await browser.call("Emulation.setEmulatedMedia", features=[{"name": "prefers-color-scheme", "value": scheme}])
                wide, contrast, letters, ground = await browser.value(LOOK)
                assert wide <= width and contrast >= 4.5 and letters >= 11 and (ground > 128) == (scheme == "light"), (
                    width, scheme, wide, contrast, letters, ground)


async def found_in(place: Path) -> None:
    """The browser finds the last row by its words and, without scripts, shows all rows."""
    async with browsing.started() as browser:
        await browsing.opened(browser, place)
        assert await browser.value("[window.find('libmade598'), window.find('nonesuch')]") == [True, False]
        await browser.call("Emulation.setScriptExecutionDisabled", value=True)
        browser.forget()
        await browser.call("Page.navigate", url=place.as_uri())
        await browser.event("Page.loadEventFired")
        shown = "[...document.querySelectorAll('main tbody tr')].filter(row => row.getClientRects().length).length"
        assert await browser.value(f"[document.body.className, {shown}]") == ["", 606]


def test_the_page_is_readable_findable_and_whole_without_scripts(tmp_path: Path) -> None:
    needs_chromium()
    written(tmp_path, SOME + many(600))
    within(300, looked_at(tmp_path / "index.html"))
    within(300, found_in(tmp_path / "index.html"))


def test_the_page_of_a_history_is_readable(tmp_path: Path) -> None:
    """Of ten versions, with each answer."""
    needs_chromium()
    texts = [f"int first{number}(int a) {{ return a; }}\nint second(int a) {{ return a; }}\n" for number in (1, 1, 2, 2, 3, 3, 3, 4, 4, 4)]
    files = []
    for number, text in enumerate(texts):
        (tmp_path / "made.c").write_text(text)
        files.append(tmp_path / f"made{number}.so")
        done("gcc", *(["-g"] if number != 5 else []), "-shared", "-fPIC", "-o", files[-1], tmp_path / "made.c")
    ended = run(TOOLS / "abi-history", "--out", "out", *(f"2.{number}.0-1+deb12u1={file}" for number, file in enumerate(files)), folder=tmp_path)
    assert ended.status == 1 and {word for word in ("yes", "no", "cannot tell") if f"\n{word} " in f"\n{ended.out}"} == {
        "yes", "no", "cannot tell"}, ended
    within(300, looked_at(tmp_path / "out/index.html"))


def test_all_lines_are_printed(tmp_path: Path) -> None:
    """In a browser, which takes minutes for 30,000 lines."""
    needs_chromium()
    if shutil.which("pdftotext") is None:
        pytest.skip("there is no pdftotext")
    written(tmp_path, many(_PRINTED))
    pdf = tmp_path / "all.pdf"
    within(900 + _PRINTED // 10, browsing.printed(tmp_path / "index.html", pdf))
    text = subprocess.run(["pdftotext", "-layout", pdf, "-"], capture_output=True, text=True, check=True).stdout
    assert len(set(re.findall(r"\blibmade(\d+)\b(?!\.so)", text))) == _PRINTED


def test_the_filter_in_the_address(tmp_path: Path) -> None:
    """Words, answers and the order of lines."""
    written(tmp_path, many(600))
    for hash_, wanted in (("find=libmade7&answer=no", {"libmade7", "libmade77"}), ("libmade599", {"libmade599"}), ("answer=gone,no", None)):
        page = chromium(tmp_path, "--dump-dom", f"{(tmp_path / 'index.html').as_uri()}#{hash_}").stdout.decode()
        rows = [row for row in re.findall(r"<tr class=.*?</tr>", page, re.DOTALL) if ' hidden=""' not in row.partition(">")[0]]
        found = {re.findall(r"libmade\d+", row)[0] for row in rows}
        assert found == wanted or wanted is None and len(found) == 120, found
    page = chromium(tmp_path, "--dump-dom", f"{(tmp_path / 'index.html').as_uri()}#sort=-1").stdout.decode()
    names = [re.findall(r"libmade\d+", row)[0] for row in re.findall(r"<tr class=.*?</tr>", page, re.DOTALL)]
    assert len(names) == 600 and names == sorted(names, reverse=True)

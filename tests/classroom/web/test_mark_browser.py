"""The page of `classroom mark` in a real browser: a class marked by keyboard alone, in light and
dark, and at the width of a phone."""
from __future__ import annotations

import csv
import io
import time
from collections.abc import Callable
from pathlib import Path
from typing import Any

import marking
import pytest

pytest.importorskip("flask")
pytest.importorskip("waitress")

STUDENTS = 120
GROUPS = 40
POINTS = ("0", "0.25", "0.5", "0.75", "1")


@pytest.fixture(scope="module")
def beers(ratest: Path, tmp_path_factory: pytest.TempPathFactory) -> Path:
    return marking.make(tmp_path_factory.mktemp("marked") / "beers", STUDENTS)


def press(browser: Any, *keys: str) -> None:
    """Types where the focus is; no test clicks."""
    actions = pytest.importorskip("selenium.webdriver").ActionChains(browser)
    for key in keys:
        actions.send_keys(key)
    actions.perform()


def wait(is_done: Callable[[], bool]) -> None:
    for _ in range(600):
        try:
            if is_done():
                return
        except Exception:  # the page is just being exchanged
            pass
        time.sleep(0.02)
    pytest.fail("nothing came")


def summary(browser: Any) -> str:
    return str(browser.find_element("css selector", ".summary").text)


def text(browser: Any) -> str:
    """The answer that is shown."""
    return str(browser.find_element("css selector", "figure code").text).strip()


def go(browser: Any, *keys: str) -> None:
    """Presses keys that lead to another page."""
    before = browser.find_element("tag name", "html").id
    press(browser, *keys)
    wait(lambda: bool(browser.find_element("tag name", "html").id != before))
    wait(lambda: bool(summary(browser)))


def points_of(student: int, task: str) -> str:
    """Which points the test gives to the text that a student handed in."""
    texts = [one.strip() for one in marking.texts_of(task)]
    return POINTS[texts.index(marking.text_of(student, task).strip()) % len(POINTS)]


def test_a_class_is_marked_by_keyboard_alone(beers: Path, browser: Any) -> None:
    planned = {
        (task, one.strip()): POINTS[at % len(POINTS)]
        for task in "12345"
        for at, one in enumerate(marking.texts_of(task))
    }
    keys = pytest.importorskip("selenium.webdriver.common.keys").Keys
    with marking.marking(beers) as page:
        browser.get(page.address)
        assert f"of {GROUPS} groups" in summary(browser)
        go(browser, keys.TAB, keys.ENTER)

        def points() -> str:
            task = browser.find_element("tag name", "h1").text.removeprefix("Task ")
            return planned[task[:1], text(browser)]

        # Those that are open first, each with one entry and Enter.
        go(browser, "1", keys.ENTER)
        go(browser, "u")
        assert "Undone." in browser.find_element("id", "said").text
        press(browser, "c")
        press(browser, "What is asked?", keys.ESCAPE)
        for at in range(20):
            press(browser, points())
            go(browser, keys.ENTER)
            assert browser.find_element("id", "said").text == "Saved."
        assert summary(browser).endswith("0 answers open, in 0 of 40 groups.")
        # Then all others, from the first on.
        browser.get(f"http://127.0.0.1:{page.port}/group/0")
        assert browser.find_element("id", "comment").get_property("value") == "What is asked?"
        for at in range(GROUPS):
            assert f"Group {at + 1} of {GROUPS}" in summary(browser)
            press(browser, points())
            go(browser, keys.ENTER)
        go(browser, "p")
        assert f"Group {GROUPS - 1} of {GROUPS}" in summary(browser)
        go(browser, "n")
        assert f"Group {GROUPS} of {GROUPS}" in summary(browser)
    lines = (beers / "class/marks.csv").read_text().splitlines()
    assert len(lines) == GROUPS + 1
    table = csv.DictReader(io.StringIO((beers / "results/class.csv").read_text()))
    for student, row in enumerate(table):
        assert row["id"] == f"s{student:03}"
        assert [row[task] for task in "12345"] == [points_of(student, task) for task in "12345"]


CONTROLS = (
    "a, button:not([disabled]), input:not([type=hidden]), select, textarea, summary, pre[tabindex]"
)
# Of the element and what stands behind it, as WCAG counts it.
CONTRAST = """
const light = (color) => color.match(/[\\d.]+/g).slice(0, 3).map(Number).map((part) => part / 255)
  .map((part) => part <= 0.04045 ? part / 12.92 : ((part + 0.055) / 1.055) ** 2.4)
  .reduce((sum, part, at) => sum + part * [0.2126, 0.7152, 0.0722][at], 0);
const behind = (element) => {
  for (let one = element; one; one = one.parentElement) {
    const color = getComputedStyle(one).backgroundColor;
    if (!/, 0\\)$/.test(color)) return color;
  }
};
return [...document.querySelectorAll("p, a, button:not([disabled]), input, select, textarea, code, td, th, label")]
  .filter((one) => one.checkVisibility() && one.type !== "hidden").map((one) => {
    const parts = [light(getComputedStyle(one).color), light(behind(one))].sort((a, b) => b - a);
    return (parts[0] + 0.05) / (parts[1] + 0.05);
  });
"""


@pytest.mark.parametrize("scheme", ["light", "dark"])
def test_light_and_dark_and_a_phone(beers: Path, browser: Any, scheme: str) -> None:
    keys = pytest.importorskip("selenium.webdriver.common.keys").Keys
    try:
        with marking.marking(beers) as page:
            browser.get(page.address)
            browser.execute_cdp_cmd(
                "Emulation.setDeviceMetricsOverride",
                {"width": 390, "height": 800, "deviceScaleFactor": 1, "mobile": True},
            )
            browser.execute_cdp_cmd(
                "Emulation.setEmulatedMedia",
                {"features": [{"name": "prefers-color-scheme", "value": scheme}]},
            )
            for path in ("/", "/group/0", "/group/6", "/group/0/1"):
                browser.get(f"http://127.0.0.1:{page.port}{path}")
                width = browser.execute_script("return document.documentElement.scrollWidth")
                assert width == 390, path
                assert min(browser.execute_script(CONTRAST)) >= 4.5, path
                if path == "/":
                    continue
                browser.execute_script("document.activeElement.blur()")
                wanted = [
                    one
                    for one in browser.find_elements("css selector", CONTROLS)
                    if browser.execute_script("return arguments[0].checkVisibility()", one)
                ]
                assert len(wanted) >= 10
                reached = set()
                for _ in range(len(wanted) + 3):
                    press(browser, keys.TAB)
                    reached.add(browser.switch_to.active_element.id)
                assert {one.id for one in wanted} <= reached, path
                for one in wanted:
                    assert one.accessible_name or one.tag_name == "pre", one.tag_name
            assert not [line for line in browser.get_log("browser") if line["level"] == "SEVERE"]
    finally:
        browser.execute_cdp_cmd("Emulation.setEmulatedMedia", {"media": "", "features": []})
        browser.execute_cdp_cmd("Emulation.clearDeviceMetricsOverride", {})


def test_two_pages_at_once(beers: Path, browser: Any) -> None:
    keys = pytest.importorskip("selenium.webdriver.common.keys").Keys
    with marking.marking(beers, "--task", "5") as page:
        browser.get(page.address)
        address = f"http://127.0.0.1:{page.port}/group/0"
        first = browser.current_window_handle
        browser.get(address)
        browser.switch_to.new_window("tab")
        browser.get(address)
        go(browser, "0.1", keys.ENTER)
        browser.close()
        browser.switch_to.window(first)
        go(browser, "0.9", keys.ENTER)
        told = browser.find_element("css selector", "[role=alert]").text
        assert "has changed since this page was shown" in told and "0.1 points" in told
        assert browser.find_element("id", "points").get_property("value") == "0.9"
        assert ",0.1," in (beers / "class/marks.csv").read_text()
        go(browser, keys.ENTER)
        made = (beers / "class/marks.csv").read_text()
        assert ",0.9," in made and ",0.1," not in made

"""The page by keyboard, read aloud, in light and in dark: checked in a real browser."""
from __future__ import annotations

import time
from collections.abc import Iterator
from pathlib import Path
from typing import Any

import pytest
from served import Server, serving
from test_serve_browser import answered, ask, heading, texts, write

pytest.importorskip("flask")
pytest.importorskip("waitress")
pytest.importorskip("limits")

WRONG = (
    "SELECT bar FROM serves EXCEPT\nSELECT s.bar FROM serves s, serves t\nWHERE s.bar = t.bar AND"
    " s.price <> t.price"
)
# What one can act on.
ROLES = ("button", "link", "textbox", "combobox", "checkbox", "DisclosureTriangle", "listbox")
# The contrast of each text with what is behind it: as WCAG counts it, over the colours that the
# browser made.
CONTRASTS = """
const parse = (text) => { const m = text.match(/[\\d.]+/g).map(Number); return m.length < 4 ? [...m, 1] : m; };
const over = (top, below) => top.slice(0, 3).map((value, at) => value * top[3] + below[at] * (1 - top[3]));
const light = (rgb) => { const [r, g, b] = rgb.map((v) => { v /= 255; return v <= 0.03928 ? v / 12.92 : ((v + 0.055) / 1.055) ** 2.4; });
  return 0.2126 * r + 0.7152 * g + 0.0722 * b; };
const behind = (element) => { const chain = []; for (let at = element; at; at = at.parentElement) chain.unshift(parse(getComputedStyle(at).backgroundColor));
  const dark = matchMedia("(prefers-color-scheme: dark)").matches; let found = dark ? [0, 0, 0] : [255, 255, 255];
  for (const layer of chain) found = over(layer, found); return found; };
const found = [];
for (const element of document.querySelectorAll("body *")) {
  const own = [...element.childNodes].some((node) => node.nodeType === 3 && node.textContent.trim());
  const style = getComputedStyle(element);
  if (!own || !element.checkVisibility({ visibilityProperty: true }) || element.closest("[aria-hidden=true]")) continue;
  const base = behind(element), ink = over(parse(style.color), base);
  const [high, low] = [light(ink), light(base)].sort((a, b) => b - a);
  found.push([(high + 0.05) / (low + 0.05), `${element.tagName}.${element.className} ${element.textContent.trim().slice(0, 30)}`]);
}
return found;
"""


@pytest.fixture(scope="module")
def server(ratest: Path, tmp_path_factory: pytest.TempPathFactory) -> Iterator[Server]:
    import shutil

    from products import TOP

    folder = tmp_path_factory.mktemp("access") / "beers"
    shutil.copytree(
        TOP / "examples/beers", folder, ignore=shutil.ignore_patterns("results", "teacher.html")
    )
    (folder / "3/question.txt").write_text("Which bars serve *exactly* one beer?\n")
    with serving(folder, "--hourly", "0") as made:
        yield made


def opened(browser: Any, server: Server, scheme: str = "light", width: int = 1000) -> None:
    browser.execute_cdp_cmd(
        "Emulation.setEmulatedMedia",
        {"features": [{"name": "prefers-color-scheme", "value": scheme}]},
    )
    browser.execute_cdp_cmd(
        "Emulation.setDeviceMetricsOverride",
        {"width": width, "height": 1000, "deviceScaleFactor": 1, "mobile": width < 500},
    )
    browser.get(f"http://127.0.0.1:{server.port}/")


def needs_editor(browser: Any) -> None:
    if not browser.find_elements("css selector", ".CodeMirror"):
        pytest.skip("no CodeMirror: apt-get install libjs-codemirror")


@pytest.mark.parametrize("scheme", ["light", "dark"])
def test_every_text_can_be_read(browser: Any, server: Server, scheme: str) -> None:
    opened(browser, server, scheme)
    for query in (
        WRONG,
        "SELECT bar -- a remark\nFROM serves WHERE price > 3 AND beer = 'x' OR",
        "SELECT count(*) FROM bar",
    ):
        ask(browser, "3", query)
        browser.execute_script(
            "for (const part of document.querySelectorAll('details')) part.open = true"
        )
        found = browser.execute_script(CONTRASTS)
        assert len(found) > 20
        faint = [(round(ratio, 2), what) for ratio, what in found if ratio < 4.5]
        assert not faint, faint


def test_every_control_has_a_name_and_a_role(browser: Any, server: Server) -> None:
    opened(browser, server)
    ask(browser, "3", WRONG)
    nodes = browser.execute_cdp_cmd("Accessibility.getFullAXTree", {})["nodes"]
    seen: dict[str, list[str]] = {}
    for node in nodes:
        role = node.get("role", {}).get("value", "")
        focusable = any(
            one["name"] == "focusable" and one["value"].get("value")
            for one in node.get("properties", [])
        )
        if node.get("ignored") or role in ("RootWebArea", "") or not (focusable or role in ROLES):
            continue
        name = node.get("name", {}).get("value", "")
        seen.setdefault(role, []).append(name)
        # A text that scrolls is read by what is in it.
        assert name or role in ("generic", "none", "code", "pre", "paragraph", "region"), node
    assert (
        "Ask" in seen["button"]
        and any("Query" in name for name in seen["textbox"])
        and "Task" in seen.get("combobox", seen.get("listbox", []))
    )
    live = [
        element.get_attribute("aria-live")
        for element in browser.find_elements("css selector", "#answer")
    ]
    assert live == ["polite"]


def test_by_keyboard_alone(browser: Any, server: Server) -> None:
    """Control and Enter ask, the verdict has the focus then, and Tab leaves the editor."""
    from selenium.webdriver.common.action_chains import ActionChains
    from selenium.webdriver.common.keys import Keys

    opened(browser, server)
    needs_editor(browser)
    browser.find_element("css selector", "#task option[value='3']").click()
    write(browser, WRONG)
    before = heading(browser)
    ActionChains(browser).key_down(Keys.CONTROL).send_keys(Keys.ENTER).key_up(Keys.CONTROL).perform()  # type: ignore[no-untyped-call]
    answered(browser, before)
    assert texts(browser, "#answer h2") == ["differs on 5 rows"]
    for _ in range(100):
        if browser.execute_script("return document.activeElement.id") == "answer":
            break
        time.sleep(0.05)
    assert browser.execute_script("return document.activeElement.id") == "answer"
    browser.find_element("css selector", ".CodeMirror").click()
    ActionChains(browser).send_keys(Keys.ESCAPE).send_keys(Keys.TAB).perform()  # type: ignore[no-untyped-call]
    assert browser.execute_script("return document.activeElement.textContent") == "Ask"


def test_names_are_completed(browser: Any, server: Server) -> None:
    from selenium.webdriver.common.action_chains import ActionChains
    from selenium.webdriver.common.keys import Keys

    opened(browser, server)
    needs_editor(browser)
    write(browser, "SELECT * FROM freq")
    for _ in range(100):
        if texts(browser, ".CodeMirror-hint"):
            break
        time.sleep(0.05)
    assert "frequents" in texts(browser, ".CodeMirror-hint")
    ActionChains(browser).send_keys(Keys.TAB).perform()  # type: ignore[no-untyped-call]
    assert browser.find_element("id", "query").get_property("value") == "SELECT * FROM frequents"
    write(browser, "SELECT x\nFROM bar")
    assert browser.find_element("id", "query").get_property("value") == "SELECT x\nFROM bar"
    assert texts(browser, ".CodeMirror-linenumber") == ["1", "2"]


def test_on_a_telephone(browser: Any, server: Server) -> None:
    opened(browser, server, width=390)
    ask(browser, "3", WRONG)
    browser.execute_script(
        "for (const part of document.querySelectorAll('details')) part.open = true"
    )
    assert browser.execute_script("return document.documentElement.scrollWidth") == 390
    assert browser.execute_script(
        "return [...document.querySelectorAll('button')].every(one =>"
        " one.getBoundingClientRect().height >= 24)"
    )
    assert not [line for line in browser.get_log("browser") if line["level"] == "SEVERE"]

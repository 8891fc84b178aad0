"""The page at which a student asks, in a real browser, with a script and without."""
from __future__ import annotations

import os
import time
from pathlib import Path
from typing import Any

import pytest
from products import TOP
from served import serving

pytest.importorskip("flask")
pytest.importorskip("waitress")

WRONG = (
    "SELECT bar FROM serves EXCEPT\nSELECT s.bar FROM serves s, serves t\nWHERE s.bar = t.bar AND"
    " s.price <> t.price"
)


def texts(browser: Any, selector: str) -> list[str]:
    return [element.text for element in browser.find_elements("css selector", selector)]


def ask(browser: Any, task: str, query: str) -> None:
    """Types as a student does, and waits for the answer."""
    browser.find_element("css selector", f"#task option[value='{task}']").click()
    write(browser, query)
    before = heading(browser)
    browser.find_element("css selector", "#ask button").click()
    answered(browser, before)


def write(browser: Any, query: str) -> None:
    """Into the editor, or the field where there is none."""
    editors = browser.find_elements("css selector", ".CodeMirror-code")
    if editors:
        browser.execute_script("document.querySelector('.CodeMirror').CodeMirror.setValue('')")
        browser.find_element("css selector", ".CodeMirror").click()
        editors[0].send_keys(query)
        assert browser.find_element("id", "query").get_property("value") == query
    else:
        field = browser.find_element("id", "query")
        field.clear()
        field.send_keys(query)


def heading(browser: Any) -> str:
    found = browser.find_elements("css selector", "#answer h2")
    return str(found[0].id) if found else ""


def answered(browser: Any, before: str) -> None:
    """Waits for a verdict after the one before."""
    for _ in range(600):
        if heading(browser) not in ("", before):
            return
        time.sleep(0.05)
    pytest.fail("no answer came")


@pytest.mark.parametrize("has_script", [True, False])
def test_a_student_asks(ratest: Path, beers: Path, browser: Any, has_script: bool) -> None:
    with serving(beers) as server:
        browser.execute_cdp_cmd("Emulation.setScriptExecutionDisabled", {"value": not has_script})
        try:
            browser.execute_cdp_cmd(
                "Emulation.setDeviceMetricsOverride",
                {"width": 1000, "height": 1000, "deviceScaleFactor": 1, "mobile": False},
            )
            browser.get(f"http://127.0.0.1:{server.port}/")
            ask(browser, "3", WRONG)
            assert texts(browser, "#answer h2") == ["differs on 5 rows"]
            assert texts(browser, "#answer .kept caption") == ["bar", "beer", "serves"]
            assert texts(browser, "#answer .kept td") == [
                "Joe's",
                "Durham",
                "Dixie",
                "Dixie Brewing",
                "Corona",
                "Grupo Modelo",
                "Joe's",
                "Dixie",
                "3",
                "Joe's",
                "Corona",
                "NULL",
            ]
            assert texts(browser, "#answer .only td") == ["Joe's"]
            picture(browser, has_script)
            ask(browser, "3", "SELECT bar\nFROM WHERE x")
            assert texts(browser, "#answer h2") == [
                "refused: syntax fault near byte 16 (line 2, column 6)"
            ]
            assert texts(browser, "mark") == ["WHERE"]
            assert (
                browser.find_element("id", "query").get_property("value")
                == "SELECT bar\nFROM WHERE x"
            )
            assert browser.find_element("id", "task").get_property("value") == "3"
            if has_script:
                assert (
                    browser.execute_script(
                        "return document.querySelector('.CodeMirror').CodeMirror.getSelection()"
                    )
                    == "WHERE"
                )
                assert texts(browser, ".CodeMirror .fault-place") == ["WHERE"]
                assert browser.execute_script(
                    "return document.activeElement.closest('.CodeMirror') !== null"
                )
                # The page itself was asked for once, and nothing came from elsewhere.
                asked = browser.execute_script(
                    "return performance.getEntriesByType('resource').map(entry => entry.name)"
                )
                assert asked and all(
                    name.startswith(f"http://127.0.0.1:{server.port}/") for name in asked
                )
            ask(browser, "1", (TOP / "examples/beers/1/reference.sql").read_text())
            assert texts(browser, "#answer h2") == ["agrees"]
            assert not [line for line in browser.get_log("browser") if line["level"] == "SEVERE"]
            browser.execute_cdp_cmd(
                "Emulation.setDeviceMetricsOverride",
                {"width": 390, "height": 1000, "deviceScaleFactor": 1, "mobile": True},
            )
            ask(browser, "3", WRONG)
            if has_script:
                assert browser.execute_script("return document.documentElement.scrollWidth") == 390
        finally:
            browser.execute_cdp_cmd("Emulation.setScriptExecutionDisabled", {"value": False})


def picture(browser: Any, has_script: bool) -> None:
    """Takes the README's picture where SERVE_PICTURE names a file for it."""
    path = os.environ.get("SERVE_PICTURE")
    if path and has_script:
        browser.execute_script("document.activeElement.blur(); scrollTo(0, 0)")
        assert browser.save_screenshot(path)


def test_hostile_texts_run_nothing(ratest: Path, beers: Path, browser: Any) -> None:
    with serving(beers) as server:
        browser.get(f"http://127.0.0.1:{server.port}/")
        for query in (
            "</textarea><script>document.title = 'mine'</script>",
            "SELECT '<img src=x onerror=\"document.title=1\">' FROM bar",
            "SELECT name, '<svg onload=document.title=1>' FROM bar",
            'SELECT "<b onclick=x>" FROM bar',
        ):
            ask(browser, "1", query)
            assert browser.title == "beers"
            assert (
                browser.find_elements(
                    "css selector", "#answer script, #answer img, #answer svg, #answer b"
                )
                == []
            )
            assert (
                browser.find_elements(
                    "css selector", ".CodeMirror script, .CodeMirror svg, .CodeMirror b"
                )
                == []
            )
        assert not browser.get_log("browser")

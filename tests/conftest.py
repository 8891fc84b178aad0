"""What all tests share: the repository's folder, the proved programs, and a browser.

A test of a proved program is skipped where the program is not built: `rt ci` at the top builds
both, and so do `./ratest --build` and `./ratest_plus --build`. """
from __future__ import annotations

import os
import shutil
from collections.abc import Iterator
from pathlib import Path
from typing import Any

import pytest

BROWSERS = ("chromium", "chromium-browser", "google-chrome")
TOP = Path(__file__).resolve().parent.parent


def proved(name: str, variable: str) -> Path:
    """The program that the environment names, else the proved one of the repository."""
    path = Path(os.environ.get(variable) or TOP / "crates" / name / "out" / name)
    if not os.access(path, os.X_OK):
        pytest.skip(f"{name} is not proved and built: ./{name} --build")
    return path


@pytest.fixture(scope="session")
def top() -> Path:
    """The repository's folder."""
    return TOP


@pytest.fixture(scope="session")
def ratest() -> Path:
    """The program ratest: $RATEST, else the proved one."""
    return proved("ratest", "RATEST")


@pytest.fixture(scope="session")
def ratest_plus() -> Path:
    """The program ratest_plus: $RATEST_PLUS, else the proved one."""
    return proved("ratest_plus", "RATEST_PLUS")


@pytest.fixture(scope="session")
def browser_once() -> Iterator[Any]:
    """A chromium without a window, for all tests."""
    webdriver = pytest.importorskip("selenium.webdriver")
    path = next(filter(None, map(shutil.which, BROWSERS)), None)
    driver = shutil.which("chromedriver")
    if not path or not driver:
        pytest.skip("no chromium or chromedriver: apt-get install chromium chromium-driver")
    options = webdriver.ChromeOptions()
    options.binary_location = path
    for word in (
        "--headless=new",
        "--no-sandbox",
        "--disable-gpu",
        "--hide-scrollbars",
        "--disable-dev-shm-usage",
    ):
        options.add_argument(word)
    service = __import__("selenium.webdriver.chrome.service", fromlist=["Service"]).Service(driver)
    opened = webdriver.Chrome(options=options, service=service)
    yield opened
    opened.quit()


@pytest.fixture
def browser(browser_once: Any) -> Any:
    """The chromium, with nothing left in its log of what an earlier test asked for."""
    browser_once.get("about:blank")
    browser_once.get_log("browser")
    return browser_once


@pytest.fixture(scope="session")
def archive() -> Path:
    """The static library of C: $RATEST_ARCHIVE, else the proved one."""
    path = Path(os.environ.get("RATEST_ARCHIVE") or TOP / "crates/ratest_c/out/libratest_c.a")
    if not path.is_file():
        pytest.skip("ratest_c is not proved and built: tools/library")
    return path

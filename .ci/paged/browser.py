"""A browser without a window, where there is one."""

import html.parser
import os
import shutil
import subprocess
import tempfile
from concurrent.futures import ThreadPoolExecutor

NAMES = ("chromium", "chromium-browser", "google-chrome", "google-chrome-stable", "chrome")
FLAGS = ("--headless", "--no-sandbox", "--disable-gpu", "--no-first-run", "--disable-extensions", "--disable-dev-shm-usage", "--window-size=1500,900")
SECONDS = 120


def browser() -> str | None:
    return next((found for name in NAMES if (found := shutil.which(name))), None)


def runs() -> bool:
    """Whether there is a browser, and it shows a page."""
    return browser() is not None and "shown" in dumped("data:text/html,<p>shown")


def dumped(address: str, *flags: str) -> str:
    """The page as it stands when its scripts have run; nothing where the browser takes too long."""
    with tempfile.TemporaryDirectory(ignore_cleanup_errors=True) as folder:
        words = [browser(), *FLAGS, *flags, f"--user-data-dir={folder}", "--dump-dom", address]
        try:
            run = subprocess.run(words, capture_output=True, text=True, check=False, timeout=SECONDS, env={**os.environ, "LC_ALL": "C.UTF-8"})
        except subprocess.TimeoutExpired:
            return ""
    return run.stdout


def all_dumped(addresses: list[str]) -> list[str]:
    with ThreadPoolExecutor(os.cpu_count() or 1) as pool:
        return list(pool.map(dumped, addresses))


class Page(html.parser.HTMLParser):
    """Of a page that was dumped: the elements, each with its attributes and the text in it."""

    VOID = ("meta", "input", "br", "link", "rect", "path", "circle")

    def __init__(self, text: str):
        super().__init__()
        self.elements: list[tuple[str, dict[str, str], list[str]]] = []
        self.open: list[tuple[str, list[str]]] = []
        self.feed(text)

    def handle_starttag(self, tag: str, attrs: list[tuple[str, str | None]]) -> None:
        texts: list[str] = []
        self.elements.append((tag, {name: value or "" for name, value in attrs}, texts))
        if tag not in self.VOID:
            self.open.append((tag, texts))

    def handle_endtag(self, tag: str) -> None:
        while self.open and any(name == tag for name, _ in self.open):
            if self.open.pop()[0] == tag:
                break

    def handle_data(self, data: str) -> None:
        for _, texts in self.open:
            texts.append(data)

    def find(self, tag: str, **marks: str) -> list[tuple[dict[str, str], str]]:
        """The elements of this tag with these attributes, and the text of each."""
        return [(attributes, "".join(texts)) for name, attributes, texts in self.elements
                if name == tag and all(attributes.get(mark.replace("_", "-")) == value for mark, value in marks.items())]

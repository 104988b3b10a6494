"""Pages that a test opens in a browser, and what it compares."""

import os
import sys

# What a page may take to open, in seconds.
LIMIT = 2.0


def same(found, wanted, what):
    """Ends the test where a value is not the one that is wanted."""
    if found != wanted:
        sys.exit(f"page/test: {what}: found {found!r}, wanted {wanted!r}")


def near(found, wanted, what):
    """The same of a number of pixels."""
    if abs(found - wanted) > 1.5:
        sys.exit(f"page/test: {what}: found {found}, wanted {wanted}")


class Pages:
    """Pages that are opened one after the other."""

    def __init__(self, browser, folder):
        self.browser, self.folder = browser, folder

    def open(self, text, what):
        """Opens a page with this text."""
        path = f"{self.folder}/page.html"
        with open(path, "w", encoding="utf-8") as file:
            file.write(text)
        self.show(path, what)

    def show(self, path, what):
        """Opens a page, which must take no longer than the limit and complain of nothing."""
        took = self.browser.open(path)
        same(self.browser.complaints(), [], f"{what}: complaints")
        if took > LIMIT:
            sys.exit(f"page/test: {what} took {took:.2f} seconds to open")
        print(f"page/test: {what}: {os.path.getsize(path)} bytes open in {took:.2f} seconds")

    def text(self, selector):
        """The text of an element."""
        return self.browser.value(f"(document.querySelector({selector!r}) || {{textContent: null}}).textContent")

"""What holds of each page and program as it stands: nothing from elsewhere, no text put in as markup, names for what
one can press and fill in, and how long they are."""
import html.parser
import os
import re
import unittest

from support import APPS

PAGES = [os.path.join(APPS, name, "page.html") for name in ("notes", "polls", "files")]
PROGRAMS = [os.path.join(APPS, name, f"{name}.py") for name in ("notes", "polls", "files")]
POLICY = ("default-src 'none'; connect-src 'self'; base-uri 'none'; form-action 'none';"
          " script-src 'DIGEST-OF-SCRIPT'; style-src 'DIGEST-OF-STYLE'")
# What a page's script may not have: ways by which a text becomes markup or script, or something comes from elsewhere.
FORBIDDEN = r"innerHTML|outerHTML|insertAdjacent|document\.write|srcdoc|\beval\b|Function\(|setAttribute|import|" \
    r"createContextualFragment|DOMParser|XMLHttpRequest|WebSocket|EventSource|https?:|localStorage|cookie"
# Elements without an end.
VOID = {"meta", "input", "link", "img", "br", "hr"}


def text_of(path):
    with open(path, encoding="utf-8") as file:
        return file.read()


class Page(html.parser.HTMLParser):
    """The elements of a page, each with its attributes and the names of the elements that it is in."""

    def __init__(self, text):
        super().__init__()
        self.found, self.within, self.texts = [], [], []
        self.feed(text)
        self.close()

    def handle_starttag(self, tag, attributes):
        self.found.append((tag, dict(attributes), list(self.within)))
        if tag not in VOID:
            self.within.append(tag)

    def handle_endtag(self, tag):
        if self.within.pop() != tag:
            raise AssertionError(f"{tag} ends in the wrong place")

    def handle_data(self, text):
        if text.strip():
            self.texts.append((self.within[-1], text))

    def all(self, tag):
        return [attributes for found, attributes, _ in self.found if found == tag]


EACH = [(path, text_of(path), Page(text_of(path))) for path in PAGES]


class Pages(unittest.TestCase):

    def test_head(self):
        for path, text, page in EACH:
            with self.subTest(path):
                self.assertTrue(text.startswith('<!DOCTYPE html>\n<html lang="en">\n'))
                metas = page.all("meta")
                self.assertEqual({"charset": "utf-8"}, metas[0])
                pairs = [(meta.get("name") or meta["http-equiv"], meta["content"].split()) for meta in metas[1:]]
                named = {name: " ".join(words) for name, words in pairs}
                self.assertEqual({"viewport": "width=device-width, initial-scale=1", "referrer": "no-referrer",
                                  "Content-Security-Policy": POLICY}, named)

    def test_nothing_from_elsewhere(self):
        for path, text, page in EACH:
            with self.subTest(path):
                self.assertEqual([], [one for one in page.found if {"src", "href", "action", "style"} & set(one[1])])
                self.assertEqual([], [name for _, one, _ in page.found for name in one if name.startswith("on")])
                self.assertEqual([], re.findall(r"url\(|@import|//[a-z]", text))
                self.assertEqual((1, 1), (len(page.all("script")), len(page.all("style"))))
                self.assertEqual([{}, {}], page.all("script") + page.all("style"))

    def test_texts_are_no_markup(self):
        for path, text, page in EACH:
            with self.subTest(path):
                script = next(text for tag, text in page.texts if tag == "script")
                self.assertEqual([], re.findall(FORBIDDEN, script))
                self.assertIn("textContent", script)

    def test_names(self):
        """What is filled in has a label around it, what is said is announced, what the script looks for is there."""
        for path, text, page in EACH:
            with self.subTest(path):
                fields = [within for tag, _, within in page.found if tag in ("input", "textarea", "select")]
                self.assertEqual([], [within for within in fields if "label" not in within])
                self.assertEqual(1, len(page.all("h1")))
                self.assertEqual(1, len(page.all("main")))
                self.assertIn({"id": "said", "role": "status"}, page.all("p"))
                ids = [one["id"] for _, one, _ in page.found if "id" in one]
                self.assertEqual(sorted(set(ids)), sorted(ids))
                asked = set(re.findall(r"by\(\"([a-z-]+)\"\)", text))
                self.assertEqual(set(), asked - set(ids))

    def test_looks(self):
        for path, text, page in EACH:
            with self.subTest(path):
                for part in ("color-scheme: light dark", "prefers-color-scheme: dark", "system-ui", ":focus-visible"):
                    self.assertIn(part, text)


class Sizes(unittest.TestCase):

    def test_lengths(self):
        limits = [(path, 300) for path in PAGES]
        limits += [(path, 250) for path in (*PROGRAMS, os.path.join(APPS, "grain_app.py"))]
        for path, most in limits:
            with self.subTest(path):
                lines = text_of(path).splitlines()
                self.assertLess(len(lines), most)
                self.assertEqual([], [line for line in lines if len(line) > 120])

    def test_programs(self):
        for path in PROGRAMS:
            with self.subTest(path):
                self.assertTrue(os.access(path, os.X_OK))
                self.assertTrue(text_of(path).startswith("#!/usr/bin/env python3\n"))


if __name__ == "__main__":
    unittest.main()

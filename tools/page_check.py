#!/usr/bin/env python3
"""Reads a status page by Python's parser of HTML, and says what is wrong with it: page_check.py FILE..

Each element that is opened has to be closed, in order; each id has to stand once, and each link and label has to lead to one; nothing may
be loaded or run; there has to be one h1, the landmarks, and a scope at each head of a table."""
import sys
from html.parser import HTMLParser

VOID = {"meta"}
PARENTS = {"td": {"tr"}, "th": {"tr"}, "tr": {"tbody", "thead"}, "tbody": {"table"}, "thead": {"table"}, "li": {"ul"},
           "dt": {"div"}, "dd": {"div"}, "summary": {"details"}, "polygon": {"svg"}, "path": {"svg"}}
LOADS = {"script", "img", "link", "iframe", "object", "embed", "video", "audio", "form", "base"}


class Page(HTMLParser):
    def __init__(self):
        super().__init__(convert_charrefs=True)
        self.open, self.wrong, self.ids, self.links, self.seen = [], [], [], [], []

    def handle_starttag(self, tag, attributes):
        self.seen.append(tag)
        for name, value in attributes:
            if value is None:
                self.wrong.append(f"{tag}: attribute {name} has no value")
            elif name == "id":
                self.ids.append(value)
            elif name == "href" and value.startswith("#"):
                self.links.append(value[1:])
            elif name == "aria-labelledby":
                self.links.append(value)
            elif name.startswith("on") or name == "src" or "url(" in value or "javascript:" in value:
                self.wrong.append(f"{tag}: attribute {name}")
        if tag in LOADS:
            self.wrong.append(f"an element {tag}")
        if tag in PARENTS and (not self.open or self.open[-1] not in PARENTS[tag]):
            self.wrong.append(f"{tag} in {self.open[-1:]}")
        if tag == "p" and "p" in self.open:
            self.wrong.append("p in p")
        if tag == "th" and not any(name == "scope" for name, _ in attributes):
            self.wrong.append("th without scope")
        if tag not in VOID:
            self.open.append(tag)

    def handle_endtag(self, tag):
        if not self.open or self.open.pop() != tag:
            self.wrong.append(f"</{tag}> closes another element, line {self.getpos()[0]}")


def faults(text):
    page = Page()
    page.feed(text)
    page.close()
    wrong = list(page.wrong)
    if page.open:
        wrong.append(f"still open: {page.open}")
    wrong += [f"id {it} stands twice" for it in set(page.ids) if page.ids.count(it) > 1]
    wrong += [f"no id {it}" for it in page.links if it not in page.ids]
    for tag in ("h1", "header", "main", "nav", "footer", "title"):
        if page.seen.count(tag) != 1:
            wrong.append(f"{page.seen.count(tag)} elements {tag}")
    return wrong


if __name__ == "__main__":
    bad = 0
    for name in sys.argv[1:]:
        for it in faults(open(name, encoding="utf-8").read()):
            bad += 1
            print(f"{name}: {it}")
    print(f"{len(sys.argv) - 1} pages, {bad} faults")
    sys.exit(bad != 0)

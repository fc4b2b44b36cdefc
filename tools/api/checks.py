"""Whether the pages are whole: their tags balance, no two places have one name, and each link leads to a place."""
import collections
import html.parser
import posixpath
import urllib.parse


class Balance(html.parser.HTMLParser):
    """Whether the tags of a page balance, and which places and links it has."""

    VOID = {"meta", "link", "br", "hr", "img", "input"}
    # None of these can stand in one of those.
    BLOCKS = set("p div ul dl pre table section nav h1 h2 h3 h4 h5 h6".split())
    LINES = set("p pre h1 h2 h3 h4 h5 h6 code span strong a dt".split())

    def __init__(self, text):
        super().__init__()
        self.open_tags, self.hrefs, self.faults = [], [], []
        self.ids = collections.Counter()
        self.feed(text)
        self.close()
        if self.open_tags:
            self.faults.append(f"{self.open_tags} are left open")
        self.faults += [f"two places have the name {name}" for name, count in self.ids.items() if count > 1]

    def handle_starttag(self, tag, attrs):
        around = self.LINES & set(self.open_tags) if tag in self.BLOCKS else set()
        if around or tag == "a" and "a" in self.open_tags:
            self.fault(f"<{tag}> stands in <{min(around or {'a'})}>")
        if tag not in self.VOID:
            self.open_tags.append(tag)
        for name, value in attrs:
            if name == "id":
                self.ids[value] += 1
            elif name == "href":
                self.hrefs.append(value)

    def handle_endtag(self, tag):
        if not self.open_tags or self.open_tags.pop() != tag:
            self.fault(f"</{tag}> closes nothing")

    def fault(self, what):
        self.faults.append(f"line {self.getpos()[0]}: {what}")


def check_pages(pages, tally):
    """Checks the pages, which are given by their paths; reports what is wrong."""
    read = {path: Balance(text) for path, text in pages.items()}
    for path, page in read.items():
        for fault in page.faults:
            tally.report(f"doc/{path}: {fault}")
        for href in sorted(set(page.hrefs)):
            if not leads_somewhere(read, path, href):
                tally.report(f"doc/{path}: {href} leads nowhere")


def leads_somewhere(read, path, href):
    """Whether a link of this page leads to a page, and to a place on it."""
    file, _, name = href.partition("#")
    to = posixpath.normpath(posixpath.join(posixpath.dirname(path), file)) if file else path
    return to in read and (not name or urllib.parse.unquote(name) in read[to].ids)

"""The tokens of a file of Rattle, and a cursor that goes through them.

Blanks and notes (`//`) are left out; docs (`///`, `//!`) are tokens. The text of an item is taken from the file itself, so
that it is shown as it was laid out."""
import re

from repository import BadSource

TOKEN = re.compile(
    r'(?P<blank>\s+)|(?P<head>//![^\n]*)|(?P<doc>///[^\n]*)|(?P<note>//[^\n]*)'
    r'|(?P<text>b?"(?:\\.|[^"\\])*")|(?P<char>b?\'(?:\\[^\'\n]+|\\\'|[^\\\'\n])\')|(?P<life>\'\w+)'
    r"|(?P<word>\w+)|(?P<mark>.)", re.DOTALL)
PAIRS = {"(": ")", "[": "]", "{": "}"}


class Cursor:
    """A place among the tokens of a file."""

    def __init__(self, path):
        self.path = path
        self.text = path.read_text(encoding="utf-8")
        self.tokens = [(match.lastgroup, match.group(), match.start()) for match in TOKEN.finditer(self.text)]
        self.tokens = [token for token in self.tokens if token[0] not in ("blank", "note")]
        self.position = 0

    # Where it is

    def kind(self):
        """The kind of the next token, `end` behind the last."""
        return self.tokens[self.position][0] if self.position < len(self.tokens) else "end"

    def word(self, ahead=0):
        """The text of the next token, or of one further on."""
        at = self.position + ahead
        return self.tokens[at][1] if at < len(self.tokens) else ""

    def offset(self):
        """Where the next token begins in the file."""
        return self.tokens[self.position][2] if self.position < len(self.tokens) else len(self.text)

    def last_end(self):
        """Where the token before it ends."""
        _, text, offset = self.tokens[self.position - 1]
        return offset + len(text)

    def line(self):
        return self.text.count("\n", 0, self.offset()) + 1

    def opens_pair(self):
        return self.kind() == "mark" and self.word() in PAIRS

    def source(self, begin, end=None):
        """The text from one place to another, or to here, as if the line where it begins had no blanks before it."""
        first = self.text[self.text.rfind("\n", 0, begin) + 1:begin + 1]
        blanks = len(first) - len(first.lstrip())
        lines = self.text[begin:self.last_end() if end is None else end].strip().split("\n")
        rest = [line[min(blanks, len(line) - len(line.lstrip())):].rstrip() for line in lines[1:]]
        return "\n".join([lines[0], *rest])

    # How it goes on

    def fail(self, what):
        raise BadSource(self.path, self.line(), what)

    def take(self, *words):
        """The next token, which has to be one of these if any are named."""
        word = self.word()
        if self.kind() == "end" or words and word not in words:
            expected = " or ".join(f"`{word}`" for word in words) or "more"
            self.fail(f"`{word}` stands where {expected} is expected")
        self.position += 1
        return word

    def take_if(self, word):
        """Goes past this word, if it stands here."""
        if self.word() == word:
            self.take()

    def pair(self):
        """Goes past what is between two brackets; gives the text within."""
        line, begin = self.line(), self.offset() + 1
        closing = [PAIRS[self.take(*PAIRS)]]
        while closing:
            if self.kind() == "end":
                raise BadSource(self.path, line, "a bracket isn't closed")
            word = self.take()
            if self.tokens[self.position - 1][0] != "mark":
                continue
            if word in PAIRS:
                closing.append(PAIRS[word])
            elif word in PAIRS.values() and word != closing.pop():
                raise BadSource(self.path, line, f"a bracket is closed by `{word}`")
        return self.text[begin:self.last_end() - 1]

    def until(self, *stops):
        """Goes on to the first of these that isn't between brackets; gives the text before it."""
        begin = self.offset()
        if self.word() in stops:
            return ""
        while self.word() not in stops:
            if self.kind() == "end":
                self.fail(f"no {' or '.join(f'`{word}`' for word in stops)} is found")
            self.skip()
        return self.text[begin:self.last_end()]

    def skip(self):
        """Goes past one token, or past a whole pair of brackets."""
        if self.opens_pair():
            self.pair()
        else:
            self.position += 1

    def generics(self):
        """Goes past what is between < and >, if that stands here."""
        depth = 0
        while self.word() == "<" or depth:
            if self.word() == "<":
                depth += 1
            elif self.word() == ">" and self.word(-1) not in ("-", "="):
                depth -= 1
            if self.opens_pair():
                self.pair()
            else:
                self.take()

    def lines_of(self, kind):
        """The lines of docs that stand here, without what begins them."""
        found = []
        while self.kind() == kind:
            text = self.take()[3:]
            found.append(text[1:] if text.startswith(" ") else text)
        return found

    def attribute(self):
        """An attribute, as it stands."""
        begin = self.offset()
        self.take("#")
        self.take_if("!")
        self.pair()
        return self.text[begin:self.last_end()]

"""HTML of docs: what stands in `///` and `//!` as paragraphs, lists, headings and blocks."""
import html
import re
import urllib.parse

escape = html.escape


def escape_text(text):
    """Text between tags, in which quotes may stand."""
    return escape(text, quote=False)


def anchor(text):
    """A name as it stands in a link."""
    return urllib.parse.quote(text, safe="")


def code(text):
    return f"<code>{escape(text)}</code>"


def inline(text, show_code=code):
    """A line of docs: what is between backticks as code, what is between ** strongly."""
    parts = re.split(r"`([^`]*)`", text)
    for at, part in enumerate(parts):
        if at % 2:
            parts[at] = show_code(part)
        else:
            parts[at] = re.sub(r"\*\*(.+?)\*\*", r"<strong>\1</strong>", escape_text(part))
    return "".join(parts)


def markdown(lines, level=5, slug=None, show_code=code):
    """Docs as HTML. Their headings begin at this level; with a slug, they can be led to."""
    return Markdown(level, slug, show_code).convert(lines)


def heading_id(slug, text):
    """The place of a heading of docs."""
    return slug + anchor(text.lower().replace(" ", "-"))


def head_sections(lines):
    """The docs of a file: what stands before the first heading, and each heading with its lines."""
    starts = [at for at, line in enumerate(lines) if line.startswith("# ")]
    ends = [*starts[1:], len(lines)]
    before = lines[:starts[0]] if starts else lines
    return before, [(lines[start][2:], lines[start:end]) for start, end in zip(starts, ends)]


class Markdown:
    """Converts the lines of docs."""

    def __init__(self, level, slug, show_code):
        self.level, self.slug, self.show_code = level, slug, show_code
        self.out, self.paragraph, self.entries = [], [], []

    def convert(self, lines):
        at = 0
        while at < len(lines):
            line = lines[at]
            at += 1
            if line.startswith("```"):
                end = next((end for end in range(at, len(lines)) if lines[end].startswith("```")), len(lines))
                self.block(lines[at:end])
                at = end + 1
            else:
                self.line(line)
        self.close()
        return "\n".join(self.out)

    def inline(self, text):
        return inline(text, self.show_code)

    def line(self, line):
        if not line.strip():
            self.close()
        elif re.match(r"#+ ", line):
            self.heading(line)
        elif re.match(r"[-*] ", line):
            if self.paragraph:
                self.close()
            self.entries.append(line[2:].strip())
        elif self.entries:
            self.entries[-1] += " " + line.strip()
        else:
            self.paragraph.append(line.strip())

    def block(self, lines):
        """What stands between lines of ```."""
        self.close()
        text = "\n".join(lines)
        self.out.append(f"<pre>{escape_text(text)}</pre>")

    def heading(self, line):
        self.close()
        marks, text = line.split(" ", 1)
        name = "" if self.slug is None else f' id="{heading_id(self.slug, text)}"'
        tag = f"h{min(6, self.level + len(marks) - 1)}"
        self.out.append(f"<{tag}{name}>{self.inline(text)}</{tag}>")

    def close(self):
        """Ends the paragraph or the list that is open."""
        if self.paragraph:
            self.out.append(f"<p>{self.inline(' '.join(self.paragraph))}</p>")
        if self.entries:
            self.out.append("<ul>" + "".join(f"<li>{self.inline(text)}</li>" for text in self.entries) + "</ul>")
        self.paragraph, self.entries = [], []


def first_paragraph(lines):
    """How many lines the first paragraph has."""
    return next((at for at, line in enumerate(lines) if not line.strip()), len(lines))


def first_sentence(lines):
    """The first sentence of a head."""
    text = " ".join(line.strip() for line in lines[:first_paragraph(lines)])
    match = re.match(r".*?[.](?=\s|$)", text)
    return match.group() if match else text

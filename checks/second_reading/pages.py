"""What a page's text means: its title, its blocks and its marks, as HTML."""
NOTICE = "MediaWiki:Sitenotice"
CLASSES = ("Template:", "MediaWiki:")
QUOTES = [("'''''", "<b><i>", "</i></b>"), ("'''", "<b>", "</b>"), ("''", "<i>", "</i>")]
DEPTHS = {1: 1, 2: 4}  # how deep templates nest in each markup
TITLE_MOST, BRACKETS_MOST, INCLUDED_MOST = 255, 512, 262144  # bytes


def escaped(text):
    return text.replace("&", "&amp;").replace("<", "&lt;").replace(">", "&gt;").replace('"', "&quot;")


def raised(text):
    return text[0].upper() + text[1:] if text and "a" <= text[0] <= "z" else text


def title_of(text):
    """The title that a text names, or None."""
    title = raised(" ".join(word for word in text.replace("_", " ").split(" ") if word))
    for prefix in CLASSES:
        if title.startswith(prefix):
            title = prefix + raised(title[len(prefix):].lstrip(" "))
            if title == prefix:
                return None
    bad = any(c in "#<>[]|{}" or ord(c) < 32 or ord(c) == 127 for c in text)
    return title if title and len(title.encode()) <= TITLE_MOST and not bad else None


def class_of(title):
    """`Template:`, `MediaWiki:` or None. Every page depends on the titles of a class."""
    return next((prefix for prefix in CLASSES if title.startswith(prefix)), None)


def url_of(title):
    kept = "-._~/:"
    characters = (chr(byte) for byte in title.replace(" ", "_").encode())
    return "".join(c if c.isascii() and c.isalnum() or c in kept else f"%{ord(c):02X}" for c in characters)


class Page:
    """The wiki as it stands at a view: texts by title, how deep templates nest, and how many of their bytes are included."""

    def __init__(self, texts, depth):
        self.texts, self.depth, self.included = texts, depth, 0

    def quotes(self, text, at, depth):
        for mark, opening, closing in QUOTES:
            end = text.find(mark, at + len(mark) + 1)
            if text.startswith(mark, at) and end >= 0:
                return opening + self.inline(text[at + len(mark):end], depth) + closing, end + len(mark)
        return None

    def link(self, text, at):
        end = text.find("]]", at + 2)
        if not text.startswith("[[", at) or end < 0 or len(text[at + 2:end].encode()) > BRACKETS_MOST:
            return None
        target, _, label = text[at + 2:end].partition("|")
        title = title_of(target)
        if title is None:
            return None
        return f'<a href="/wiki/{url_of(title)}">{escaped(label or target)}</a>', end + 2

    def template(self, text, at, depth):
        end = text.find("}}", at + 2)
        if depth == 0 or not text.startswith("{{", at) or end < 0 or len(text[at + 2:end].encode()) > BRACKETS_MOST:
            return None
        title = title_of("Template:" + text[at + 2:end])
        if title is None or not title.startswith("Template:") or title not in self.texts:
            return None
        size = len(self.texts[title].encode())
        if self.included + size > INCLUDED_MOST:
            return None
        self.included += size
        return self.inline(self.texts[title].replace("\n", " "), depth - 1), end + 2

    def inline(self, text, depth):
        made, at = [], 0
        while at < len(text):
            used = self.quotes(text, at, depth) or self.link(text, at) or self.template(text, at, depth)
            piece, at = used or (escaped(text[at]), at + 1)
            made.append(piece)
        return "".join(made)

    def html(self, title):
        notice = self.texts.get(NOTICE)
        made = ["<!DOCTYPE html>\n", f"<title>{escaped(title)}</title>\n"]
        if notice is not None:
            made.append("<div>" + self.inline(notice.replace("\n", " "), 0) + "</div>\n")
        made.append(f"<h1>{escaped(title)}</h1>\n")
        lines = self.texts[title].split("\n")
        lines.reverse()
        while lines:
            made.append(self.block(lines))
        return "".join(made)

    def block(self, lines):
        """Takes the lines of the first block off the end of a list of lines, the last first, and gives its HTML."""
        first = lines.pop()
        if kind(first) == "blank":
            return ""
        if kind(first) == "heading":
            level, middle = heading(first)
            return f"<h{level}>{self.inline(middle, self.depth)}</h{level}>\n"
        run = [first]
        while lines and kind(lines[-1]) == kind(first):
            run.append(lines.pop())
        if kind(first) == "plain":
            return "<p>" + self.inline("\n".join(run), self.depth) + "</p>\n"
        items = (f"<li>{self.inline(line[1:].strip(' '), self.depth)}</li>\n" for line in run)
        return "<ul>\n" + "".join(items) + "</ul>\n"


def heading(line):
    level = min(len(line) - len(line.lstrip("=")), len(line) - len(line.rstrip("=")), 6)
    middle = line[level:len(line) - level].strip(" ")
    return (level, middle) if level and middle and line.strip("=") else None


def kind(line):
    if not line.strip(" "):
        return "blank"
    if heading(line):
        return "heading"
    return "item" if line.startswith("*") else "plain"

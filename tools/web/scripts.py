"""The cookbook's questions and the examples, each with its text, as the page lists them."""
import re

#: A question of the cookbook: its heading, what stands below it, and the name of its script.
_QUESTION = re.compile(r"^## \d+\. ([^\n]*)\n(.*?)(?=^## |\Z)", re.M | re.S)
_SCRIPT = re.compile(r"<!-- script: (\w+) -->")
_PICTURE = re.compile(r"^# picture: .*\n", re.M)


def _plain(paragraph):
    """A paragraph on one line, without marks of Markdown."""
    text = re.sub(r"!?\[([^\]]*)\]\([^)]*\)", r"\1", " ".join(paragraph.split()))
    return text.replace("`", "").replace("**", "")


def _paragraphs(text):
    """The paragraphs of a page, without its scripts, pictures and notes."""
    plain = re.sub(r"^```.*?^```$|<!--.*?-->|^#.*$|^!\[.*$", "", text, flags=re.M | re.S)
    return [_plain(part) for part in re.split(r"\n\s*\n|\n(?=- )", plain) if part.strip()]


def _cookbook(top):
    page = (top / "docs" / "COOKBOOK.md").read_text(encoding="utf-8")
    for title, text in _QUESTION.findall(page):
        name = _SCRIPT.search(text)[1]
        script = (top / "docs" / "cookbook" / f"{name}.lab").read_text(encoding="utf-8")
        yield {"group": "Questions", "name": f"{name}.lab", "title": title, "told": _paragraphs(text), "text": _PICTURE.sub("", script)}


def _examples(top):
    for path in sorted((top / "examples").glob("*.replset")):
        page = path.with_suffix(".md").read_text(encoding="utf-8")
        title = re.search(r"^# (.*)$", page, re.M)[1]
        yield {"group": "Examples", "name": path.name, "title": title, "told": _paragraphs(page), "text": path.read_text(encoding="utf-8")}


def scripts(top):
    """All of them, in the order of the page."""
    return [*_cookbook(top), *_examples(top)]

"""Breaks the lines of paragraphs, as pages and comments have them."""
import re
import textwrap

WIDTH = 110

# What stands as it is: tables, headings, quotations, tags, code, and the lines between groups of definitions.
STANDS = ("|", "#", ">", "<", "    ", "----")
ITEM = re.compile(r"^( *)([-*] |[0-9]+\. )?")


def broken(paragraph, width):
    """A paragraph, or an item of a list, in lines that fit."""
    return in_lines(paragraph, width, width)


def evened(paragraph, width):
    """The same in as many lines, of which the last has three words or more where that can be."""
    lines = in_lines(paragraph, width, width)
    for less in range(1, 20):
        if len(lines) < 2 or len(lines[-1].split()) > 2:
            break
        others = in_lines(paragraph, width, width - less)
        lines = others if len(others) == len(lines) else lines
    return lines


def in_lines(paragraph, width, most):
    def kept_whole(part):
        """Code or a link that fits on a line isn't broken."""
        return part.group().replace(" ", "\0") if len(part.group()) < width - 10 else part.group()

    indent, mark = ITEM.match(paragraph[0]).groups(default="")
    whole = " ".join(line.strip() for line in paragraph)[len(mark):]
    whole = re.sub(r"`[^`]*`|\[[^\]]*\]\([^)]*\)", kept_whole, whole)
    lines = textwrap.wrap(whole, most, initial_indent=indent + mark, subsequent_indent=indent + " " * len(mark),
                          break_long_words=False, break_on_hyphens=False)
    return [line.replace("\0", " ") for line in lines]


def refilled(lines, width=WIDTH, only_wide=False):
    """These lines with each paragraph broken anew, or only those that have a line which is too wide."""
    done, paragraph, inside = [], [], None
    for line in [*lines, ""]:
        begins = line.strip()[:3] if line.strip()[:3] in ("```", "~~~") else "<!--" if line.startswith("<!--") else None
        stands = inside or begins or not line.strip() or line.startswith(STANDS)
        if paragraph and (stands or ITEM.match(line).group(2)):
            fits = only_wide and all(len(it) <= width for it in paragraph)
            done += paragraph if fits else evened(paragraph, width) if only_wide else broken(paragraph, width)
            paragraph = []
        if stands:
            done.append(line)
        else:
            paragraph.append(line)
        if inside:
            inside = None if (line.strip() == inside or inside == "<!--" and line.endswith("-->")) else inside
        elif begins and not (begins == "<!--" and line.endswith("-->")):
            inside = begins
    return done[:-1]

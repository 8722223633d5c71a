#!/usr/bin/env python3
"""Looks at the texts of pages: whether links lead somewhere, how wide lines are, how long sentences
and the cells of tables.

usage: bench/page_texts.py [--wrap] [PAGE ..]

    Without a PAGE all are looked at: README.md and CONTRIBUTING.md, the pages of docs/,
    examples/README.md and those of its folders. With --wrap paragraphs and items of lists that are
    too wide are wrapped first. Code blocks and tables stay as they are.

Each fault is told with its page and line. It ends with 0 where there is none.
"""
import argparse, glob, os, re, sys, textwrap

ROOT = os.path.dirname(os.path.dirname(os.path.abspath(__file__)))

MOST_COLUMNS = 100

# The most characters of any line, of a table's too.
MOST_CHARACTERS = 400

MOST_WORDS_OF_A_SENTENCE = 35
MOST_WORDS_OF_A_CELL = 40

# The mark with which an item of a list begins.
ITEM = re.compile(r"^(\s*)([-*]|\d+\.) ")

# What must not be cut where a line ends.
WHOLE = re.compile(r"`[^`]*`|\[[^\]]*\]\([^)]*\)")


def pages_of(named):
    """These pages, or all of the repository where none is named, by their paths from its top."""
    if named:
        return [os.path.relpath(os.path.abspath(page), ROOT) for page in named]
    patterns = ("*.md", "docs/*.md", "examples/*.md", "examples/*/*.md")
    found = [path for pattern in patterns for path in glob.glob(os.path.join(ROOT, pattern))]
    return sorted(os.path.relpath(path, ROOT) for path in found)


def read(page):
    with open(os.path.join(ROOT, page)) as file:
        return file.read()


def pieces_of(text):
    """A page cut into paragraphs and items of lists, each with the number of its first line, and
    True; and into all other lines, each by itself, with False."""
    is_code, begin, paragraph = False, 0, []
    for number, line in enumerate(text.split("\n"), 1):
        is_fence = line.strip().startswith("```")
        is_other = line.lstrip().startswith(("|", "#", "<!--")) or not line.strip()
        is_indented = not paragraph and line.startswith("    ")
        is_text = not (is_code or is_fence or is_other or is_indented)
        if paragraph and (not is_text or ITEM.match(line)):
            yield begin, True, paragraph
            paragraph = []
        if is_text:
            begin = begin if paragraph else number
            paragraph.append(line)
        else:
            yield number, False, [line]
        is_code = is_code != is_fence
    if paragraph:
        yield begin, True, paragraph


def wrapped(lines):
    """A paragraph or an item in lines that are not too wide."""
    if all(len(line) <= MOST_COLUMNS for line in lines):
        return lines
    item = ITEM.match(lines[0])
    first = item[0] if item else re.match(r"\s*", lines[0])[0]
    text = " ".join([lines[0][len(first) :], *(line.strip() for line in lines[1:])])
    held = WHOLE.sub(lambda whole: whole[0].replace(" ", "\0"), text)
    later = " " * len(first)
    return [
        line.replace("\0", " ")
        for line in textwrap.wrap(
            held,
            MOST_COLUMNS,
            initial_indent=first,
            subsequent_indent=later,
            break_long_words=False,
            break_on_hyphens=False,
        )
    ]


def wrap(page):
    text = read(page)
    lines = []
    for _, is_text, piece in pieces_of(text):
        lines.extend(wrapped(piece) if is_text else piece)
    if (new := "\n".join(lines)) != text:
        with open(os.path.join(ROOT, page), "w") as file:
            file.write(new)


def anchors_of(text):
    """The anchors of a page's headings, as they are made for links."""
    for heading in re.findall(r"^#+ (.*)$", text, re.MULTILINE):
        yield re.sub(r"[^\w\- ]", "", heading.strip().lower()).replace(" ", "-")


def broken_links_of(page, text):
    """The links of a page to files of the repository, and to headings, that lead nowhere."""
    for link in re.findall(r"\]\(([^)\s]+)\)", re.sub(r"```.*?```", "", text, flags=re.DOTALL)):
        path, _, anchor = link.partition("#")
        if "://" in link:
            continue
        target = os.path.normpath(os.path.join(os.path.dirname(page), path)) if path else page
        if not os.path.exists(os.path.join(ROOT, target)):
            yield f"the link {link} leads to no file"
        elif anchor and anchor not in anchors_of(read(target)):
            yield f"the link {link} leads to no heading"


def plain(text):
    """A text without its marks and without the targets of its links."""
    return re.sub(r"\[([^\]]*)\]\([^)]*\)", r"\1", text).replace("*", "")


def long_sentences_of(lines):
    text = plain(" ".join([ITEM.sub("", lines[0]), *(line.strip() for line in lines[1:])]))
    for sentence in re.split(r"(?<=[.!?])[\s)]+", re.sub(r"`[^`]*`", "code", text)):
        count = sum(bool(re.search(r"\w", word)) for word in sentence.split())
        if count > MOST_WORDS_OF_A_SENTENCE:
            yield f"a sentence of {count} words: {sentence[:60].strip()} .."


def long_cells_of(line):
    for cell in plain(line).replace("\\|", "/").split("|"):
        if (count := len(cell.split())) > MOST_WORDS_OF_A_CELL:
            yield f"a cell of {count} words"


def faults_of(page):
    """What is wrong with a page, each with its line, or 0 where it is a link."""
    text = read(page)
    yield from ((0, fault) for fault in broken_links_of(page, text))
    for begin, is_text, lines in pieces_of(text):
        for number, line in enumerate(lines, begin):
            if len(line) > (MOST_COLUMNS if is_text else MOST_CHARACTERS):
                yield number, f"{len(line)} characters"
        if is_text:
            yield from ((begin, fault) for fault in long_sentences_of(lines))
        elif lines[0].lstrip().startswith("|"):
            yield from ((begin, fault) for fault in long_cells_of(lines[0]))


def main():
    parser = argparse.ArgumentParser(
        description=__doc__, formatter_class=argparse.RawDescriptionHelpFormatter
    )
    parser.add_argument("--wrap", action="store_true")
    parser.add_argument("pages", nargs="*", metavar="PAGE")
    words = parser.parse_args()
    count = 0
    for page in pages_of(words.pages):
        if words.wrap:
            wrap(page)
        for line, fault in faults_of(page):
            count += 1
            print(f"{page}:{line}: {fault}" if line else f"{page}: {fault}")
    sys.exit(1 if count else 0)


if __name__ == "__main__":
    main()

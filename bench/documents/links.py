"""The links of the pages: each one to a file leads to one, and an anchor behind it to a heading there."""
import os
import re

LINK = re.compile(r'\[[^\]]*\]\(([^)\s]+)\)')
SPAN = re.compile(r'`(?:[^`\n]|\n(?!\n))*`')


def links(page):
    """The links of a page with their lines; those in examples and in spans of code are none."""
    fenced, lines = False, []
    for line in page.lines:
        fenced ^= line.startswith('```')
        lines.append('' if fenced or line.startswith('    ') else line)
    text = SPAN.sub(lambda it: re.sub(r'[^\n]', ' ', it[0]), '\n'.join(lines))
    for it in LINK.finditer(text):
        yield text.count('\n', 0, it.start(1)) + 1, it[1]


def compare(book, top):
    """Looks where each link leads."""
    for page in book.pages.values():
        for number, link in links(page):
            if re.match(r'\w+:', link):
                continue
            book.count('links')
            path, _, anchor = link.partition('#')
            target = os.path.normpath(os.path.join(os.path.dirname(page.name), path)) if path else page.name
            if not os.path.exists(f'{top}/{target}'):
                book.tell(page.name, number, f'the link {link} leads to no file')
            elif anchor and target in book.pages and anchor not in book.pages[target].anchors():
                book.tell(page.name, number, f'the link {link} leads to no heading of {target}')

"""Pieces of text: sentences of comments, lines of a page, numbers as pages tell them, and how two lines differ."""
import re
import textwrap

WIDTH = 160
NUMBERS = 'none one two three four five six seven eight nine ten eleven twelve thirteen fourteen fifteen sixteen seventeen eighteen nineteen twenty'.split()


def first_sentence(lines):
    """The first sentence of a comment, or its first paragraph, if that is less."""
    paragraph = ' '.join(lines[: lines.index('') if '' in lines else len(lines)]).strip()
    found = re.match(r'.*?(?<!\.)\.(?= [A-Z`]|$)', paragraph)
    return found[0] if found else paragraph


def cut(sentence, most, marks='[:;]'):
    """A sentence of at most so many characters: itself, or what stands before the first of these marks in it, or nothing."""
    if len(sentence) <= most:
        return sentence
    head = re.split(f'{marks} ', sentence)[0]
    return f'{head}.' if len(head) < most and len(head) < len(sentence) else ''


def wrapped(text, margin=''):
    """The lines of a text, the second and each later one with this margin."""
    return textwrap.wrap(text, WIDTH, subsequent_indent=margin, break_on_hyphens=False, break_long_words=False)


def number_of(text):
    """The number that a text tells, in digits or as a word."""
    word = text.lower()
    return NUMBERS.index(word) if word in NUMBERS else int(text.replace(',', '')) if re.fullmatch(r'[\d,]+', text) else None


def told_as(number, text):
    """A number in the form of a text: in digits, or as a word with the same first letter, if there is one."""
    if text[:1].isdigit() or number >= len(NUMBERS):
        return f'{number:,}'
    return NUMBERS[number].capitalize() if text[:1].isupper() else NUMBERS[number]


def difference(old, new, most=70):
    """What stands in a line and what should, from where they differ on."""
    at = next((at for at, (a, b) in enumerate(zip(old, new)) if a != b), min(len(old), len(new)))
    begin = max(0, at - 20)
    return f'{old[begin : begin + most]!r} stands there, and should be {new[begin : begin + most]!r}'

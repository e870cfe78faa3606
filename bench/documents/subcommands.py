"""The index of the subcommands, by the texts that the program gives to `clap`: for each its arguments and what it does.

A function that gives a `Command` has its name and its text in a call of `Command::new` or of another such function, and its arguments are
those of the functions that give an `Arg` and are called there, in their order; what these call is looked at too."""
import re
from collections import namedtuple

from pages import anchor_of

CRATES = ('image_lines', 'script_lines', 'tool_lines', 'host_lines', 'serve_lines', 'command_line')
MAKER = re.compile(r'fn (\w+)(?:<[^>]*>)?\(([^)]*)\) -> (?:Result<(?:Command|Words)<|Arg<)')
CALL = re.compile(r'\b(?:(\w+)::)?(\w+)\(\s*alloc\b(?:,\s*((?:"[^"]*"|[^()"]|\(\))*))?')
PAGE = re.compile(r'[a-z]+')
# How often an argument stands at least, which may stand several times.
MANY = re.compile(r'\)\s*\.num_args\((\d+\.\.)\)')

Maker = namedtuple('Maker', 'crate parameters body')


def makers(book):
    """The functions that make commands and arguments, by their crates, modules and names."""
    found = {}
    for name in CRATES:
        crate = book.crates[name]
        for it in crate.functions:
            head = ' '.join(line.strip() for line in crate.texts[it.file][it.line - 1 : it.body[0]])
            if maker := MAKER.search(head.replace('( ', '(')):
                parameters = [each.split(':')[0].strip() for each in maker[2].split(',') if ':' in each]
                found[name, it.file.removesuffix('.rt'), it.name] = Maker(name, parameters, crate.body(it))
    return found


class Reader:
    """What a function that makes a command gives it."""

    def __init__(self, found):
        self.found, self.name, self.about, self.arguments = found, '', '', []

    def maker(self, module, name, near):
        """The function that a call names: of a module, or else of the file, the crate or the crate of what lines have in common."""
        crate, file, _ = near
        keys = [(crate, module or file, name), ('command_line', module, name)]
        keys += [] if module else [it for it in self.found if it[0] in (crate, 'command_line') and it[2] == name]
        return next((it for it in keys if it in self.found), None)

    def read(self, key, values):
        """Reads the body of a function, with the texts that its parameters have."""
        body = self.found[key].body
        for name, value in values.items():
            body = re.sub(rf'(?<![\w."]){name}(?![\w"(:])', lambda _, it=value: it, body)
        begin = re.search(r'\b(?:Command|Words)::new\(\s*alloc,\s*"([^"]*)"\s*\)\s*\.about\("([^"]*)"', body)
        if begin:
            self.name, self.about = begin.groups()
        if 'Arg::new(' in body:
            self.arguments.append(body)
        for call in CALL.finditer(body):
            called = self.maker(call[1], call[2], key)
            if called and called != key:
                words = re.findall(r'"[^"]*"|[^,\s][^,]*', call[3] or '')
                self.read(called, dict(zip(self.found[called].parameters[1:], map(str.strip, words))))
                if many := MANY.match(body, call.end()):
                    self.arguments[-1] += many[1]


def shown(argument):
    """An argument as a usage shows it."""
    word = (re.search(r'\.value_name\("([^"]*)"', argument) or ['', ''])[1]
    long = re.search(r'\.long\("([^"]*)"', argument)
    short = re.search(r"\.short\('(\w)'", argument)
    flag = f'--{long[1]}' if long else f'-{short[1]}' if short else ''
    text = f'{flag} {word}'.strip()
    if many := re.search(r'(\d+)\.\.$', argument):
        text = ' '.join([text] * int(many[1])) + '..'
    return text if '.required(true)' in argument else f'[{text}]'


def commands(book):
    """The subcommands, each with its arguments, those with dashes in front, and with what it does."""
    found, read = makers(book), {}
    for key, maker in found.items():
        if maker.parameters == ['alloc'] and 'Arg::new' not in maker.body:
            reader = Reader(found)
            reader.read(key, {})
            if reader.name and reader.name not in read:
                words = sorted(map(shown, reader.arguments), key=lambda it: not it.strip('[').startswith('-'))
                read[reader.name] = (' '.join(words), reader.about)
    return read


def pages(book):
    """The headings of docs/MANUAL.md that are pages of subcommands by their form, with their lines."""
    headings = book.pages['docs/MANUAL.md'].headings()
    return {anchor_of(it): line for line, level, it in headings if level in (2, 3) and PAGE.fullmatch(it.strip('`'))}


def index(book, _):
    """The lines of the table, with links to the pages of docs/MANUAL.md."""
    told, lines = commands(book), ['| Subcommand | What it does |', '|---|---|']
    for name in pages(book):
        if name in told:
            words, about = told[name]
            lines.append(f'| [`{name}`](#{name})' + (f' `{words}`' if words else '') + f' | {about} |')
    return lines


def in_readme(book):
    """The names in the list of the README, and its first line."""
    lines = [(at, line) for at, line in enumerate(book.pages['README.md'].lines, 1) if line.startswith(('- make and move: ', '- check and mend: '))]
    return [name for _, line in lines for name in re.findall(r'`(\w+)`', line)], lines[0][0] if lines else 1


def faults(book):
    """Tells of subcommands without a page or that the README does not name, and of pages and names without a subcommand."""
    told, found = commands(book), pages(book)
    names, at = in_readme(book)
    if sorted(names) != sorted(told):
        book.tell('README.md', at, f'its list of subcommands differs in {", ".join(sorted({*names} ^ {*told})) or "a name that stands twice"}')
    for name in told:
        if name not in found:
            book.tell('docs/MANUAL.md', 1, f'the subcommand {name} has no page')
    for name, line in found.items():
        if name not in told:
            book.tell('docs/MANUAL.md', line, f'the page {name} has no subcommand')

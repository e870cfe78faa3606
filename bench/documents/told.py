"""The tables of docs/MANUAL.md of what the program tells, from the types that it prints: the findings of a check, and the refusals."""
import re

TOLD = re.compile(r'Finding::(\w+)[^=]*=> (?:\{\s*)?write!\(f, "([^"]*)"', re.DOTALL)
VARIANT = re.compile(r'((?:    ///[^\n]*\n)+)(?:    #\[error\("([^"]*)"\)\]\n)?    (\w+)(?:\([^)]*\))?,')


def variants(book, crate, file, name):
    """The variants of a type, each with its comment and the text of its error."""
    text = '\n'.join(book.crates[crate].texts[file])
    body = re.search(rf'\nenum {name} {{\n(.*?)\n}}|\npub enum {name} {{\n(.*?)\n}}', text, re.DOTALL)
    for comment, error, variant in VARIANT.findall((body[1] or body[2]) + '\n'):
        yield variant, ' '.join(it.strip().removeprefix('///').strip() for it in comment.strip().split('\n')), error


def findings(book, _):
    """A row for each kind of finding: its line, what it means, and whether it is soft."""
    text = '\n'.join(book.crates['findings'].texts['finding.rt'])
    lines = {kind: re.sub(r'{(\w+)}', lambda it: it[1].upper(), line) for kind, line in TOLD.findall(text)}
    soft = set(re.findall(r'Finding::(\w+)', re.search(r'matches!\((.*?)\n        \)', text, re.DOTALL)[1]))
    yield from ('| Finding | What it means | |', '|---|---|---|')
    for kind, comment, _error in variants(book, 'findings', 'finding.rt', 'Finding'):
        yield f'| `{lines[kind]}` | {comment.rstrip(".").split(":")[0]} | {"soft" if kind in soft else "damaged"} |'


def refusals(book, _):
    """A row for each refusal: its number and name, and its cause."""
    yield from ('| Refusal | Cause |', '|---|---|')
    for _variant, comment, error in variants(book, 'layout', 'refusal.rt', 'Refusal'):
        yield f'| `{error.replace("{0}", "GROUP")}` | {comment.rstrip(".")} |'

"""The layers: those of crates.txt, and whether the picture of docs/MAP.md and the README have the same.

- Each crate of crates.txt stands under a heading `# LAYER: ..`, and names crates of its own layer or lower ones alone, and none of the TESTS
  or BENCHES unless it is one itself. A crate of TESTS or BENCHES begins with `test_` or `bench_`, and no other crate does.
- The picture has exactly the crates of each layer, and each crate on the left of a `>` stands on one on its right.
- The README names the same layers."""
import os
import re

TOP = os.path.dirname(os.path.dirname(os.path.dirname(os.path.abspath(__file__))))
LEAVES = {'TESTS': 'test_', 'BENCHES': 'bench_'}


class Layers:
    """The layers of crates.txt, lowest first."""

    def __init__(self):
        self.crates, self.titles, self.named, self.lines, layer = {}, {}, {}, {}, None
        with open(f'{TOP}/crates.txt', encoding='utf-8') as lines:
            for number, line in enumerate(lines, 1):
                heading = re.match(r'# ([A-Z]+): (.*)', line)
                crate = re.match(r'([a-z]\w*)[^:#]*:(.*)', line)
                if heading:
                    layer = heading[1]
                    self.titles[layer], self.crates[layer] = heading[2], []
                elif crate:
                    self.crates.setdefault(layer, []).append(crate[1])
                    self.named[crate[1]], self.lines[crate[1]] = crate[2].split(), number
        self.named = {crate: [it for it in named if it in self.named] for crate, named in self.named.items()}
        self.layer_of = {crate: layer for layer, crates in self.crates.items() for crate in crates}

    def is_leaf(self, crate):
        """Whether a crate is one of tests or of benches."""
        return self.layer_of[crate] in LEAVES

    def below(self, crate):
        """The crates that a crate stands on."""
        found, left = set(), [crate]
        while left:
            for it in self.named[left.pop()]:
                if it not in found:
                    found.add(it)
                    left.append(it)
        return found


def faults_of_list(book):
    """What is wrong with crates.txt itself."""
    layers = book.layers
    order = {crate: number for number, crates in enumerate(layers.crates.values()) for crate in crates}
    for crate, named in layers.named.items():
        layer, line = layers.layer_of[crate], layers.lines[crate]
        if layer is None:
            book.tell('crates.txt', line, f'{crate} stands under no heading')
        if crate.startswith(tuple(LEAVES.values())) != (layer in LEAVES) or not crate.startswith(LEAVES.get(layer, '')):
            book.tell('crates.txt', line, f'{crate} stands under {layer}')
        for it in named:
            if order[it] > order[crate]:
                book.tell('crates.txt', line, f'{crate} of {layer} names {it} of {layers.layer_of[it]}')
            if layers.is_leaf(it) and layer not in LEAVES:
                book.tell('crates.txt', line, f'{crate} of {layer} names {it}')


def drawn(page):
    """The chains of the picture, by layer, each a list of groups of crates; and the line in which the picture begins."""
    chains, layer, inside, begin = {}, None, False, 1
    for number, line in enumerate(page.lines, 1):
        if line.startswith('#'):
            inside = line.startswith('## Layers')
            begin = number if inside else begin
        elif inside and line.startswith('    '):
            heading = re.match(r'    ([A-Z]+) +(.*)', line)
            layer, text = (heading[1], heading[2]) if heading else (layer, line.strip())
            if text.startswith('>'):
                text = chains[layer].pop() + ' ' + text
            chains.setdefault(layer, []).extend(re.split(' {3,}', text.strip()))
    return {layer: [[group.split() for group in chain.split('>')] for chain in found] for layer, found in chains.items()}, begin


def faults_of_picture(book):
    """What is wrong with the picture."""
    chains, line = drawn(book.pages['docs/MAP.md'])
    for layer, crates in book.layers.crates.items():
        found = [crate for chain in chains.get(layer, []) for group in chain for crate in group]
        if layer not in LEAVES and sorted(found) != sorted(crates):
            book.tell('docs/MAP.md', line, f'the picture: {layer} differs in {sorted(set(found) ^ set(crates)) or "a crate that stands twice"}')
    for chain in [chain for found in chains.values() for chain in found]:
        for upper, lower in zip(chain, chain[1:]):
            for crate in upper:
                if crate in book.layers.named and not book.layers.below(crate) & set(lower):
                    book.tell('docs/MAP.md', line, f'the picture: {crate} does not stand on {" ".join(lower)}')


def faults_of_readme(book):
    """What is wrong with the layers of the README."""
    found = {it[1]: number for number, line in enumerate(book.pages['README.md'].lines, 1) if (it := re.match(r'    ([A-Z]+)  ', line))}
    expected = [layer for layer in book.layers.crates if layer not in LEAVES][::-1]
    if [*found] != expected:
        book.tell('README.md', min(found.values(), default=1), f'its layers are {" ".join(found)}, and should be {" ".join(expected)}')

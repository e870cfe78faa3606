"""A page of the documentation: its lines, the blocks in it that are not written by hand, its headings, and its bytes.

A block stands between `<!-- generated: NAME -->` and `<!-- end -->`, and bench/docs writes it; or between `<!-- measured: NAME -->` and
`<!-- end -->`, and a bench has printed it. What stands below an example's `$ ..` or `# ..`, indented as that is, is not by hand either."""
import re

MARKER = re.compile(r'<!-- (generated|measured): (\w+) -->')
END = '<!-- end -->'
WITH_EXAMPLES = ('README.md', 'docs/MANUAL.md')


def anchor_of(heading):
    """The anchor that GitHub gives to a heading."""
    text = re.sub(r'\[([^\]]*)\]\([^)]*\)', r'\1', heading).strip().lower()
    return re.sub(r'[^\w\- ]', '', text).replace(' ', '-')


class Page:
    """A page, and what is wrong with its markers."""

    def __init__(self, top, name):
        self.name = name
        with open(f'{top}/{name}', encoding='utf-8') as file:
            self.text = file.read()
        self.lines = self.text.split('\n')
        self.blocks, self.measured, self.faults = {}, [], []
        self.read_blocks()

    def read_blocks(self):
        """Finds the blocks: for each its first line and the one behind its last."""
        opened = None
        for at, line in enumerate(self.lines):
            if found := MARKER.fullmatch(line):
                if opened:
                    self.faults.append((at + 1, 'a block begins in another one'))
                opened = (found[1], found[2], at + 1)
            elif line == END:
                if opened and opened[0] == 'generated':
                    self.blocks[opened[1]] = (opened[2], at)
                elif opened:
                    self.measured.append((opened[2], at))
                else:
                    self.faults.append((at + 1, 'a block ends that did not begin'))
                opened = None
            elif line.startswith('<!--') and not opened:
                self.faults.append((at + 1, f'{line!r} is no marker'))
        if opened:
            self.faults.append((opened[2], f'the block {opened[1]} does not end'))

    def printed(self):
        """The lines, by their places, that an example has printed."""
        inside = False
        for at, line in enumerate(self.lines if self.name in WITH_EXAMPLES else []):
            is_asked = line.startswith(('    $ ', '    # '))
            inside = line.startswith('    ') and (inside or is_asked)
            if inside and not is_asked:
                yield at

    def not_by_hand(self):
        """The lines, by their places, that nobody writes by hand."""
        found = set(self.printed())
        for begin, end in [*self.blocks.values(), *self.measured]:
            found.update(range(begin - 1, end + 1))
        return found

    def sizes(self):
        """How many bytes the page has, and how many of them are by hand."""
        others = self.not_by_hand()
        sizes = [len(line.encode()) + 1 for line in self.lines]
        whole = len(self.text.encode())
        return whole, whole - sum(sizes[at] for at in others)

    def headings(self):
        """The headings with their lines; what is indented or stands in a fence is none."""
        fenced = False
        for at, line in enumerate(self.lines):
            fenced ^= line.startswith('```')
            if not fenced and (found := re.match(r'(#{1,6}) +(.*)', line)):
                yield at + 1, len(found[1]), found[2]

    def anchors(self):
        """The anchors of the page: those of its headings, and those that it names itself."""
        found = dict.fromkeys(re.findall(r'<a (?:id|name)="([^"]+)"', self.text), 0)
        for _, _, heading in self.headings():
            anchor = anchor_of(heading)
            count = found.get(anchor, -1) + 1
            found[anchor] = count
            if count:
                found[f'{anchor}-{count}'] = 0
        return found.keys()

    def line_at(self, place):
        """The number of the line in which a letter of the text stands."""
        return self.text.count('\n', 0, place) + 1

    def with_block(self, name, lines):
        """Puts other lines in a block's place. It does not read the blocks anew."""
        begin = f'<!-- generated: {name} -->\n'
        before, _, rest = self.text.partition(begin)
        self.text = f'{before}{begin}' + ''.join(f'{it}\n' for it in lines) + END + rest.partition(END)[2]

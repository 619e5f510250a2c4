"""Reads antt text as far as tools/uses and tools/believed need it: what a file imports, what it declares, and which names it or a declaration
uses that it does not bind itself.

A name is used where it stands free: not behind a dot, not as a field of a record that is built or as the name of an implicit argument, and not
where a parameter, a λ, a `let`, a clause's pattern, a field or a `where` block above binds it. In doubt it counts as used."""
import re
from collections import namedtuple

Token = namedtuple('Token', 'kind text')
Import = namedtuple('Import', 'module name brought line')
TOKEN = re.compile(r'(?P<member>\.[^\s(){};,@".]+)|(?P<dot>\.)|(?P<open>[({])|(?P<close>[)}])|(?P<sep>[;,])|(?P<name>[^\s(){};,@".«»]+)')
MARKS = ('unfoldable', 'abbrev', 'pub', 'axiom')


def plain(text):
    """The text without comments and strings; its lines stay."""
    text = re.sub(r'\{-.*?-\}', lambda found: '\n' * found.group().count('\n'), text, flags=re.S)
    return re.sub(r'"[^"\n]*"', ' ', re.sub(r'(?m)(?<!\S)--.*$', '', text))


def tokens(text):
    return [Token(found.lastgroup, found.group()) for found in TOKEN.finditer(text)]


def is_header(line):
    return re.match(r'(?:unfoldable )?(?:pub )?(?:ghost )?(?:use|mod) ', line) is not None


def imports(text, words='use'):
    """What the lines `use M.{a, b as c}` and `use M as N` bring; a line that passes names on (`pub use`) brings nothing of its own."""
    found = []
    for number, line in enumerate(text.split('\n')):
        listed = re.match(words + r' (\S+?)\.\{(.*)\}', line)
        whole = re.match(words + r' ([^\s{};]+)(?: as ([^\s;]+))?;?\s*$', line)
        if listed:
            for item in filter(None, (item.strip() for item in listed.group(2).split(','))):
                name, _, alias = item.partition(' as ')
                found.append(Import(listed.group(1), item, alias.strip() or name.split('.')[-1], number))
        elif whole and not whole.group(1).endswith('*'):
            found.append(Import(whole.group(1), None, whole.group(2) or whole.group(1).split('.')[-1], number))
    return found


def items(lines):
    """The lines in groups: each begins with a line that is no deeper than the first one, and that stands in no bracket."""
    groups, depth, brackets = [], None, 0
    for line in lines:
        if not line.strip():
            continue
        here = len(line) - len(line.lstrip())
        depth = here if depth is None else depth
        if brackets == 0 and here <= depth:
            groups.append([])
        groups[-1].append(line)
        brackets += sum((token.kind == 'open') - (token.kind == 'close') for token in tokens(line))
    return groups


def cut_at(row, *words):
    """The place of the first of these words that stands in no bracket, or None."""
    deep = 0
    for place, token in enumerate(row):
        deep += (token.kind == 'open') - (token.kind == 'close')
        if deep == 0 and token.kind == 'name' and token.text in words:
            return place
    return None


def follows_rewrite(row, k):
    """Whether this is the `at` of `rw L at h` or `simp L at h`: one argument stands between it and that word."""
    if row[k].text != 'at':
        return False
    k -= 1
    while k > 0 and row[k].kind == 'member':
        k -= 1
    deep = 0
    while k > 0:
        deep += (row[k].kind == 'close') - (row[k].kind == 'open')
        if deep <= 0:
            break
        k -= 1
    return k > 0 and row[k - 1].text in ('rw', 'simp')


class Frame:
    """What is bound inside a bracket, or between `let` and `in`; `gives` are the names that it binds for what follows it."""
    def __init__(self, kind, bound, gives=()):
        self.kind, self.base, self.bound, self.gives = kind, frozenset(bound), set(bound), gives


class Uses:
    """The names that a file uses and does not bind: `free`. `binds` answers whether a name in a pattern is a variable there."""
    def __init__(self, text, binds):
        self.free, self.binds, self.signed = set(), binds, set()
        lines = plain(text).split('\n')
        self.block([line for line in lines if not is_header(line)], frozenset())

    def block(self, lines, bound, fields=False):
        """A block of declarations; the fields of a record are bound in what comes after them."""
        for group in items(lines):
            names = self.item(group, bound)
            if fields:
                bound = bound | names

    def item(self, group, bound):
        """A declaration with the block below its `where`; answers the names that it declares."""
        ends = [k for k, line in enumerate(group) if line.split()[-1] == 'where']
        at = ends[0] + 1 if ends else len(group)
        row, below = tokens('\n'.join(group[:at])), group[at:]
        while row and row[0].text in MARKS:
            row = row[1:]
        if ends:
            row = row[:-1]
        word = row[0].text if row else ''
        if word in ('module', 'data', 'record'):
            inside = self.stream(row[2:], bound)
            self.block(below, inside, word == 'record')
            return frozenset([row[1].text])
        cut = cut_at(row, ':', '=')
        if word == 'unfolding' or cut is None:
            self.stream(row, bound)
            self.block(below, bound)
            return frozenset()
        if row[cut].text == ':':
            self.stream(row[cut + 1:], bound)
            names = frozenset(token.text for token in row[:cut] if token.kind == 'name')
            self.signed |= names
            return names
        self.clause(row[:cut], row[cut + 1:], below, bound)
        return frozenset()

    def clause(self, head, body, below, bound):
        """A clause: its pattern binds, and so do the declarations of its `where` block."""
        here = bound | self.pattern(head)
        for group in items(below):
            here = here | self.item(group, here)
        self.stream(body, here)

    def pattern(self, head):
        """The variables of a pattern; other names in it are used."""
        names = set()
        for place, token in enumerate(head):
            after = head[place + 1] if place + 1 < len(head) else Token('', '')
            if token.kind != 'name' or after.text == '=':
                continue
            own = place == 0 and token.text in self.signed
            if after.kind == 'member' or not (own or self.binds(token.text)):
                self.free.add(token.text)
            else:
                names.add(token.text)
        return frozenset(names)

    def stream(self, row, bound):
        """A term or a type; answers what is bound at its end, for the block below a telescope."""
        frames, k = [Frame('open', bound)], 0
        while k < len(row):
            token = row[k]
            k += 1
            if token.kind == 'open':
                k = self.opened(row, k, frames)
            elif token.kind == 'close':
                self.shut(frames, ('open', 'record'))
            elif token.kind == 'sep':
                k = self.separated(row, k, frames)
            elif token.text == 'λ':
                k = self.binders(row, k, frames[-1])
            elif token.text in ('let', 'unfold'):
                end = k + (cut_at(row[k:], ':', '=') or 0) if token.text == 'let' else k
                names = [word.text for word in row[k:end] if word.kind == 'name']
                frames.append(Frame('in', frames[-1].bound, names))
                k = end
            elif token.text == 'in':
                self.shut(frames, ('in',))
            elif token.kind == 'name' and token.text not in frames[-1].bound and not follows_rewrite(row, k - 1):
                self.free.add(token.text)
        return frozenset(frames[0].bound)

    def opened(self, row, k, frames):
        """Behind an opening bracket: a telescope's names, the name of an implicit argument, a record's first field."""
        names, end = [], k
        while end < len(row) and row[end].kind == 'name' and row[end].text not in (':', '='):
            names.append(row[end].text)
            end += 1
        follows = row[end].text if end < len(row) else ''
        record = k >= 2 and row[k - 2].text == 'record'
        if names and follows == ':':
            frames.append(Frame('open', frames[-1].bound, names))
            return end + 1
        frames.append(Frame('record' if record else 'open', frames[-1].bound))
        return end + 1 if len(names) == 1 and follows == '=' else k

    def shut(self, frames, kinds):
        """Leaves the nearest frame of these kinds; what it gives is bound from here on."""
        while len(frames) > 1:
            frame = frames.pop()
            if frame.kind in kinds:
                frames[-1].bound.update(frame.gives)
                return

    def separated(self, row, k, frames):
        """Behind a comma or semicolon nothing is bound that this bracket's parts have bound; in a record a field's name follows."""
        while len(frames) > 1 and frames[-1].kind == 'in':
            frames.pop()
        frames[-1].bound = set(frames[-1].base)
        field = frames[-1].kind == 'record' and k + 1 < len(row) and row[k + 1].text == '='
        return k + 2 if field else k

    def binders(self, row, k, frame):
        """Behind a λ: names, tuples of names, and names with their types, up to the dot."""
        while k < len(row) and row[k].kind != 'dot':
            if row[k].kind == 'open':
                end, deep = k + 1, 1
                while deep and end < len(row):
                    deep += (row[end].kind == 'open') - (row[end].kind == 'close')
                    end += 1
                inner = row[k + 1:end - 1]
                cut = cut_at(inner, ':')
                if cut is not None:
                    self.stream(inner[cut + 1:], frozenset(frame.bound))
                frame.bound.update(word.text for word in inner[:cut] if word.kind == 'name')
                k = end
            else:
                frame.bound.add(row[k].text)
                k += 1
        return k + 1


def piece(text):
    """The names that a piece of a term uses."""
    uses = Uses('', None)
    uses.stream(tokens(plain(text)), frozenset())
    return uses.free


def is_used(brought, free):
    """Whether a name stands among these: an operator by its own name, or by the parts between its argument places."""
    parts = [part for part in brought.split('◌') if part]
    return brought in free or ('◌' in brought and bool(parts) and all(part in free for part in parts))


class Line(str):
    """A line of a file, with its number."""
    def __new__(cls, text, number):
        line = super().__new__(cls, text)
        line.number = number
        return line


class Declaration:
    """A declaration: its name, the constructors or fields that it brings, the lines of its type and of what stands below, and the heads of the
    modules around it. `open` tells whether what stands below can be seen from outside: a theorem's proof cannot."""
    def __init__(self, name, word, marks, around, head):
        self.name, self.word, self.around, self.head, self.below = name, word, around, head, []
        self.parts, self.pub = [], 'pub' in marks
        self.open = bool(word) or 'abbrev' in marks or 'unfoldable' in marks

    def lines(self):
        """The lines that say what it is."""
        return [line for head in self.around for line in head] + self.head + (self.below if self.open else [])


def declarations(text):
    """What a file declares at its top and in its `module` blocks, in order."""
    found, lines = [], [Line(line, number) for number, line in enumerate(plain(text).split('\n'), 1)]
    _declarations([line for line in lines if not is_header(line)], (), found)
    return found


def _declarations(lines, around, found):
    for group in items(lines):
        words, marks = tokens(group[0]), []
        while words and words[0].text in MARKS:
            marks.append(words[0].text)
            words = words[1:]
        first = words[0].text if words else ''
        top = 1 + next((k for k, line in enumerate(group) if line.split()[-1] == 'where'), 0)
        cut = cut_at(words, ':', '=')
        if first == 'module':
            _declarations(group[top:], around + (group[:top],), found)
        elif first in ('data', 'record', 'ruleset'):
            found.append(Declaration(words[1].text, first, marks, around, group[:top]))
            found[-1].below = group[top:]
            found[-1].parts = _parts(group[top:])
        elif cut is not None and words[cut].text == ':':
            found.append(Declaration(first, '', marks, around, group))
        elif found:
            found[-1].below += group


def _parts(lines):
    """The names that the block of a data type or a record declares."""
    found = []
    for group in items(lines):
        row = [token for token in tokens(group[0]) if token.text not in MARKS]
        cut = cut_at(row, ':')
        found += [word.text for word in row[:cut] if cut is not None and word.kind == 'name']
    return found


def declared(text):
    """What a file declares at its top and in its `module` blocks: name, whether it is `pub`, and whether it is a constructor."""
    found = []
    for one in declarations(text):
        found.append((one.name, one.pub, False))
        found += [(name, one.pub, True) for name in (one.parts if one.word == 'data' else ())]
    return found

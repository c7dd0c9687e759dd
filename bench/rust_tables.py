"""Reads the constant tables of a file of tests: numbers, texts, names, tuples, arrays and structs."""
import re

TOKEN = re.compile(r'''
    \s+ | //[^\n]*
  | (?P<text>b?"(?:[^"\\]|\\.)*")
  | (?P<number>\d[\d_]*)
  | (?P<name>[A-Za-z_]\w*(?:::[A-Za-z_]\w*)*)
  | (?P<life>'\w+)
  | (?P<sign>\.\.|.)
''', re.X | re.S)

ESCAPES = {'n': '\n', 't': '\t', 'r': '\r', '0': '\0', '"': '"', '\\': '\\', "'": "'"}


def tokens(source):
    """The tokens of a text, as pairs of kind and text."""
    found = []
    place = 0
    while place < len(source):
        match = TOKEN.match(source, place)
        place = match.end()
        if match.lastgroup:
            found.append((match.lastgroup, match.group()))
    return found


def text_of(token):
    """The text that a literal spells. A backslash before a line's end takes away the blanks behind it."""
    inner = token[token.index('"') + 1:-1]
    inner = re.sub(r'\\\n\s*', '', inner)
    return re.sub(r'\\(.)', lambda match: ESCAPES[match.group(1)], inner)


class Reader:
    """Values of expressions, where `known` has those of the names."""

    def __init__(self, found, known):
        self.found = found
        self.place = 0
        self.known = known

    def peek(self):
        return self.found[self.place] if self.place < len(self.found) else ('end', '')

    def next(self):
        token = self.peek()
        self.place += 1
        return token

    def take(self, sign):
        token = self.next()
        assert token[1] == sign, (token, sign)

    def list_to(self, end):
        """The values up to this sign, parted by commas."""
        values = []
        while self.peek()[1] != end:
            values.append(self.value())
            if self.peek()[1] == ',':
                self.next()
        self.take(end)
        return values

    def struct(self, name):
        """The fields of a struct, over those of the value that it is based on."""
        fields = {}
        base = {}
        while self.peek()[1] != '}':
            if self.peek()[1] == '..':
                self.next()
                base = self.value()
            else:
                field = self.next()[1]
                if self.peek()[1] == ':':
                    self.next()
                    fields[field] = self.value()
                else:
                    fields[field] = self.known[field]
            if self.peek()[1] == ',':
                self.next()
        self.take('}')
        return {**base, **fields, 'struct': name}

    def value(self):
        kind, text = self.next()
        if text == '&':
            return self.value()
        if text == '[':
            return self.list_to(']')
        if text == '(':
            return tuple(self.list_to(')'))
        if kind == 'text':
            return text_of(text)
        if kind == 'number':
            return int(text.replace('_', ''))
        assert kind == 'name', (kind, text)
        if self.peek()[1] == '{':
            self.next()
            return self.struct(text)
        return self.known.get(text, text)


def constants(source, known):
    """Adds the constants of a source text to the known ones, and answers those that it has."""
    found = tokens(source)
    own = {}
    for place, token in enumerate(found):
        if token != ('name', 'const') or found[place + 1][0] != 'name' or found[place + 2][1] != ':':
            continue
        name = found[place + 1][1]
        start = place + 3
        depth = 0
        while not (found[start][1] == '=' and depth == 0):
            depth += {'[': 1, '(': 1, ']': -1, ')': -1}.get(found[start][1], 0)
            start += 1
        end = start
        depth = 0
        while not (found[end][1] == ';' and depth == 0):
            depth += {'[': 1, '(': 1, '{': 1, ']': -1, ')': -1, '}': -1}.get(found[end][1], 0)
            end += 1
        own[name] = (start + 1, end)
    values = {}
    waiting = dict(own)
    for _ in range(len(own) + 1):
        for name, (start, end) in list(waiting.items()):
            part = found[start:end]
            scope = {**known, **values}
            if any(kind == 'name' and text in waiting for kind, text in part):
                continue
            values[name] = Reader(part, scope).value()
            del waiting[name]
    assert not waiting, waiting
    known.update(values)
    return values

"""The text of a style as `explain` sees it: lexemes with their places, commands with their groups, what is declared where. It
judges nothing, and reads texts that are no styles as far as it goes; the rules are docs/LANGUAGE.md's."""
import bisect
import collections
import re

Lexeme = collections.namedtuple("Lexeme", "kind text start end")
Command = collections.namedtuple("Command", "word groups")
Group = collections.namedtuple("Group", "open inside close")
Declared = collections.namedtuple("Declared", "kind lexeme")

LEXEME = re.compile(
    rb"(?P<comment>%[^\n]*)|(?P<white>[ \t\r\n]+)|(?P<open>\{)|(?P<close>\})|(?P<text>\"[^\"\n]*\"?)|(?P<integer>#-?[0-9]*)"
    rb"|(?P<quoted>'[^ \t\r\n{}%]*)|(?P<name>[^ \t\r\n{}%]+)")
# The parts of each command.
PARTS = {
    b"entry": ("list", "list", "list"), b"execute": ("name",), b"function": ("name", "body"), b"integers": ("list",),
    b"iterate": ("name",), b"macro": ("name", "text"), b"read": (), b"reverse": ("name",), b"sort": (), b"strings": ("list",),
}
BUILT_IN = set(
    b"= > < + - * := add.period$ call.type$ change.case$ chr.to.int$ cite$ duplicate$ empty$ format.name$ if$ int.to.chr$ "
    b"int.to.str$ missing$ newline$ num.names$ pop$ preamble$ purify$ quote$ skip$ stack$ substring$ swap$ text.length$ "
    b"text.prefix$ top$ type$ warning$ while$ width$ write$".split())
OPENING = {b"crossref": "field", b"sort.key$": "string of an entry", b"entry.max$": "integer", b"global.max$": "integer"}


def text(some):
    """Bytes as text for people."""
    try:
        return some.decode("utf-8")
    except UnicodeDecodeError:
        return some.decode("latin-1")


def read(path):
    try:
        with open(path, "rb") as file:
            return file.read()
    except OSError:
        return b""


class Source:
    """A text with its lines, and places counted from 1 in both directions."""

    def __init__(self, text):
        self.text = text
        self.lines = text.split(b"\n")
        self.starts = [0]
        for line in self.lines[:-1]:
            self.starts.append(self.starts[-1] + len(line) + 1)

    def offset(self, line, column):
        return self.starts[line - 1] + column - 1 if line <= len(self.starts) else len(self.text)

    def place(self, offset):
        line = bisect.bisect_right(self.starts, offset)
        return line, offset - self.starts[line - 1] + 1

    def line(self, offset):
        return self.place(offset)[0]


class Style(Source):
    def __init__(self, text):
        super().__init__(text)
        found = ((it.lastgroup, it) for it in LEXEME.finditer(text))
        self.lexemes = [Lexeme(kind, it[0], it.start(), it.end()) for kind, it in found if kind not in ("comment", "white")]
        self.commands = self.read_commands()

    def read_commands(self):
        """A name outside of braces begins a command; the groups of braces behind it are its parts."""
        commands, depth, inside, first = [], 0, [], None
        for it in self.lexemes:
            if it.kind == "open":
                if depth == 0:
                    first, inside = it, []
                else:
                    inside.append(it)
                depth += 1
            elif it.kind == "close" and depth > 0:
                depth -= 1
                if depth > 0:
                    inside.append(it)
                elif commands:
                    commands[-1].groups.append(Group(first, inside, it))
            elif depth == 0 and it.kind == "name":
                commands.append(Command(it, []))
            elif depth > 0:
                inside.append(it)
        if depth > 0 and commands:
            commands[-1].groups.append(Group(first, inside, None))
        return commands

    def lexeme_at(self, offset):
        """The lexeme at a place, and the one before it."""
        before = None
        for it in self.lexemes:
            if it.start <= offset < it.end:
                return it, before
            if it.start > offset:
                break
            before = it
        return None, before

    def command_at(self, offset):
        found = None
        for it in self.commands:
            if it.word.start > offset:
                break
            found = it
        return found

    def open_braces(self, offset):
        """The opening braces before a place that have no closing one before it."""
        stack = []
        for it in self.lexemes:
            if it.start >= offset:
                break
            if it.kind == "open":
                stack.append(it)
            elif it.kind == "close" and stack:
                stack.pop()
        return stack

    def declared(self, macros=False):
        """What the commands declare, by lowered name: each name's declarations in order."""
        names = collections.defaultdict(list)
        for word, groups in self.commands:
            word = word.text.lower()
            if (word == b"macro") != macros:
                continue
            kinds = {b"entry": ("field", "integer of an entry", "string of an entry"), b"integers": ("integer",),
                     b"strings": ("string",), b"function": ("function",), b"macro": ("macro",)}.get(word, ())
            for kind, group in zip(kinds, groups):
                for it in group.inside[:1] if kind in ("function", "macro") else group.inside:
                    names[it.text.lower()].append(Declared(kind, it))
        return names

    def kind_of(self, name):
        """What a name is: a built-in function, or what it was declared as first."""
        name = name.lower()
        if name in BUILT_IN:
            return "built-in function"
        found = self.declared().get(name)
        return OPENING.get(name) or (found[0].kind if found else None)

    def functions(self):
        """The FUNCTION commands that are whole: name and body."""
        return [(groups[0].inside[0].text, groups[1]) for word, groups in self.commands
                if word.text.lower() == b"function" and len(groups) >= 2 and groups[0].inside and groups[1].close]

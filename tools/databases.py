"""The .aux files and databases of a run as `explain` sees them: which files there are, and where an item or a key stands. It
judges nothing; the rules are docs/DATA.md's."""
import collections
import re

from styles import Source, read

Item = collections.namedtuple("Item", "kind key start end fields")
COMMAND = re.compile(rb"^\\(bibstyle|bibdata|@input)\{([^}\n]*)\}", re.MULTILINE)
BEGINS = re.compile(rb"@[ \t\r\n]*([^ \t\r\n\"#%'(),={}@]*)[ \t\r\n]*([{(]?)")
KEY = re.compile(rb"[ \t\r\n]*([^ \t\r\n,}]*)")
FIELD = re.compile(rb"[ \t\r\n]*([^ \t\r\n\"#%'(),={}]+)[ \t\r\n]*=")


def named_files(aux):
    """The style and the databases that an .aux file and its inputs name, as files."""
    style, data, left, seen = None, [], [aux], set()
    while left:
        name = left.pop(0)
        if name in seen:
            continue
        seen.add(name)
        for word, item in COMMAND.findall(read(name)):
            item = item.decode("utf-8", "replace").strip()
            if word == b"bibstyle" and not style:
                style = item if item.endswith(".bst") else item + ".bst"
            elif word == b"bibdata" and not data:
                data = [it.strip() if it.strip().endswith(".bib") else it.strip() + ".bib" for it in item.split(",")]
            elif word == b"@input":
                left.append(item)
    return style, data


def items(text):
    """The items of a database, each from its `@`; the end is None where it isn't closed."""
    at = 0
    while True:
        found = BEGINS.search(text, at)
        if not found:
            return
        at = found.end(1)
        if found[1].lower() == b"comment":
            continue
        if not found[2]:
            yield Item(found[1].lower(), b"", found.start(), found.end(), [])
            continue
        key = KEY.match(text, found.end())
        fields, end = inside(text, found.end(), b"}" if found[2] == b"{" else b")")
        yield Item(found[1].lower(), key[1], found.start(), end, fields)
        at = len(text) if end is None else end


def inside(text, at, closing):
    """The names of the fields of an item, and where it ends."""
    fields, depth, quoted = [], 0, False
    for it in re.compile(rb"[{}\"(),]").finditer(text, at):
        byte = it[0]
        if byte == b'"' and depth == 0:
            quoted = not quoted
        elif byte == b"{":
            depth += 1
        elif byte == b"}" and depth > 0:
            depth -= 1
        elif depth == 0 and not quoted and byte == closing:
            return fields, it.end()
        elif depth == 0 and not quoted and byte == b",":
            name = FIELD.match(text, it.end())
            if name:
                fields.append(name[1].lower().decode("latin-1"))
    return fields, None


def entry(data, key):
    """The entry of a key in the first database that has it: file, line, item."""
    for name in data:
        source = Source(read(name))
        for it in items(source.text):
            if it.key.lower() == key.lower() and it.kind not in (b"string", b"preamble"):
                return name, source.line(it.start), it
    return None


def item_at(source, offset):
    """The last item that begins at or before a place."""
    found = None
    for it in items(source.text):
        if it.start > offset:
            break
        found = it
    return found

"""What `explain` shows of a fault of data: the line, and the item that it is in."""
import re

from databases import entry, item_at, items
from styles import Source, read, text


def explain_data(block, answer):
    source = Source(read(answer.file))
    block.source = source
    offset = source.offset(*answer.place)
    width = 1
    if answer.file.endswith(".aux"):
        width = max(1, len(source.lines[answer.place[0] - 1])) if answer.place[0] <= len(source.lines) else 1
    else:
        width = explain_item(block, source, offset, answer)
    block.mark(source, offset, width, "^")


def explain_item(block, source, offset, answer):
    """What an item of a database says of its fault, and how long what is marked is."""
    item = item_at(source, offset)
    if item is None:
        return 1
    line = source.line(item.start)
    if answer.name == "RepeatedKey":
        earlier = next((it for it in items(source.text) if it.key.lower() == item.key.lower() and it.start < item.start), None)
        if earlier:
            at = source.text.index(earlier.key, earlier.start)
            block.sentence = f"`{text(item.key)}` stands at {block.called(answer.file)}:{source.line(at)} already"
            block.mark(source, at, len(earlier.key), "-", "the first entry with this key")
        else:
            found = entry(answer.data, item.key)
            block.sentence = f"`{text(item.key)}` stands at {block.called(found[0])}:{found[1]} already" if found else block.sentence
        return max(1, len(item.key))
    if line != source.line(offset):
        block.mark(source, item.start, 1, "-", "the entry begins here")
    if answer.name == "EndOfFile":
        below = next((source.line(it.start()) for it in re.finditer(rb"^[ \t]*@", source.text[item.start + 1:], re.M)), None)
        block.sentence = f"the entry `{text(item.key)}` of line {line} isn't closed"
        if below:
            below = source.line(item.start + 1 + re.search(rb"^[ \t]*@", source.text[item.start + 1:], re.M).start())
            block.sentence += f", and the next line that begins with `@` is {below}"
            block.note("help", f"look between lines {line} and {below}")
    elif answer.name == "Expected" and offset < len(source.text):
        byte = source.text[offset:offset + 1]
        block.sentence = f"`{text(byte)}` can't stand here" if byte.strip() else "something is missing here"
    return 1

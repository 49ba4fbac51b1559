"""What `explain` shows of a fault of a style: the place, and what it answers to."""
import difflib

from styles import BUILT_IN, PARTS, text


def shown(lexeme):
    found = text(lexeme.text)
    return f"`{found if len(found) <= 60 else found[:57] + '...'}`"


def braces(count):
    return "1 brace is" if count == 1 else f"{count} braces are"


def show_head(block, style, command, offset):
    """The line of the command in which a place is, where it is another."""
    if command and style.line(command.word.start) != style.line(offset):
        block.line(style.line(command.word.start))


def explain_style(block, style, answer):
    """What stands at a fault of a style."""
    offset = style.offset(*answer.place)
    lexeme, before = style.lexeme_at(offset)
    command = style.command_at(offset - 1)
    STYLE_FAULTS.get(answer.name, lambda *_: None)(block, style, offset, lexeme, before, command)
    if not block.has_mark_at(answer.place):
        block.mark(style, offset, lexeme.end - offset if lexeme else 1, "^")
    if len(block.rows) == 1:
        show_head(block, style, command, offset)


def name_of_function(command):
    return text(command.groups[0].inside[0].text) if command.groups and command.groups[0].inside else "?"


def unknown_name(block, style, offset, lexeme, before, command):
    if lexeme is None:
        return
    name = lexeme.text.lstrip(b"'").lower()
    opened = style.open_braces(offset)
    if name in PARTS and command and command.word.text.lower() == b"function" and opened:
        function = name_of_function(command)
        block.sentence = f"the body of `{function}` isn't closed"
        block.line(style.line(command.word.start))
        block.mark(style, opened[0].start, 1, "-", "the body begins here, and this brace has no closing one")
        block.mark(style, offset, len(lexeme.text), "^", f"so this is read as a name within the body, and no name `{text(name)}` is defined")
        block.note("why", f"a command word counts only outside of braces; {braces(len(opened))} open here")
        block.note("help", f"write `}}` between {style.line(opened[0].start)} and {style.line(offset)}")
        return
    block.sentence = f"`{text(lexeme.text)}` isn't defined before this place"
    later = [it for it in style.declared().get(name, []) if it.lexeme.start > offset]
    if later:
        show_head(block, style, command, offset)
        block.mark(style, offset, len(lexeme.text), "^")
        block.mark(style, later[0].lexeme.start, len(later[0].lexeme.text), "-", "it is defined here, below")
        block.note("help", "move that %s up, above line %d" % ("FUNCTION" if later[0].kind == "function" else "command", style.line(command.word.start)))
        return
    known = [text(it) for it in BUILT_IN] + [text(it) for it, at in style.declared().items() if at[0].lexeme.start < offset]
    near = difflib.get_close_matches(text(name), known, 1, 0.8)
    if near:
        block.note("help", f"declare it earlier, or write `{near[0]}` if that is meant")


def unknown_command(block, style, offset, lexeme, before, command):
    if lexeme is None:
        return
    block.sentence = f"{shown(lexeme)} is no command, and outside of braces a command has to stand"
    if before and before.kind == "close":
        block.mark(style, before.start, 1, "-", "the command before ends here")
    block.mark(style, offset, len(lexeme.text), "^")
    if lexeme.text == b"\\endinput":
        block.note("help", "delete this line: it belongs to the file that the style was made from")


def wanted(style, offset, command):
    """What has to stand at a place, by the command and the parts that it has before it."""
    if command is None:
        return "a command"
    parts = PARTS.get(command.word.text.lower(), ())
    groups = [it for it in command.groups if it.open.start < offset]
    if groups and (groups[-1].close is None or groups[-1].close.start >= offset):
        part = parts[len(groups) - 1] if len(groups) <= len(parts) else "list"
        count = sum(it.start < offset for it in groups[-1].inside)
        return {"list": "a name or `}`", "body": "a token or `}`", "name": "`}`" if count else "a name", "text": "`}`" if count else "a text"}[part]
    return "`{`" if len(groups) < len(parts) else "a command"


def expected(block, style, offset, lexeme, before, command):
    wants = wanted(style, offset, command)
    block.sentence = f"{shown(lexeme) if lexeme else 'the end'} stands where {wants} has to stand"
    if command:
        block.note("why", f"{text(command.word.text.upper())} has " + (
            ", then ".join({"list": "a list of names in braces", "name": "a name in braces", "body": "a body in braces", "text": "a text in braces"}[it]
                           for it in PARTS.get(command.word.text.lower(), ())) or "no parts"))


def stuff_after(block, style, offset, lexeme, before, command):
    if lexeme and lexeme.start < offset:
        block.sentence = f"a blank has to stand behind `{text(style.text[lexeme.start:offset])}`"
    elif before:
        block.sentence = f"a blank has to stand behind {shown(before)}"
    block.mark(style, offset, 1, "^")


def illegal_byte(block, style, offset, lexeme, before, command):
    block.sentence = f"byte {style.text[offset]} outside of a text"
    block.mark(style, offset, 1, "^")


def self_use(block, style, offset, lexeme, before, command):
    name = command.groups[0].inside[0]
    block.sentence = f"`{text(name.text)}` calls itself, and a function can't"
    block.mark(style, name.start, len(name.text), "-", "the function whose body this is")
    block.mark(style, offset, len(lexeme.text), "^")


def already_defined(block, style, offset, lexeme, before, command):
    macro = command and command.word.text.lower() == b"macro"
    earlier = [it for it in style.declared(macro).get(lexeme.text.lower(), []) if it.lexeme.start < offset]
    if earlier:
        first = earlier[0].lexeme
        block.sentence = "%s is defined at %d:%d already" % (shown(lexeme), *style.place(first.start))
        block.mark(style, first.start, len(first.text), "-", "the first definition")
    else:
        block.sentence = f"{shown(lexeme)} is a {style.kind_of(lexeme.text) or 'name'} that every style has"
    block.mark(style, offset, len(lexeme.text), "^")


def out_of_order(words, link):
    """The fault of a command that stands in the wrong place: which earlier command it is about."""

    def explain(block, style, offset, lexeme, before, command):
        earlier = [it.word for it in style.commands if it.word.start < offset and it.word.text.lower() in words]
        if earlier:
            block.mark(style, earlier[0].start, len(earlier[0].text), "-", link)
        block.mark(style, offset, len(lexeme.text), "^")

    return explain


def not_callable(block, style, offset, lexeme, before, command):
    declared = style.declared().get(lexeme.text.lower(), [])
    block.sentence = f"{shown(lexeme)} is a {style.kind_of(lexeme.text)}, and {text(command.word.text.upper())} calls a function"
    if declared:
        block.mark(style, declared[0].lexeme.start, len(declared[0].lexeme.text), "-", "declared here")
    block.mark(style, offset, len(lexeme.text), "^")


def end_of_style(block, style, offset, lexeme, before, command):
    opened = style.open_braces(offset)
    if command:
        block.sentence = "the file ends within %s of %d:%d" % (text(command.word.text.upper()), *style.place(command.word.start)) + (
            f"; {braces(len(opened))} open" if opened else "")
        block.line(style.line(command.word.start))
    if opened:
        block.mark(style, opened[0].start, 1, "-", "this brace has no closing one")
    block.mark(style, offset, 1, "^")


def not_closed_text(block, style, offset, lexeme, before, command):
    block.mark(style, offset, max(1, len(lexeme.text.rstrip(b"\r"))) if lexeme else 1, "^")


STYLE_FAULTS = {
    "UnknownName": unknown_name, "UnknownCommand": unknown_command, "Expected": expected, "StuffAfterToken": stuff_after,
    "IllegalByte": illegal_byte, "SelfUse": self_use, "AlreadyDefined": already_defined, "NotCallable": not_callable,
    "EndOfFile": end_of_style, "NoEndQuote": not_closed_text,
    "SecondEntry": out_of_order((b"entry",), "the first"), "SecondRead": out_of_order((b"read",), "the first"),
    "MacroAfterRead": out_of_order((b"read",), "READ stands here"),
}

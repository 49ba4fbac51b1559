"""What the built-in functions take, the top of the stack first, and how values are called. The rules are docs/MACHINE.md's."""
import re

from styles import text as as_text

# `value` is any, `field` a string or a missing field.
OPERANDS = {
    b"=": ("value", "value"), b">": ("integer", "integer"), b"<": ("integer", "integer"), b"+": ("integer", "integer"),
    b"-": ("integer", "integer"), b"*": ("string", "string"), b":=": ("function", "value"), b"add.period$": ("string",),
    b"change.case$": ("string", "string"), b"chr.to.int$": ("string",), b"duplicate$": ("value",), b"empty$": ("field",),
    b"format.name$": ("string", "integer", "string"), b"if$": ("function", "function", "integer"), b"int.to.chr$": ("integer",),
    b"int.to.str$": ("integer",), b"missing$": ("field",), b"num.names$": ("string",), b"pop$": ("value",), b"purify$": ("string",),
    b"substring$": ("integer", "integer", "string"), b"swap$": ("value", "value"), b"text.length$": ("string",),
    b"text.prefix$": ("integer", "string"), b"top$": ("value",), b"warning$": ("string",), b"while$": ("function", "function"),
    b"width$": ("string",), b"write$": ("string",),
}
KINDS = {"integer": "an integer", "string": "a string", "function": "a function", "field": "a string or a missing field", "value": "a value"}
COUNTED = ("", "", "two ", "three ")


def a_kind(kind):
    return KINDS[kind]


def takes(kinds):
    """The values that a function takes, in words, as they are pushed."""
    if len(kinds) == 1:
        return KINDS[kinds[0]]
    if len(set(kinds)) == 1:
        return f"{COUNTED[len(kinds)]}{kinds[0]}s"
    said_so = [KINDS[it] for it in reversed(kinds)]
    return ", ".join(said_so[:-1]) + " and " + said_so[-1]


TAKES = {name: takes(kinds) for name, kinds in OPERANDS.items()}


def kinds_of(value):
    """The kinds that a logged value may have."""
    if re.fullmatch(rb"-?[0-9]+", value):
        return {"integer", "string"}
    if re.fullmatch(rb"missing [^ ]+", value):
        return {"missing"}
    if re.fullmatch(rb"function [^ ]+|block [0-9]+", value):
        return {"function"}
    return {"string"}


def said(value, kind=None, in_sentence=False):
    """A logged value in words. Where a string and another kind are logged alike, the kind may be given."""
    text = as_text(value)
    kinds = kinds_of(value)
    if kind == "string" or kinds == {"string"}:
        short = text if len(text) <= 60 else text[:57] + "..."
        return f'"{short}"'
    if kinds == {"missing"}:
        return ("the " if in_sentence else "") + f"missing field `{text[len('missing '):]}`"
    if text.startswith("function "):
        return ("the " if in_sentence else "") + f"function `{text[len('function '):]}`"
    if kinds == {"function"}:
        return "a block"
    if kind == "integer":
        return ("the " if in_sentence else "") + f"integer {text}"
    return text

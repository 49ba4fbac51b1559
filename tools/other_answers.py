"""What `explain` shows of certificates: faults of their text and rules that fail; and where a run still is when its steps are taken."""
import re

from probes import Probe
from styles import Source, read, text


def bad_certificate(block, answer):
    """The item of a certificate that is at fault."""
    block.source = Source(read(answer.file))
    at = block.source.offset(*answer.place)
    item = re.match(rb"[^ \n]*", block.source.text[at:])[0]
    if item:
        block.sentence = f"`{text(item)}`: {block.sentence}"
    block.mark(block.source, at, max(1, len(item)), "^")


def refusal(block, style, answer):
    """The token, the body or the command at which a rule fails."""
    at = style.offset(*answer.place)
    lexeme, _ = style.lexeme_at(at)
    if answer.name == "NotEntailed":
        block.sentence = (f"line {answer.rest} of the piece isn't shown" if answer.rest != "0" else
                          "the stack, the place or the variables aren't those of the piece")
    block.mark(style, at, len(lexeme.text) if lexeme else 1, "^")


def budget(block, style, answer, program):
    steps = int(answer.words[2])
    block.sentence = f"the style hasn't ended in {steps} steps"
    calls = Probe(program, style, 0, answer.aux, answer.data, min(steps, 1000000) // 40).trace(at_token=False)[0]
    if calls:
        block.note("calls", " > ".join(calls))
    first = calls[-1].lower().encode("latin-1") if calls else b""
    for name, body in style.functions():
        loop = next((it for it in body.inside if it.text.lower() == b"while$"), None)
        if name.lower() == first and loop:
            block.place = style.place(loop.start)
            block.mark(style, body.open.start, 1, "-", f"the body of `{text(name)}`")
            block.mark(style, loop.start, len(loop.text), "^", "perhaps this has no end")
            return

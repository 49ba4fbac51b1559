"""What `explain` shows of an execution error, of a run or of the checker's walk: what stood there, and the calls that led to it."""
from databases import entry
from operands import OPERANDS, TAKES, a_kind, kinds_of, said
from probes import Probe
from style_faults import show_head
from styles import text


class Stood:
    """What stood at the place of an execution error: the token, the function that acted, its values, the calls."""

    def __init__(self, style, answer, program):
        offset = style.offset(*answer.place)
        self.style, self.answer, self.offset = style, answer, offset
        self.lexeme, _ = style.lexeme_at(offset)
        self.command = next((it for it in style.commands if it.word.start == offset), None)
        steps = int(answer.words[2]) if answer.aux and answer.words[2].isdigit() else 1000000
        self.probe = Probe(program, style, offset, answer.aux, answer.data, steps, answer.name)
        self.test = False
        if self.command:
            self.function = self.command.groups[0].inside[0].text.lower()
            self.calls, self.values = ["%s at %d:%d" % (text(self.command.word.text.upper()), *answer.place), text(self.function)], []
            calls, _, ended = self.probe.trace(at_token=False)
            self.reached = bool(calls)
            if self.function == b"call.type$" and ended:
                self.calls.append(text(ended))
        else:
            self.function = self.lexeme.text.lower()
            self.calls, reached, _ = self.probe.trace()
            self.reached = reached > 0
            self.values = self.probe.stack(reached) if reached else []
            self.enter()

    def enter(self):
        """What `if$` enters acts at its place, and so does what the test of a `while$` leaves."""
        kinds = [kinds_of(it) for it in self.values[:3]]
        if self.function == b"if$" and len(kinds) == 3 and kinds[0] == kinds[1] == {"function"} and "integer" in kinds[2]:
            entered = self.values[1 if int(self.values[2]) > 0 else 0]
            self.values = self.values[3:]
            if entered.startswith(b"function "):
                self.function = entered[len(b"function "):].lower()
        elif self.function == b"while$" and len(kinds) >= 2 and kinds[0] == kinds[1] == {"function"}:
            self.test, self.values = True, []

    def wrong_value(self):
        """Which value has the wrong kind: its place from the top, the kind that is wanted."""
        takes = OPERANDS.get(self.function, ())
        if self.function == b":=" and len(self.values) > 1 and self.values[0].startswith(b"function "):
            kind = self.style.kind_of(self.values[0][len(b"function "):]) or ""
            takes = ("function", "integer" if kind.startswith("integer") else "string")
        if self.function == b"=":
            strange = [at for at, it in enumerate(self.values[:2]) if not kinds_of(it) & {"integer", "string"} or kinds_of(it) & {"missing", "function"}]
            return (strange[0], "an integer or a string") if strange else None
        pairs = [(at, kind, kinds_of(value)) for at, (kind, value) in enumerate(zip(takes, self.values)) if kind != "value"]
        sure = [(at, kind) for at, kind, kinds in pairs if kind not in kinds and not (kind == "field" and kinds & {"string", "missing"})]
        maybe = [(at, kind) for at, kind, kinds in pairs if len(kinds) > 1 and kind in ("string", "field")]
        for at, kind in sure + maybe:
            return at, a_kind(kind)
        return None


WHERE = ("the top of the stack", "the value below the top", "the third value")
COUNTS = ("the stack is empty", "only one is on the stack", "only two are on the stack")
# Why an execution error is answered that no run over no entries comes to.
UNSHOWN = {
    "refused": "by the checker's rules a run may come to this, and the certificate doesn't rule it out",
    "unknown": "by the checker's rules a run may come to this, and no proof is found that rules it out",
}


def explain_run(block, style, answer, program):
    """What stood at an execution error."""
    stood = Stood(style, answer, program)
    show_head(block, style, stood.command or style.command_at(stood.offset), stood.offset)
    if answer.kind in UNSHOWN and not stood.reached:
        block.mark(style, stood.offset, len(stood.lexeme.text), "^")
        may_be_missing(block, stood)
        block.note("why", UNSHOWN[answer.kind])
        return
    if answer.name not in ("EmptyPop", "WrongKind"):
        # The kinds are looked at first, so here they are right.
        block.taken_as = dict(enumerate(OPERANDS.get(stood.function, ())))
    mark = RUN_FAULTS.get(answer.name, lambda *_: "")(block, stood) or ""
    block.mark(style, stood.offset, len(stood.lexeme.text), "^", mark)
    count = len(OPERANDS.get(stood.function, ()))
    if answer.name not in ("StackLeft", "NoEntry") and not stood.test and not stood.command and count:
        values = [said(it, block.taken_as.get(at)) + (" (top)" if at == 0 else "") for at, it in enumerate(stood.values[:count])]
        block.note("stack", ", then ".join(values) + (", and nothing below it" if len(stood.values) < count and values else "") if values else "empty")
    if stood.calls:
        block.note("calls", " > ".join(stood.calls))
    if answer.kind == "fault" and answer.rest not in ("", "-"):
        found = entry(answer.data, answer.rest.encode("utf-8", "surrogateescape"))
        if found:
            name, line, it = found
            block.note("entry", f"{answer.rest}, @{text(it.kind)} at {block.called(name)}:{line}, " + (
                "with " + ", ".join(it.fields) if it.fields else "without fields"))
    if answer.kind in UNSHOWN:
        block.note("why", "a run of this style over no entries comes to this place")


def function_name(stood):
    return f"`{text(stood.function)}`"


def empty_pop(block, stood):
    takes = TAKES.get(stood.function)
    if stood.test:
        block.sentence = "`while$` takes an integer from its test, and the test leaves the stack empty"
        return ""
    if takes:
        kinds = OPERANDS[stood.function]
        count = min(len(stood.values), len(kinds) - 1)
        block.sentence = f"{function_name(stood)} takes {takes}, and {COUNTS[count]}"
        name = f"`{text(stood.lexeme.text)}`"
        push = ("a second ", "a third ")[count - 1] + kinds[0] if count and len(set(kinds)) == 1 else a_kind(kinds[-1] if not count else kinds[count])
        block.note("help", f"push {push} before {name}, or take {name} away")
        return f"operand {count + 1}, {WHERE[count]}, isn't there" if len(kinds) > 1 else ""
    return ""


def tested_first(block, stood, field):
    """A missing field is tested before it is taken."""
    token = text(stood.lexeme.text)
    block.note("help", f"test it first:  {field} empty$ 'skip$ {{ {field} {token} }} if$" if len(OPERANDS.get(stood.function, ())) == 1
               else f"test `{field}` with empty$ or missing$ first")


def may_be_missing(block, stood):
    """Where the checker refuses the top of the stack, and a field stands directly before the function that takes it."""
    before = stood.style.lexeme_at(stood.offset)[1]
    takes_text = OPERANDS.get(stood.function, ())[:1] == ("string",)
    if (stood.answer.name, stood.answer.rest) == ("WrongKind", "1") and takes_text and before and stood.style.kind_of(before.text) == "field":
        field = text(before.text)
        block.sentence = f"{function_name(stood)} takes a string, and the field `{field}` may be missing"
        tested_first(block, stood, field)


def wrong_kind(block, stood):
    if stood.test:
        block.sentence = "`while$` takes an integer from its test, and the test leaves another value on the top"
        return
    found = stood.wrong_value()
    if found is None:
        if stood.function == b"=":
            block.sentence = "`=` takes two integers or two strings, and here stands one of each"
        return
    at, kind = found
    value = stood.values[at]
    # The top is looked at first, so what stands above has its kind.
    block.taken_as = dict(enumerate(OPERANDS.get(stood.function, ())[:at]))
    as_kind = "integer" if "string" in kind and "integer" in kinds_of(value) else None
    block.taken_as[at] = as_kind
    takes = f"{function_name(stood)} takes {kind}"
    if stood.function == b"=":
        takes = "`=` takes two integers or two strings"
    elif stood.function == b":=" and at == 1:
        takes = f"`:=` assigns {kind} to `{text(stood.values[0][len(b'function '):])}`"
    block.sentence = f"{takes}, and {WHERE[at]} is {said(value, as_kind, True)}"
    if value.startswith(b"missing "):
        field = text(value[len(b"missing "):])
        block.short = f"'{field}' is a missing field, not {kind}"
        block.note("why", "a field that an entry lacks is no string; only empty$, missing$, pop$, duplicate$, swap$, top$ and stack$ take it")
        tested_first(block, stood, field)
    elif as_kind == "integer":
        block.note("help", "write `int.to.str$` behind the integer to make a string of it")


def stack_left(block, stood):
    values = stood.probe.left(stood.command) if stood.command else []
    count = len(values)
    if count:
        block.sentence = f"the call leaves {count} value{'s' if count > 1 else ''} on the stack"
        block.note("left", ", then ".join([said(it) + (" (top)" if at == 0 else "") for at, it in enumerate(values[:8])] + ["..."] * (count > 8)))


def not_variable(block, stood):
    if stood.values and stood.values[0].startswith(b"function "):
        name = stood.values[0][len(b"function "):]
        block.sentence = f"`:=` assigns to a variable, and `{text(name)}` is a {stood.style.kind_of(name) or 'function'}"
    elif stood.values:
        block.sentence = f"`:=` assigns to a variable, and {said(stood.values[0])} stands in its place"


def no_entry(block, stood):
    block.sentence = f"{function_name(stood)} belongs to an entry, and EXECUTE visits none"


def of_value(place, sentence):
    """An error that one value brings about: which it is, and what to say of it."""

    def explain(block, stood):
        if len(stood.values) > place:
            block.sentence = sentence.format(said(stood.values[place], block.taken_as[place], True), size=len(stood.values[place]))

    return explain


def bad_name_index(block, stood):
    if len(stood.values) > 2:
        block.sentence = f"name {text(stood.values[1])} is asked for, and {said(stood.values[2], 'string', True)} has no such name"


def bad_name(block, stood):
    if len(stood.values) > 2:
        block.sentence = f"name {text(stood.values[1])} has more than two commas, or ends with one: {said(stood.values[2], 'string')}"


RUN_FAULTS = {
    "EmptyPop": empty_pop, "WrongKind": wrong_kind, "StackLeft": stack_left, "NotVariable": not_variable, "NoEntry": no_entry,
    "BadCase": of_value(0, "`change.case$` knows t, l and u, and stands before {}"),
    "NotOneByte": of_value(0, "`chr.to.int$` takes a string of one byte, and {} has {size}"),
    "NotAscii": of_value(0, "`int.to.chr$` takes 0 to 127, and stands before {}"),
    "BadPattern": of_value(0, "the braces or letters of the pattern don't fit: {}"),
    "BadNameIndex": bad_name_index, "BadName": bad_name,
}

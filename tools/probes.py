"""What stood on the stack at a place, and which calls led there. The program itself tells: it runs a copy of the style that logs
marks at the begin and the end of each function and before the token at fault, and then another that logs the stack when that
token is reached for the last time. Everything else of the copies is as it stands, on the same lines."""
import os
import re
import subprocess
import tempfile

from databases import COMMAND
from styles import read, text

# No style logs this byte: it may stand in a text, and nobody writes it there.
MARK = b"\x01"
MOST_STEPS = 999999999


def logged(mark):
    """Code that logs a mark."""
    return b' "' + MARK + mark + b'" top$ '


def edited(style, edits):
    """The text of a style with pieces put in: each is a place and what goes there."""
    parts, at = [], 0
    for offset, piece in sorted(edits, key=lambda it: it[0]):
        parts += [style[at:offset], piece]
        at = offset
    return b"".join(parts + [style[at:]])


class Probe:
    """The runs for one place of a style: of the .aux file, or without one of no entries at all."""

    def __init__(self, program, style, offset, aux, data, steps, fault=None):
        self.program, self.style, self.offset, self.aux, self.data, self.fault = program, style, offset, aux, data, fault
        # Marks take steps too. What runs on behind the place is bounded, since it may write without end.
        self.steps = min(1000 + 40 * steps, max(100000000, 2 * steps), MOST_STEPS)

    def run(self, copy):
        """The log of a run of a copy of the style."""
        with tempfile.TemporaryDirectory() as folder:
            files = {"s.bst": copy}
            if self.aux is None:
                files.update({"0.aux": b"\\bibstyle{s}\n\\bibdata{d0}\n", "d0.bib": b""})
            else:
                self.copy_aux(files, self.aux)
                for number, name in enumerate(self.data):
                    os.symlink(os.path.abspath(name), os.path.join(folder, f"d{number}.bib"))
            for name, content in files.items():
                with open(os.path.join(folder, name), "wb") as file:
                    file.write(content)
            ran = subprocess.run([self.program, "run", "0.aux", str(self.steps)], cwd=folder, stdin=subprocess.DEVNULL,
                                 stdout=subprocess.DEVNULL, stderr=subprocess.PIPE)
        return ran.stderr.split(b"\n")

    def copy_aux(self, files, name):
        """Puts a copy of an .aux file and its inputs among the files, with names that can't leave the folder."""
        own = f"{sum(it.endswith('.aux') for it in files)}.aux"
        files[own] = b""

        def rewritten(found):
            if found[1] == b"bibstyle":
                item = b"s"
            elif found[1] == b"bibdata":
                item = b",".join(b"d%d" % number for number in range(len(self.data)))
            else:
                item = self.copy_aux(files, found[2].decode("utf-8", "replace").strip()).encode()
            return b"\\" + found[1] + b"{" + item + b"}"

        files[own] = COMMAND.sub(rewritten, read(name))
        return own

    def marks(self):
        """What every copy has: marks at functions and commands."""
        edits = []
        for name, body in self.style.functions():
            edits += [(body.open.end, logged(b">" + name)), (body.close.start, logged(b"<" + name))]
        for word, _ in self.style.commands:
            if word.text.lower() in (b"execute", b"iterate", b"reverse"):
                place = b"%d.%d" % self.style.place(word.start)
                says = word.text.upper() + b" at %d:%d" % self.style.place(word.start)
                edits.append((word.start, b"FUNCTION{volutecress." + place + b"}{" + logged(b"!" + says)
                              + b"}EXECUTE{volutecress." + place + b"} "))
        return edits

    def trace(self, at_token=True):
        """The calls that the run ends in, the outermost first, how often the token was reached, and which function was the last to
        end with none around it. Where the copy doesn't end in the same fault on the same line, nothing is known."""
        log = self.run(edited(self.style.text, self.marks() + ([(self.offset, logged(b"@"))] if at_token else [])))
        last = log[-2] if len(log) > 1 else b""
        if self.fault and not re.match(rb"fault %d:[0-9]+ %s " % (self.style.line(self.offset), self.fault.encode()), last):
            return [], 0, None
        command, calls, reached, ended = None, [], 0, None
        for line in log:
            if not line.startswith(MARK):
                continue
            kind, name = line[1:2], line[2:]
            if kind == b"!":
                command, calls = name, []
            elif kind == b">":
                calls.append(name)
            elif kind == b"<":
                calls, ended = calls[:-1], name
            else:
                reached += 1
        return [text(it) for it in ([command] if command else []) + calls], reached, ended

    def stack(self, reached):
        """The values on the stack when the token is reached for the last time, the top first."""
        turn = b"volutecress.turn"
        code = (b" " + turn + b" #1 + '" + turn + b" := " + turn + b" #%d = {" % reached + logged(b"(") + b"stack$" + logged(b")")
                + b"} 'skip$ if$ ")
        return self.between(edited(self.style.text, [(0, b"INTEGERS{" + turn + b"} "), (self.offset, code)]))

    def left(self, command):
        """The values that the first call of a command leaves that leaves some, the top first."""
        name = command.groups[0].inside[0]
        wrapper = b"FUNCTION{volutecress.call}{" + name.text + logged(b"(") + b"stack$" + logged(b")") + b"} "
        copy = edited(self.style.text, [(command.word.start, wrapper), (name.start, b"volutecress.call ")])
        # The wrapper takes the place of the name.
        at = name.start + len(wrapper) + len(b"volutecress.call ")
        return self.between(copy[:at] + copy[at + len(name.text):])

    def between(self, copy):
        """The first values that a run of a copy logs between two marks."""
        values, inside = [], False
        for line in self.run(copy):
            if line == MARK + b"(":
                inside = True
            elif line == MARK + b")":
                inside = False
                if values:
                    break
            elif inside:
                values.append(line)
        return values

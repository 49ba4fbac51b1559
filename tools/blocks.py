"""The block that explains an answer: a first line, a window of the source, and notes."""


WIDTH = 100
LABELS = ("stack", "left", "calls", "entry", "why", "help")


class Block:
    def __init__(self, file, place, kind, name, row, names):
        self.file, self.place, self.kind, self.name, self.names = file, place, kind, name, names
        self.sentence = row.says if row else name
        self.short, self.source, self.taken_as = None, None, {}
        self.rows, self.notes = {}, {}
        if row:
            self.notes = {"why": row.why, "help": row.change}

    def called(self, name):
        """What people call a file."""
        return self.names.get(name, name)

    def note(self, label, text):
        self.notes[label] = text

    def line(self, number):
        """Shows a line."""
        self.rows.setdefault(number, [])

    def mark(self, source, offset, length, sign, text=""):
        """Shows the line of a place, and marks what stands there."""
        line, column = source.place(offset)
        self.rows.setdefault(line, []).append((column, length, sign, text))

    def has_mark_at(self, place):
        return any(column == place[1] for column, *_ in self.rows.get(place[0], []))

    def written(self):
        at = ":%d:%d" % self.place if self.place else ""
        lines = [f"{self.called(self.file)}{at}: {self.kind}[{self.name}]: {self.sentence}"]
        margin = ""
        if self.rows:
            width = len(str(max(self.rows)))
            margin = " " * (width + 1)
            lines.append(margin + "|")
            before = None
            for number in sorted(self.rows):
                if before is not None and number > before + 1:
                    lines.append("...")
                lines += self.window(number, width)
                before = number
            lines.append(margin + "|")
        else:
            margin = "  "
        labels = [it for it in LABELS if it in self.notes]
        longest = max((len(it) for it in labels), default=0)
        lines += [f"{margin}= {it}:{' ' * (longest - len(it) + 1)}{self.notes[it]}" for it in labels]
        return "".join(it.rstrip() + "\n" for it in lines)

    def window(self, number, width):
        """A line of the source, and below it a line for each mark. Bytes become characters, a tab one blank, and a long line
        is cut around its first mark."""
        source = self.source
        line = source.lines[number - 1] if number <= len(source.lines) else b""
        marks = sorted(self.rows[number])
        encoding = "utf-8"
        try:
            line.decode(encoding)
        except UnicodeDecodeError:
            encoding = "latin-1"

        def characters(count):
            return len(line[:count].decode(encoding, "replace"))

        shown = "".join(it if it.isprintable() else " " for it in line.decode(encoding))
        first = characters(marks[0][0] - 1) if marks else 0
        cut = max(0, min(first - WIDTH // 2, len(shown) - WIDTH)) if len(shown) > WIDTH else 0
        head, tail = ("..." if cut else ""), ("..." if cut + WIDTH < len(shown) else "")
        lines = [f"{number:>{width}} | {head}{shown[cut:cut + WIDTH]}{tail}"]
        for column, length, sign, text in marks:
            at = characters(column - 1) - cut
            count = max(1, characters(column - 1 + length) - characters(column - 1))
            if 0 <= at <= WIDTH:
                count = min(count, max(1, WIDTH - at))
                lines.append(f"{' ' * width} | {' ' * (len(head) + at)}{sign * count}{' ' if text else ''}{text}")
        return lines

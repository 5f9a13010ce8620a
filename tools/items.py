"""A file of specs/, proofs/ or src/ as its items: each definition, statement, theorem, type and function.

By text alone, as `rt fmt` lays it out: what stands at the left edge begins an item or goes on with the last one. Comments
directly above an item and within it are its own. An item of a `module` has the module's head before its own, since its type
depends on it; an item of an `impl` has the type's name before its own."""
import re

IMPORT = re.compile(r"(?:pub |ghost )*(?:use|mod) ")
DEFINITION = re.compile(r"(?:(abbrev|unfoldable) )?(pub )?(?:(record|data|ruleset|infix\w* \d+) )?(\S+)(?: (:)(?= |$))?")
FUNCTION = re.compile(r'(pub )?(?:(?:const|ghost|extern "C") )*(fn) (\w+)')
TYPE = re.compile(r"(pub )?(struct|enum|const|static|type|trait) (\w+)")
CLOSING = tuple(")}]")


class Item:
    def __init__(self, head=()):
        self.kind = ""  # abbrev, record, fn, struct .. ; none for a theorem
        self.public = False  # `pub` stands there
        self.head = list(head)  # a definition's type, a theorem's statement, a function's contract
        self.body = []
        self.comments = []
        self.now = self.head  # what the next lines belong to


class File:
    """Items by name; and what is none: comments that stand alone, and other lines, which are imports."""

    def __init__(self, text, language):
        self.items, self.comments, self.others = {}, [], []
        self.mark = {"antt": "--", "rt": "//"}[language]
        {"antt": self.antt, "rt": self.rt}[language](text.split("\n"))

    def begin(self, name, kind, public, head):
        """An `infix` stands above the definition of its name, and is a part of it."""
        item = self.items.setdefault(name, Item(head))
        item.kind, item.public, item.now = kind, bool(public), item.head
        return item

    def cut(self, line):
        """A line's code and its comment. A mark behind an odd number of quotes is within a string."""
        for found in re.finditer(rf"(?:^|\s){self.mark}", line):
            if line[:found.start()].count('"') % 2 == 0:
                return line[:found.start()].rstrip(), line[found.start():].strip()
        return line.rstrip(), ""

    def add(self, lines, item=None, above=()):
        """Lines to an item, or to none."""
        code, comments = (self.others, self.comments) if item is None else (item.now, item.comments)
        comments += above
        for line in lines:
            here, comment = self.cut(line)
            code += [here] * bool(here)
            comments += [comment] * bool(comment)

    def chunks(self, lines):
        """Each line at the left edge, with the indented ones behind it; and the comments directly above."""
        above, chunk = [], None
        for line in lines:
            if line.startswith(self.mark):
                above.append(line)
            elif not line.strip():
                if above:
                    self.add(above)
                above = []
            elif chunk and line.startswith(" "):
                chunk[1].extend([*above, line])
                above = []
            else:
                if chunk:
                    yield chunk
                chunk, above = (above, [line]), []
        if chunk:
            yield chunk
        self.add(above)

    def antt(self, lines, around=()):
        item = None
        for above, chunk in self.chunks(lines):
            found = DEFINITION.match(chunk[0])
            if IMPORT.match(chunk[0]):
                item = None
            elif chunk[0].startswith("module "):
                item = None
                last = next((n for n, line in enumerate(chunk) if self.cut(line)[0].endswith("where")), 0)
                self.add([], None, above)
                self.antt([line[2:] for line in chunk[last + 1:]], (*around, *chunk[:last + 1]))
                continue
            elif any(found.group(1, 2, 3, 5)):
                item = self.begin(found.group(4), found.group(1) or found.group(3) or "", found.group(2), around)
            elif item and not chunk[0].startswith(CLOSING):
                # An equation, or the `unfolding` before the first.
                item.now = item.body
            self.add(chunk, item, above)

    def rt(self, lines, prefix=""):
        item, attributes = None, []
        for above, chunk in self.chunks(lines):
            found = FUNCTION.match(chunk[0]) or TYPE.match(chunk[0])
            block = re.match(r"impl\b.*?(\w+) \{$", chunk[0])
            if IMPORT.match(chunk[0]):
                item = None
            elif block:
                item = None
                self.add([], None, above)
                self.rt([line[4:] for line in chunk[1:]], f"{prefix}{block.group(1)}::")
                continue
            elif chunk[0].startswith("#["):
                attributes += [*above, *chunk]
                continue
            elif found:
                item = self.begin(prefix + found.group(3), found.group(2), found.group(1), ())
                self.add(attributes, item)
                attributes = []
            elif item is None and chunk[0].startswith(CLOSING):
                # An impl ends.
                self.add([], None, above)
                continue
            if item and item.kind == "fn" and item.now is item.head and "{" in chunk[0]:
                # The body opens on a line of its own, or behind a signature without a contract.
                before, _, behind = chunk[0].partition("{")
                self.add([before], item, above)
                item.now, chunk, above = item.body, [behind, *chunk[1:]], []
            self.add(chunk, item, above)

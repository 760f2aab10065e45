"""The edits that put wrong bodies instead of right ones, and the functions of the sources that they lie in.

A file wrong-bodies/PATH.edits of a crate has the edits of its module src/PATH.rt. Each begins with a line '# TITLE', and has
pairs of lines 'old: TEXT' and 'new: TEXT'. A line 'twin: TEXT' after a 'new:' line is a right body in the same place, in the
wrong one's form. A line 'file: src/other.rt' stands before pairs that change another file.
"""
import os
import re

# In rt fmt's layout: the line at which a function begins, that of the block around it, and other lines that end a function.
FUNCTION = re.compile(r" *(?:pub(?:\(\w+\))? )?(?:const )?(?:unsafe )?(?:extern \S+ )?fn (\w+)")
BLOCK = re.compile(r" *(?:pub )?(?:unsafe )?(?:impl|trait)\b")
ITEM = re.compile(
    r" *(?:///|//!|#\[|(?:pub(?:\(\w+\))? )?(?:ghost )?(?:const|enum|extern|fn|impl|mod|static|struct|trait|type|union|unsafe|use)\b)"
)
# A struct or an enum, in whose module rattle names its methods.
TYPE = re.compile(r"(?m)^(?:pub(?:\(\w+\))? )?(?:struct|enum|union) (\w+)")


def text_of(file):
    with open(file, encoding="utf-8") as opened:
        return opened.read()


def plain(path):
    """Returns the parts of a path without the marks in which rattle's spelling differs from the source's."""
    return tuple(re.sub(r"\W", "", part).lower() for part in path)


def module_of(file):
    """Returns the module of a source file, as the parts of its path."""
    return [part for part in re.sub(r"^src/|\.rt$", "", file).split("/") if part not in ("lib", "main", "mod")]


class Block:
    """An impl or a trait: what rattle calls it, and whether it is of a trait."""

    def __init__(self, line, inner):
        self.name, self.inner = name_of(line), inner
        self.is_of_trait = not re.match(r" *(?:pub )?(?:unsafe )?impl\b", line) or " for " in re.sub(r"<[^<>]*>", "", line)


class Function:
    """A function of a source file: its path below the crate, its lines, and the cycle of calls that it is in."""

    def __init__(self, file, block, head, first):
        self.file, self.block, self.name, self.cycle = file, block, FUNCTION.match(head)[1], None
        self.spell([*module_of(file), *([block.name] if block else [])])
        self.first = self.last = first

    def spell(self, inside):
        """Takes its path from where rattle names it."""
        self.spelled = "::".join([*inside, self.name])
        self.path = plain(self.spelled.split("::"))

    def note_text(self, lines):
        """Takes from the source's lines whether it has a body, and a cycle of calls."""
        text = "\n".join(lines[self.first - 1 : self.last])
        self.has_body = "{" in text and not lines[self.last - 1].endswith(";")
        cycle = re.search(r"#\[cycle\((\w+)\)\]", text)
        self.cycle = cycle[1] if cycle else None

    def is_destructor(self):
        return self.name == "drop" and bool(self.block and self.block.is_of_trait)

    def unit(self):
        """Returns what stands for the functions of which one alone can be wrong: its cycle of calls, or itself."""
        return self.cycle or (self.file, self.first)

    def find(self, paths):
        """Takes its path as rattle spells it: an impl may stand in another module than its type, by which rattle names it."""
        like = [path for path in paths if path[-2:] == self.path[-2:]] if self.block else []
        if self.path not in paths and len(like) == 1:
            self.path = like[0]


def name_of(block):
    """Returns what rattle calls an impl or a trait: the type, then the trait with its arguments."""
    kind, parameters, rest = re.match(r".*?\b(impl|trait)(?:<((?:[^<>]|<[^<>]*>)*)>)? (.*)", block).groups()
    if kind == "trait":
        return re.match(r"\w+", rest)[0]
    own = set(re.findall(r"(?:^|,)\s*(?:const )?('?\w+)", parameters or ""))
    trait, _, of = re.sub(r"\b(?:where|requires|ensures)\b.*|\{.*", "", rest).rpartition(" for ")
    head, _, arguments = trait.partition("<")
    words = [word for word in re.findall(r"\w+", arguments) if word not in own]
    reference, own_type = re.match(r"(&?)(?:'\w+ )?(\w+)", of).groups()
    parts = ["Ref" * len(reference), own_type, head.split("::")[-1], *words]
    return "".join(part[:1].upper() + part[1:] for part in parts)


def functions_of(file, text):
    """Returns the functions of a file, each with the lines from its first attribute to its end."""
    found, block, now, above = [], None, None, 0
    lines = text.split("\n")
    for number, line in enumerate(lines, 1):
        # the end of a comment that hides a right body ends nothing else
        line = re.sub(r"^( *)\*/ ?", r"\1", line)
        indent = len(line) - len(line.lstrip(" "))
        if not line.strip():
            continue
        if now and (indent < now.indent or indent == now.indent and ITEM.match(line)):
            now = None
        if block and indent < block.inner:
            block = None
        if now is None and BLOCK.match(line):
            block = Block(line, indent + 4)
        if now is None and FUNCTION.match(line):
            now = Function(file, block, line, above or number)
            now.indent = indent
            found.append(now)
        above = (above or number) if line.lstrip().startswith("#[") else 0
        if now:
            now.last = number
    for function in found:
        function.note_text(lines)
    return found


def at_home(crate, functions):
    """Gives methods the module of their type, in which rattle names them, if the impl stands in another file. Returns the functions."""
    homes = {}
    for path in crate.modules():
        homes.update(dict.fromkeys(TYPE.findall(text_of(f"{crate.folder}/{path}")), module_of(path)))
    for function in functions:
        types = [name for name in homes if function.block and function.block.name.startswith(name)]
        if types:
            function.spell([*homes[max(types, key=len)], function.block.name])
    return functions


def slug(title):
    """Returns the words of a title as they stand in a name."""
    return "_".join(re.findall(r"[a-z0-9]+", title.lower()))


class Edit:
    """A wrong body of a module: its texts, the function that it lies in, and what was found of it. Its text begins with the title."""

    def __init__(self, crate, module, text):
        self.crate, self.text = crate, text
        title, *lines = text.split("\n")
        self.name = f"{module}/{slug(title)}"
        self.pairs, self.function = [], None
        self.is_refused, self.misfit, self.has_twin = False, "", False
        # the goals whose answers do not fit it, whether a tactic in one finds no proof, and the goals whose answers are left out
        self.unfit, self.is_unproved, self.left_out = set(), False, set()
        self.said = "it has no title" if not slug(title) else self.read(module, [line for line in lines if line.strip()]) or self.place()
        self.is_bad = bool(self.said)

    def read(self, module, lines):
        """Reads the pairs of texts. Returns why it can't, or an empty text."""
        path, old = f"src/{module}.rt", None
        for line in lines:
            word, _, text = line.partition(":")
            text = text.removeprefix(" ")
            if word == "file" and old is None:
                path = text.strip()
            elif word == "old" and old is None:
                old = text
            elif word == "new" and old is not None:
                self.pairs.append([path, old, text, old])
                old = None
            elif word == "new":
                return "a 'new:' line stands before an 'old:' line"
            elif word == "twin" and self.pairs and old is None:
                self.pairs[-1][3], self.has_twin = text, True
            else:
                return f"a line can't stand where it does: {line}"
        if old is not None:
            return "an 'old:' line has no 'new:' line"
        return "" if self.pairs else "it has no pair of an 'old:' and a 'new:' line"

    def place(self):
        """Applies the pairs and finds their one function. Returns why it can't, or an empty text."""
        right, changed = {}, {}
        for path, old, new, _ in self.pairs:
            if path not in right:
                if not os.path.isfile(f"{self.crate.folder}/{path}"):
                    return f"there is no file {path}"
                right[path] = changed[path] = text_of(f"{self.crate.folder}/{path}")
            found = changed[path].count(old)
            if found != 1:
                return f"an 'old:' text is in {path} {found} times, and not once"
            if new == old:
                return "a pair changes nothing"
            line = changed[path].count("\n", 0, changed[path].find(old)) + 1
            changed[path] = changed[path].replace(old, new)
            if not self.lies_at(path, right[path], line, new):
                return f"{path}:{line} lies in no function, or in another one than the edit's first text"
        return ""

    def lies_at(self, path, text, line, new):
        """Takes the function at this line of the right text for the edit's own. Returns whether it can."""
        here = next((function for function in functions_of(path, text) if function.first <= line <= function.last), None)
        own = self.function
        between = "".join(text.split("\n")[own.last : line - 1]) if own and path == own.file else "-"
        if new.lstrip().startswith("*/ ") and not between.strip(" }"):
            return True  # the end of a comment that hides the right body
        if here is None or own and (own.file, own.first) != (here.file, here.first):
            return False
        self.function = here
        return True

    def must_fail_text(self):
        """Returns the edit in the form of rt's must-fail edits."""
        lines, last = [], None
        for path, old, new, _ in self.pairs:
            lines += [f"file: {path}"] * (path != last) + [f"old: {old}", f"new: {new}"]
            last = path
        return "\n".join(lines) + "\n"


def edits_of(crate):
    """Returns the edits of a crate's folder wrong-bodies. One whose title stands above another one of its file says so."""
    top, found = f"{crate.folder}/wrong-bodies", {}
    for file in sorted(f"{at}/{name}" for at, _, names in os.walk(top) for name in names if name.endswith(".edits")):
        untitled, *parts = re.split(r"(?m)^#(?=[ \n])", text_of(file))
        for part in [*["\n" + untitled] * bool(untitled.strip()), *parts]:
            edit = Edit(crate, os.path.relpath(file, top).removesuffix(".edits"), part)
            if edit.name in found:
                edit.said, edit.is_bad = "its title stands above another edit of the file too", True
            found.setdefault(edit.name, []).append(edit)
    edits = [edit for some in found.values() for edit in some]
    at_home(crate, [edit.function for edit in edits if edit.function])
    return edits

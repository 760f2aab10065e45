"""The commands of the program jwt and their arguments, as its sources have them: read from the calls of src/arguments.rt of jwt_requests."""
import os
import re
from typing import NamedTuple

TOP = os.path.dirname(os.path.dirname(os.path.dirname(os.path.realpath(__file__))))
SOURCE = "crates/jwt_requests/src/arguments.rt"
TEXT = r'"((?:[^"\\]|\\.)*)"'
# a text, which is passed over, or a word with the texts that are all its arguments, or with an opening bracket
WORDS = re.compile(rf'{TEXT}|(?<![.\w])(\w+)(?:\(((?:\s*{TEXT},?)+)\s*\)|(\()|\b)')


class Argument(NamedTuple):
    """An argument: its shape is a variant of Shape, and its value the word for it in help."""

    name: str
    shape: str
    value: str
    help: str

    @property
    def is_named(self):
        return not self.shape.endswith("Place")


class Command(NamedTuple):
    """A command: one argument of its group, if it has one, has to be given."""

    name: str
    about: str
    arguments: list
    group: str
    members: list

    def named(self):
        """Returns the arguments with a name before them, but those of the group."""
        return [it for it in self.arguments if it.is_named and it.name not in self.members]

    def grouped(self):
        return [it for it in self.arguments if it.name in self.members]

    def places(self):
        return [it for it in self.arguments if not it.is_named]


def read(path):
    with open(f"{TOP}/{path}", encoding="utf-8") as file:
        return file.read()


def source():
    """Returns the path of the file, below the top of the repository, or None."""
    return SOURCE if os.path.isfile(f"{TOP}/{SOURCE}") else None


def algorithms():
    """Returns the names of all algorithms."""
    enum = re.search(r"^pub enum Algorithm \{(.*?)^\}", read("crates/jwt_base/src/algorithms.rt"), re.M | re.S)[1]
    return re.findall(r"^    (\w+),", enum, re.M)


class Source:
    """The functions of the file, those that make an argument of texts, and the arguments that are constants."""

    def __init__(self, text):
        self.functions = {it[1]: it[0] for it in re.finditer(r"^(?:pub )?(?:const )?fn (\w+).*?^\}", text, re.M | re.S)}
        self.makers = dict(re.findall(r"^const fn (\w+)\([^)]*\) -> Entry \{.*?shape: Shape::(\w+)", text, re.M | re.S))
        self.constants = {}
        for name, fields in re.findall(r"^const (\w+): Entry = Entry \{(.*?)\};", text, re.M | re.S):
            name_of, value, help_of = (re.search(rf"\b{it}: {TEXT}", fields)[1] for it in ("name", "value", "help"))
            self.constants[name] = Argument(name_of, re.search(r"Shape::(\w+)", fields)[1], value, help_of)

    def reached(self, function):
        """Yields the arguments and the functions that the body of a function comes to, in order."""
        yield function
        for _, word, texts, _, opening in WORDS.findall(self.functions[function].partition("{")[2]):
            if word in self.makers and texts:
                name, *value, help_of = re.findall(TEXT, texts)
                yield Argument(name, self.makers[word], "".join(value), help_of)
            elif word in self.constants:
                yield self.constants[word]
            elif word in self.functions and opening:
                yield from self.reached(word)

    def command(self, function):
        """Returns the command that a function makes, or None."""
        body = self.functions[function]
        named = re.search(rf"Command::new\(\s*alloc,\s*{TEXT}", body)
        if not named:
            return None
        found = list(self.reached(function))
        arguments = [it for it in found if isinstance(it, Argument)]
        groups = [self.functions[it] for it in found if isinstance(it, str) and re.search(r"ArgGroup::new\(.*\.required\(true\)", self.functions[it])]
        group = re.search(rf"ArgGroup::new\(alloc, {TEXT}\)", groups[0])[1] if groups else ""
        members = [name for body_of in groups for name in re.findall(rf"\.arg\({TEXT}\)", body_of)]
        return Command(named[1], re.search(rf"\.about\(\s*{TEXT}", body)[1], arguments, group, members)


def commands():
    """Returns the commands, in the order of help."""
    text = read(source())
    found = Source(text)
    return [found.command(it) for it in re.findall(r"add_subcommand\(command, (\w+)\(", text)]

"""The lists of commands and arguments in docs/COMMAND.md and packages/cli/jwt.1. Each stands between two comments, of which the first names it."""
import re

# how many options a line of use has, before one word stands for all of them
FEW = 2
QUOTED = re.compile(r"'([\w-]+)'")


def usage(command):
    """Returns the words of a line of use, each with how it is set: 'B' as it is typed, 'I' as a variable, 'R' as neither."""
    optional = command.named()
    words = [("B", f"jwt {command.name}")]
    words += [("R", " "), ("I", command.group.upper())] if command.group else []
    for it in optional if len(optional) <= FEW else []:
        words += [("R", " ["), ("B", f"--{it.name}{' ' * bool(it.value)}"), ("I", it.value), ("R", "]")]
    words += [("R", " ["), ("I", "OPTION"), ("R", "..]")] if len(optional) > FEW else []
    for it in command.places():
        before, after = (" [", "]") if it.shape == "Place" else (" ", "")
        words += [("R", before), ("I", it.value), ("R", after)]
    return [it for it in words if it[1]]


def meaning(argument):
    return argument.help + "; may be repeated" * (argument.shape == "Repeated")


class Markdown:
    """Tables of docs/COMMAND.md."""

    path, begin, end = "docs/COMMAND.md", "<!-- begin: {} -->", "<!-- end -->"

    def table(self, head, rows):
        marked = [(word, QUOTED.sub(r"`\1`", text)) for word, text in rows]
        return [f"| {head} | meaning |", "|---|---|", *(f"| `{word}` | {text} |" for word, text in marked)]

    def commands(self, commands):
        return self.table("command", [("".join(word for _, word in usage(it)), it.about) for it in commands])

    def arguments(self, arguments):
        return self.table("argument", [(f"--{it.name} {it.value}".strip() if it.is_named else it.value, meaning(it)) for it in arguments])


class Manual:
    """Paragraphs of packages/cli/jwt.1."""

    path, begin, end = "packages/cli/jwt.1", r".\" begin: {}", r".\" end"

    def marked(self, text):
        return re.sub(r"(^|[ (])'(\S+?)'", r"\1\\fB\2\\fR", text).replace("-", r"\-")

    def commands(self, commands):
        return [line for it in commands for line in (".TP", f".B {it.name}", f"{self.marked(it.about)}.")]

    def usage(self, commands):
        lines = ["".join(rf"\f{font}{word}" for font, word in usage(it)).replace("-", r"\-") + r"\fR" for it in commands]
        return "\n.br\n".join(lines).split("\n")

    def arguments(self, arguments):
        lines = []
        for it in arguments:
            name = [rf"\fB--{it.name}\fR"] * it.is_named + [rf"\fI{it.value}\fR"] * bool(it.value)
            lines += [".TP", " ".join(name).replace("-", r"\-"), f"{self.marked(meaning(it))}."]
        return lines


def listed(page, commands, name):
    """Returns the lines of a list. Its name is 'commands' or 'usage', or that of a command, for its arguments but those of its group, or
    'GROUP of COMMAND' for these, or 'COMMAND beyond COMMAND' for those that only the first takes."""
    if name in ("commands", "usage"):
        return getattr(page, name)(commands)
    by_name = {it.name: it for it in commands}
    first, word, last = [*name.split(), "", ""][:3]
    if word == "of":
        return page.arguments(by_name[last].grouped())
    others = by_name[last].arguments if word == "beyond" else []
    return page.arguments([it for it in [*by_name[first].places(), *by_name[first].named()] if it not in others])


def filled(page, text, commands):
    """Returns the text of a page with its lists."""
    begin = re.escape(page.begin).replace(r"\{\}", "([a-z ]+)")
    found = re.compile(rf"^{begin}\n(?:.*\n)*?{re.escape(page.end)}$", re.M)
    lists = {name: "\n".join([page.begin.format(name), *listed(page, commands, name), page.end]) for name in found.findall(text)}
    return found.sub(lambda it: lists[it[1]], text)


def pages(read, commands):
    """Returns the text of each page, by its path."""
    return {page.path: filled(page, read(page.path), commands) for page in (Markdown(), Manual())}

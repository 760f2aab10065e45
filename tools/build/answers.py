"""The answers of a function: the hand-written parts of its proof, in the folder of its path below proofs/.

A file Answers.antt has a paragraph for each goal that it proves. The paragraph begins with the line 'pub GOAL : goal.GOAL'.
"""
import os
import re
import shutil

from build.edits import text_of

FILE = "Answers.antt"
HEAD = re.compile(r"pub (\S+) : goal\.")
# A proof that is left out. With names for the statement's variables, the goal of some generic functions takes minutes.
HOLE = """use Rattle.{crate}.proofs.{module}.Statement.{{statement}}

pub {name}_spec : {{M : Type 1}} → statement M
{name}_spec = ?
"""


def folder_of(path):
    """Returns the folder of the answers, below the folder of the crate, for the path of a function."""
    return f"proofs/{path.replace('::', '/')}"


def recursive_folder(crate, path):
    """Returns the folder of a function's answers, if it calls itself."""
    *modules, name = path.split("::")
    return "/".join([crate.folder, "proofs", *modules, f"+{name}"])


def write(file, text):
    with open(file, "w", encoding="utf-8") as opened:
        opened.write(text)


def copy(scratch, function, name):
    """Copies a function's answers for a copy of it under this name. A module or a definition of the old name keeps its name."""
    folder = f"{scratch}/{folder_of(function.spelled)}"
    if os.path.isdir(folder):
        to = shutil.copytree(folder, f"{os.path.dirname(folder)}/{name}")
        *inside, old = function.spelled.split("::")
        path = re.compile(rf"\b((?:proofs|contracts)\.{''.join(f'{part}[.]' for part in inside)}){old}(?=\.)")
        for file in (f"{at}/{it}" for at, _, names in os.walk(to) for it in names):
            write(file, re.sub(rf"\b{old}_spec\b", f"{name}_spec", path.sub(rf"\g<1>{name}", text_of(file))))


def leave_out_proof(crate, scratch, path):
    """Puts a hole instead of a function's proof."""
    folder = f"{scratch}/{folder_of(path)}"
    os.makedirs(folder, exist_ok=True)
    for name in os.listdir(folder):
        if os.path.isfile(f"{folder}/{name}"):
            os.remove(f"{folder}/{name}")
    write(f"{folder}/Proof.antt", HOLE.format(crate=crate.name, module=path.replace("::", "."), name=path.split("::")[-1]))


def paragraphs(text):
    return re.split(r"\n\n(?=\S)", text)


def goal_at(file, line):
    """Returns the goal that the paragraph at this line of a file answers, or None."""
    last, found = 0, None
    for paragraph in paragraphs(text_of(file)):
        head = HEAD.match(paragraph)
        found = head[1] if head else None
        last += paragraph.count("\n") + 2
        if line < last:
            break
    return found


def leave_out(folder, goals):
    """Puts empty lines instead of the answers of these goals in a folder. The goals are then left to the prover."""
    file = f"{folder}/{FILE}"
    if goals and os.path.isfile(file):
        found = [(HEAD.match(paragraph), paragraph) for paragraph in paragraphs(text_of(file))]
        write(file, "\n\n".join("\n" * text.count("\n") if head and head[1] in goals else text for head, text in found))

"""The calls for C in packages/c/jwtproved.3, as packages/c/include/jwtproved.h declares them, each with the first sentence of its comment."""
import re

PATH = "packages/c/jwtproved.3"
HEADER = "packages/c/include/jwtproved.h"
# a comment with the declarations that it stands above, and one of these
DESCRIBED = re.compile(r"^/\*((?:(?!\*/).)*)\*/\n((?:(?:enum jwt_status|uint32_t|void) jwt_\w+\([^;]*\);\n)+)", re.M | re.S)
CALL = re.compile(r"(enum jwt_status|uint32_t|void) (jwt_\w+)\(([^;]*)\);")


def sentence(comment):
    """Returns the first sentence of a comment, as a line of the manual."""
    text = " ".join(re.sub(r"^[ *]+", "", line) for line in comment.splitlines()).strip()
    first = re.match(r".*?\.(?=\s|$)", text)[0]
    return re.sub(r"`(\w+)`", r"\1", first).replace("-", r"\-")


def synopsis(described):
    """Returns the declaration of each call."""
    lines = []
    for kind, name, parameters in (call for _, calls in described for call in CALL.findall(calls)):
        rows = [" ".join(f'"{it.strip()}"' for it in row.split(",") if it.strip()) for row in parameters.splitlines()]
        lines += [f".Ft {kind}", f".Fo {name}", *(f".Fa {row}" for row in rows), ".Fc"]
    return lines


def meanings(described):
    """Returns what each call does."""
    lines = [".Bl -tag -width Ds"]
    for comment, calls in described:
        lines += [".It " + " , ".join(f"Fn {name}" for _, name, _ in CALL.findall(calls)), sentence(comment)]
    return [*lines, ".El"]


def pages(read):
    """Returns the text of the page with both lists, by its path. Each stands between two comments, of which the first names it."""
    described, text = DESCRIBED.findall(read(HEADER)), read(PATH)
    for made in (synopsis, meanings):
        lines = "".join(f"{line}\n" for line in made(described))
        text = re.sub(rf'(?ms)(^\.\\" begin: {made.__name__}\n).*?(^\.\\" end$)', lambda it, lines=lines: it[1] + lines + it[2], text, count=1)
    return {PATH: text}

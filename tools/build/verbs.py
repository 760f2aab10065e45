"""The verbs of tools/prove."""
import argparse
import os

from build import c_library, costs, gate, kit, programs, proofs, wrong_bodies
from build.crates import crate_name, crates


def build(given):
    kit.tell_logic()
    return proofs.build(given.crates, given.anew)


def test(given):
    kit.tell_logic()
    passed, failed = proofs.test(given.crates or list(crates()), given.anew)
    print(f"{passed} passed, {failed} failed")
    return not failed


def make_library(given):
    return c_library.make(lambda: proofs.build([c_library.CRATE], given.anew))


def program_name(name):
    if not crates()[crate_name(name)].is_program:
        raise argparse.ArgumentTypeError(f"{name} is not a program; jwt_tool is one")
    return name


def note_gate(given):
    """Notes for a release that ./run_tests begins, or what it passed. Returns that this went well."""
    if given.passed is None:
        gate.begins()
    else:
        gate.passed(given.passed, given.left_out)
    return True


def compile_programs(given):
    """Compiles the programs without a proof, if their sources have changed. Returns whether all are compiled."""
    for name in given.programs:
        _, why = programs.unproved(crates()[name])
        if why:
            kit.tell(f"{why}\n{name} is not compiled")
            return False
    return True


def parser(description):
    made = argparse.ArgumentParser(description=description, formatter_class=argparse.RawDescriptionHelpFormatter)
    verbs = made.add_subparsers(dest="verb", required=True, metavar="VERB")

    def verb(name, call, text, takes_anew=True):
        added = verbs.add_parser(name, help=text, description=f"{text[0].upper()}{text[1:]}.")
        added.set_defaults(call=call)
        if takes_anew:
            added.add_argument("--anew", action="store_true", help="take nothing that earlier runs proved or refused")
        return added

    verb("kit", lambda _: bool(kit.folder()), "says so, with status 2, if there is no Rattle kit", False)
    added = verb("build", build, "proves crates and those below them by rt ci, on a copy, and leaves a program as crates/NAME/out/NAME")
    added.add_argument("crates", metavar="CRATE", nargs="+", type=crate_name)
    verb("library", make_library, "builds the library for C, if its sources have changed, as out/libjwtproved.a and out/libjwtproved.so")
    added = verb("test", test, "proves crates, all if none is named, as build does, and has the prover refuse their wrong bodies")
    added.add_argument("crates", metavar="CRATE", nargs="*", type=crate_name)
    added = verb("wrong-bodies", wrong_bodies.try_crates, "has the prover refuse wrong bodies, over the libraries that rt lib builds")
    added.add_argument("--twins", action="store_true", help="prove their twins, the right bodies, and try no wrong body")
    added.add_argument("crates", metavar="CRATE", nargs="*", type=crate_name)
    added = verb("costs", costs.show_costs, "shows which functions of a crate take longest to prove, over the libraries that rt lib builds", False)
    added.add_argument("--most", type=int, default=30, help="how many functions are shown")
    added.add_argument("crate", metavar="CRATE", type=crate_name)
    added = verb("compile", compile_programs, "compiles programs without a proof, as crates/NAME/out/unproved/NAME", False)
    added.add_argument("programs", metavar="PROGRAM", nargs="+", type=program_name)
    added = verb("gate", note_gate, "notes for a release that ./run_tests begins, or what it passed", False)
    added.add_argument("--passed", metavar="COUNT", type=int, help="how many tests it passed; without this, it begins")
    added.add_argument("--left-out", metavar="LINE", action="append", default=[], help="what it left out, as it said so")
    added = verb("run", None, "runs a program: the proved build, if there is one of the sources as they are, or else one without a proof", False)
    added.add_argument("program", metavar="PROGRAM", type=program_name)
    added.add_argument("words", metavar="ARGUMENT", nargs="*")
    return made


def main(description):
    given = parser(description).parse_args()
    if given.verb == "run":
        kit.stop("run stands first, before the name of the program")
    if given.verb != "library":
        kit.folder()
    os.chdir(kit.TOP)
    return 0 if given.call(given) else 1

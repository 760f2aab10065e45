"""The completions of the command for bash, zsh and fish."""
import re

from docs.arguments import algorithms

HEAD = "Completions of the command jwt for {}{}. tools/docs/command_pages writes this file."
FILES = "files"


def values(argument):
    """Returns the words that a value can be, or FILES; no words if it can be any."""
    if argument.value == "FILE":
        return FILES
    if argument.value in ("ALG", "HASH"):
        return re.findall(r"\b[A-Z]+\d{3}\b", argument.help.partition(" (default")[0]) or algorithms()
    return re.findall(r"'(\w+)'", argument.help) if argument.value == "CLAIM" else []


def names(commands):
    return " ".join(it.name for it in commands)


def with_values(command):
    return [it for it in command.arguments if it.is_named and it.value]


def takes_files(command):
    return any(values(it) == FILES for it in command.places())


def bash_arm(patterns, found):
    """Returns an arm of bash's `case`: what completes the words that match these patterns."""
    what = " files=-f" if found == FILES else f" words='{' '.join(found)}'" * bool(found)
    return f"        {' | '.join(patterns)}){what} ;;"


def bash_command(command):
    """Returns the arms of a command: one for the values of its arguments that are completed alike, and the last for its arguments."""
    alike = {}
    for it in with_values(command):
        alike.setdefault(str(values(it)), []).append(it)
    arms = [bash_arm([f"*' {command.name} --{it.name}'" for it in found], values(found[0])) for found in alike.values()]
    options = " ".join([*(f"--{it.name}" for it in command.arguments if it.is_named), "--help"])
    return [*arms, f"        *' {command.name} '*) words='{options}'{' files=-f' * takes_files(command)} ;;"]


def bash(commands):
    lines = [
        f"# {HEAD.format('bash', ': source it')}",
        "",
        "_jwt() {",
        "    local word=${COMP_WORDS[COMP_CWORD]} words='' files=''",
        '    case "$COMP_CWORD ${COMP_WORDS[1]} ${COMP_WORDS[COMP_CWORD - 1]}" in',
        f"        '1 '*) words='{names(commands)} help --help --version' ;;",
        *(line for it in commands for line in bash_command(it)),
        f"        *' help '*) words='{names(commands)}' ;;",
        "    esac",
        '    mapfile -t COMPREPLY < <(compgen $files -W "$words" -- "$word")',
        "}",
        "",
        "complete -o filenames -F _jwt jwt ./jwt",
    ]
    return "\n".join(lines) + "\n"


def zsh_text(text):
    return re.sub(r"([\\\[\]:])", r"\\\1", text).replace("'", r"'\''")


def zsh_values(argument):
    found = values(argument)
    return "_files" if found == FILES else f"({' '.join(found)})" if found else " "


def zsh_argument(command, argument):
    """Returns an argument as _arguments takes it."""
    if not argument.is_named:
        return f"'{':' * (argument.shape == 'Place')}:{argument.value}:{zsh_values(argument)}'"
    others = " ".join(f"--{it.name}" for it in command.grouped() if it != argument) if argument in command.grouped() else ""
    before = "*" if argument.shape == "Repeated" else f"({others})" if others else ""
    value = f":{argument.value}:{zsh_values(argument)}" if argument.value else ""
    return f"'{before}--{argument.name}[{zsh_text(argument.help)}]{value}'"


def zsh_command(command):
    lines = [zsh_argument(command, it) for it in command.arguments] + ["'(- *)--help[Print help]'"]
    return [f"        *' {command.name}')", "            _arguments \\", *(f"                {it} \\" for it in lines[:-1]), f"                {lines[-1]}", "            ;;"]


def zsh(commands):
    lines = [
        "#compdef jwt",
        f"# {HEAD.format('zsh', ': a folder of fpath has it as _jwt')}",
        "",
        "_jwt() {",
        "    local line state",
        "    local -a commands=(",
        *(f"        '{it.name}:{zsh_text(it.about)}'" for it in commands),
        "        'help:Print the help of a command'",
        "    )",
        "    _arguments -C '(- *)--help[Print help]' '(- *)--version[Print the version]' '1: :->command' '*:: :->arguments'",
        '    case "$state $line[1]" in',
        "        command*) _describe command commands ;;",
        *(line for it in commands for line in zsh_command(it)),
        f"        *' help') _arguments '1:command:({names(commands)})' ;;",
        "    esac",
        "}",
        "",
        '_jwt "$@"',
    ]
    return "\n".join(lines) + "\n"


def fish_text(text):
    return "'" + text.replace("\\", r"\\").replace("'", r"\'") + "'"


def fish_values(argument):
    found = values(argument)
    return " -r -F" if found == FILES else " -x" + f" -a '{' '.join(found)}'" * bool(found)


def fish_seen(commands, more):
    return f"complete -c jwt -n '__fish_seen_subcommand_from {names(commands)}' {more}"


def fish_arguments(commands):
    """Returns a line for each argument, with all commands that take it as it is."""
    takers = {}
    for command in commands:
        for it in command.arguments:
            takers.setdefault(it, []).append(command)
    named = [it for it in takers if it.is_named]
    return [fish_seen(takers[it], f"-l {it.name}{fish_values(it) if it.value else ''} -d {fish_text(it.help)}") for it in named]


def fish(commands):
    lines = [
        f"# {HEAD.format('fish', '')}",
        "",
        "complete -c jwt -f",
        "complete -c jwt -l help -d 'Print help'",
        "complete -c jwt -n __fish_use_subcommand -l version -d 'Print the version'",
        *(f"complete -c jwt -n __fish_use_subcommand -a {it.name} -d {fish_text(it.about)}" for it in commands),
        "complete -c jwt -n __fish_use_subcommand -a help -d 'Print the help of a command'",
        fish_seen([it for it in commands if takes_files(it)], "-F"),
        *fish_arguments(commands),
        "complete -c jwt -n '__fish_seen_subcommand_from help' " + f"-a '{names(commands)}'",
    ]
    return "\n".join(lines) + "\n"


def completions(commands):
    """Returns the text of each file of completions, by its path."""
    return {f"packages/cli/completions/jwt.{shell.__name__}": shell(commands) for shell in (bash, zsh, fish)}

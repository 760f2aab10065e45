"""The note that ./run_tests leaves of a passed gate, which a release asks for. It says of which files, as git sums them up."""
import json
import os
import subprocess

from build import kit

PATH = f"{kit.TOP}/out/gate.json"


def git(*words):
    """Returns what a command of git prints, or None if it fails."""
    try:
        ran = subprocess.run(["git", *words], cwd=kit.TOP, stdin=subprocess.DEVNULL, stdout=subprocess.PIPE, stderr=subprocess.DEVNULL, text=True)
    except OSError:
        return None
    return ran.stdout.strip() if ran.returncode == 0 else None


def tree():
    """Returns git's sum of all files of the checkout, or None if it has changes or is not a repository of git."""
    return git("rev-parse", "HEAD^{tree}") if git("status", "--porcelain") == "" else None


def write(noted):
    os.makedirs(os.path.dirname(PATH), exist_ok=True)
    with open(PATH, "w", encoding="utf-8") as file:
        json.dump(noted, file, indent=1)


def read():
    """Returns the last note, or an empty one."""
    try:
        with open(PATH, encoding="utf-8") as file:
            return json.load(file)
    except (OSError, ValueError):
        return {}


def begins():
    """Notes of which files the gate begins to test."""
    write({"tree": tree()})


def passed(count, left_out):
    """Notes that the gate passed this many tests, if its files are still those with which it began."""
    found = tree()
    if found and read().get("tree") == found:
        write({"tree": found, "kit": kit.version(), "passed": count, "left_out": left_out})

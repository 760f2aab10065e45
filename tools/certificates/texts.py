"""Source files that programs write, as the programs of this folder use them."""
import argparse
import os
import re

TOP = os.path.dirname(os.path.dirname(os.path.dirname(os.path.realpath(__file__))))


def text_of(path):
    with open(f"{TOP}/{path}", encoding="utf-8") as file:
        return file.read()


def unlaid(text):
    """Returns the text without white space, and without a comma or semicolon that stands last in brackets."""
    return re.sub(r"\s|[,;](?=\s*[)\]}])", "", text)


def main(description, texts):
    """Writes or checks the files that `texts` returns, by their paths below the repository, but for what rt fmt lays out."""
    parser = argparse.ArgumentParser(description=description, formatter_class=argparse.RawDescriptionHelpFormatter)
    parser.add_argument("--check", action="store_true", help="write nothing, and compare the files' texts")
    given, status = parser.parse_args(), 0
    for path, text in texts().items():
        if given.check:
            is_same = unlaid(text_of(path)) == unlaid(text)
            print(f"{path} has {'this' if is_same else 'ANOTHER'} text")
            status |= not is_same
            continue
        with open(f"{TOP}/{path}", "w", encoding="utf-8") as file:
            file.write(text)
        print(f"{path} is written")
    return status

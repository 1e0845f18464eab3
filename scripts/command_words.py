"""Reads the words of a command line; a wrong word is told in one line, with status 2."""

import argparse


class Parser(argparse.ArgumentParser):
    """A parser whose help is the text of its module."""

    def __init__(self, name: str, usage: str, about: str):
        super().__init__(prog=name, usage=usage, description=about, formatter_class=argparse.RawDescriptionHelpFormatter)

    def error(self, message: str):
        self.exit(2, f"{self.prog}: {message}; --help has the words\n")


if __name__ == "__main__":
    print("command_words.py is a module and no command: the other scripts read their words by it")

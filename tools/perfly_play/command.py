"""What the tools' commands share: the text of --help, and how they end on an error."""
import argparse
import os
import sys


def parser(description):
    """A parser of a command's words whose help shows the description as it is laid out."""
    return argparse.ArgumentParser(description=description, formatter_class=argparse.RawDescriptionHelpFormatter)


def whole_number(low, high=None):
    """The kind of a word that is a whole number from low, up to high where that is given."""
    def whole_number_word(word):
        value = int(word)
        if value < low or high is not None and value > high:
            raise argparse.ArgumentTypeError(f"{word} is not " + (f"from {low} to {high}" if high else f"{low} or more"))
        return value
    whole_number_word.__name__ = "whole number"  # argparse says it of a word that is none
    return whole_number_word


def number(low, high):
    """The kind of a word that is a number from low to high."""
    def number_word(word):
        value = float(word)
        if not low <= value <= high:
            raise argparse.ArgumentTypeError(f"{word} is not from {low} to {high}")
        return value
    number_word.__name__ = "number"
    return number_word


def run(main, *errors, trouble=1):
    """Runs a command, whose status main returns; an error of these kinds, or of a file, ends it with a line and the status for
    trouble."""
    name = os.path.basename(sys.argv[0])
    try:
        status = main()
        sys.stdout.flush()
        sys.exit(status)
    except BrokenPipeError:  # who reads the output has seen enough
        os.dup2(os.open(os.devnull, os.O_WRONLY), sys.stdout.fileno())
    except KeyboardInterrupt:
        sys.exit(130)
    except (OSError, *errors) as error:
        print(f"{name}: {error}", file=sys.stderr)
        sys.exit(trouble)


class Bar:
    """A bar of how much is done, on standard error where that is a terminal; else nothing."""

    WIDTH = 40

    def __init__(self, total, name):
        self.total, self.name = max(1, total), name
        self.is_shown = sys.stderr.isatty()

    def show(self, done):
        """Shows that so much is done."""
        if self.is_shown:
            filled = min(self.WIDTH, self.WIDTH * done // self.total)
            print(f"\r[{'#' * filled}{'.' * (self.WIDTH - filled)}] {done:,} of {self.total:,} {self.name}", end="",
                  file=sys.stderr, flush=True)

    def end(self):
        """Takes the bar away."""
        if self.is_shown:
            print("\r\033[K", end="", file=sys.stderr, flush=True)


def plural(count, name):
    """A number of things: 1 frame, 2 frames."""
    return f"{count:,} {name}" + ("" if count == 1 else "s")


def read_bytes(path):
    """The bytes of a file, or of standard input where the name is "-"."""
    if path == "-":
        return sys.stdin.buffer.read()
    with open(path, "rb") as file:
        return file.read()

"""What the tools are asked for: their help, the program that they run, a number. Each tool is a file beside this one."""
import os
import shutil
import sys

BUILT = f"{os.path.dirname(os.path.dirname(os.path.realpath(__file__)))}/crates/oltctl/out/oltctl"


def end(why):
    """Ends a tool whose command line is wrong."""
    print(f"{os.path.relpath(sys.argv[0])}: {why}", file=sys.stderr)
    sys.exit(2)


def helped(doc):
    """Prints what a tool says of itself, and ends, where its first word asks for it. Else gives the words behind its name."""
    words = sys.argv[1:]
    if words[:1] in (["-h"], ["--help"]):
        print(doc.strip())
        sys.exit(0)
    return words


def program(name=BUILT):
    """The whole path of a program, or of the built one; ends the tool where there is none."""
    found = shutil.which(name)
    if found is None:
        end(f"{name} is no program, or isn't built: (cd crates/oltctl && rt run -- --version)")
    return os.path.abspath(found)


def number(word):
    """How many are asked for; ends the tool where the word is no number."""
    if not (word.isascii() and word.isdigit()):
        end(f"{word} is no number")
    return int(word)

"""The words of tools/show."""
import argparse

import runs
import usage

USAGE = """tools/show [-C FOLDER] [--out FILE] [--picture FILE] [--program PATH] COMMAND WORDS..
       tools/show --selftest [--program PATH]"""
ABOUT = """Does a command of the program in a folder of its own, and makes one HTML page of the
run that stands alone: its pictures, a line of time to scrub along, a lane for each client with
its calls, what the user did and who got it, and in plain words what each entry says. For `turns`
and `still` it has the frame behind every entry, by the rules of docs/RULES.md in Python.

The command's files are read in the folder where this is started, or in the one behind -C. The
page is FILE, or a file in a new temporary folder, and its name is printed.
`page.html#29` opens at entry 29, and the page's address goes along as one scrubs.

The status is 1, and a line says why, where the program ends in another way, or where a picture, a
reply, a delivery or a client's events are not as the rules give them. It is 2 where the words are
no command."""
EXAMPLES = """examples:
  cd examples/desk && ../../tools/show turns desk.toml --out /tmp/desk.html
  tools/show -C examples/clip clip clip.toml
  tools/show still 8 4 first.nit        (in examples/first)"""


def reader():
    made = argparse.ArgumentParser(prog="tools/show", usage=USAGE, description=ABOUT,
                                   epilog=EXAMPLES,
                                   formatter_class=argparse.RawDescriptionHelpFormatter)
    made.add_argument("words", nargs="*", metavar="COMMAND WORDS..",
                      help=f"a command of the program: {', '.join(usage.COMMANDS)}")
    made.add_argument("--out", metavar="FILE", help="the page")
    made.add_argument("-C", dest="folder", metavar="FOLDER", default=".",
                      help="where the command's files are")
    made.add_argument("--program", metavar="PATH", default=str(runs.TOP / "bin" / "nitpicker"),
                      help="the program, bin/nitpicker where none is given")
    made.add_argument("--picture", metavar="FILE",
                      help="also what chromium shows of the page, at its first picture, as PNG")
    made.add_argument("--selftest", action="store_true",
                      help="tries this tool itself, in a browser too where chromium is there")
    return made


def main(words):
    given = reader().parse_intermixed_args(words)
    if given.selftest:
        from page.selftest import selftest
        return selftest(given.program)
    if usage.fault_of(given.words):
        raise runs.WrongWords(usage.hint(given.words))
    # It imports much, for which a slip of the fingers does not wait.
    from page.making import make
    return make(given)

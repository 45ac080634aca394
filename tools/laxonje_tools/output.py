"""What the tools for users print: all of it, or one line that says why it couldn't be."""
import os
import sys


def help_if_asked(text):
    """Prints the help of a tool and ends, if that alone is asked for."""
    if sys.argv[1:] == ["--help"]:
        put(f"{text}\n", "the help", is_read_in_part=True)
        sys.exit()


def put(text, what="the settings", is_read_in_part=False):
    """Prints a text, which is this. Ends with status 1 if standard output doesn't take all of it; but not if its reader may
    stop where it has read enough."""
    if sys.stdout is None:
        fail("standard output is closed: nothing was printed")
    try:
        sys.stdout.write(text)
        sys.stdout.flush()
    except (OSError, UnicodeEncodeError) as fault:
        # what is still in the buffer would be tried again at the end
        os.dup2(os.open(os.devnull, os.O_WRONLY), sys.stdout.fileno())
        if isinstance(fault, BrokenPipeError) and is_read_in_part:
            sys.exit(0)
        fail(f"standard output doesn't take {what}: {getattr(fault, 'strerror', None) or fault}")


def keep(path, text):
    """Writes a text to a file, or ends."""
    try:
        with open(path, "w", encoding="utf-8") as file:
            file.write(text)
    except OSError as fault:
        fail(f"{path}: {fault.strerror}")


def fail(line, status=1):
    """Ends with one line on standard error, and this status."""
    say([in_one_line(line)])
    sys.exit(status)


def stop_on(words):
    """Names faults, a line each, and ends, if there are any."""
    lines = list(words)
    if lines:
        say(lines[:-1])
        fail(lines[-1])


def say(lines):
    """Lines on standard error, as far as it takes them."""
    for line in lines:
        try:
            print(in_one_line(line, "\n"), file=sys.stderr)
        except OSError:
            return


def in_one_line(text, *kept):
    """Text without characters that would end its line, or that aren't text: they are escaped as Python does it."""
    return "".join(char if char.isprintable() or char in kept else repr(char)[1:-1] for char in text)


def number_of(word):
    """The number that a word is, of decimal digits; None if it isn't one."""
    return int(word) if word.isascii() and word.isdecimal() and len(word) < 20 else None

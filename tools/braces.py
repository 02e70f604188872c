"""Where a brace of a source is closed, and what of a source is code: for the tools that read sources as text."""
import re

# comments, texts, and single bytes and characters; a lifetime ('a) is none of them
NO_CODE = re.compile(r"""//[^\n]*|b?"(?:\\.|[^"\\])*"|b?'(?:\\[^\n]|[^'\\\n])'|b?'\\u\{[0-9a-fA-F]+\}'""", re.S)


def blank(part):
    return re.sub(r'[^\n]', ' ', part)


def code(source):
    """The source with blanks for its comments and texts, in which a brace opens and closes nothing."""
    return NO_CODE.sub(lambda m: blank(m.group()), source)


def closing(text, start):
    """The index behind the brace that closes the one at `start`."""
    depth = 0
    for i in range(start, len(text)):
        depth += {'{': 1, '}': -1}.get(text[i], 0)
        if depth == 0:
            return i + 1
    raise ValueError('a brace is not closed')

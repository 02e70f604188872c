"""Where a must-fail edit says that it is refused: for the tools that read edits."""

LINE = '# Refused at: '


def named(edit):
    """The lemmas and functions of the edit's line `# Refused at: NAME, NAME..`; none where it has no such line."""
    lines = [line for line in edit.read_text().split('\n') if line.startswith(LINE)]
    return [name.strip() for line in lines for name in line[len(LINE):].split(',') if name.strip()]

"""What ends the tool with status 2: mistakes, each a line that says what is wrong and what to do."""


class Trouble(Exception):
    """One or more mistakes, a line each."""

    def __init__(self, *lines):
        super().__init__('\n'.join(lines))
        self.lines = lines

"""A generator of numbers from which contests are made. It is the same at every run."""


class Draws:
    """The generator of Knuth's MMIX."""

    def __init__(self, state):
        self.state = state

    def below(self, n):
        self.state = (self.state * 6364136223846793005 + 1442695040888963407) % 2**64
        return (self.state >> 33) % n

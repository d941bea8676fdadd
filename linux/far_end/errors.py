"""What a request can come to beside being done."""


class Refused(Exception):
    """Linux doesn't take a call, and nothing was changed. The number is that of docs/KERNEL.md which fits the call; the words are the kernel's own."""

    def __init__(self, number, words):
        super().__init__(words)
        self.number = number


class Fault(Exception):
    """Something gave no answer, or one that can't be read, or a call was made in part. Nothing is known of the machine after it."""


class LeftOut(Exception):
    """Something of the machine that the profile can't say, with the reason."""

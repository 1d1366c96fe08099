"""Random numbers of our own: a seed gives the same script under every version of
Python."""


class Dice:
    """Random numbers: SplitMix64."""

    MASK = 2 ** 64 - 1

    def __init__(self, seed):
        self.state = seed & self.MASK

    def throw(self):
        self.state = (self.state + 0x9E3779B97F4A7C15) & self.MASK
        z = self.state
        z = ((z ^ z >> 30) * 0xBF58476D1CE4E5B9) & self.MASK
        z = ((z ^ z >> 27) * 0x94D049BB133111EB) & self.MASK
        return z ^ z >> 31

    def below(self, limit):
        return self.throw() % limit

    def between(self, least, most):
        return least + self.below(most - least + 1)

    def one_in(self, number):
        return self.below(number) == 0

    def one_of(self, choices):
        return choices[self.below(len(choices))]

    def shuffled(self, choices):
        left = list(choices)
        return [left.pop(self.below(len(left))) for _ in range(len(left))]

    def some(self, amount, choices):
        return self.shuffled(choices)[:amount]

    def byte(self):
        return self.below(256)

    def bytes(self, amount):
        return [self.byte() for _ in range(amount)]

    def many_bytes(self, amount):
        """As bytes(), with a throw for each eight of them."""
        throws = -(-amount // 8)
        return list(b"".join(self.throw().to_bytes(8, "little") for _ in range(throws))[:amount])

    def four(self):
        return list(self.below(2 ** 32).to_bytes(4, "little"))

    def sparse_byte(self):
        """A byte with few bits set."""
        return self.byte() & self.byte()

    def size(self):
        """N; the small tag more often, for its images are short."""
        return self.one_of([45, 45, 45, 45, 135, 231])

    def even_size(self):
        """N, each as often."""
        return self.one_of([45, 135, 231])

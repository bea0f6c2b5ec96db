"""A mapped turn in stages, by the equations of document 01 and item 12 of document 02, for tests/killed and tests/powercut: the words of the file
of examples/mapped.c, and which store comes after which. It knows nothing of the library."""
import math

PROGRESS, SCRATCH = 2, 3  # places in the file: m, n, the progress word, scratch, the block


def stage_count(m, n):
    """Two for each line, n + m + n or m + n lines, and the clearing."""
    return 2 * (n + m + n if math.gcd(m, n) > 1 else m + n) + 1


def turned(block, m, n):
    """The word at j*m+i is the one that stood at i*n+j."""
    return [block[i * n + j] for j in range(n) for i in range(m)]


def lines_of(m, n):
    """The lines of the turn, each as its places in the block, rising, and for each of them the place whose word it receives."""
    c = math.gcd(m, n)
    a, b = m // c, n // c
    lines = []
    if c > 1:
        for j in range(n):
            lines.append([(i * n + j, (i + j // b) % m * n + j) for i in range(m)])
    for i in range(m):
        source = {((i + j // b) % m + j * m) % n: j for j in range(n)}
        lines.append([(i * n + j, i * n + source[j]) for j in range(n)])
    for j in range(n):
        lines.append([(i * n + j, (j + i * n - i // a) % m * n + j) for i in range(m)])
    return lines


class Turn:
    """The turn of m by n. A stage is a list of moves: a place of the file that is written, and the place that is read for it, or None for a zero."""

    def __init__(self, m, n):
        self.m, self.n, self.longest = m, n, max(m, n)
        self.stages = stage_count(m, n)
        self.block = SCRATCH + self.longest
        self.size = self.block + m * n
        self.moves = []
        for line in lines_of(m, n):
            self.moves.append([(SCRATCH + k, self.block + source) for k, (_, source) in enumerate(line)])
            self.moves.append([(self.block + place, SCRATCH + k) for k, (place, _) in enumerate(line)])
        self.moves.append([(SCRATCH + k, None) for k in range(self.longest)])

    def fresh(self, block, scratch):
        """The file before the first start."""
        return [self.m, self.n, 0, *scratch, *block]

    def finished(self, block):
        """The file after an uncut turn."""
        return [self.m, self.n, self.stages, *[0] * self.longest, *turned(block, self.m, self.n)]

    def words_of(self, stage):
        """How many words a stage stores; behind the last stage as many as the last."""
        return len(self.moves[min(stage, self.stages - 1)])

    def stores(self, memory, budget):
        """The first stores that remain, as many as the budget says: place and word, each worked out when its turn comes. The caller makes them."""
        while memory[PROGRESS] < self.stages:
            stage = memory[PROGRESS]
            for place, source in self.moves[stage]:
                if budget == 0:
                    return
                budget -= 1
                yield place, 0 if source is None else memory[source]
            if budget == 0:
                return
            budget -= 1
            yield PROGRESS, stage + 1

    def called(self, memory, budget):
        """The file after a call with this budget."""
        memory = list(memory)
        for place, word in self.stores(memory, budget):
            memory[place] = word
        return memory

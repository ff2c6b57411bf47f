"""What is usual of a feed, and when it is late."""

import heapq

MICRO = 10**6

# A feed is late where nothing came for longer than so many times its usual gap, and never sooner than a minute. The usual gap is the
# longest but one, so that one outage does not become a habit; of fewer gaps than three nobody knows what is usual.
TIMES = 2
LEAST = 60
FEWEST = 3


class Habit:
    """The products of a feed, by their arrivals in microseconds: the last one, how many there are, and the longest gaps between them."""

    def __init__(self):
        self.last = None
        self.count = 0
        self.gaps = []

    def add(self, arrival):
        """Counts a product. Answers how long after the last one it came."""
        self.count += 1
        gap = 0 if self.last is None else max(0, arrival - self.last)
        if self.last is not None:
            self.add_gap(gap)
        self.last = max(arrival, self.last or 0)
        return gap

    def add_gap(self, gap):
        if len(self.gaps) < FEWEST or gap > self.gaps[-1]:
            self.gaps = heapq.nlargest(FEWEST, [*self.gaps, gap])

    def usual(self):
        """The usual gap in seconds, or None."""
        return self.gaps[1] / MICRO if len(self.gaps) >= FEWEST else None

    def age(self, now):
        """How old the last product is, in seconds."""
        return max(0, now - self.last / MICRO)

    def is_late(self, now):
        usual = self.usual()
        return usual is not None and self.age(now) > max(LEAST, TIMES * usual)

"""Coordinates under constraints: by longest paths, by least length, and by moves of single coordinates."""
from __future__ import annotations

import heapq
import math
from collections.abc import Sequence

BLOCK = 24  # tree edges that are compared before the best of them leaves
EPSILON = 1e-7
WIDTH_WEIGHT = 1000.0  # of the whole width or height, to that of a line's length


class Lengths:
    """A spanning tree of tight pairs, which moves subtrees until no move shortens the sum.

    The linear program is: minimise the sum of `weight * (value[high] - value[low])` over pairs, where `value[high] -
    value[low] >= distance` for each pair. Method: E. Gansner, E. Koutsofios, S. North, K. Vo, A technique for drawing directed
    graphs, IEEE Transactions on Software Engineering 19 (1993).
    """

    def __init__(self, count: int, order: Sequence[int], pairs: Sequence[tuple[int, int, float, float]]) -> None:
        """Return the least values of coordinates 0 to `count` - 1, of which 0 is the least, for pairs `low, high, distance,
        weight`. In the order, each pair's `low` comes before its `high`; each coordinate but 0 is the `high` of some pair."""
        self.pairs = pairs
        self.out: list[list[int]] = [[] for _ in range(count)]  # the pairs of which a coordinate is `low`
        self.into: list[list[int]] = [[] for _ in range(count)]
        self.gain = [0.0] * count  # of a subtree, by what the sum grows for each unit that the subtree moves up
        for number, (low, high, _, weight) in enumerate(pairs):
            self.out[low].append(number)
            self.into[high].append(number)
            self.gain[low] -= weight
            self.gain[high] += weight
        self.value = [0.0] * count
        self.parent = [-1] * count
        self.link = [-1] * count  # the pair that joins a coordinate to its parent
        self.below: list[set[int]] = [set() for _ in range(count)]
        for node in order:  # least values by longest paths; the tree is made of the pairs that settle them
            for number in self.out[node]:
                _, high, distance, _ = self.pairs[number]
                if self.link[high] < 0 or self.value[node] + distance > self.value[high]:
                    self.value[high], self.link[high], self.parent[high] = self.value[node] + distance, number, node
        for node in reversed(order):
            if self.parent[node] >= 0:
                self.below[self.parent[node]].add(node)
                self.gain[self.parent[node]] += self.gain[node]

    def shorten(self, most: int) -> None:
        """Exchange pairs of the tree, at most `most` times, while this shortens the sum."""
        count, place = len(self.value), 0
        for _ in range(most):
            best, amount, met = -1, EPSILON, 0
            for _ in range(count):
                place = place + 1 if place + 1 < count else 0
                if self.link[place] < 0:
                    continue
                is_up = self.pairs[self.link[place]][1] == place
                loss = -self.gain[place] if is_up else self.gain[place]
                if loss > EPSILON:
                    met += 1
                    if loss > amount:
                        best, amount = place, loss
                    if met >= BLOCK:
                        break
            if best < 0 or not self._exchange(best):
                return

    def _subtree(self, node: int) -> set[int]:
        """Return the coordinates at and below a node of the tree."""
        found, stack = {node}, [node]
        while stack:
            for child in self.below[stack.pop()]:
                found.add(child)
                stack.append(child)
        return found

    def _exchange(self, node: int) -> bool:
        """Return whether a subtree could move away from its parent until another pair became tight, which then joins it."""
        moved = self._subtree(node)
        is_up = self.pairs[self.link[node]][1] == node
        best, room = -1, float("inf")
        value, pairs = self.value, self.pairs
        for inner in sorted(moved):
            for number in self.out[inner] if is_up else self.into[inner]:
                low, high, distance, _ = pairs[number]
                if (high if is_up else low) not in moved:
                    slack = value[high] - value[low] - distance
                    if slack < room - EPSILON:
                        best, room = number, slack
        if best < 0:
            return False
        step = room if is_up else -room
        if step:
            for inner in moved:
                value[inner] += step
        self._join(node, best, is_up)
        return True

    def _join(self, node: int, number: int, is_up: bool) -> None:
        """Hang the subtree of a node on another pair."""
        low, high = self.pairs[number][:2]
        inner, outer = (low, high) if is_up else (high, low)
        total = self.gain[node]
        self._add(self.parent[node], -total)
        self.below[self.parent[node]].remove(node)
        above, link, lower = outer, number, 0.0  # reverse the parents between the node and the pair
        current = inner
        while True:
            parent, old_link, old_gain = self.parent[current], self.link[current], self.gain[current]
            self.parent[current], self.link[current], self.gain[current] = above, link, total - lower
            self.below[above].add(current)
            if current == node:
                break
            self.below[parent].remove(current)
            above, link, lower, current = current, old_link, old_gain, parent
        self._add(outer, total)

    def _add(self, node: int, amount: float) -> None:
        """Change the sums from a node to the root."""
        while node >= 0:
            self.gain[node] += amount
            node = self.parent[node]


class Solver:
    """Coordinates under constraints `value[to] - value[from] >= distance`, by longest paths."""

    def __init__(self, count: int, order: list[int], constraints: list[tuple[int, int, float]]) -> None:
        """Return a solver for coordinates in this order."""
        self.order = order
        self.after: list[list[tuple[int, float]]] = [[] for _ in range(count)]
        self.before: list[list[tuple[int, float]]] = [[] for _ in range(count)]
        best: dict[tuple[int, int], float] = {}
        self.place = [0] * count
        for place, number in enumerate(order):
            self.place[number] = place
        for low, high, distance in constraints:  # those of a box that is not a rectangle may run against the order
            if self.place[low] < self.place[high] and best.get((low, high), -1.0) < distance:
                best[low, high] = distance
        for (low, high), distance in best.items():
            self.after[low].append((high, distance))
            self.before[high].append((low, distance))
        self.value = [0.0] * count

    def settle(self) -> None:
        """Take the middle between the least and the greatest coordinates in the least width."""
        least = [0.0] * len(self.value)
        for number in self.order:
            for other, distance in self.after[number]:
                if least[other] < least[number] + distance:
                    least[other] = least[number] + distance
        width = max(least, default=0.0)
        greatest = [width] * len(self.value)
        for number in reversed(self.order):
            for other, distance in self.after[number]:
                if greatest[number] > greatest[other] - distance:
                    greatest[number] = greatest[other] - distance
        self.value = [(low + high) / 2 for low, high in zip(least, greatest)]

    def shorten(self, lengths: list[tuple[int, int, float, float]], reach: list[tuple[int, float, int, float]]) -> None:
        """Take the least sum of lengths, each times its weight, within the least width."""
        count = len(self.value)
        pairs = [(0, number + 1, 0.0, 0.0) for number in self.order]
        pairs += [(0, low + 1, before, 0.0) for low, before, _, _ in reach if before > 0]
        for number in self.order:
            pairs += [(number + 1, other + 1, distance, 0.0) for other, distance in self.after[number]]
        pairs += [(low + 1, high + 1, distance, weight) for low, high, distance, weight in lengths
                  if self.place[low] < self.place[high]]
        pairs += [(high + 1, count + 1, after, 0.0) for _, _, high, after in reach]
        pairs += [(0, count + 1, 0.0, WIDTH_WEIGHT)]
        found = Lengths(count + 2, [0, *(number + 1 for number in self.order), count + 1], pairs)
        found.shorten(40 * count)
        self.value = found.value[1:-1]

    def move_to(self, number: int, wanted: float) -> None:
        """Move one coordinate towards a place, as far as the constraints allow."""
        low, high = self.least(number), self.greatest(number)
        if low <= high:
            self.value[number] = min(max(wanted, low), high)

    def least(self, number: int, but: int = -1) -> float:
        """Return the least place that others leave a coordinate."""
        return max((self.value[other] + length for other, length in self.before[number] if other != but), default=-math.inf)

    def greatest(self, number: int, but: int = -1) -> float:
        """Return the greatest place that others leave a coordinate."""
        return min((self.value[other] - length for other, length in self.after[number] if other != but), default=math.inf)

    def move(self, number: int, ends: list[int]) -> None:
        """Move one coordinate to the middle of those at the other ends of its lines, as far as the constraints allow."""
        wanted = sorted(self.value[other] for other in ends)
        middle = wanted[len(wanted) // 2] if len(wanted) % 2 else (
            min(max(self.value[number], wanted[len(wanted) // 2 - 1]), wanted[len(wanted) // 2]))
        self.move_to(number, middle)

    def fit(self, low: int, high: int, lines: list[int], least: float, inset: float) -> None:
        """Make a box as large as its lines and its name need, about the middle of its lines."""
        first, last = self.least(low, high), self.greatest(high, low)
        inner = [self.value[line] for line in lines]
        start = min(inner) - inset if inner else self.value[low]
        end = max(inner) + inset if inner else self.value[high]
        size = max(least, end - start)
        middle = (start + end) / 2
        begin = min(max(middle - size / 2, first), last - size)
        self.value[low], self.value[high] = begin, begin + size


def in_order(order: Sequence[int], constraints: Sequence[tuple[int, int, float]]) -> list[int]:
    """Return coordinates in an order that constraints `low, high, distance` allow, as close as possible to a given one."""
    place = {number: at for at, number in enumerate(order)}
    after: dict[int, list[int]] = {}
    waits = dict.fromkeys(order, 0)
    for low, high in {(low, high) for low, high, _ in constraints if low != high}:
        after.setdefault(low, []).append(high)
        waits[high] += 1
    ready = [place[number] for number in order if not waits[number]]
    heapq.heapify(ready)
    found: list[int] = []
    while len(found) < len(order):
        if not ready:  # a cycle
            ready.append(min(place[number] for number, count in waits.items() if count > 0))
        number = order[heapq.heappop(ready)]
        if waits[number] < 0:
            continue
        waits[number] = -1
        found.append(number)
        for other in after.get(number, ()):
            waits[other] -= 1
            if waits[other] == 0:
                heapq.heappush(ready, place[other])
    return found

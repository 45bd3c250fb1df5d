"""Random choices that are the same for a seed under every version of Python."""
import random


class Dice:
    def __init__(self, seed):
        self.random = random.Random(seed).random  # the one method whose numbers no version changes

    def below(self, bound):
        return int(self.random() * bound)

    def between(self, least, greatest):
        return least + self.below(greatest - least + 1)

    def chance(self, part):
        return self.random() < part

    def pick(self, things):
        return things[self.below(len(things))]

    def weighted(self, weights):
        """One of the keys, as often as its weight says beside the others."""
        left = self.random() * sum(weights.values())
        for thing, weight in weights.items():
            left -= weight
            if left < 0:
                return thing
        return thing

    def shuffled(self, things):
        things = list(things)
        for place in range(len(things) - 1, 0, -1):
            other = self.below(place + 1)
            things[place], things[other] = things[other], things[place]
        return things

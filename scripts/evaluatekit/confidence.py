"""How far a share of random sets may be from that of all such sets, at a confidence of 95 percent.

By the normal distribution, with as many sets drawn for each utilization: the variance of a sum of
shares is the sum of their variances. A variance is that with two more sets that are accepted and
two that are not (Agresti and Coull 1998), or for a difference with half a set more that each method
alone accepts, and one more for both (Agresti and Min 2005), so that none is 0.
"""
from __future__ import annotations

import math
from dataclasses import dataclass

# So many standard deviations are on each side of a mean.
DEVIATIONS = 1.96


@dataclass(frozen=True)
class Estimate:
    """A share or a difference of shares in percent, and by how much it may be off."""

    value: float
    error: float

    def text(self) -> str:
        """As tables write it."""
        return f"{self.value:.1f} ± {self.error:.1f}"

    def signed(self) -> str:
        """As tables write differences."""
        return f"{self.value:+.1f} ± {self.error:.1f}"

    def words(self) -> str:
        """As sentences write differences, before the name of the second method."""
        if abs(self.value) <= self.error:
            return f"not distinguishable ({self.signed()} points) from"
        return (f"{abs(self.value):.1f} ± {self.error:.1f} points "
                f"{'above' if self.value > 0 else 'below'}")

    def is_above(self) -> bool:
        """Whether it is above 0 by its interval."""
        return self.value > self.error

    def is_below(self) -> bool:
        """Whether it is below 0 by its interval."""
        return self.value < -self.error


def estimate(weights: list[int], means: list[float], variances: list[float]) -> Estimate:
    """The weighted mean of strata."""
    value = sum(weight * mean for weight, mean in zip(weights, means, strict=True))
    variance = sum(weight ** 2 * one for weight, one in zip(weights, variances, strict=True))
    return Estimate(100 * value / sum(weights),
                    100 * DEVIATIONS * math.sqrt(variance) / sum(weights))


def weighted(utilizations: list[int], counts: list[int], each: int) -> Estimate:
    """Weighted schedulability: the utilizations of accepted sets over those of all sets. `counts`
    are those of each utilization, of as many sets each."""
    likely = [(count + 2) / (each + 4) for count in counts]
    return estimate(utilizations, [count / each for count in counts],
                    [one * (1 - one) / (each + 4) for one in likely])


def share(counts: list[int], each: int) -> Estimate:
    """The share of all sets that are accepted."""
    return weighted([1] * len(counts), counts, each)


def difference(utilizations: list[int], first: list[int], second: list[int],
               each: int) -> Estimate:
    """By how much the weighted schedulability of one method is above that of another over the same
    sets: `first` are the sets that it alone accepts, `second` those that the other alone does."""
    pairs = list(zip(first, second, strict=True))
    return estimate(utilizations, [(a - b) / each for a, b in pairs],
                    [paired_variance(a, b, each) for a, b in pairs])


def paired_variance(first: int, second: int, each: int) -> float:
    """The variance of a difference of shares over the same sets."""
    count = each + 2
    a, b = (first + 0.5) / count, (second + 0.5) / count
    return (a + b - (a - b) ** 2) / count

"""Medians, and how sure they are: bootstrap intervals (Efron 1979)."""

import random
import statistics

RESAMPLES = 1000
# Of a hundred intervals so many hold the median.
SURE = 95


def interval(statistic, *samples):
    """The value of a statistic of some samples, and its interval by the percentiles of samples that
    are drawn from them."""
    draws = random.Random(1)
    found = sorted(statistic(*[draws.choices(sample, k=len(sample)) for sample in samples])
                   for _ in range(RESAMPLES))
    cut = round((100 - SURE) / 200 * RESAMPLES)
    return statistic(*samples), found[cut], found[-1 - cut]


def median(sample):
    return interval(statistics.median, sample)


def ratio(sample, beside):
    return interval(lambda a, b: statistics.median(a) / statistics.median(b), sample, beside)

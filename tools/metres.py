"""Stations in metres: three doubles, and the whole-number station that they become.

Everything here is exact: a double is taken as the fraction of whole numbers that it is, and nothing
is multiplied or rounded as a double.
"""

import math

UNITS_PER_METRE = 200
REACH = 10000


class Out(ValueError):
    """A station that question 15 refuses, and what was found."""


def whole_number(double):
    """The whole number "nearest to its exact value times 200, halfway to the even one"; None for a
    double that is not finite.
    """
    if not math.isfinite(double):
        return None
    over, under = double.as_integer_ratio()
    below, rest = divmod(UNITS_PER_METRE * over, under)
    if 2 * rest == under:
        return below + below % 2
    return below if 2 * rest < under else below + 1


def whole_station(doubles):
    """The station in units that three doubles in metres become; Out where they become none."""
    numbers = tuple(whole_number(double) for double in doubles)
    for axis, double, number in zip("xyz", doubles, numbers):
        if number is None:
            raise Out("%s of the eye is %r metres, which is not finite" % (axis, double))
        if abs(number) > REACH:
            raise Out("%s of the eye is %r metres, beyond %d units" % (axis, double, REACH))
    return numbers

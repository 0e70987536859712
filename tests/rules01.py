"""Refusals 2 to 8 and the sampled types of a job, written from document 01 alone (the build scope, whose
rules now stand in docs/RULES.md), by an author who had not seen the library."""


def number(job, at):
    """A number of 16 bits, low byte first."""
    return job[at] + 256 * job[at + 1]


def refusal(job):
    """Refusals 2 to 7 in the order they are tried, as (number, place); (0, 0) if none is given.

    2 HEAD fewer than 12 job bytes, place 0; 3 ROWS n is 0 or over 256, place 0;
    4 WIDTH m is 0 or over 64, place 2; 5 LAYOUT an offset or the whole length is wrong,
    or the bytes lent are not of that length, place 6, 8 or 10 for the first wrong field,
    12 for the bytes lent; 6 WEIGHT a weight is 0 or over 1,000, place first such column,
    from 0; 7 STATE a byte is outside 33 to 126, place the first in row order, counted
    from 0 over all states.
    """
    if len(job) < 12:
        return (2, 0)
    n = number(job, 0)
    m = number(job, 2)
    if n == 0 or n > 256:
        return (3, 0)
    if m == 0 or m > 64:
        return (4, 2)
    length = 12 + 2 * m + n * m
    if number(job, 6) != 12:
        return (5, 6)
    if number(job, 8) != 12 + 2 * m:
        return (5, 8)
    if number(job, 10) != length:
        return (5, 10)
    if len(job) != length:
        return (5, 12)
    for column in range(m):
        weight = number(job, 12 + 2 * column)
        if weight == 0 or weight > 1000:
            return (6, column)
    for row in range(n):
        for column in range(m):
            state = job[12 + 2 * m + row * m + column]
            if state < 33 or state > 126:
                return (7, row * m + column)
    return (0, 0)


def sampled(job):
    """Equal rows are one sampled type, with the count of its rows, numbered by first row.

    For a job that refusals 2 to 7 pass: ((0, 0), types), each type (states, count of rows,
    first row); or ((8, row), []) if there are over 128 sampled types, the place being the
    row that is the 129th type.
    """
    n = number(job, 0)
    m = number(job, 2)
    types = []
    for row in range(n):
        start = 12 + 2 * m + row * m
        states = bytes(job[start:start + m])
        for k in range(len(types)):
            if types[k][0] == states:
                types[k] = (states, types[k][1] + 1, types[k][2])
                break
        else:
            if len(types) == 128:
                return ((8, row), [])
            types.append((states, 1, row))
    return ((0, 0), types)

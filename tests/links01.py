"""Distances, feasible links and purge, written from document 01 (called "01"
below: the build scope, whose rules now stand in docs/RULES.md) and document 000
(called "the paper": Bandelt, Forster, Roehl 1999) alone, by an author who had
not seen the library.

It is plain and slow on purpose.  Numbers are Python ints, so no sum wraps.
A row is a str or bytes; a type's number is its place in the list given.
Rows of one list are taken to be different, as types are.
"""


# ---------------------------------------------------------------- distance

def states(row):
    """The states of a row as bytes.

    01: "a state is one byte from 33 to 126, compared as a byte."
    """
    return row.encode("ascii") if isinstance(row, str) else bytes(row)


def distance(weights, u, v):
    """01: "Sum of the weights of the characters that differ"."""
    u, v = states(u), states(v)
    if not len(u) == len(v) == len(weights):
        raise ValueError("rows and weights differ in length")
    total = 0
    for weight, a, b in zip(weights, u, v):
        if a != b:
            total += weight
    return total


def distance_table(weights, rows):
    """All distances, table[i][j].

    Paper, step 1: "Determine the distance matrix d for the current sequence
    types".
    """
    return [[distance(weights, u, v) for v in rows] for u in rows]


# ------------------------------------------------------------------- links

def chain_leads(epsilon, table, i, j):
    """Whether a chain leads from i to j by steps allowed for that pair.

    01: "[a] chain of current types leads from one to the other with every
    step's distance plus epsilon below d", d being the distance of i and j.
    A plain graph search: every type reached is tried as the start of a step.
    """
    d = table[i][j]
    reached = {i}
    waiting = [i]
    while waiting:
        here = waiting.pop()
        for there in range(len(table)):
            if there not in reached and table[here][there] + epsilon < d:
                if there == j:
                    return True
                reached.add(there)
                waiting.append(there)
    return False


def feasible_of_distances(epsilon, table, i, j):
    """01: "Two current types at distance d are linked at epsilon exactly if
    no chain of current types leads from one to the other with every step's
    distance plus epsilon below d."

    One type is not two: a type is never linked to itself.
    """
    return i != j and not chain_leads(epsilon, table, i, j)


def feasible(weights, epsilon, rows, i, j):
    """The same, of rows.  01: "Feasible link"."""
    return feasible_of_distances(epsilon, distance_table(weights, rows), i, j)


def links_of_distances(epsilon, table):
    """01: "A link is lower number, higher number, length; links ascend by
    lower, then higher, each once."
    """
    found = []
    for i in range(len(table)):
        for j in range(i + 1, len(table)):
            if feasible_of_distances(epsilon, table, i, j):
                found.append((i, j, table[i][j]))
    return found


def links(weights, epsilon, rows):
    """The same, of rows: a list of (lower, higher, length)."""
    return links_of_distances(epsilon, distance_table(weights, rows))


def link_count(the_links, i):
    """How many of the links have type i at one end.

    Paper, step 3: "feasibly linked to at most two current sequence types".
    """
    count = 0
    for lower, higher, _length in the_links:
        if i == lower or i == higher:
            count += 1
    return count


# ------------------------------------------------------------------- purge

def obsolete_numbers(weights, epsilon, types):
    """01: "An inferred type with at most two feasible links is obsolete." and
    "Sampled types never go."  Ascending numbers.
    """
    the_links = links(weights, epsilon, [row for row, _inferred in types])
    found = []
    for i, (_row, inferred) in enumerate(types):
        if inferred and link_count(the_links, i) <= 2:
            found.append(i)
    return found


def purge(weights, epsilon, types):
    """01: "All obsolete types go together, links are found afresh, and this
    repeats until none is obsolete."  "A purged type is retired".

    types: list of (row, inferred) in order of making.  Returns (kept,
    retired): kept of the same form and in the same order, retired the rows
    pass by pass, those of one pass in ascending order of number.
    """
    kept = list(types)
    retired = []
    while True:
        going = obsolete_numbers(weights, epsilon, kept)
        if not going:
            return kept, retired
        retired += [kept[i][0] for i in going]
        kept = [one for i, one in enumerate(kept) if i not in going]


# -------------------------------------------------- the paper's Example 1

# Paper, section "Illustrations", "Example 1"; data from Table 1 ("Four
# Sequence Types, A, B, C, and D, Defined by Five Weighted Binary
# Characters").
#
#   names, rows  Table 1, columns "SEQUENCE TYPE" and "CHARACTERS" (the table
#                writes the states apart: A is "0 0 0 0 0").
#   weights      Table 1, last line, "Weights ... 1 3 2 1 2".
#   distances    Table 1, columns "DISTANCES".  The table gives the part above
#                the diagonal (A: 4 4 7, B: 6 5, C: 7); the part below is the
#                same numbers mirrored, and the diagonal is 0.
#   inferred     the median vectors the text writes out: U and V ("median
#                vectors U = 10000 and V = 01000"), W and X ("W (00100), and
#                X (11100)"), Y and Z ("Y (10100) and Z (01100)").
#
# Links the text itself names:
#
#   A B C D, every epsilon: "the three pairs A, B and A, C and B, D are
#       feasibly linked for every choice of [epsilon]".
#   A B C D, epsilon 0: these three start the run; the text names no other.
#   A B C D, epsilon 1: "Pair B, C must be checked also, but it does not
#       constitute an additional feasible link, since sequences B and C belong
#       to a common [delta]-step component at [delta] < 6 - [epsilon] = 5. We
#       then obtain the same feasible links".  So: A-B, A-C, B-D.
#   A B C D, epsilon 2: "At the outset, all links between the given sequence
#       types are feasible."  So all six.
#   A B C D U, epsilon 0: "feasible links from A to U, B to D, B to U, and C
#       to U. Notice that the pairs A, B and A, C are not joined by a feasible
#       link"; "Obtaining no further feasible links".
#   A B C D U V, epsilon 1: "feasible links connect A, B, U, and V among each
#       other; furthermore, they connect C to A and U as well as D to B and
#       V."
#   A B C D U V W X, epsilon 2: "the triplets C, U, W and D, V, X are
#       feasible" (two or more pairs of each are linked).
#   all ten, the final network: section "Postprocessing": "the network of
#       figure 4c has one nontrivial block, the cube, and two trivial blocks,
#       the pendant links."  (The figure itself isn't in our copy.)
FIRST_EXAMPLE = {
    "names": ["A", "B", "C", "D"],
    "rows": ["00000", "11000", "10110", "01101"],
    "weights": [1, 3, 2, 1, 2],
    "distances": [
        [0, 4, 4, 7],
        [4, 0, 6, 5],
        [4, 6, 0, 7],
        [7, 5, 7, 0],
    ],
    "inferred": {
        "U": "10000", "V": "01000", "W": "00100",
        "X": "11100", "Y": "10100", "Z": "01100",
    },
}


def example_row(name):
    """The row of a type of Example 1, sampled or inferred, by its letter."""
    if name in FIRST_EXAMPLE["inferred"]:
        return FIRST_EXAMPLE["inferred"][name]
    return FIRST_EXAMPLE["rows"][FIRST_EXAMPLE["names"].index(name)]


def example_links(epsilon, names):
    """Links among the named types of Example 1, as a set such as {"AB"}."""
    rows = [example_row(name) for name in names]
    found = links(FIRST_EXAMPLE["weights"], epsilon, rows)
    return {names[i] + names[j] for i, j, _length in found}


def example_purge(epsilon, names):
    """Purge of the named types of Example 1: (letters kept, letters gone)."""
    letter = {example_row(name): name for name in names}
    types = [(example_row(name), name in FIRST_EXAMPLE["inferred"])
             for name in names]
    kept, retired = purge(FIRST_EXAMPLE["weights"], epsilon, types)
    return ("".join(letter[row] for row, _inferred in kept),
            "".join(letter[row] for row in retired))


# --------------------------------------------------------------- self test

def check(what, got, want):
    """Stop with a message unless got is want."""
    if got != want:
        raise AssertionError("%s: got %r, want %r" % (what, got, want))


def test_scope():
    """The P cases of 01's table that concern links alone."""
    check("P3", links([7], 0, ["A", "B"]), [(0, 1, 7)])
    check("P4", links([1], 0, ["A", "B", "C"]),
          [(0, 1, 1), (0, 2, 1), (1, 2, 1)])
    check("P4 in bytes", links([1], 0, [b"A", b"B", b"C"]),
          [(0, 1, 1), (0, 2, 1), (1, 2, 1)])
    p8 = ["00", "01", "11"]
    check("P8", links([1, 1], 0, p8), [(0, 1, 1), (1, 2, 1)])
    check("P8 0-2 at 0", feasible([1, 1], 0, p8, 0, 2), False)
    check("P8 0-2 at 1", feasible([1, 1], 1, p8, 0, 2), True)
    check("P8 at 1", links([1, 1], 1, p8),
          [(0, 1, 1), (0, 2, 2), (1, 2, 1)])
    check("P8 counts", [link_count(links([1, 1], 0, p8), i) for i in range(3)],
          [1, 2, 1])


def test_example_distances():
    """The distances of Example 1, of Table 1 and of the text."""
    weights = FIRST_EXAMPLE["weights"]
    check("Table 1", distance_table(weights, FIRST_EXAMPLE["rows"]),
          FIRST_EXAMPLE["distances"])
    from_u = [distance(weights, example_row("U"), example_row(n))
              for n in "ABCD"]
    check("U to A, B, C, D", from_u, [1, 3, 3, 8])
    from_v = [distance(weights, example_row("V"), example_row(n))
              for n in "ABCDU"]
    check("V to A, B, C, D, U", from_v, [3, 1, 7, 4, 4])


def test_example_links():
    """What the text of Example 1 says of links."""
    three = {"AB", "AC", "BD"}
    all_six = {"AB", "AC", "AD", "BC", "BD", "CD"}
    check("start at 0", example_links(0, "ABCD"), three)
    check("start at 1", example_links(1, "ABCD"), three)
    check("start at 2", example_links(2, "ABCD"), all_six)
    for epsilon in list(range(20)) + [65535]:
        check("three pairs at every epsilon",
              three <= example_links(epsilon, "ABCD"), True)
        check("rows and Table 1 give the same links",
              links(FIRST_EXAMPLE["weights"], epsilon, FIRST_EXAMPLE["rows"]),
              links_of_distances(epsilon, FIRST_EXAMPLE["distances"]))
    check("with U at 0", example_links(0, "ABCDU"), {"AU", "BD", "BU", "CU"})
    check("with U and V at 1", example_links(1, "ABCDUV"),
          {"AB", "AU", "AV", "BU", "BV", "UV", "AC", "CU", "BD", "DV"})
    at_two = example_links(2, "ABCDUVWX")
    check("C, U, W", len(at_two & {"CU", "CW", "UW"}) >= 2, True)
    check("D, V, X", len(at_two & {"DV", "DX", "VX"}) >= 2, True)
    cube = {"AU", "BV", "WY", "XZ",     # first character, weight 1
            "AV", "BU", "WZ", "XY",     # second, weight 3
            "AW", "BX", "UY", "VZ"}     # third, weight 2
    check("cube and two pendant links", example_links(0, "ABCDUVWXYZ"),
          cube | {"CY", "DZ"})


def test_example_purge():
    """What the text says of purging among the types of Example 1.

    The last three are from the section on Foulds, Hendy and Penny: Y and Z
    beside the network of figure 4b "are subsequently removed as being
    obsolete"; X and Y with A, B, C, D, U "survive the purging of obsolete
    sequences"; Z added to these "remains obsolete and is removed".
    """
    check("figure 4a", example_purge(0, "ABCDU"), ("ABCDU", ""))
    check("figure 4b at 1", example_purge(1, "ABCDUV"), ("ABCDUV", ""))
    check("figure 4b at 0", example_purge(0, "ABCDUV"), ("ABCDUV", ""))
    check("eight types at 2", example_purge(2, "ABCDUVWX"), ("ABCDUVWX", ""))
    check("figure 4c", example_purge(0, "ABCDUVWXYZ"), ("ABCDUVWXYZ", ""))
    check("Y and Z beside 4b", example_purge(0, "ABCDUVYZ"), ("ABCDUV", "YZ"))
    check("X and Y", example_purge(0, "ABCDUXY"), ("ABCDUXY", ""))
    check("Z after X and Y", example_purge(0, "ABCDUXYZ"), ("ABCDUXY", "Z"))


def test_purge_passes():
    """A purge of more than one pass, reckoned by hand from 01's words.

    Sampled 1100, 1010, 0010; inferred, in order of making, 1000 and 0000.
    Pass 1: the links are the pairs at distance 1.  1000 has three (1100,
    1010, 0000) and stays; 0000 has two (0010, 1000) and goes.  Pass 2: 1000
    is left with two (1100, 1010) and goes.  So the second made goes first.
    """
    types = [("1100", False), ("1010", False), ("0010", False),
             ("1000", True), ("0000", True)]
    kept, retired = purge([1, 1, 1, 1], 0, types)
    check("kept", kept, types[:3])
    check("retired", retired, ["0000", "1000"])
    check("sampled with no link", purge([1], 0, [("A", False)]),
          ([("A", False)], []))
    check("inferred with no link", purge([1], 0, [("A", True)]), ([], ["A"]))


def test_purge_together():
    """01: "All obsolete types go together"; slip: "Purging one type, then
    asking again: the order shows in the result."  Reckoned by hand.

    Sampled 110, 210, 001; inferred 100 and 000.  100 is linked to 000 and 110
    (210 is reached by 110, 001 by 000), 000 to 100 and 001 (110 and 210 are
    reached by 100).  Both have two and go.  Were 100 to go alone, 000 would
    have three (001 at 1, 110 and 210 at 2) and stay; were 000 to go alone,
    100 would have two (110 at 1, 001 at 2) and go next.
    """
    types = [("110", False), ("210", False), ("001", False),
             ("100", True), ("000", True)]
    check("together", purge([1, 1, 1], 0, types),
          (types[:3], ["100", "000"]))
    check("000 without 100",
          links([1, 1, 1], 0, ["110", "210", "001", "000"]),
          [(0, 1, 1), (0, 3, 2), (1, 3, 2), (2, 3, 1)])


def self_test():
    """All checks; an AssertionError names the first that fails."""
    test_scope()
    test_example_distances()
    test_example_links()
    test_example_purge()
    test_purge_passes()
    test_purge_together()


if __name__ == "__main__":
    self_test()
    for eps in (0, 1, 2):
        shown = links(FIRST_EXAMPLE["weights"], eps, FIRST_EXAMPLE["rows"])
        print("epsilon", eps, " ".join(
            "%s-%s:%d" % (FIRST_EXAMPLE["names"][i],
                          FIRST_EXAMPLE["names"][j], length)
            for i, j, length in shown))
    print("self test passed")

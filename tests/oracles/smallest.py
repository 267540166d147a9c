"""The smallest table of a ledger, by document 01's definition on bit strings, and two other ways to its count.

Hop 0 is discard. An address without a route has it, and above the empty string it is in force."""
from functools import cache
from itertools import product


def strings(routes):
    """The strings that have a held route below them, and the hop of a string that has none: it has that hop throughout."""
    def hop(string):
        return next((routes[string[:k]] for k in range(len(string), -1, -1) if string[:k] in routes), 0)
    return {prefix[:k] for prefix in routes for k in range(len(prefix))}, hop


def smallest(routes):
    """Pairs of a string and a hop, by address and then by length."""
    inner, hop = strings(routes)

    @cache
    def hops(string):
        if string not in inner:
            return {hop(string)}
        zero, one = hops(string + "0"), hops(string + "1")
        return zero & one or zero | one

    entries = []

    def down(string, above):
        if above not in hops(string):
            above = min(hops(string))
            entries.append((string, above))
        if string in inner:
            down(string + "0", above)
            down(string + "1", above)

    down("", 0)
    return sorted(entries, key=lambda entry: (entry[0].ljust(32, "0"), len(entry[0])))


def fewest(routes):
    """The least count of any table that agrees: each string is tried with no entry and with an entry of every hop."""
    inner, hop = strings(routes)

    @cache
    def cost(string, above):
        if string not in inner:
            return int(hop(string) != above)
        return min(below(string, above), 1 + least_below(string))

    def below(string, here):
        """Where `here` is in force from the string on."""
        return cost(string + "0", here) + cost(string + "1", here)

    @cache
    def least_below(string):
        return min(below(string, here) for here in {0} | set(routes.values()))

    return cost("", 0)


def by_force():
    """Of all tables of width 2 with the hops 0 to 2, with a route of length 0 or without: none that agrees has fewer entries."""
    prefixes = ["", "0", "1", "00", "01", "10", "11"]

    def answers(table):
        return tuple(next((table[a[:k]] for k in (2, 1, 0) if a[:k] in table), 0) for a in prefixes[3:])

    least, tables = {}, []
    for hops in product((None, 0, 1, 2), repeat=len(prefixes)):
        tables.append({prefix: hop for prefix, hop in zip(prefixes, hops) if hop is not None})
        least[answers(tables[-1])] = min(least.get(answers(tables[-1]), 9), len(tables[-1]))
    for table in tables:
        written = smallest(table)
        assert answers(dict(written)) == answers(table), table
        assert len(written) == least[answers(table)] == fewest(table), table

"""cases.py: writes what the test programs are run on, and what they must print, as tests/reading.py reads document 01 with CR 5, 6, 7, 8 and 11
of 02.

crates/readings: files of every fault at every kind of place, each with its reading: the counts, or the refusal's number and offset.
crates/listings: the worked cases, pots that reach what chance seldom does, made rounds and damaged ones, each with its listing.
In both, files with caps come after those without, but for the worked and the directed ones, and those of drawn numbers come last."""
import collections
import itertools
import math
import os
import random
import re
import struct

import making
import reading

ROOT = os.path.join(os.path.dirname(os.path.abspath(__file__)), '..')

# one round with every kind of record: two delivery years and one for valuation only
YEARS = [(365, 1, 90), (366, 1, 0), (365, 0, 10000)]
POTS = [(50000, 60000, 70000), (1000000000000, 0, 1)]
TECHNOLOGIES = [(0, 10000, [(20000, 5000, 10000), (10000, 0, 3000), (0, 500000, 0)]), (1, 0, [(500000, 0, 1), (10, 0, 9999), (0, 0, 10000)])]
APPLICATIONS = [(0, 0, 365, 7, 300000, 2 ** 63), (1, 1, 366, 0, 1, 0), (0, 1, 1, 65535, 250, 1)]
BIDS = [(0, 0, 365, 300000, 4000), (0, 0, 100, 1, 4007), (0, 1, 366, 200, 3990), (2, 1, 1, 250, 10000), (2, 1, 1, 200, 9990)]
TABLES = [YEARS, POTS, TECHNOLOGIES, APPLICATIONS, BIDS]
# the edges of every range, and a little beyond
EDGES = [0, 1, 2, 3, 4, 9, 10, 11, 100, 364, 365, 366, 367, 9999, 10000, 10001, 20000, 65535, 300000, 300001, 500000, 500001, 500010,
         10 ** 12, 10 ** 12 + 1, 2 ** 32 - 1, 2 ** 64 - 1]
WIDTHS = [[2, 2, 2], [8, 8, 8], [2, 2] + [4, 4, 2] * 3, [2, 2, 2, 2, 4, 8], [2, 2, 2, 4, 4]]
# the same with caps: one that binds, and none
CAPS = [250, making.NO_CAP]
CAPPED_WIDTHS = WIDTHS[:1] + [[8, 8, 8, 4]] + WIDTHS[2:]
# and with drawn numbers: one that counts, and the greatest
DRAWN = [(250, 7), (making.NO_CAP, making.MOST_DRAWN)]
DRAWN_WIDTHS = WIDTHS[:1] + [[8, 8, 8, 4, 4]] + WIDTHS[2:]
# ties of so many at most are listed a second time
FEW = 10
CAP_EDGES = [0, 1, 249, 251, making.MOST_CAP - 1, making.MOST_CAP, making.MOST_CAP + 1, 2 ** 31, making.NO_CAP - 1, making.NO_CAP]


def flat(record):
    return [x for f in record for x in (flat(f) if isinstance(f, (list, tuple)) else [f])]


def written(tables, added=0):
    """The bytes of tables whose records are flat, with so much added to the count of pots."""
    out = b''
    forms = {0: WIDTHS, making.WITH_CAPS: CAPPED_WIDTHS, making.WITH_CAPS + making.WITH_DRAWN: DRAWN_WIDTHS}
    for s, (records, widths) in enumerate(zip(tables, forms[added])):
        count = len(records) + (added if s == 1 else 0)
        out += struct.pack('<H', count) + b''.join(x.to_bytes(w, 'little') for r in records for x, w in zip(r, widths))
    return out


def edited():
    """The round with one field of one record at an edge, or one record twice, or left out."""
    tables = [[flat(r) for r in records] for records in TABLES]
    assert written(tables) == making.round_file(*TABLES)
    yield written(tables)
    for s, records in enumerate(tables):
        for i, record in enumerate(records):
            for f, width in enumerate(WIDTHS[s]):
                for x in EDGES:
                    if x < 256 ** width and x != record[f]:
                        yield written(tables[:s] + [records[:i] + [record[:f] + [x] + record[f + 1:]] + records[i + 1:]] + tables[s + 1:])
            yield written(tables[:s] + [records[:i] + [record] + records[i:]] + tables[s + 1:])
            yield written(tables[:s] + [records[:i] + records[i + 1:]] + tables[s + 1:])


def counted():
    """Counts at the edges of their ranges, with records for them and without."""
    tables = [[flat(r) for r in records] for records in TABLES]
    for s, most in enumerate((8, 4, 32, 64, 256)):
        for n in (0, 1, most - 1, most, most + 1):
            more = [list(tables[s][-1]) for _ in range(n)]
            for i, record in enumerate(more):
                if s == 3:
                    record[3] = i
            yield written(tables[:s] + [more] + tables[s + 1:])
        whole = written(tables)
        at = sum(2 + len(t) * sum(w) for t, w in zip(tables[:s], WIDTHS[:s]))
        for n in (0, 1, most, most + 1, 255, 256, 65535):
            yield whole[:at] + struct.pack('<H', n) + whole[at + 2:]


def many_bids():
    """An application's tenth and eleventh bid, its third and fourth in a year; prices of one application and of two; odd lowest bids."""
    def four_years(bids):
        figures = [(20000, 0, 10000)] * 4
        return making.round_file([(365, 1, 0)] * 4, [(0,) * 4], [(0, 10000, figures)], [(0, 0, 365, a, 100, 0) for a in range(2)], bids)
    for n in (3, 4, 9, 10, 11, 12):
        for spread in (1, 2, 3, 4):
            yield four_years([(0, k % spread, 365, 100, 4000 + 10 * k) for k in range(n)])
    for prices in ((4000, 4000), (4000, 4001), (4001, 4000), (4001, 4002), (4003, 4001, 4002), (0, 1)):
        for apart in (False, True):
            yield four_years([(k if apart and k < 2 else 0, 0, 365, 100, p) for k, p in enumerate(prices)])
            yield four_years([(0, k if apart else 0, 365, 100, p) for k, p in enumerate(prices)])


def capped():
    """The round with caps: a cap or a budget at an edge, a pot twice or left out, every cut in the pots, faults behind them; and, with caps and
    without, a count of pots with each thing added."""
    tables = [[flat(r) for r in records] for records in TABLES]
    plain = written(tables)
    pots = tables[1] = [p + [cap] for p, cap in zip(tables[1], CAPS)]
    whole = written(tables, making.WITH_CAPS)
    assert whole == making.round_file(*TABLES, CAPS)
    yield whole

    def with_pots(changed):
        return written(tables[:1] + [changed] + tables[2:], making.WITH_CAPS)
    for i, pot in enumerate(pots):
        for cap in CAP_EDGES:
            yield with_pots(pots[:i] + [pot[:3] + [cap]] + pots[i + 1:])
            # a budget out of range beside it, in the same pot and in the other
            yield with_pots(pots[:i] + [[10 ** 12 + 1] + pot[1:3] + [cap]] + pots[i + 1:])
            yield with_pots([(p if k == i else [10 ** 12 + 1] + p[1:])[:3] + [cap if k == i else p[3]] for k, p in enumerate(pots)])
        for f in range(3):
            for budget in (10 ** 12, 10 ** 12 + 1, 2 ** 64 - 1):
                yield with_pots(pots[:i] + [pot[:f] + [budget] + pot[f + 1:]] + pots[i + 1:])
        yield with_pots(pots[:i] + [pot] + pots[i:])
        yield with_pots(pots[:i] + pots[i + 1:])
    for n in range(6):
        yield with_pots([pots[0]] * n)
    at = len(written(tables[:1]))
    end = len(written(tables[:2], making.WITH_CAPS))
    for n in range(at, end + 3):
        yield whole[:n]
    for added in (0, 16384, 32768, 49152):
        for n in range(6):
            for file in (whole, plain):
                yield file[:at] + struct.pack('<H', n + added) + file[at + 2:]
    for n in (8, 32, 8192, 16383, 32767, 49151, 65535):
        for file in (whole, plain):
            yield file[:at] + struct.pack('<H', n) + file[at + 2:]
    for s in (2, 3, 4):
        for i, record in enumerate(tables[s]):
            yield written(tables[:s] + [tables[s][:i] + [[65535] + record[1:]] + tables[s][i + 1:]] + tables[s + 1:], making.WITH_CAPS)
    yield written(tables[:4] + [[b[:4] + [b[4] + 1] for b in tables[4]]], making.WITH_CAPS)
    for tail in (b'\0', bytes(20)):
        yield whole + tail


def drawn():
    """The round with drawn numbers: any number, a cap or a budget at an edge beside it, a pot twice or left out, every cut in the pots, faults behind
    them; and a count of pots with each thing added."""
    both = making.WITH_CAPS + making.WITH_DRAWN
    tables = [[flat(r) for r in records] for records in TABLES]
    pots = tables[1] = [p + list(limits) for p, limits in zip(tables[1], DRAWN)]
    whole = written(tables, both)
    assert whole == making.round_file(*TABLES, DRAWN)
    yield whole

    def with_pots(changed):
        return written(tables[:1] + [changed] + tables[2:], both)
    for i, pot in enumerate(pots):
        for number in (0, 1, 65535, making.MOST_CAP, making.MOST_CAP + 1, 2 ** 31, making.MOST_DRAWN - 1, making.MOST_DRAWN):
            yield with_pots(pots[:i] + [pot[:4] + [number]] + pots[i + 1:])
        for cap in CAP_EDGES:
            yield with_pots(pots[:i] + [pot[:3] + [cap] + pot[4:]] + pots[i + 1:])
        for f in range(3):
            yield with_pots(pots[:i] + [pot[:f] + [10 ** 12 + 1] + pot[f + 1:]] + pots[i + 1:])
        yield with_pots(pots[:i] + [pot] + pots[i:])
        yield with_pots(pots[:i] + pots[i + 1:])
    for n in range(6):
        yield with_pots([pots[0]] * n)
    at, end = len(written(tables[:1])), len(written(tables[:2], both))
    for n in range(at, end + 3):
        yield whole[:n]
    for added in (0, 16384, 32768, 49152):
        for n in range(6):
            yield whole[:at] + struct.pack('<H', n + added) + whole[at + 2:]
    for s in (2, 3, 4):
        yield written(tables[:s] + [tables[s][:-1] + [[65535] + tables[s][-1][1:]]] + tables[s + 1:], both)
    yield written(tables[:4] + [[b[:4] + [b[4] + 1] for b in tables[4]]], both)
    yield whole + b'\0'


def largest(caps=None):
    """A file of 7,866 bytes, of 7,882 with caps, or of 7,898 with drawn numbers: every count at its greatest."""
    figures = [(20000 if k < 4 else 0, 0, 10000) for k in range(8)]
    applications = [(a % 32, 0, 365, a, 100, 0) for a in range(64)]
    bids = [(a, k, 365, 100, 4000 + 10 * k) for a in range(64) for k in range(4)]
    return making.round_file([(365, int(k < 4), 0) for k in range(8)], [(10 ** 6,) * 8] * 4, [(t % 4, 10000, figures) for t in range(32)], applications,
                             bids, caps)


LARGEST_CAPS = [0, 1600, making.MOST_CAP, making.NO_CAP]
LARGEST_DRAWN = list(zip(LARGEST_CAPS, (0, 1, 123456789, making.MOST_DRAWN)))


def files():
    yield from (b'', bytes(1), bytes(100), bytes(7866), bytes([255]) * 50, largest(), largest() + b'\0', largest()[:-1])
    a = making.round_a()
    for n in range(len(a)):
        yield a[:n]
    for tail in (b'\0', b'\1\2\3', bytes(20)):
        yield a + tail
    yield from edited()
    yield from counted()
    yield from many_bids()
    rnd = random.Random(1)
    for _ in range(300):
        yield making.harm_anywhere(rnd, making.harm_anywhere(rnd, making.without_caps(rnd)))
    yield from (bytes(7882), largest(LARGEST_CAPS), largest(LARGEST_CAPS) + b'\0', largest(LARGEST_CAPS)[:-1])
    a = making.round_a(cap=200)
    for n in range(len(a) + 1):
        yield a[:n]
    yield from capped()
    rnd = random.Random(3)
    for k in range(300):
        file = making.with_caps(rnd) if k % 3 else making.without_caps(rnd)
        file = making.harm_pots(rnd, file)
        yield making.harm_anywhere(rnd, file) if k % 4 == 0 else file
    yield from (bytes(7898), largest(LARGEST_DRAWN), largest(LARGEST_DRAWN) + b'\0', largest(LARGEST_DRAWN)[:-1])
    a = making.round_a(cap=(200, 1))
    for n in range(len(a) + 1):
        yield a[:n]
    yield from drawn()
    rnd = random.Random(5)
    for k in range(120):
        file = making.harm_pots(rnd, making.with_drawn(rnd))
        yield making.harm_anywhere(rnd, file) if k % 4 == 0 else file


def pots():
    """Pots that reach what chance seldom does, beyond making.directed: ties over delivery years with valuation years behind them, wide ties, chains
    that another application breaks, silent applications alone, beside a bid and beside ties, winners at no cost, budgets of 0 and of
    exactly the total, totals within a pound of the budget, and the greatest total."""
    def years(d, y, budgets, applications, bids, reference=0):
        figures = [(20000 if k < d else 0, reference, 10000) for k in range(y)]
        rows = [(0, start, 365, draw, capacity, 0) for start, draw, capacity in applications]
        return making.round_file([(365, int(k < d), 0) for k in range(y)], [budgets], [(0, 10000, figures)], rows, bids)
    for n in (2, 3, 4, 5, 6, 7, 8, 9, 10, 11, 13, 21):
        for d in (2, 4):
            apps = [(a % d, n - a, 100 + 10 * (a % 3)) for a in range(n)]
            bids = [(a, a % d, 365, 100, 4000) for a in range(n)]
            for share in (1, 2, 3):
                yield years(d, d + 1, (35040 * share,) * (d + 1), apps, bids)
            # the last of them, whose draw is the lowest, is silent
            yield years(d, d + 1, (35040 * 2,) * (d + 1), apps, bids[:-1])
    chain = [(0, 0, 365, 200 - 10 * i, 6000 + 10 * i) for i in range(3)]
    for other in (None, 6000, 6005, 6010, 6015, 6020, 7000):
        bids = chain + ([] if other is None else [(1, 0, 365, 100, other // 10 * 10)])
        for budget in (0, 60000, 90000, 94608, 94607, 100000, 150000):
            yield years(1, 2, (budget, budget), [(0, 0, 200), (0, 1, 100)], bids)
            yield years(2, 2, (budget, budget), [(0, 0, 200), (1, 1, 100)], [b if b[0] == 0 else (1, 1) + b[2:] for b in bids])
    for n in range(1, 6):
        for budget in (0, 175199, 175200, 350400, 10 ** 6):
            yield years(1, 1, (budget,), [(0, a, 100) for a in range(n)], [])
            yield years(1, 1, (budget,), [(0, a, 100) for a in range(n)], [(0, 0, 365, 100, 20000)])
    # eleven and twenty at one price; twenty-one, and twenty-one of which one is dropped, or ten; and ties of 11 to 13
    yield from (making.at_one_price(n, fit) for n, fit in ((11, 5), (20, 10), (21, 10)))
    yield from (making.at_one_price(n, fit, None, dropped) for n, fit, dropped in ((20, 10, 1), (11, 5, 10), (20, 0, 1), (21, 10, 3)))
    for n in (11, 12, 13):
        yield from (making.pay_for_two(n), making.all_different(n), making.beside_the_silent(n))
    # more that are silent, beside a tie that is broken and beside one too wide
    for n in (10, 11, 21):
        for more in (1, 2, 5):
            yield years(1, 2, (35040 * 2, 35040 * 2), [(0, n + more - a, 100) for a in range(n + more)], [(a, 0, 365, 100, 4000) for a in range(n)])
    for price in (0, 10, 4990, 5000, 5010):
        yield years(1, 1, (0,), [(0, 0, 100), (0, 1, 100)], [(0, 0, 365, 100, price)], reference=5000)
        yield years(1, 1, (88,), [(0, 0, 100), (0, 1, 100)], [(0, 0, 365, 100, price), (1, 0, 365, 100, price)], reference=5000)
    # five over the reference, 0.01, 0.02 and 0.03 MW cost 44, 88 and 132 pence
    for capacities in itertools.product((1, 2, 3), repeat=3):
        apps = [(0, a, capacity) for a, capacity in enumerate(capacities)]
        for prices in ((10, 10, 10), (10, 20, 30)):
            bids = [(a, 0, 365, capacity, price) for a, (capacity, price) in enumerate(zip(capacities, prices))]
            for budget in (1, 2, 3, 4, 6):
                yield years(1, 1, (budget,), apps, bids, reference=5)
    for n in range(1, 11):
        bids = [(a, 0, 365, 1, 20000) for a in range(n)]
        for budget in (44 * n // 100, 44 * n // 100 + 1):
            yield years(1, 1, (budget,), [(0, a, 1) for a in range(n)], [], reference=19995)
            yield years(1, 1, (budget,), [(0, a, 1) for a in range(n)], bids, reference=19995)
            yield years(1, 1, (budget,), [(0, a, 1) for a in range(n)], bids[1:], reference=19995)
    # the greatest total that there is: 64 applications of V5, with a budget of just that and a pound less; all silent, all but one, and none
    for budget in (843264000000, 843263999999):
        for bidding in (0, 1, 64):
            yield making.round_file([(366, 1, 0)], [(budget,)], [(0, 10000, [(500000, 0, 10000)])],
                                    [(0, 0, 366, a, 300000, 0) for a in range(64)], [(a, 0, 366, 300000, 500000) for a in range(bidding)])


def pots_with_caps():
    """Pots that reach with a cap what chance seldom does, beyond making.caps: ties over delivery years, of up to 13 that remain and of 21, chains
    that another application breaks, every cap for a few small bids, with money for all and not, and the greatest capacity."""
    def years(d, y, budget, cap, applications, bids):
        figures = [(20000 if k < d else 0, 0, 10000) for k in range(y)]
        rows = [(0, start, 365, draw, capacity, 0) for start, draw, capacity in applications]
        return making.round_file([(365, int(k < d), 0) for k in range(y)], [(budget,) * y], [(0, 10000, figures)], rows, bids, [cap])
    plenty = 10 ** 7
    for n in (2, 3, 4, 5, 6, 7, 8, 9, 10, 11, 12, 21):
        for d in (1, 3):
            apps = [(a % d, n - a, 100 + 10 * (a % 3)) for a in range(n)]
            bids = [(a, a % d, 365, 100 + 10 * (a % 3) - (a % 2), 4000) for a in range(n)]
            for cap in (110, 219, 220, 329, 120 * n):
                yield years(d, d + 1, plenty, cap, apps, bids)
            yield years(d, d + 1, 35040 * 3, 330, apps, bids)
    # so many that fit the cap alone, beside others that the cap alone drops: eleven are chosen from, twenty-one are outcome 2
    for n in (0, 1, 10, 11, 21):
        for more in (1, 2, 11):
            bids = [(a, 0, 365, 100 if a < n else 201, 4000) for a in range(n + more)]
            yield years(1, 2, 35040 * 3, 200, [(0, n + more - a, b[3]) for a, b in enumerate(bids)], bids)
    # twelve, which the cap leaves as they are, or three of them, or none
    yield from (making.three_small(12, cap) for cap in (200, 199, 59))
    chain = [(0, 0, 365, 200 - 10 * i, 6000 + 10 * i) for i in range(3)]
    for other in (None, 6000, 6010, 6020, 7000):
        bids = chain + ([] if other is None else [(1, 0, 365, 100, other)])
        for cap in (99, 100, 179, 180, 189, 190, 199, 200, 280, 299, 300):
            for budget in (plenty, 100000):
                yield years(1, 2, budget, cap, [(0, 0, 200), (0, 1, 100)], bids)
            yield years(2, 2, plenty, cap, [(0, 0, 200), (1, 1, 100)], [b if b[0] == 0 else (1, 1) + b[2:] for b in bids])
    # at 10 and at 20 a hundredth of a MW costs 88 and 176 pence
    for capacities in ((1, 1, 1), (1, 2, 3), (3, 2, 1), (3, 1, 2), (2, 2, 3), (2, 3, 3)):
        apps = [(0, a, capacity) for a, capacity in enumerate(capacities)]
        for prices in ((10, 10, 10), (10, 20, 30)):
            bids = [(a, 0, 365, capacity, price) for a, (capacity, price) in enumerate(zip(capacities, prices))]
            for cap in range(sum(capacities)):
                yield years(1, 1, 10 ** 6, cap, apps, bids)
                yield years(1, 1, 4, cap, apps, bids)
    for cap in (making.MOST_CAP, 19200000, 19199999, 300000, 299999):
        for bidding in (0, 1, 64):
            yield making.round_file([(366, 1, 0)], [(10 ** 12,)], [(0, 10000, [(500000, 0, 10000)])],
                                    [(0, 0, 366, a, 300000, 0) for a in range(64)],
                                    [(a, 0, 366, 300000, 10 * a) for a in range(bidding)], [cap])


def wide_ties_drawn():
    """Eleven, of which 462 combinations are kept, and twenty, of which 184,756 are: the first place, the last, and one beyond; with a cap; ties too wide
    for any number; two wide ties in turn; and a last year that costs nothing for some, or for all."""
    for number in (0, 1, 461, 462, making.MOST_DRAWN):
        yield making.at_one_price(11, 5, (making.NO_CAP, number))
    yield making.at_one_price(11, 10, (400, 329))
    yield making.at_one_price(20, 10, (making.NO_CAP, 184755))
    yield making.at_one_price(20, 10, (making.NO_CAP, 184756), 1)
    yield from (making.at_one_price(11, 5, (making.NO_CAP, number), 10) for number in (460, 463))
    yield from (making.at_one_price(n, 10, (making.NO_CAP, 184755), dropped) for n, dropped in ((21, 0), (21, 2), (22, 0)))
    # 924 combinations, then 462 with what is left of the number
    for number in (0, 923, 924, 924 * 461, 924 * 462 - 1, making.MOST_DRAWN):
        yield making.delivered((8760 * 6, 8760 * 6 + 9636 * 5), (making.NO_CAP, number), [(int(a > 11), a, 100) for a in range(23)],
                               [(a, int(a > 11), 100, 1100 if a > 11 else 1000) for a in range(23)])
    for number in (0, 100, 10 ** 9):
        yield making.free_at_last(35040 * 5, (600, number), (100,) * 8 + (200,) * 4)
        yield making.free_at_last(35040 * 6, (making.NO_CAP, number), (100, 130, 170) * 4)


def pots_drawn():
    """Pots whose drawn number reaches what chance seldom does, beyond making.drawn: every place of ties all alike and of one with some that cost
    nothing in the last year, the widest ties, ties in all four delivery years, and ties over years."""
    for n, fit in ((4, 2), (5, 3), (6, 1)):
        yield from (making.alike(n, fit, (making.NO_CAP, number)) for number in range(math.comb(n, fit) + 1))
    for number in (0, 1, 44, 45, 125, 251, 252, 10 ** 9, making.MOST_DRAWN):
        for fit in (2, 5, 9):
            yield making.alike(10, fit, (making.NO_CAP, number))
        yield making.alike(10, 10, (700, number))
        yield making.free_at_last(35040 * 5, (600, number), (100,) * 10)
    yield from (making.alike(n, 3, (making.NO_CAP, 1)) for n in (11, 12, 13))
    yield making.alike(11, 5, (making.NO_CAP, 3))
    yield from wide_ties_drawn()
    for number in range(7):
        yield making.some_free_at_last((making.NO_CAP, number))
        yield making.raised_at_last(number)
    for widths in ((2, 2, 2, 2), (4, 3, 2, 1), (1, 2, 3, 4), (7, 7, 7, 7)):
        whole = math.prod(widths)
        yield from (making.ties_in_years(widths, (making.NO_CAP, number)) for number in sorted({0, 1, whole - 1, whole, whole // 2, making.MOST_DRAWN}))
    # tied over so many years, each of which pays for one more; a bid of another year may be added where none of its own can
    for d in (2, 3, 4):
        for n in (4, 6, 7):
            applications = [(a % d, n - a, 100 + 100 * (a % 4 == 3)) for a in range(n)]
            bids = [(a, year, capacity, 4000) for a, (year, _, capacity) in enumerate(applications)]
            for number in (0, 1, 5, making.MOST_DRAWN):
                yield making.delivered([35040 * (y + 1) for y in range(d)], (making.NO_CAP, number), applications, bids)
                yield making.delivered([10 ** 7] * d, (100 * (n // 2), number), applications, bids)


def rounds():
    draws = list(making.worked_draws().values()) + making.drawn()
    yield from (file for file in list(making.worked().values()) + making.directed() if file not in draws)
    yield from pots()
    rnd = random.Random(7)
    yield from (making.wide_tie(rnd, 0) for _ in range(16))
    rnd = random.Random(2)
    for k in range(400):
        file = making.without_caps(rnd)
        yield making.harm_anywhere(rnd, file) if k % 4 == 0 else file
    yield from pots_with_caps()
    rnd = random.Random(8)
    yield from (making.wide_tie(rnd, 1) for _ in range(16))
    rnd = random.Random(4)
    for k in range(300):
        file = making.with_caps(rnd)
        yield making.damage(rnd, file) if k % 5 == 0 else file
    yield from draws
    yield from pots_drawn()
    rnd = random.Random(9)
    yield from (making.wide_tie(rnd, 2) for _ in range(24))
    rnd = random.Random(6)
    for k in range(150):
        file = making.with_drawn(rnd)
        yield making.damage(rnd, file) if k % 5 == 0 else file


def told(file):
    try:
        r = reading.read(file)
    except reading.Refused as e:
        return 'refused %d at %d' % e.args
    return 'accepted %d %d %d %d %d %d' % (len(r.years), r.deliveries, len(r.pots), len(r.technologies), len(r.applications), len(r.bids))


def silent(file):
    """What each silent application of a round comes to: its pot's outcome and, in an auction, what stands beside it."""
    try:
        r = reading.read(file)
    except reading.Refused:
        return
    pots, applications, reasons = reading.told(r)
    in_pot = [r.technologies[a.technology].pot for a in r.applications]
    bidding = {b.application for b in r.bids}
    for a in set(range(len(r.applications))) - bidding:
        others = [x for x in bidding if in_pot[x] == in_pot[a]]
        yield 'outcome %d' % pots[in_pot[a]].outcome
        if pots[in_pot[a]].outcome != 1:
            continue
        if not others:
            yield 'no bid in the pot'
        if any(applications[x].won for x in others):
            yield 'a winner'
        tied = [b.application for b, reason in zip(r.bids, reasons) if reason == 3 and b.application in others]
        if tied and all(r.applications[a].draw < r.applications[x].draw for x in others):
            yield 'a tie of higher draws'


def under_caps(file):
    """What becomes of each pot with a cap: its outcome, whether its winners reach the cap, and whether all would be the same without."""
    try:
        r = reading.read(file)
    except reading.Refused:
        return
    without = r._replace(pots=[p._replace(cap=None) for p in r.pots])
    for p, limits in enumerate(r.pots):
        if limits.cap is None:
            continue
        pot, applications, reasons = reading.Auction(r, p).cleared()
        won = sum(r.applications[a].capacity if x.bid == reading.NO_BID else r.bids[x.bid].capacity for a, x in applications.items() if x.won)
        assert won <= limits.cap
        yield 'outcome %d' % pot.outcome
        if won == limits.cap > 0:
            yield 'reached in outcome %d' % pot.outcome
        other = reading.Auction(without, p).cleared()
        if other != (pot, applications, reasons):
            yield 'without it outcome %d' % other[0].outcome


class Watched(reading.Auction):
    """An auction that keeps, of each draw, how many were best, how many of these were kept, the place taken, and the number drawn with; and of each
    tie how many remained. Where they are few, what the reading lists is held to a trial of each combination, and what it keeps to all that fits."""

    def __init__(self, r, pot):
        super().__init__(r, pot)
        self.draws, self.widths = [], []

    def tried(self, remaining):
        self.widths.append(len(remaining))
        if len(remaining) > FEW:
            return super().tried(remaining)
        listed, places = list(super().tried(remaining)), range(len(remaining))
        assert listed == [self.trial([remaining[-1 - i] for i in places if number >> i & 1]) for number in range(2 ** len(remaining))]
        return listed

    def draw(self, best, fitting, width):
        before = self.drawn
        number = super().draw(best, fitting, width)
        kept = [k for k in best if all(k >> i & 1 or k | 1 << i not in fitting for i in range(width))]
        if width <= FEW:
            assert kept == [k for k in best if not any(k & other == k != other for other in fitting)]
        self.draws.append((len(best), len(kept), kept.index(number), before))
        return number


def wide(file):
    """Of each tie of a round that is broken and of more than a few: how many remained."""
    try:
        r = reading.read(file)
    except reading.Refused:
        return
    for p in range(len(r.pots)):
        auction = Watched(r, p)
        auction.cleared()
        for width in auction.widths:
            if width > FEW:
                yield '%d remaining' % width


def by_drawn_numbers(file):
    """What becomes of each pot with a drawn number: its outcome, each draw, and whether all would be the same without the number."""
    try:
        r = reading.read(file)
    except reading.Refused:
        return
    for p, limits in enumerate(r.pots):
        if limits.drawn is None:
            continue
        auction = Watched(r, p)
        told = auction.cleared()
        yield 'outcome %d' % told[0].outcome
        for best, kept, place, number in auction.draws:
            yield '%s kept' % (kept if kept < 3 else '3 or more')
            if kept > 1:
                yield 'first place' if place == 0 else 'last place' if place == kept - 1 else 'a place between'
                yield 'a number divided' if number != limits.drawn else 'the number given'
            if best > kept:
                yield 'some could be extended'
        without = r._replace(pots=r.pots[:p] + [limits._replace(drawn=None)] + r.pots[p + 1:])
        yield 'the same without it' if reading.Auction(without, p).cleared() == told else 'another choice without it'


def write(name, cases):
    """cases: (file, what is printed)"""
    folder = os.path.join(ROOT, 'crates', name)
    with open(os.path.join(folder, 'stdin'), 'wb') as f:
        f.write(b''.join(struct.pack('<H', len(file)) + file for file, _ in cases))
    with open(os.path.join(folder, 'stdout'), 'w') as f:
        f.write(''.join(text for _, text in cases))


if __name__ == '__main__':
    cases = [(f, told(f) + '\n') for f in files()]
    write('readings', cases)
    kinds = collections.Counter(' '.join(text.split()[:2]) if text.startswith('refused') else 'accepted' for _, text in cases)
    assert all(kinds['refused %d' % k] >= 5 for k in range(1, 12)) and len(largest()) == 7866 and len(largest(LARGEST_CAPS)) == 7882
    assert len(largest(LARGEST_DRAWN)) == 7898
    for name, file in making.worked().items():
        assert [int(x) for x in re.findall('total ([0-9]+)', reading.listing(file))] == making.TOTALS[name]
    listings = [(f, reading.listing(f)) for f in rounds()]
    write('listings', listings)
    words = collections.Counter(' '.join(w for w in line.split() if w.isalpha()) + (' ' + line.split()[3] if line.startswith('bid') else '')
                                for _, text in listings for line in text.splitlines())
    assert all(words['bid reason %d' % k] >= 20 for k in range(1, 8)) and words['pot tie'] >= 5 and len(listings) >= 400
    beside = collections.Counter(x for f, _ in listings for x in silent(f))
    assert len(beside) == 6 and min(beside.values()) >= 10
    caps = collections.Counter(x for f, _ in listings for x in under_caps(f))
    assert len(caps) == 8 and min(caps.values()) >= 5
    draws = collections.Counter(x for f, _ in listings for x in by_drawn_numbers(f))
    assert len(draws) == 14 and min(draws.values()) >= 3
    widths = collections.Counter(x for f, _ in listings for x in wide(f))
    assert all(widths['%d remaining' % n] >= least for n, least in ((11, 40), (12, 20), (13, 10), (14, 5), (20, 3)))
    print('%d rounds:' % len(listings), ', '.join('%s: %d' % x for x in sorted(words.items())))
    print('silent applications:', ', '.join('%s: %d' % x for x in sorted(beside.items())))
    print('pots with caps:', ', '.join('%s: %d' % x for x in sorted(caps.items())))
    print('pots with drawn numbers:', ', '.join('%s: %d' % x for x in sorted(draws.items())))
    print('wide ties:', ', '.join('%s: %d' % x for x in sorted(widths.items())))
    print('%d files:' % len(cases), ', '.join('%s: %d' % x for x in sorted(kinds.items())))

"""Makers of round files: from readable tables, at random, and damaged."""
import math
import struct

# added to the count of pots: with caps; with drawn numbers as well, which alone is no count
WITH_CAPS, WITH_DRAWN = 32768, 16384
MOST_CAP, NO_CAP = 20000000, 4294967295
MOST_DRAWN = 2 ** 32 - 1
# two bids, (capacity, price), tied in a year that pays for the larger alone or the smaller alone
ONE_BEST = [(200, 1000), (100, 1000)]


def added(caps):
    if caps is None:
        return 0
    return WITH_CAPS if isinstance(caps[0], int) else WITH_CAPS + WITH_DRAWN


def round_file(years, pots, technologies, applications, bids, caps=None):
    """The bytes of a round. years: (days, kind, tlm); pots: budgets; technologies: (pot, rqm, [(admin, reference, load)]);
    applications: (technology, year, days, draw, capacity, declared); bids: (application, year, days, capacity, price). Budgets are in pounds.
    caps: for each pot its cap, NO_CAP for none, or (cap, drawn number); None for a file without caps."""
    s = struct.pack('<H', len(years)) + b''.join(struct.pack('<HHH', *y) for y in years)
    s += struct.pack('<H', len(pots) + added(caps))
    for i, p in enumerate(pots):
        s += struct.pack('<%dQ' % len(p), *p)
        if caps is not None:
            s += struct.pack('<I', caps[i]) if isinstance(caps[i], int) else struct.pack('<II', *caps[i])
    s += struct.pack('<H', len(technologies))
    for pot, rqm, figures in technologies:
        s += struct.pack('<HH', pot, rqm) + b''.join(struct.pack('<IIH', *f) for f in figures)
    s += struct.pack('<H', len(applications)) + b''.join(struct.pack('<HHHHIQ', *a) for a in applications)
    return s + struct.pack('<H', len(bids)) + b''.join(struct.pack('<HHHII', *b) for b in bids)


def round_a(first=100000, second=100000, cap=None):
    figures = [(20000, 0, 10000)] * 2
    applications = [(0, y, 365, i, 100, 0) for i, y in enumerate((0, 0, 1))]
    bids = [(a, y, 365, 100, p) for a, y, p in ((0, 0, 4000), (1, 0, 6000), (2, 1, 5000))]
    return round_file([(365, 1, 0)] * 2, [(first, second)], [(0, 10000, figures)], applications, bids, None if cap is None else [cap])


def one_year(budget, applications, bids, cap=None):
    """Year 0 alone, with round A's technology. applications: (draw, capacity); bids: (application, capacity, price). cap: None for a file
    without caps, or (cap, drawn number). At 4,000 a MW costs 35,040 pounds, at 5,000 it costs 43,800, at the administrative 20,000 it costs 175,200."""
    return round_file([(365, 1, 0)], [(budget,)], [(0, 10000, [(20000, 0, 10000)])],
                      [(0, 0, 365, draw, capacity, 0) for draw, capacity in applications],
                      [(a, 0, 365, capacity, price) for a, capacity, price in bids], None if cap is None else [cap])


def tied(budget, cap=None):
    return one_year(budget, [(5, 200), (3, 100), (4, 100)], [(0, 200, 4000), (1, 100, 4000), (2, 100, 4000)], cap)


def flexible(budget=60000, cap=None):
    return one_year(budget, [(0, 200)], [(0, 200, 6000), (0, 100, 6001)], cap)


def pair(budget, cap, bid=100, prices=(4000, 5000)):
    """Two of 1.00 MW, each with a bid for so much of it."""
    return one_year(budget, [(0, 100), (1, 100)], [(a, bid, price) for a, price in enumerate(prices)], cap)


def pennies(budget):
    """At 6,010 each of three costs 52,647.60 pounds: 157,943 pounds pay for all, though not for three values of whole pounds."""
    return one_year(budget, [(0, 100), (1, 100), (2, 100)], [(0, 100, 5990), (1, 100, 6000), (2, 100, 6010)])


def two(budget, bidding):
    """Two of 1.00 MW, each for 175,200 pounds at the administrative price. Those bidding bid that price, and the others are silent."""
    return one_year(budget, [(0, 100), (1, 100)], [(a, 100, 20000) for a in bidding])


def valued(capacity, price, reference, load, tlm, rqm, days):
    """One application whose value in year 0 is the total of the first test."""
    return round_file([(days, 1, tlm)], [(10 ** 12,)], [(0, rqm, [(price, reference, load)])], [(0, 0, days, 0, capacity, 0)], [])


# the totals of the worked cases, year by year, in pence
TOTALS = {'V1': [130217400], 'V2': [130347618], 'V3': [0], 'V4': [0], 'V5': [1317600000000],
          'Round A': [3504000, 7884000], 'A1': [10512000, 14892000], 'A2': [3504000, 7884000], 'A3': [35040000, 52560000],
          'A4': [10512000, 14892000], 'T1': [10512000], 'T2': [7008000], 'F1': [5256876], 'Pennies': [15794280],
          'Silence': [0], 'One bid': [17520000],
          'Cap 200': [35040000], 'Cap 199': [3504000], 'T1 and cap 250': [7008000],
          'T1 drawn 0': [10512000], 'T1 drawn 1': [10512000], 'T2 drawn 0': [7008000], 'T2 drawn 1': [7008000],
          'Two ties drawn 0': [876000, 1839600], 'Two ties drawn 2': [876000, 1839600], 'Two ties drawn 4': [876000, 1839600],
          'Two ties drawn 5': [876000, 1839600], 'Two ties drawn 6': [876000, 1839600], 'No cost drawn 0': [7008000, 0],
          'No cost drawn 1': [7008000, 0], 'No cost drawn 2': [7008000, 0], 'Some cost drawn 0': [10512000, 3504000],
          'Some cost drawn 3': [10512000, 3504000], 'Three alike drawn 4294967295': [3504000], 'No cost, cap 200, drawn 1': [7008000, 0],
          'Over years drawn 3': [0, 7008000], 'After a tie that fits, drawn 1': [1752000, 2715600], 'After one best, drawn 1': [1752000, 2715600],
          'One dropped, drawn 3': [876000, 1839600], 'Two pots drawn 0 and 1': [3504000, 3504000], 'T1, cap none': [10512000]}


def worked():
    """The worked cases of document 01 by name, the one that only pennies let through, two of silence in a pot that could pay for one, and three
    of caps: one that all fit under at administrative prices, one a hundredth of a MW lower, and one that parts T1's winners. Then those of drawn
    numbers."""
    cases = {
        'V1': valued(1000, 100000, 50000, 3000, 90, 10000, 365), 'V2': valued(1001, 100000, 50000, 3000, 90, 10000, 365),
        'V3': valued(1000, 40000, 50000, 3000, 90, 10000, 365), 'V4': valued(1000, 50000, 50000, 3000, 90, 10000, 365),
        'V5': valued(300000, 500000, 0, 10000, 0, 10000, 366),
        'Round A': round_a(), 'A1': round_a(105120, 148920), 'A2': round_a(105120, 148919), 'A3': round_a(350400, 525600),
        'A4': round_a(350400, 525599), 'T1': tied(105120), 'T2': tied(105119), 'F1': flexible(),
        'Pennies': pennies(157943), 'Silence': two(200000, ()), 'One bid': two(200000, (0,)),
        'Cap 200': pair(1000000, 200), 'Cap 199': pair(1000000, 199), 'T1 and cap 250': tied(105120, 250),
    }
    return {**cases, **worked_draws()}


def worked_draws():
    """The runs of CR 6: T1 and T2, two ties in one pot, and a last year in which some bids, or all, cost nothing; with a cap to bind them; the greatest
    number; ties over years, after a tie that fits, after one best, and one dropped; two pots; and T1 in a file of caps alone."""
    cases = {'T1 drawn %d' % n: tied(105120, (NO_CAP, n)) for n in (0, 1)}
    cases.update({'T2 drawn %d' % n: tied(105119, (NO_CAP, n)) for n in (0, 1)})
    cases.update({'Two ties drawn %d' % n: ties_in_years((3, 2), (NO_CAP, n)) for n in (0, 2, 4, 5, 6)})
    cases.update({'No cost drawn %d' % n: free_at_last(70080, (NO_CAP, n)) for n in (0, 1, 2)})
    cases.update({'Some cost drawn %d' % n: some_free_at_last((NO_CAP, n)) for n in (0, 3)})
    cases.update({'Three alike drawn %d' % MOST_DRAWN: alike(3, 1, (NO_CAP, MOST_DRAWN)), 'No cost, cap 200, drawn 1': free_at_last(1000000, (200, 1)),
                  'Over years drawn 3': over_years(3), 'After a tie that fits, drawn 1': then_two_tied([(100, 1000)] * 2, 17520, 1),
                  'After one best, drawn 1': then_two_tied(ONE_BEST, 17520, 1), 'One dropped, drawn 3': one_dropped(0, 3),
                  'Two pots drawn 0 and 1': two_pots((35040, 35040), ((NO_CAP, 0), (NO_CAP, 1)))})
    return {**cases, 'T1, cap none': tied(105120, NO_CAP)}


def delivered(budgets, cap, applications, bids):
    """Round A's technology, a delivery year for each budget. applications: (year, draw, capacity); bids: (application, year, capacity, price)."""
    return round_file([(365, 1, 0)] * len(budgets), [budgets], [(0, 10000, [(20000, 0, 10000)] * len(budgets))],
                      [(0, year, 365, draw, capacity, 0) for year, draw, capacity in applications],
                      [(a, year, 365, capacity, price) for a, year, capacity, price in bids], None if cap is None else [cap])


def ties_in_years(widths, cap):
    """In each year a tie of so many of 1.00 MW, all alike, of which one fits beside the winners of the years before: at 1,000 in year 0, and 100 more
    in each year after it."""
    prices = [1000 + 100 * y for y in range(len(widths))]
    starts = [y for y, width in enumerate(widths) for _ in range(width)]
    # 1.00 MW costs 8.76 pounds in a year for each tenth of a penny
    return delivered([876 * sum(prices[:y + 1]) // 100 for y in range(len(widths))], cap, [(y, a, 100) for a, y in enumerate(starts)],
                     [(a, y, 100, prices[y]) for a, y in enumerate(starts)])


def alike(n, fit, cap):
    """So many of 1.00 MW tied at 4,000, all alike but for their draws, and money for so many of them."""
    return one_year(35040 * fit, [(5 * a % (13 if n < 14 else 64), 100) for a in range(n)], [(a, 100, 4000) for a in range(n)], cap)


def at_one_price(n, fit, cap=None, dropped=0):
    """So many of 1.00 MW tied at 1,000, for 8,760 pounds each, with draws 0, 1 and so on, and money for so many of them; then those that are dropped,
    which do not fit alone."""
    capacities = [100] * n + [100 * fit + 1] * dropped
    return one_year(8760 * fit, list(enumerate(capacities)), [(a, capacity, 1000) for a, capacity in enumerate(capacities)], cap)


def free_at_last(budget, cap, capacities=(100, 100, 100)):
    """Tied at 4,000 in year 0, before a last year in which the reference is above every price."""
    return round_file([(365, 1, 0), (365, 0, 0)], [(budget, 0)], [(0, 10000, [(20000, 0, 10000), (0, 20000, 10000)])],
                      [(0, 0, 365, a, capacity, 0) for a, capacity in enumerate(capacities)],
                      [(a, 0, 365, capacity, 4000) for a, capacity in enumerate(capacities)], None if cap is None else [cap])


def some_free_at_last(cap):
    """Five of 1.00 MW tied at 4,000 and money for three, of whom the first two cost as much again in the last year, which pays for one of them, and
    the others nothing."""
    draws = (2, 0, 1, 4, 3)
    return round_file([(365, 1, 0), (365, 0, 0)], [(105120, 35040)], [(0, 10000, [(20000, 0, 10000), (0, reference, 10000)]) for reference in (0, 4000)],
                      [(int(a > 1), 0, 365, draw, 100, 0) for a, draw in enumerate(draws)], [(a, 0, 365, 100, 4000) for a in range(5)], [cap])


def raised_at_last(drawn):
    """A winner at 1,000 in year 0, then one of 0.01 MW of year 0 and two of 1.00 MW of year 1, tied at 4,000, before a last year that costs nothing:
    the two fit together, and the small one, which costs next to nothing but raises what the winner costs, beside only one of them."""
    return round_file([(365, 1, 0), (365, 1, 0), (365, 0, 0)], [(36000, 79200, 0)], [(0, 10000, [(20000, 0, 10000)] * 2 + [(0, 20000, 10000)])],
                      [(0, int(a > 1), 365, a, 1 if a == 1 else 100, 0) for a in range(4)],
                      [(0, 0, 365, 100, 1000), (1, 0, 365, 1, 4000), (2, 1, 365, 100, 4000), (3, 1, 365, 100, 4000)], [(NO_CAP, drawn)])


def over_years(drawn):
    """Two of year 0 and two of year 1 tied at 4,000: year 0 pays for one of its own, and year 1 for two of any."""
    return delivered((35040, 70080), (NO_CAP, drawn), [(0, 3, 100), (1, 2, 100), (0, 1, 100), (1, 0, 100)], [(a, a % 2, 100, 4000) for a in range(4)])


def then_two_tied(first, won, drawn):
    """Some bids, (capacity, price), in year 0, which pays for 2.00 MW at 1,000; then two of 1.00 MW tied at 1,100 in year 1, which pays for one of them
    beside what the winners of year 0 cost."""
    return delivered((17520, won + 9636), (NO_CAP, drawn), [(0, a, capacity) for a, (capacity, _) in enumerate(first)] + [(1, draw, 100) for draw in (7, 8)],
                     [(a, 0, *bid) for a, bid in enumerate(first)] + [(len(first) + a, 1, 100, 1100) for a in (0, 1)])


def one_dropped(draw, drawn):
    """Of three tied in year 0 the largest, of this draw, does not fit alone, and one of the others does; then two are tied in year 1."""
    applications = [(0, draw, 200), (0, 5, 100), (0, 6, 100), (1, 7, 100), (1, 8, 100)]
    bids = [(a, year, capacity, 1000 + 100 * year) for a, (year, _, capacity) in enumerate(applications)]
    return delivered((8760, 18396), (NO_CAP, drawn), applications, bids)


def recounted(file, count):
    """The same bytes with another count of pots."""
    at = 2 + 6 * file[0]
    return file[:at] + struct.pack('<H', count) + file[at + 2:]


def two_pots(budgets, caps):
    """In each of two pots three of 1.00 MW, tied at 4,000 in year 0."""
    return round_file([(365, 1, 0)], [(b,) for b in budgets], [(p, 10000, [(20000, 0, 10000)]) for p in range(2)],
                      [(a % 2, 0, 365, 9 - a, 100, 0) for a in range(6)], [(a, 0, 365, 100, 4000) for a in range(6)], caps)


def caps():
    """Every way in which a cap and a budget, each or both, turn down what is tested, with just enough of each, and with a pound less or a
    hundredth of a MW."""
    files, plenty = [], 1000000
    # the first test: it holds, fails for the cap, for money, for both; the bids are for less, and all win
    files += [pair(budget, cap, 90) for budget in (350400, 350399) for cap in (200, 199)]
    # the second bid alone, beside the first: it fits, fails for money, for the cap, for both; a cap of none is none
    files += [pair(budget, cap) for budget in (87600, 87599) for cap in (200, 199, NO_CAP)]
    # the first bid alone, beside none
    files += [pair(budget, cap) for budget, cap in ((plenty, 100), (plenty, 99), (35039, 100), (35039, 99), (plenty, 0))]
    # the bids are for less than their applications: 0.90 MW each stay within 1.80
    files += [pair(plenty, cap, 90) for cap in (180, 179, 90, 89)]
    # a smaller bid of the same application, after the larger was turned down: it fits, fails for money, for the cap, for both
    files += [flexible(plenty, cap) for cap in (200, 199, 100, 99)]
    files += [flexible(budget, cap) for budget, cap in ((105120, 199), (52569, 199), (52568, 199), (52569, 99), (52568, 99))]
    # it is not looked at where a bid of another application is cheaper, nor where it is tied with one; dearer ones do not part the two
    files.append(one_year(plenty, [(0, 200), (1, 100)], [(0, 200, 6000), (0, 100, 6020), (1, 100, 6010)], 150))
    files.append(one_year(plenty, [(0, 200), (1, 100)], [(0, 200, 6000), (0, 100, 6010), (1, 100, 6010)], 150))
    files.append(one_year(plenty, [(0, 200), (1, 50)], [(0, 200, 6000), (0, 100, 6009), (1, 50, 6020)], 150))
    # a cap that is reached closes nothing: what comes later is turned down by trial, in that year and in the next
    files.append(delivered((plenty, plenty), 200, [(0, 0, 100), (0, 1, 100), (0, 2, 1), (1, 3, 1)],
                           [(0, 0, 100, 4000), (1, 0, 100, 4010), (2, 0, 1, 4020), (3, 1, 1, 4030)]))
    # turned down by the cap, whose year closes: a smaller one wins in the next year, and a smaller one of that year is not looked at
    files.append(delivered((plenty, plenty), 150, [(0, 0, 100), (0, 1, 100), (1, 2, 50), (0, 3, 10)],
                           [(0, 0, 100, 4000), (1, 0, 100, 4010), (2, 1, 50, 4020), (3, 0, 10, 4030)]))
    # two tied: together they fit, fail for the cap, for money, for both; then neither fits alone
    files += [pair(budget, cap, 100, (4000, 4000)) for budget in (70080, 70079) for cap in (200, 199)]
    files += [pair(budget, cap, 100, (4000, 4000)) for budget, cap in ((plenty, 99), (35039, 100), (35039, 99), (plenty, 0))]
    # T1: a pair that would cost more does not fit for the cap, for money, for both; the largest does not fit alone for the cap, for money, for both
    files += [tied(plenty, cap) for cap in (300, 299, 200, 199, 100, 99)]
    files += [tied(budget, cap) for budget, cap in ((105119, 300), (105119, 299), (70079, 200), (70079, 199))]
    for cap in (199, 180, 179):
        files.append(one_year(plenty, [(5, 200), (3, 90), (4, 90)], [(0, 200, 4000), (1, 90, 4000), (2, 90, 4000)], cap))
    # tied beside a winner, with bids for less than their applications
    for cap in (170, 169, 140, 139):
        files.append(one_year(plenty, [(2, 100), (1, 100), (0, 100)], [(0, 70, 3990), (1, 30, 4000), (2, 70, 4000)], cap))
    # the most money, not the most capacity: 1.10 MW with fewer days cost less than 1.00 MW
    for cap in (210, 209, 109):
        files.append(round_file([(365, 1, 0)], [(plenty,)], [(0, 10000, [(20000, 0, 10000)])],
                                [(0, 0, 100, 0, 110, 0), (0, 0, 365, 1, 100, 0)], [(0, 0, 100, 110, 4000), (1, 0, 365, 100, 4000)], [cap]))
    # tied over two years, and one cap for both
    for cap in (250, 249):
        files.append(delivered((plenty, plenty), cap, [(0, 0, 150), (1, 1, 100), (1, 2, 100)],
                               [(0, 0, 150, 4000), (1, 1, 100, 4000), (2, 1, 100, 4000)]))
    # a tie that would be too wide but for the cap, which leaves three or none; and one too wide
    files += [three_small(22, cap) for cap in (199, 59, 200)]
    # pots that differ in their caps alone
    technologies = [(p, 10000, [(20000, 0, 10000)]) for p in range(2)]
    applications = [(a // 2, 0, 365, a, 100, 0) for a in range(4)]
    bids = [(a, 0, 365, 100, 4000 + 1000 * (a % 2)) for a in range(4)]
    for of_each in ((199, NO_CAP), (NO_CAP, 199), (200, 100), (MOST_CAP, 0)):
        files.append(round_file([(365, 1, 0)], [(plenty,)] * 2, technologies, applications, bids, of_each))
    # no application, and a silent one, which the first test counts
    files += [one_year(0, [], [], 0), one_year(plenty, [(0, 100)], [], 100), one_year(plenty, [(0, 100)], [], 99)]
    files.append(one_year(plenty, [(0, 100), (1, 100)], [(1, 100, 4000)], 199))
    return files


def three_small(n, cap):
    """So many tied of whom three are for 0.60 MW, and the others for 2.00: 500,000 pounds pay for each, not for all."""
    capacities = [200] * (n - 3) + [60] * 3
    return one_year(500000, [(n - a, capacity) for a, capacity in enumerate(capacities)], [(a, capacity, 4000) for a, capacity in enumerate(capacities)], cap)


def one_tie_drawn():
    """One tie in a pot: all alike and mixed, in one year and over two, with money, a cap and both to bind it."""
    files, plenty = [], 1000000
    # all alike, of which so many fit: the first place, the last, a multiple of m, and the greatest number
    for n, fit in ((2, 1), (3, 1), (3, 2), (4, 2), (5, 2)):
        m = math.comb(n, fit)
        files += [alike(n, fit, (NO_CAP, number)) for number in (0, m - 1, 2 * m, MOST_DRAWN)]
    # those of ten and more stand in cases.py: the checker, which computes these files, would not get through a wider one
    files += [alike(n, fit, (NO_CAP, number)) for n, fit, number in ((6, 3, 13), (7, 2, 20), (7, 6, 10))]
    # too wide; none fits alone; all fit together
    files += [alike(n, fit, (NO_CAP, 3)) for n, fit in ((21, 5), (4, 0), (4, 4))]
    # T1 and T2, then with money enough and a cap to bind them, then with both
    files += [tied(budget, (NO_CAP, number)) for budget in (105120, 105119) for number in (3, MOST_DRAWN - 1)]
    files += [tied(plenty, limits) for limits in ((300, 0), (300, 1), (299, 0), (299, 1), (199, 0), (199, 1), (99, 1))]
    files += [tied(budget, (cap, 0)) for budget, cap in ((105119, 300), (70079, 200), (70080, 199))]
    return files + [over_years(number) for number in (0, 2, 4)]


def ties_in_turn():
    """Several ties in a pot, of which each goes on with what the one before has left, and ties after what uses none of the number."""
    files = [ties_in_years((3, 2), (NO_CAP, number)) for number in (1, 4, MOST_DRAWN)]
    files += [ties_in_years((2, 3), limits) for limits in ((NO_CAP, 1), (NO_CAP, 2), (NO_CAP, 4), (300, 3), (100, 3), (199, 5))]
    files += [ties_in_years((3, 2, 3, 2), (NO_CAP, number)) for number in (35, 17, 1000003)]
    # first a tie that fits, one of which a single combination is best, a bid alone that fits, one that does not, and a tie of which none remains
    for first, won in (([(100, 1000)] * 2, 17520), (ONE_BEST, 17520), ([(200, 1000)], 17520), ([(300, 900)], 0), ([(300, 900)] * 2, 0)):
        files += [then_two_tied(first, won, number) for number in (2, 3)]
    return files + [one_dropped(draw, number) for draw in (0, 9) for number in (1, 2)]


def free_drawn():
    """The last year costs nothing, for all or for some: only what cannot be extended counts, for money, for the cap and for both."""
    plenty = 1000000
    files = [free_at_last(105120, (NO_CAP, number), (200, 100, 100)) for number in range(3)]
    files += [free_at_last(budget, (cap, 1), (200, 100, 100)) for budget, cap in ((70080, 300), (plenty, 200), (70080, 200))]
    files += [free_at_last(budget, (cap, 1)) for budget, cap in ((plenty, 200), (70080, 299), (105119, 200))]
    files += [free_at_last(70080, (NO_CAP, number), (100,) * 4) for number in (5, 6)]
    files += [some_free_at_last(limits) for limits in ((NO_CAP, 1), (NO_CAP, 5), (NO_CAP, 6), (200, 3), (299, 2))]
    return files + [raised_at_last(number) for number in (0, 1)]


def drawn():
    """Every way in which a drawn number decides, two pots of which each has its own, one of them not constrained, numbers without caps, which are
    no count, and files of caps alone and one of neither, where the rule of 01 stands."""
    files = one_tie_drawn() + ties_in_turn() + free_drawn()
    files += [two_pots((35040, 35040), ((NO_CAP, one), (NO_CAP, other))) for one, other in ((1, 0), (2, 5), (7, 7))]
    files += [two_pots((35040, 70080), ((100, 4), (NO_CAP, 4))), two_pots((1000000, 35040), ((NO_CAP, 1), (200, 1)))]
    files += [recounted(tied(105120, limits), 1 + WITH_DRAWN) for limits in (1, (NO_CAP, 1))]
    files += [tied(105119, NO_CAP), alike(4, 2, NO_CAP), alike(4, 2, 300), ties_in_years((3, 2), NO_CAP), some_free_at_last(NO_CAP)]
    return files + [free_at_last(105120, NO_CAP, (200, 100, 100)), free_at_last(70080, None)]


def pay_for_two(n):
    return one_year(35040 * 2, [(i, 100) for i in range(n)], [(a, 100, 4000) for a in range(n)])


def all_different(n):
    """No two tied are for the same capacity, and the lowest draw comes last."""
    return one_year(35040 * 3 - 1, [(n - i, 100 + i) for i in range(n)], [(a, 100 + a, 4000) for a in range(n)])


def beside_the_silent(n):
    """Two of so many tied could be paid, and the lowest draw is silent."""
    return one_year(175200 * 2, [(i, 100) for i in range(n + 1)], [(a, 100, 20000) for a in range(1, n + 1)])


def directed():
    """Rounds that reach what chance seldom does: ties of up to ten and too wide ones, over years, chains, silent applications, budgets at the edge,
    caps, drawn numbers. Ties of 11 to 20 stand in cases.py, since the checker, which computes these files, would not get through them."""
    files = []
    for n in (2, 3, 4, 5, 6, 7, 8, 9, 10, 21, 22):
        files += [pay_for_two(n), all_different(n)]
    for n in range(2, 6):
        chain = [(0, 200 - 10 * i, 6000 + 10 * i) for i in range(min(n, 3))]
        files.append(one_year(60000, [(0, 200), (1, 100)], chain + [(1, 100, 7000)]))
        files.append(one_year(90000, [(0, 200), (1, 100)], chain[:2] + [(1, 100, 6010)]))
        files.append(one_year(90000, [(0, 200), (1, 100)], chain[:2] + [(1, 100, 6000)]))
    # a silent application beside two that win, beside ties and beside ones too wide; the tie of ten stands in cases.py
    files += [beside_the_silent(n) for n in (2, 3, 4, 5, 6, 7, 8, 9, 21, 22)]
    # silent alone, and beside a bid, with just enough for the first test and a pound less
    for less in (0, 1):
        for n in (1, 2, 12):
            files.append(one_year(175200 * n - less, [(i, 100) for i in range(n)], []))
        files.append(two(350400 - less, (1,)))
    files.append(one_year(0, [(0, 100)], [(0, 100, 0)]))
    files.append(one_year(0, [(0, 100)], [(0, 100, 10)]))
    files.append(one_year(0, [], []))
    files.append(pennies(157942))
    # 263 pence, or 88 and 176: the two come closer to 3 pounds, where whole pounds would be equal and the draw decide for the one
    files.append(one_year(3, [(0, 3), (1, 1), (2, 2)], [(0, 3, 10), (1, 1, 10), (2, 2, 10)]))
    return files + caps() + drawn()


def tables(rnd):
    """The tables of a well-formed round, small, with prices that tie and budgets that bind."""
    y = rnd.choice([1, 2, 2, 3, 4, 6])
    d = rnd.randint(1, min(y, 4))
    p = rnd.choice([1, 1, 2, 3])
    years = [(rnd.choice([365, 366]), int(k < d), rnd.choice([0, 0, 90, 10000])) for k in range(y)]
    pots = []
    for _ in range(p):
        k = rnd.choice([0, 20, 60, 100, 200, 300, 600])
        pots.append([int(k * 1000 * rnd.uniform(.7, 2)) for _ in range(y)])
    technologies = []
    for t in range(rnd.randint(p, p + 2)):
        figures = [(rnd.choice([8000, 10000, 20000]) if k < d else 0, rnd.choice([0, 0, 1000, 3000, 9000]), rnd.choice([10000, 10000, 4321])) for k in range(y)]
        technologies.append((t if t < p else rnd.randrange(p), rnd.choice([10000, 10000, 9000]), figures))
    n = rnd.randint(0, 7)
    draws = rnd.sample(range(50), n)
    applications = [(rnd.randrange(len(technologies)), rnd.randrange(d), rnd.choice([365, 365, 200]), draws[a], rnd.choice([100, 100, 200, 150]),
                     rnd.randrange(2 ** 40)) for a in range(n)]
    bids = []
    for a, (t, start, first, _, capacity, _) in enumerate(applications):
        for _ in range(rnd.choice([0, 1, 1, 2, 3])):
            year = rnd.randrange(start, d)
            days = min(first, rnd.choice([365, 100])) if year == start else rnd.choice([365, 100])
            price = rnd.choice([3990, 4000, 4000, 4000, 4000, 4005, 4010, 5000, 6000, 7000, technologies[t][2][year][0]])
            if price <= technologies[t][2][year][0] and all((b[0], b[4]) != (a, price) for b in bids):
                bids.append((a, year, days, rnd.choice([capacity, capacity, 100]), price))
    rnd.shuffle(bids)
    return years, pots, technologies, applications, bids


def without_caps(rnd):
    return round_file(*tables(rnd))


def some_cap(rnd, capacities):
    """What some of these come to or a hundredth of a MW less, or a cap that binds all or none. capacities: of all bids of each application."""
    if rnd.random() < .25:
        return rnd.choice([0, 1, MOST_CAP, NO_CAP, NO_CAP])
    some = rnd.sample(capacities, rnd.randint(0, len(capacities)))
    return max(0, sum(rnd.choice(c) for c in some) - rnd.choice([0, 0, 1]))


def with_caps(rnd):
    """The same rounds with caps; more money in most, so that caps decide more often."""
    years, pots, technologies, applications, bids = tables(rnd)
    caps = []
    for p in range(len(pots)):
        own = [a for a, x in enumerate(applications) if technologies[x[0]][0] == p]
        caps.append(some_cap(rnd, [[b[3] for b in bids if b[0] == a] or [applications[a][4]] for a in own]))
    if rnd.random() < .6:
        pots = [[b * 10 for b in p] for p in pots]
    return round_file(years, pots, technologies, applications, bids, caps)


def some_number(rnd):
    """A drawn number: of the first few, some that go on through several ties, the greatest, or any."""
    return rnd.choice([0, 1, 2, 3, rnd.randrange(40), rnd.randrange(40), rnd.randrange(10000), MOST_DRAWN, rnd.randrange(2 ** 32), rnd.randrange(2 ** 32)])


def all_alike(rnd):
    """Tables with a tie in each delivery year, of bids mostly alike, in one pot or in two that hold the same; the last year may cost nothing."""
    d, last_is_free = rnd.randint(1, 3), rnd.random() < .4
    years = [(365, 1, 0)] * d + [(365, 0, 0)] * last_is_free
    figures = [(20000, 0, 10000)] * d + [(0, rnd.choice([9000, 20000]), 10000)] * last_is_free
    applications, bids = [], []
    pots = rnd.choice([1, 1, 2])
    for year in range(d):
        for _ in range(rnd.randint(2, 5)):
            days, capacity = rnd.choice([365, 365, 365, 100]), rnd.choice([100, 100, 100, 100, 200])
            for p in range(pots):
                applications.append((p, year, days, 0, capacity, 0))
                bids.append((len(applications) - 1, year, days, capacity, 4000 + 10 * year))
    draws = rnd.sample(range(60), len(applications))
    applications = [a[:3] + (draw,) + a[4:] for a, draw in zip(applications, draws)]
    budgets = [[rnd.randint(0, 3 + 2 * y) * 35300 + rnd.choice([0, 0, 10000]) for y in range(len(years))] for _ in range(pots)]
    return years, budgets, [(p, 10000, figures) for p in range(pots)], applications, bids


def with_drawn(rnd):
    """Rounds with a drawn number for each pot, and a cap for about half of them: ties of bids mostly alike, or any."""
    years, pots, technologies, applications, bids = all_alike(rnd) if rnd.random() < .6 else tables(rnd)
    limits = []
    for p in range(len(pots)):
        own = [[b[3] for b in bids if b[0] == a] or [x[4]] for a, x in enumerate(applications) if technologies[x[0]][0] == p]
        limits.append((NO_CAP if rnd.random() < .5 else some_cap(rnd, own), some_number(rnd)))
    return round_file(years, pots, technologies, applications, bids, limits)


def wide_tie(rnd, limits):
    """A tie of 11 to 14, alike or not, over so many years, each of which pays for some of them, beside what may have won before and what does not fit
    alone; the last year may cost nothing for some. limits: 0 for money alone, 1 for a cap as well, or in its place, 2 for a drawn number too."""
    n, d, last = rnd.choice([11, 11, 12, 12, 13, 14]), rnd.choice([1, 1, 2, 3, 4]), rnd.random() < .5
    technologies = [(0, 10000, [(20000, 0, 10000)] * d + [(0, reference, 10000)] * last) for reference in (0, 9000)]
    few = rnd.choice([(100,), (100, 100, 200), tuple(range(90, 120))])
    tied = [(int(rnd.random() < .3), rnd.randrange(d), rnd.choice(few)) for _ in range(n)]
    before = [(0, rnd.randrange(d), 50)] * rnd.choice([0, 0, 1, 2])
    dropped = [(0, 0, 100000)] * rnd.choice([0, 0, 0, 1, 9])
    rows = tied + before + dropped
    draws = rnd.sample(range(60), len(rows))
    applications = [(t, year, 365, draw, capacity, 0) for (t, year, capacity), draw in zip(rows, draws)]
    bids = [(a, year, 365, capacity, 3900 if n <= a < n + len(before) else 4000) for a, (_, year, capacity) in enumerate(rows)]
    rnd.shuffle(bids)
    share = rnd.randint(2, n - 1) if rnd.random() < .7 else rnd.randint(2, 4)
    money = [35040 * 2 * (y + 1) + 35040 * share * (y + 1) // (d + last) for y in range(d + last)]
    cap = rnd.choice([NO_CAP, 100 * share + 350, 115 * share])
    if limits and cap != NO_CAP and rnd.random() < .5:
        money = [10 ** 8] * (d + last)
    return round_file([(365, 1, 0)] * d + [(365, 0, 0)] * last, [money], technologies, applications, bids,
                      [None, [cap], [(cap, some_number(rnd))]][limits])


def make(rnd):
    """A well-formed round, of three one with caps and one with drawn numbers as well."""
    return rnd.choice([without_caps, with_caps, with_drawn])(rnd)


def harm_drawn_pots(rnd, file):
    """A well-formed round with drawn numbers whose count of pots has something taken away, or with another cap or number."""
    s = bytearray(file)
    y = s[0]
    at = 2 + 6 * y
    count, = struct.unpack_from('<H', s, at)
    pots = count % WITH_DRAWN
    cap = at + 2 + (8 * y + 8) * rnd.randrange(pots) + 8 * y
    kind = rnd.random()
    if kind < .3:
        struct.pack_into('<I', s, cap, rnd.choice([0, MOST_CAP, MOST_CAP + 1, NO_CAP - 1, NO_CAP, rnd.randrange(2 ** 32)]))
    elif kind < .6:
        struct.pack_into('<I', s, cap + 4, rnd.choice([0, MOST_CAP + 1, MOST_DRAWN - 1, MOST_DRAWN, rnd.randrange(2 ** 32)]))
    else:
        both = WITH_CAPS + WITH_DRAWN
        struct.pack_into('<H', s, at, rnd.choice([pots, pots + WITH_CAPS, pots + WITH_DRAWN, both, both + 4, both + 5, WITH_DRAWN, 65535]))
    return bytes(s)


def harm_pots(rnd, file):
    """A well-formed round whose count of pots has something added or taken away, or with another cap or drawn number."""
    s = bytearray(file)
    y = s[0]
    at = 2 + 6 * y
    count, = struct.unpack_from('<H', s, at)
    pots = count % WITH_DRAWN
    if count >= WITH_CAPS + WITH_DRAWN:
        return harm_drawn_pots(rnd, file)
    if count >= WITH_CAPS and rnd.random() < .5:
        cap = at + 2 + (8 * y + 4) * rnd.randrange(pots) + 8 * y
        old, = struct.unpack_from('<I', s, cap)
        other = [0, MOST_CAP, MOST_CAP + 1, NO_CAP, NO_CAP - 1, max(old, 1) - 1, min(old, NO_CAP - 1) + 1, rnd.randrange(2 ** 32), rnd.randrange(400)]
        struct.pack_into('<I', s, cap, rnd.choice(other))
    else:
        other = [count ^ WITH_CAPS] * 2 + [pots + WITH_DRAWN, pots + WITH_DRAWN + WITH_CAPS, WITH_CAPS, WITH_CAPS + 4, WITH_CAPS + 5, WITH_DRAWN, 32767, 65535]
        struct.pack_into('<H', s, at, rnd.choice(other))
    return bytes(s)


def damage(rnd, file):
    """A well-formed round with one thing wrong, or what chance makes of it."""
    return harm_pots(rnd, file) if rnd.random() < .25 else harm_anywhere(rnd, file)


def harm_anywhere(rnd, file):
    """A file cut, or longer, or with another byte."""
    s, k = bytearray(file), rnd.random()
    if k < .15:
        return bytes(s[:rnd.randrange(len(s) + 1)])
    if k < .25:
        return bytes(s) + bytes([rnd.randrange(256)])
    i = rnd.randrange(len(s))
    s[i] = rnd.choice([0, 1, 2, 3, 7, 255, s[i] ^ 1, rnd.randrange(256)])
    return bytes(s)

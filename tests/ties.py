"""ties.py: writes what crates/wide is run on, ties of 2 to 20 bids and of more, and what its listing and its search must both print, as tests/reading.py
reads document 01 with CR 5, 6, 7, 8 and 11 of 02: the number of the combination that is taken, and m."""
import random

import cases
import making
import reading

# of a tie of so many bids, so many groups are made
GROUPS = [(n, 4) for n in range(2, 11)] + [(n, 8) for n in range(11, 15)] + [(15, 4), (16, 4), (17, 2), (18, 1), (19, 1), (20, 2)]
PRICE = 4000


def made(rng, n):
    """So many bids tied at one price, over some delivery years, of applications of several technologies: alike or different, and worth something or
    nothing in the last year; with a cap or none, and drawn or not. Money for some of them, and now and then beside some that do not fit alone."""
    deliveries, years = rng.randint(1, 4), rng.randint(0, 2)
    kinds = [(365, 1, 0)] * deliveries + [(365, 0, 0)] * years
    last_free = rng.choice([0, 0, 0, 1, 2])
    technologies = []
    for t in range(3):
        figures = [(20000 if y < deliveries else 0, rng.choice([0, 1000, 2500]), rng.choice([10000, 8000])) for y in range(len(kinds))]
        if last_free == 2 or last_free == 1 and t == 0:
            figures[-1] = (figures[-1][0], 20000, 10000)
        technologies.append((0, 10000, figures))
    alike = rng.random() < 0.4
    draws = rng.sample(range(1000), n + 2)
    applications, bids = [], []
    for a in range(n):
        year, capacity = (0, 100) if alike else (rng.randrange(deliveries), rng.choice([100, rng.randint(50, 400)]))
        applications.append((0 if alike else rng.randrange(3), year, 365, draws[a], capacity, 0))
        bids.append((a, year, 365, capacity, PRICE))
    tables = (technologies, applications, bids)
    everything = reading.read(making.round_file(kinds, [(10 ** 12,) * len(kinds)], *tables))
    totals = reading.Auction(everything, 0).trial(list(enumerate(everything.bids))).totals
    share = rng.choice([30, 50, 50, 70, 85])
    budgets = tuple(t * share // 10000 for t in totals)
    total = sum(a[4] for a in applications)
    cap = rng.choice([making.NO_CAP, making.NO_CAP, total * rng.randint(30, 80) // 100])
    if rng.random() < 0.2:
        for a in (n, n + 1):
            applications.append((0, 0, 365, draws[a], 300000, 0))
            bids.append((a, 0, 365, 300000, PRICE))
    drawn = rng.choice([None, 0, rng.randrange(50), rng.randrange(2 ** 32)])
    limits = None if drawn is None and cap == making.NO_CAP else [cap] if drawn is None else [(cap, drawn)]
    return making.round_file(kinds, [budgets], technologies, applications, bids, limits)


def files():
    for n, fit in ((11, 5), (20, 10)):
        yield making.at_one_price(n, fit)
        for number in (0, 1, 461, 462, 92378, 184755):
            yield making.at_one_price(n, fit, (making.NO_CAP, number))
    yield making.at_one_price(21, 10)
    yield making.at_one_price(20, 10, (making.NO_CAP, 7), dropped=1)
    rng = random.Random(7)
    for n, groups in GROUPS:
        for _ in range(groups):
            yield made(rng, n)


def answered(file):
    """What both must print of a file: the tie of those bids of pot 0 that have the price of bid 0, where none has won."""
    r = reading.read(file)
    auction = reading.Auction(r, 0)
    taken = [(k, b) for k, b in enumerate(r.bids) if b.price == r.bids[0].price]
    remaining = sorted((x for x in taken if auction.fits(auction.trial([x]))), key=lambda x: r.applications[x[1].application].draw)
    width = len(remaining)
    if width > reading.MOST_REMAINING:
        return 'too wide\n'
    fitting = {n: sums.totals[auction.last] for n, sums in enumerate(auction.tried(remaining)) if auction.fits(sums)}
    most = max(fitting.values())
    best = [n for n, total in fitting.items() if total == most]
    kept = [n for n in best if all(n >> i & 1 or n + 2 ** i not in fitting for i in range(width))]
    number = best[-1] if auction.drawn is None else kept[auction.drawn % len(kept)]
    return ''.join('%s %d of %d\n' % (name, number, len(kept)) for name in ('listing', 'search'))


if __name__ == '__main__':
    written = [(f, answered(f)) for f in files()]
    cases.write('wide', written)
    ways = [int(text.split()[3]) for _, text in written if text != 'too wide\n']
    assert ways.count(462) >= 7 and ways.count(184756) >= 7 and sum(w > 1 for w in ways) >= 60 and len(written) - len(ways) == 1
    print('%d ties, m above 1 in %d, the greatest m %d' % (len(written), sum(w > 1 for w in ways), max(ways)))

"""Document 01, with CR 5, 6, 7, 8 and 11 of 02, read a second time, in Python: tables, loops and a state that changes, and nothing shared with the
definitions or the code.

read(file)            the tables of an accepted file, or Refused(number, offset)
clear(file, lent)     ('cleared', length) or ('refused', number, offset), and what then stands in the lent bytes
listing(file)         what the printing program prints
"""
import struct
from collections import namedtuple

Year = namedtuple('Year', 'days kind tlm')
# what the winners of a pot must stay within, the cap None where there is none, and its drawn number, None in a file without
Limits = namedtuple('Limits', 'budgets cap drawn')
Technology = namedtuple('Technology', 'pot rqm admin reference load')
Application = namedtuple('Application', 'technology year days draw capacity')
Bid = namedtuple('Bid', 'application year days capacity price')
Round = namedtuple('Round', 'years deliveries pots technologies applications bids')
# what is told of a pot, of an application and of the sealed bids
Pot = namedtuple('Pot', 'outcome prices totals')
Told = namedtuple('Told', 'won bid reason paid')
# what winners come to: money for each year, and capacity
Sums = namedtuple('Sums', 'totals capacity')

NO_PRICE, NO_BID = 4294967295, 65535
# added to a count of pots: each pot has a cap; each pot has a drawn number as well, which it never has without a cap
WITH_CAPS, WITH_DRAWN = 32768, 16384
MOST_CAP, NO_CAP = 20000000, 4294967295
# bids of a tie that may remain; more are outcome 2
MOST_REMAINING = 20
# the exact cost is a whole number of parts; values and totals are pence, and budgets stay in pounds
PARTS_TO_THE_PENNY, PENCE_TO_THE_POUND = 10 ** 15, 100


class Refused(Exception):
    pass


class Place:
    """A file and the place that the reading has come to in it."""

    def __init__(self, file):
        self.file, self.at = file, 0

    def count(self, low, high, added=(0,)):
        """The next count: from low to high, with one of these added."""
        if self.at + 2 > len(self.file):
            raise Refused(1, self.at)
        n = int.from_bytes(self.file[self.at:self.at + 2], 'little')
        if not any(low <= n - a <= high for a in added):
            raise Refused(2, self.at)
        self.at += 2
        return n

    def record(self, form):
        """The fields of the next record, and where it stands."""
        at, width = self.at, struct.calcsize('<' + form)
        if at + width > len(self.file):
            raise Refused(1, at)
        self.at += width
        return struct.unpack('<' + form, self.file[at:at + width]), at


def read_years(place):
    years, valuation = [], False
    for i in range(place.count(1, 8)):
        (days, kind, tlm), at = place.record('HHH')
        wrong = days not in (365, 366) or kind > 1 or tlm > 10000
        wrong |= i == 0 and kind != 1 or kind == 1 and (valuation or i == 4)
        if wrong:
            raise Refused(3, at)
        valuation |= kind == 0
        years.append(Year(days, kind, tlm))
    return years


def read_pots(place, y):
    pots = []
    count = place.count(1, 4, (0, WITH_CAPS, WITH_CAPS + WITH_DRAWN))
    with_caps, with_drawn = count >= WITH_CAPS, count >= WITH_CAPS + WITH_DRAWN
    for _ in range(count % WITH_DRAWN):
        fields, at = place.record('Q' * y + 'I' * (with_caps + with_drawn))
        budgets, cap, drawn = fields[:y], fields[y] if with_caps else NO_CAP, fields[y + 1] if with_drawn else None
        if any(b > 10 ** 12 for b in budgets) or MOST_CAP < cap != NO_CAP:
            raise Refused(4, at)
        pots.append(Limits(budgets, None if cap == NO_CAP else cap, drawn))
    return pots


def read_technologies(place, y, d, pots):
    technologies = []
    for _ in range(place.count(1, 32)):
        fields, at = place.record('HH' + 'IIH' * y)
        t = Technology(fields[0], fields[1], fields[2::3], fields[3::3], fields[4::3])
        wrong = t.pot >= pots or t.rqm > 10000 or max(t.load) > 10000 or max(t.reference) > 500000
        wrong |= any(a % 10 or not 10 <= a <= 500000 for a in t.admin[:d]) or any(t.admin[d:])
        if wrong:
            raise Refused(5, at)
        technologies.append(t)
    return technologies


def starts_rightly(x, years, d):
    return x.year < d and 1 <= x.days <= years[x.year].days and x.capacity > 0


def read_applications(place, years, d, technologies):
    applications = []
    for _ in range(place.count(0, 64)):
        fields, at = place.record('HHHHIQ')
        a = Application(*fields[:5])
        if (a.technology >= technologies or not starts_rightly(a, years, d) or a.capacity > 300000
                or a.draw in [x.draw for x in applications]):
            raise Refused(6, at)
        applications.append(a)
    return applications


def read_bids(place, years, d, technologies, applications):
    bids, places = [], []
    for _ in range(place.count(0, 256)):
        fields, at = place.record('HHHII')
        b = Bid(*fields)
        if b.application >= len(applications) or not starts_rightly(b, years, d):
            raise Refused(7, at)
        a = applications[b.application]
        earlier = b.year < a.year or b.year == a.year and b.days > a.days
        if b.capacity > a.capacity or earlier or b.price > technologies[a.technology].admin[b.year]:
            raise Refused(7, at)
        own = [x for x in bids if x.application == b.application]
        if b.price in [x.price for x in own]:
            raise Refused(8, at)
        if len(own) >= 10 or sum(x.year == b.year for x in own) >= 3:
            raise Refused(9, at)
        bids.append(b)
        places.append(at)
    return bids, places


def read(file):
    place = Place(file)
    years = read_years(place)
    d = sum(y.kind for y in years)
    pots = read_pots(place, len(years))
    technologies = read_technologies(place, len(years), d, len(pots))
    applications = read_applications(place, years, d, len(technologies))
    bids, places = read_bids(place, years, d, technologies, applications)
    if place.at < len(file):
        raise Refused(10, place.at)
    for b, at in zip(bids, places):
        if b.price % 10 and b.price == min(x.price for x in bids if (x.application, x.year) == (b.application, b.year)):
            raise Refused(11, at)
    return Round(years, d, pots, technologies, applications, bids)


class Auction:
    """The clearing of one pot. Bids are (number, Bid); an application is silent where it has none."""

    def __init__(self, r, pot):
        self.r, self.limits, self.last = r, r.pots[pot], len(r.years) - 1
        self.own = [a for a in range(len(r.applications)) if r.technologies[r.applications[a].technology].pot == pot]
        self.sealed = [(k, b) for k, b in enumerate(r.bids) if b.application in self.own]
        self.silent = [a for a in self.own if all(b.application != a for _, b in self.sealed)]
        self.marks, self.winners, self.closed, self.price = {}, [], set(), {}
        # what is left of the pot's drawn number
        self.drawn = self.limits.drawn

    def technology(self, b):
        return self.r.technologies[self.r.applications[b.application].technology]

    def value(self, b, price, y):
        """The exact cost rounded up once to a whole penny."""
        t, year = self.technology(b), self.r.years[y]
        hours = 0 if y < b.year else 24 * (b.days if y == b.year else year.days)
        margin = max(0, min(price, t.admin[b.year]) - t.reference[y])
        return -(-margin * t.load[y] * hours * b.capacity * (10000 - year.tlm) * t.rqm // PARTS_TO_THE_PENNY)

    def sums(self, winners, price):
        """The capacity that counts is the winning bid's, not its application's."""
        totals = [sum(self.value(b, price(b), y) for _, b in winners) for y in range(len(self.r.years))]
        return Sums(totals, sum(b.capacity for _, b in winners))

    def fits(self, sums):
        money = all(t <= PENCE_TO_THE_POUND * b for t, b in zip(sums.totals, self.limits.budgets))
        return money and (self.limits.cap is None or sums.capacity <= self.limits.cap)

    def trial(self, new):
        """The sums with these bids added, their years at their price."""
        price = dict(self.price)
        for _, b in new:
            price[b.year] = b.price
        return self.sums(self.winners + new, lambda b: price[b.year])

    def administrative(self, a):
        """What the first test counts of an application: its own capacity, year and days, at its administrative price."""
        x = self.r.applications[a]
        return Bid(a, x.year, x.days, x.capacity, self.r.technologies[x.technology].admin[x.year])

    def lowest(self):
        """The live bids at the lowest live price."""
        won = {b.application for _, b in self.winners}
        live = [x for x in self.sealed if x[0] not in self.marks and x[1].application not in won and x[1].year not in self.closed]
        return [x for x in live if x[1].price == min(b.price for _, b in live)]

    def win(self, new):
        for k, b in new:
            self.marks[k], self.price[b.year] = 1, b.price
        self.winners = self.winners + new

    def alone(self, k, b):
        """2: a bid that was taken alone and does not fit, and the further looks."""
        self.marks[k] = 2
        while True:
            further = self.lowest()
            if len(further) != 1 or (further[0][1].application, further[0][1].year) != (b.application, b.year):
                break
            if self.fits(self.trial(further)):
                self.win(further)
                break
            self.marks[further[0][0]] = 2
        self.closed.add(b.year)

    def tried(self, remaining):
        """What the trial of every combination of those that remain comes to, in order of number. Of 20 bids there are 2^20, so they are added up side
        by side: the bids of a combination cost the same in each that holds them, since all have one price, and what the winners cost hangs only on the
        years in which that price is set."""
        def each(of, add):
            """Added up over the bids of each combination: the last bid has the lowest place, and each before it doubles the list."""
            listed = [0]
            for _, b in reversed(remaining):
                own = of(b)
                listed += [add(x, own) for x in listed]
            return listed

        def beside(years):
            """What the winners come to with the price of the tie in these years."""
            return self.sums(self.winners, lambda b: remaining[0][1].price if years >> b.year & 1 else self.price[b.year])
        years = each(lambda b: 1 << b.year, int.__or__)
        winners = {x: beside(x) for x in set(years)}
        capacity = each(lambda b: b.capacity, int.__add__)
        money = [each(lambda b: self.value(b, b.price, y), int.__add__) for y in range(len(self.r.years))]
        for set_in, own, *costs in zip(years, capacity, *money):
            before = winners[set_in]
            yield Sums([x + y for x, y in zip(before.totals, costs)], before.capacity + own)

    def chosen(self, remaining):
        """The combination that wins of those that remain, the lowest draw first."""
        def combination(number):
            return [x for i, x in enumerate(remaining) if number >> (len(remaining) - 1 - i) & 1]
        fitting = {}
        for number, sums in enumerate(self.tried(remaining)):
            if self.fits(sums):
                fitting[number] = sums.totals[self.last]
        # closest to the budget means money: the cap only decides whether a combination fits
        closest = max(fitting.values())
        best = [number for number, total in fitting.items() if total == closest]
        number = best[-1] if self.drawn is None else self.draw(best, fitting, len(remaining))
        assert self.fits(self.trial(combination(number))) and self.trial(combination(number)).totals[self.last] == closest
        return combination(number)

    def draw(self, best, fitting, width):
        """The number of the combination that is drawn. A bid that was dropped fits with none, so that only those that remain could be added."""
        kept = [number for number in best if all(number >> i & 1 or number + 2 ** i not in fitting for i in range(width))]
        self.drawn, place = divmod(self.drawn, len(kept))
        return kept[place]

    def tie(self, taken):
        """3: False where the tie is too wide."""
        remaining = [x for x in taken if self.fits(self.trial([x]))]
        remaining.sort(key=lambda x: self.r.applications[x[1].application].draw)
        if len(remaining) > MOST_REMAINING:
            return False
        self.win(self.chosen(remaining))
        for k, b in taken:
            if k not in self.marks:
                self.marks[k] = 3
                self.closed.add(b.year)
        return True

    def run(self):
        while True:
            taken = self.lowest()
            if not taken:
                return True
            if self.fits(self.trial(taken)):
                self.win(taken)
            elif len(taken) == 1:
                self.alone(*taken[0])
            elif not self.tie(taken):
                return False

    def same(self, outcome, totals, reason, told):
        """A pot of outcome 0 or 2: one reason for all its bids and for the silent."""
        pot = Pot(outcome, [NO_PRICE] * self.r.deliveries, totals)
        return pot, {a: told(a, reason if a in self.silent else 0) for a in self.own}, {k: reason for k, _ in self.sealed}

    def cleared(self):
        """What is told of the pot, of its applications and of its bids."""
        counted = {a: self.administrative(a) for a in self.own}
        sums = self.sums(counted.items(), lambda b: b.price)
        if self.fits(sums):
            return self.same(0, sums.totals, 6, lambda a, why: Told(1, NO_BID, why, counted[a].price))
        if not self.run():
            return self.same(2, [0] * len(self.r.years), 7, lambda a, why: Told(0, NO_BID, why, 0))
        applications = {a: Told(0, NO_BID, 8 if a in self.silent else 0, 0) for a in self.own}
        for k, b in self.winners:
            applications[b.application] = Told(1, k, 0, min(self.price[b.year], self.technology(b).admin[b.year]))
        prices = [self.price.get(d, NO_PRICE) for d in range(self.r.deliveries)]
        pot = Pot(1, prices, self.sums(self.winners, lambda b: self.price[b.year]).totals)
        return pot, applications, {k: self.marks.get(k, 4 if applications[b.application].won else 5) for k, b in self.sealed}


def told(r):
    """The pots, applications and reasons of a round."""
    pots, applications, reasons = [], {}, {}
    for p in range(len(r.pots)):
        pot, a, b = Auction(r, p).cleared()
        pots.append(pot)
        applications.update(a)
        reasons.update(b)
    return pots, [applications[a] for a in range(len(r.applications))], [reasons[k] for k in range(len(r.bids))]


def result(r):
    pots, applications, reasons = told(r)
    out = struct.pack('<H', len(pots))
    for p in pots:
        out += struct.pack('<H', p.outcome) + b''.join(struct.pack('<I', x) for x in p.prices) + b''.join(struct.pack('<Q', x) for x in p.totals)
    out += struct.pack('<H', len(applications)) + b''.join(struct.pack('<HHHI', *a) for a in applications)
    return out + struct.pack('<H', len(reasons)) + b''.join(struct.pack('<H', x) for x in reasons)


def needed(r):
    y, d = len(r.years), r.deliveries
    return 6 + len(r.pots) * (2 + 4 * d + 8 * y) + 10 * len(r.applications) + 2 * len(r.bids)


def clear(file, lent):
    try:
        r = read(file)
    except Refused as e:
        return ('refused',) + e.args, lent
    if len(lent) < needed(r):
        return ('refused', 12, 0), lent
    out = result(r)
    assert len(out) == needed(r)
    return ('cleared', len(out)), out + lent[len(out):]


def listing(file):
    try:
        r = read(file)
    except Refused as e:
        return 'refused %d at %d\n' % e.args
    pots, applications, reasons = told(r)
    lines = []
    for p, pot in enumerate(pots):
        lines.append('pot %d %s' % (p, ('administrative', 'auction', 'tie')[pot.outcome]))
        for y, total in enumerate(pot.totals):
            price = pot.prices[y] if y < len(pot.prices) else NO_PRICE
            lines.append('year %d price %s total %d' % (y, '-' if price == NO_PRICE else price, total))
    for a, t in enumerate(applications):
        bid = '-' if t.bid == NO_BID else t.bid
        lines.append('application %d ' % a + ('won %d bid %s' % (t.paid, bid) if t.won else 'lost'))
    lines += ['bid %d reason %d' % x for x in enumerate(reasons)]
    return ''.join(line + '\n' for line in lines)

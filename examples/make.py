#!/usr/bin/env python3
"""The example rounds: each file of tables/ as a round file of document 01 and the listing that the printing program gives for it.

make.py            writes NAME.round and NAME.listing for each tables/NAME.txt
make.py --check    names those that are not what it would write; the exit status is then 1

A file of tables holds the five sections of a round file, each with its records numbered as the listing numbers them, and the yearly
figures of the technologies. A table is its name and columns in one line, then its rows, then a blank line; cells stand two spaces or
more apart; a line that begins with # is a note. Prices are pounds per MWh, capacities MW, money pounds; the totals of a listing are pence.
A start is the name of a year, for its first day, or a date. Where pots have a column cap, in MW or - for none, the file has caps; where they have
a column drawn number behind it, it has those too.
"""
import re
import sys
from datetime import date
from decimal import Decimal
from pathlib import Path

sys.dont_write_bytecode = True
here = Path(__file__).resolve().parent
sys.path.insert(0, str(here.parent / 'tests'))
from making import NO_CAP, round_file
from reading import listing

# the units of document 01, to a pound per MWh, a MW, one and a pound
PRICE, CAPACITY, FACTOR, MONEY = 1000, 100, 10000, 1
# what stands for a technology that is not on offer in a delivery year: the least administrative price that 01 allows, and no load
LEAST_PRICE, NO_LOAD = 10, 0
# the one example that the reading turns away
REFUSED = 'refused'


def tables(text):
    """The tables of a file by name, each a list of rows by column. The column of the row's own number or name is ''."""
    found, rows = {}, None
    for line in text.splitlines():
        if line.startswith('#'):
            continue
        cells = re.split(' {2,}', line.strip())
        if not line.strip():
            rows = None
        elif rows is None:
            columns, rows = [''] + cells[1:], found.setdefault(cells[0], [])
        elif len(cells) == len(columns):
            rows.append(dict(zip(columns, cells)))
        else:
            raise SystemExit('not a row of the columns %s: %s' % (columns, line))
    return found


def whole(cell, scale):
    """A number as a person writes it, in units of which scale make one."""
    n = Decimal(cell.replace(',', '').rstrip('%')) * scale / (100 if cell.endswith('%') else 1)
    if n != int(n):
        raise SystemExit('%s is not a whole number of units' % cell)
    return int(n)


def numbers(rows):
    """The number of each name in a section. Its rows are numbered from 0, and no two have one name."""
    number = {row.get('name', row['']): i for i, row in enumerate(rows)}
    if [row[''] for row in rows] != [str(i) for i in range(len(rows))] or len(number) < len(rows):
        raise SystemExit('not numbered from 0, or a name given twice: %s' % list(number))
    return number


def start(cell, years, year):
    """The number of the year and the days left in it; years of 000 and 003 begin on 1 April (000, Schedule 2, YR1F)."""
    if cell in year:
        return year[cell], whole(years[year[cell]]['days'], 1)
    day = date.fromisoformat(cell)
    first = date(day.year - (day.month < 4), 4, 1)
    y = year['%d/%02d' % (first.year, (first.year + 1) % 100)]
    return y, whole(years[y]['days'], 1) - (day - first).days


def figures(technology, t):
    """For each year the administrative price, the reference price and the load factor of a technology."""
    def row(table, name):
        return next(r for r in t[table] if r[''] == name)

    admin, load = row('administrative', technology['name']), row('load', technology['name'])
    reference = row('reference', technology['reference'])
    for y in (r['name'] for r in t['years']):
        # a valuation-only year has no administrative price, and 01 asks for 0 there
        price = LEAST_PRICE if admin.get(y) == '-' else whole(admin.get(y, '0'), PRICE)
        yield price, whole(reference[y], PRICE), NO_LOAD if load[y] == '-' else whole(load[y], FACTOR)


def caps(pots):
    """The cap of each pot, with its drawn number in a file that has them, or None for a file without caps."""
    if 'cap' not in pots[0]:
        return None
    limits = [NO_CAP if r['cap'] == '-' else whole(r['cap'], CAPACITY) for r in pots]
    if 'drawn number' not in pots[0]:
        return limits
    return [(cap, whole(r['drawn number'], 1)) for cap, r in zip(limits, pots)]


def round_of(t):
    """The round file of the tables."""
    year, pot, technology, application, _ = (numbers(t[x]) for x in ('years', 'pots', 'technologies', 'applications', 'bids'))

    def begins(r):
        return start(r['start'], t['years'], year)

    return round_file(
        [(whole(r['days'], 1), ('valuation', 'delivery').index(r['kind']), whole(r['TLM'], FACTOR)) for r in t['years']],
        [[whole(r[y], MONEY) for y in year] for r in t['pots']],
        [(pot[r['pot']], whole(r['RQM'], FACTOR), list(figures(r, t))) for r in t['technologies']],
        [(technology[r['technology']], *begins(r), whole(r['draw'], 1), whole(r['MW'], CAPACITY), whole(r['declared'], MONEY))
         for r in t['applications']],
        [(application[r['application']], *begins(r), whole(r['MW'], CAPACITY), whole(r['price'], PRICE)) for r in t['bids']],
        caps(t['pots']))


def made():
    """What is to stand here: the bytes of each file by name."""
    files = {}
    for path in sorted(here.glob('tables/*.txt')):
        file = round_of(tables(path.read_text(encoding='utf8')))
        told = listing(file)
        if told.startswith('refused') != (path.stem == REFUSED):
            raise SystemExit('%s: %s' % (path.stem, told.splitlines()[0]))
        files[path.stem + '.round'], files[path.stem + '.listing'] = file, told.encode()
    return files


def main():
    if sys.argv[1:] not in ([], ['--check']):
        raise SystemExit(__doc__)
    files = made()
    if not sys.argv[1:]:
        for name, data in files.items():
            (here / name).write_bytes(data)
        return 0
    there = {p.name: p.read_bytes() for p in here.iterdir() if p.suffix in ('.round', '.listing')}
    differ = sorted(name for name in files.keys() | there.keys() if files.get(name) != there.get(name))
    for name in differ:
        print('differs: ' + name)
    return 1 if differ else 0


if __name__ == '__main__':
    sys.exit(main())

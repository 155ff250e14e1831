"""rows.py SEED ROUNDS SHARE: made round files as rows for the checker: what clear_of of crate rules gives is what tests/reading.py gives.

The worked and the directed rounds come first; of the rest, SHARE are damaged. A count of what occurred goes to standard error."""
import collections
import os
import random
import sys

here = os.path.dirname(os.path.abspath(__file__))
sys.path.insert(0, os.path.join(here, '..'))
import making
import reading

WORKED = os.path.join(here, '..', '..', 'crates', 'rules', 'specs', 'Worked.antt')
MAKERS = ('times', 'counted', 'joined', 'nums')


def numbers(data):
    return ''.join('%d ∷ ' % x for x in data) + '[]'


def row(k, file, room):
    answer, exit = reading.clear(file, bytes([9]) * room)
    told = 'Cleared %d' % answer[1] if answer[0] == 'cleared' else 'Refused %d %d' % answer[1:]
    after = '(%s)' % numbers(exit) if answer[0] == 'cleared' else '(replicate %d 9)' % room
    return 'row%d : clear_of (%s) (replicate %d 9) ≡ record { answer = %s; exit = %s }' % (k, numbers(file), room, told, after)


def reasons(file):
    pots, applications, sealed = reading.told(reading.read(file))
    return ['outcome %d' % p.outcome for p in pots] + ['reason %d' % x for x in sealed] + ['automatic %d' % a.reason for a in applications if a.reason]


def main(seed, rounds, share):
    rnd, seen = random.Random(seed), collections.Counter()
    files = list(making.worked().values()) + making.directed()
    while len(files) < rounds:
        file = making.make(rnd)
        files.append(making.damage(rnd, file) if rnd.random() < share else file)
    source = open(WORKED, encoding='utf8').read()
    print(source[:source.index('-- the result of a file')])
    # what the worked cases unfold, but for the makers of their files, which no row has
    theorem = source.index('worked = (')
    unfolding = ' '.join(w for w in source[source.rindex('unfolding', 0, theorem):theorem].split() if w not in MAKERS)
    for k, file in enumerate(files[:rounds]):
        answer, _ = reading.clear(file, bytes(4096))
        if answer[0] == 'cleared':
            seen.update(reasons(file))
            room = answer[1] - 1 if rnd.random() < .03 else answer[1] + 3
        else:
            seen['refusal %d' % answer[1]] += 1
            room = 10
        print(row(k, file, room) + '\n' + unfolding + '\nrow%d = refl\n' % k)
    print(', '.join('%s: %d' % x for x in sorted(seen.items())), file=sys.stderr)


main(int(sys.argv[1]), int(sys.argv[2]), float(sys.argv[3]))

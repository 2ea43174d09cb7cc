"""A session of mixed load, made line by line beside a small model of the program.

100 devices with limits of 1 to 4 runs and none, some with delays; 500 nodes: 100 with levels of their own, 300 with
levels by 30 patterns, 100 without, whose four devices are asked for their lists, two of which keep the answer. Eight
clients ask for off, reboot and on, some for what is asked already and some with a short total; an operator confirms
now and then; exits come in any order, a tenth of them failures. About one line in a hundred is refused: an exit of a
run that has ended. No other is, since the model knows which runs are alive. At most 32 operations are open, a number
that is soon reached, so that a longer session has more of the same. Each making gives the same session.
The 361 lines of the devices and levels come first and are not counted, else the shorter session had more of them.
"""
import random
from collections import namedtuple

from model import Model
from nodes import NODES, node, set_up

SEED = 20
TOTAL, SHORT_TOTAL = 600_000, 40
MOST_ALIVE, MOST_OPEN = 24, 32

# A session's text, how many of its lines are refused, and the end line that it must have.
Session = namedtuple('Session', 'text refused end')


class Maker:
    def __init__(self):
        self.chance = random.Random(SEED)
        self.model = Model()
        self.ended = None
        self.refused = 0

    def line(self):
        """The next line, which the model has taken in."""
        model = self.model
        model.advance(model.now + self.chance.randrange(8))
        words = self.words(self.chance.random())
        model.start_all()
        return '%d %s' % (model.now, words)

    def words(self, share):
        model = self.model
        if share < 0.01 and self.ended is not None:
            self.refused += 1
            return 'exit %d 0' % self.ended
        if share < 0.03:
            return 'pass'
        if share < 0.05 and model.open:
            return self.confirm()
        if model.alive and (share < 0.6 or len(model.alive) >= MOST_ALIVE or len(model.open) >= MOST_OPEN):
            return self.exit()
        return self.ask() if len(model.open) < MOST_OPEN else 'pass'

    def confirm(self):
        n = self.chance.choice(list(self.model.open.values())).n
        self.model.confirm(n)
        return 'confirm admin %s' % node(n)

    def exit(self):
        run = self.ended = self.chance.choice(list(self.model.alive))
        operation, _device, kind = self.model.alive[run]
        passed, listed = self.chance.random() < 0.9, self.chance.random() < 0.5
        self.model.exit(run, passed, listed)
        if not passed:
            return 'exit %d %s' % (run, self.chance.choice(['1', '2', 'signal', 'too-long']))
        if kind != 'list':
            return 'exit %d 0' % run
        return 'exit %d 0 plug1,other%%0A%s' % (run, 'plug2,%s%%0A' % node(operation.n) if listed else '')

    def ask(self):
        chance, opened = self.chance, list(self.model.open.values())
        if opened and chance.random() < 0.15:
            same = chance.choice(opened)
            kind, n = same.kind, same.n
        else:
            kind, n = chance.choices(['off', 'reboot', 'on'], [6, 3, 1])[0], chance.randrange(NODES)
        total = SHORT_TOTAL if chance.random() < 0.05 else TOTAL
        coin, client = chance.randrange(2**32), chance.randrange(8)
        self.model.ask(kind, n, total, coin)
        return 'ask c%d %s %s total=%dms coin=%d' % (client, kind, node(n), total, coin)


def session(count):
    """A session of so many lines, after those of the devices and levels."""
    maker = Maker()
    lines = list(set_up()) + [maker.line() for _ in range(count)]
    model = maker.model
    end = 'end asked %d answered %d alive %d' % (model.asked, model.answered, len(model.alive))
    return Session('\n'.join(lines + ['']).encode(), maker.refused, end)

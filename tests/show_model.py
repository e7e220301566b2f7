"""show_model.py: what the program `show` has to print for a board file, from the permutations of its duties.
It shares nothing with the crates; reading, permitted and changed are those of live_model.py. Needs Python 3
alone."""
import itertools

import live_model as model

MOST = 8  # duties
MOST_LINES = 5000


def is_allowed(order):
    """Whether no duty stands after one that it is wholly before."""
    return not any(model.wholly_before(later, earlier) for earlier, later in itertools.combinations(order, 2))


def begun(board, order):
    """The serials of an order up to the first duty that is not permitted, and whether there is none."""
    holdings = tuple(board.holdings)
    for place, duty in enumerate(order):
        if not model.permitted(board, holdings, *duty[1:5]):
            return tuple(d[0] for d in order[:place + 1]), False
        holdings = model.changed(holdings, *duty[2:5])
    return tuple(d[0] for d in order), True


def orders(board):
    """Every allowed order, or its beginning where one is not permitted, each once, lower serials first."""
    allowed = (begun(board, order) for order in itertools.permutations(board.pool()) if is_allowed(order))
    return sorted(set(allowed))


def shown(data):
    """The lines for a board file."""
    number, board = model.read(data)
    if not number and board.open > MOST:
        number = 22
    if number:
        return ['refused %d' % number]
    met = orders(board)
    lines = [' '.join([*map(str, serials), 'yes' if done else 'no']) for serials, done in met[:MOST_LINES]]
    if len(met) > MOST_LINES:
        lines.append('cut %d' % (len(met) - MOST_LINES))
    lines.append('orders %d' % len(met))
    failing = [serials for serials, done in met if not done]
    if failing:
        lines.append(' '.join(map(str, ('no', len(failing[0]), *failing[0]))))
    else:
        lines.append('yes %d' % board.open)
    return lines

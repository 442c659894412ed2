"""Accumulator listings for run.py: of controllers, with less width than they need or a line changed, and of no controller."""
from . import cases, control, listing, model
from .machines import LISTED, VERSIONS


def random_instruction(pick, words, room):
    """An instruction whose constants are about as large as the word."""
    name = pick.choice([b"clear", b"load", b"store", b"store", b"mac", b"mac", b"con", b"con", b"addm", b"shl", b"shr", b"neg", b"low", b"cap"])
    number = lambda: pick.choice([0, 1, -1, pick.choice([-1, 1]) << pick.randrange(room), pick.randrange(-(1 << room), 1 << room), pick.choice([-(2**127), 2**127 - 1] + [3] * 8)])
    of = {"a": lambda: pick.randrange(words), "k": lambda: pick.choice([0, 0, 0, 1, 2, pick.randrange(room), pick.choice([126, 125, room])]), "c": number}
    return name.decode(), *(min(126, of[kind]()) if kind == "k" else of[kind]() for kind in listing.OPERANDS[name])


def random_listing(pick):
    """A listing of no controller, which may trap anywhere or not at all, with words that are never cleared."""
    n, word = pick.choice([1, 1, 2, 6]), pick.choice([2, 3, 8, 8, 16, 64, 100, 127, 128])
    words = n + pick.choice([0, 1, 2, 5, 1000 - n])
    some = min(words, 8)
    room = max(1, pick.choice([2, word // 2, word - 1]))
    body = [random_instruction(pick, some, room) for _ in range(pick.choice([1, 2, 5, 5, 12, 40]))]
    first = pick.randrange(some)
    side = pick.choice([0, 1, 5, 2**31 - 1])
    lo = [pick.choice([-side, 0, -pick.randrange(side + 1)]) for _ in range(n)]
    return listing.Listing(word, n, pick.choice([0, 0, 1, word // 2 % 49, 48]), lo, [pick.choice([side, max(low, 0)]) for low in lo], words, first, pick.choice([1, words - first, 1]),
                           pick.choice([1, 4096, 2**126]), pick.choice([1, 1, 2, 3, 9, 100]), body)


def body_changed(pick, l):
    """The instructions with a few changed: one left out, one twice, two exchanged, or another in one's place."""
    body = list(l.body)
    for _ in range(pick.choice([1, 1, 2, 5])):
        at, other, how = pick.randrange(len(body)), pick.randrange(len(body)), pick.randrange(4)
        if how == 0 and len(body) > 1:
            del body[at]
        elif how == 1:
            body.insert(other, body[at])
        elif how == 2:
            body[at], body[other] = body[other], body[at]
        else:
            body[at] = random_instruction(pick, l.words, max(1, l.word // 2))
    return body


def needed_word(l, states):
    """The least width in which these states are played, by a search."""
    least, most, kept = 2, 128, l.word
    while least < most:
        l.word = (least + most) // 2
        try:
            for state in states:
                listing.played(l, state)
            most = l.word
        except listing.Trapped:
            least = l.word + 1
    l.word = kept
    return least


def controller(pick, texts, versions=VERSIONS):
    """A controller of one of these versions that is accepted: one of the texts, or a random one."""
    while True:
        text = pick.choice(texts) if pick.random() < 0.5 else control.text_of(cases.random_controller(pick, versions=versions)[1])
        try:
            return control.read_controller(text, versions), text
        except model.Refused:
            continue


def listing_texts(pick, texts, most):
    """A listing, its states, and the text of the controller that it plays as it is, or None."""
    how = pick.random()
    if how < 0.35:
        l = random_listing(pick)
        text, states = listing.text_of(l), cases.states_text(pick, l)
        return (cases.changed(pick, text) if how < 0.05 else text), states, None
    c, of = controller(pick, texts, LISTED)
    l = listing.listing_of(c)
    states = cases.states_text(pick, c)
    if how < 0.55:
        return listing.text_of(l), states if how < 0.5 else cases.changed(pick, states), of
    if how < 0.75:
        # about the least width that one of the box's corners needs
        is_short = l.repeat * len(l.body) <= most
        l.word = max(2, min(128, (needed_word(l, [c.hi]) if is_short else l.word) + pick.choice([-1, -1, 0, -2, -3, -9])))
        return listing.text_of(l), states, None
    if how < 0.85:
        l.body = body_changed(pick, l)
        return listing.text_of(l), states, None
    if how < 0.9:
        l.word, l.repeat = max(2, l.word - pick.choice([0, 1, 2])), pick.choice([1, 2, l.repeat + 1])
        return listing.text_of(l), states, None
    return cases.changed(pick, listing.text_of(l)), states, None

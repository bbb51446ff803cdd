"""Certificates of verdicts, for `tools/check-certificate`, which knows the steps of the standard by itself.

`no order`: all states in which a codec can be before each event, up to the first impossible one, found without the shortcuts of
the search. They hold the opening state, all that follows from them by the steps, and no state that the impossible event can
follow. `order`: the states of the order that was found, one step from each to the next, up to the end.
"""
import codec_steps
from codec_steps import HIDDEN, OPENING
from judge import WIDEST
from search import call_moves, hidden_moves, shown_moves

MOST_STATES = 60000


def plain_moves(state, event):
    """All that may come next, with no shortcut: (whether it takes the event, state)."""
    ways = []
    if state.tasks and state.tasks[0][0] == "processing":
        return [(False, way) for _, _, way in hidden_moves(state, WIDEST)]
    if event["k"] == "call":
        ways += [(True, way) for _, _, way in call_moves(state, event, WIDEST, None)]
    elif event["k"] == "look":
        if codec_steps.fits(state, event):
            ways.append((True, state))
        if event.get("behind"):
            return ways
    else:
        ways += [(True, way) for _, _, way in shown_moves(state, event, WIDEST, None)]
    if not state.owed:
        if state.tasks and state.tasks[0][0] in HIDDEN and not (event["k"] == "call" and event.get("inside")):
            ways += [(False, way) for way in codec_steps.hidden_turn(state, WIDEST)]
        ways += [(False, way) for _, _, way in codec_steps.work_ends(state, WIDEST)]
    return ways


def reachable(events, most=MOST_STATES):
    """The states before each event that can be reached, up to the first event that cannot; None where they are too many."""
    layers, layer, count = [], {OPENING}, 0
    for event in events:
        stack, after = list(layer), set()
        while stack:
            for takes, way in plain_moves(stack.pop(), event):
                if takes:
                    after.add(way)
                elif way not in layer:
                    layer.add(way)
                    stack.append(way)
            if count + len(layer) > most:
                return None
        count += len(layer)
        layers.append(layer)
        if not after:
            return layers
        layer = after
    return None


def states_of(path, events):
    """The states along an order that was found, or None. Several ways may begin alike: all are followed, and one that comes to
    the end is told."""
    links = [(OPENING, None)]
    for kind, detail in path:
        after = []
        for state, link in links:
            for way in ways_of(state, kind, detail, events):
                if all(way != other for other, _ in after):
                    after.append((way, (state, link)))
        links = after
    if not links:
        return None
    state, link = links[0]
    chain = [state]
    while link is not None:
        state, link = link
        chain.append(state)
    return chain[::-1]


def ways_of(state, kind, detail, events):
    if kind == "event":
        event = events[detail[0]]
        return [way for takes, way in plain_moves(state, event) if takes]
    if kind == "turn":
        return codec_steps.hidden_turn(state, WIDEST) if state.tasks and state.tasks[0][0] == detail else []
    return [way for item, fate, way in codec_steps.work_ends(state, WIDEST) if item[:2] == detail[0][:2] and (fate == detail[1] or isinstance(detail[1], int))]


# ---------------------------------------------------------------- the form

def word_of(part):
    if part is True or part is False:
        return "yes" if part else "no"
    if isinstance(part, tuple):
        return "[%s]" % " ".join(word_of(it) for it in part)
    return str(part) if part != "" else "-"


def event_line(event):
    words = [event["k"]]
    if event["k"] == "call":
        argument = {"configure": "valid", "decode": "key", "encode": "attached"}.get(event["do"])
        known = event.get(argument)
        words += [event["do"], event["by"], event["answer"], "-" if argument is None else "maybe" if known is None else "yes" if known else "no"]
    else:
        words += [str(event.get(name)) if event.get(name) is not None else "-" for name in ("of", "error", "state", "size")]
        words.append("behind" if event.get("behind") else "holds" if event.get("holds") else "-")
    return " ".join(words + [event["inside"] if event.get("inside") else "-"])


def certificate_of(script, name, kind, events, verdict):
    """The certificate of a codec's verdict, or None where none is wanted, or it would be too long."""
    if not verdict.is_explained:
        layers = reachable(events)
        if layers is None:
            return None
        lines = ["no order"] + ["event %d %s" % (place, event_line(event)) for place, event in enumerate(events[:len(layers)])]
        lines += ["state %d %s" % (place, word_of(tuple(state))) for place, layer in enumerate(layers) for state in sorted(layer, key=repr)]
    elif verdict.is_legal() and not (verdict.own and verdict.confirmed):
        chain = states_of(verdict.path, events)
        if chain is None:
            return None
        lines = ["order"] + ["event %d %s" % (place, event_line(event)) for place, event in enumerate(events)]
        lines += ["step %s" % word_of(tuple(state)) for state in chain]
    else:
        return None
    return "\n".join(["zemirako certificate 1", "codec %s %s" % (name, kind)] + lines + ["end", ""])

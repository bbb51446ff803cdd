"""Reads a report and judges it, in Python: a reading of docs/FORMATS.md and docs/DEFINITIONS.md apart from the program's code.

`verdict(script, text)` gives None where the text is the report of a legal run that fits the script, and else the number of the
line at fault, with a word on why. The first that applies: the first line that has not its form; the first line whose entry has
no arguments or does not follow, or that differs from the report of what was read; the first line, codec by codec, of an entry
that is not lawful or of an output that is not the definition's; the first entry of the pool, and of the registry, that is not
legal; the last line. An entry of a codec is lawful where it is legal and, if it ends an item, suits the box that the item lacked.
"""
import re

import codec_definitions as definitions
from codec_history import ROLES, Codec, Illegal, coder_id, is_supported
from run_model import Held, Pool, Replay, Run, entry_lines, local_answer, report_lines

NUMBER = r"(0|[1-9][0-9]*)"
SIGNED = r"(0|-?[1-9][0-9]*)"
OR_DASH = r"(-|0|[1-9][0-9]*)"
HEX = r"(-|(?:[0-9a-f]{2})+)"
NAME = r"([a-z0-9_-]{1,32})"
ERROR = r"(AbortError|InvalidStateError|NotSupportedError|EncodingError|DataError|DataCloneError|QuotaExceededError|TypeError|RangeError|OutOfMemory)"
FORMAT = r"(u8|s16|s32|u8-planar|s16-planar|s32-planar)"
ROLE = r"((?:decode|encode):[a-z0-9-]+)"
CODERS = {role + ":" + codec for role in ("decode", "encode") for codec in list(definitions.WIDTHS) + ["flac"] + list(definitions.PICTURES)}
MOST = 2**64 - 1

RESULTS = [
    ("local", ERROR), ("ok", "ok"), ("absent", "absent"), ("nothing", "none"), ("from", rf"from {NAME}\.{NUMBER}"), ("call", rf"{NAME}\.{NUMBER} (?:ok|{ERROR})"),
    ("look", rf"{NAME}:{NUMBER} (pending|resolved|rejected {ERROR})"), ("state", rf"{NAME}:{NUMBER} (unconfigured|configured|closed) {NUMBER}"),
    ("unit", rf"{NAME}\.{NUMBER} unit {NUMBER}"), ("none", rf"{NAME}:{NUMBER} none"), ("size", rf"size {NUMBER}"),
    ("copied", rf"copied {NUMBER} {HEX}"), ("frame", rf"copied {NUMBER} ({NUMBER}:{NUMBER},{NUMBER}:{NUMBER}(?:,{NUMBER}:{NUMBER})?) {HEX}"),
]
ENTRIES = [
    ("call", rf"{NAME}\.{NUMBER} (configure|decode|encode|flush|reset|close) = (?:ok|{ERROR})"), ("take", rf"{NAME}\.{NUMBER} take = {NUMBER}"),
    ("ground", rf"{NAME}\.{NUMBER} ground (foreground|background|background-encoding) = ok"), ("start", rf"start {NUMBER}\.{NUMBER}"),
    ("done", rf"done {NUMBER}\.{NUMBER} {NUMBER} (ran {NUMBER}|refused|no-slot {NUMBER}|no-memory)"),
    ("turn", rf"turn (unblock|process|desaturate|output|flushed|dequeue|close {ERROR})"), ("reclaim", rf"reclaim {NUMBER}"),
]
EVENTS = [
    ("resolve", rf"resolve {NUMBER}"), ("reject", rf"reject {NUMBER} {ERROR}"), ("dequeue", "dequeue"), ("error", rf"error {ERROR}"),
    ("audio", rf"output audio {FORMAT} {NUMBER} {NUMBER} {NUMBER} {SIGNED} {NUMBER} {HEX}"),
    ("video", rf"output video (I420|I422|I444|NV12) {NUMBER} {NUMBER} {SIGNED} {OR_DASH} {HEX}"),
    ("chunk", rf"output chunk (key|delta) {SIGNED} {OR_DASH} {HEX}"), ("config", rf"config ([^ ]+) {NUMBER} {NUMBER} {HEX}"),
]


class AtFault(Exception):
    def __init__(self, line, why):
        super().__init__(why)
        self.line, self.why = line, why


def matched(forms, text):
    for name, form in forms:
        found = re.fullmatch(form, text)
        if found:
            return name, found.groups()
    return None, None


def raw(text):
    return b"" if text == "-" else bytes.fromhex(text)


def optional(text):
    return None if text == "-" else int(text)


class Reading:
    """The lines of a report by their forms, and the run that they show."""

    def __init__(self, script, text):
        self.script, self.run = script, Run(script)
        self.opened = []                             # the kind and the saturation of each codec, by its line
        self.lines = text.split("\n")
        if self.lines[-1] == "":
            self.lines.pop()
        self.ends_well = text.endswith("\n")
        self.at = 0
        self.told = [[] for _ in script.codecs]      # (line number, place, form, parts) of entries
        self.events = [[] for _ in script.codecs]    # (line number, form, parts), in the order of the codec's lines
        self.pool_at, self.slots_at = [], []
        self.forms()
        self.variables()
        self.entries()

    # -- forms

    def bad(self, why):
        raise AtFault(self.at + 1, why)

    def line(self):
        if self.at >= len(self.lines):
            self.bad("the line is missing")
        if self.at == len(self.lines) - 1 and not self.ends_well:
            self.bad("the line has no end")
        return self.lines[self.at]

    def want(self, text):
        if self.line() != text:
            self.bad("%r is wanted" % text)
        self.at += 1

    def numbered(self, number):
        """The text behind the number that the line has to begin with, or None."""
        text, head = self.line(), "%d " % number
        return text[len(head):] if text.startswith(head) else None

    def small(self, *values):
        if any(int(it) > MOST for it in values):
            self.bad("a number is too great")

    def codec_of(self, name):
        if name not in self.script.codec_numbers:
            self.bad("no codec has this name")
        return self.script.codec_numbers[name]

    def by(self, name, place):
        if name in self.script.caller_numbers:
            return ("caller", self.script.caller_numbers[name], int(place))
        if name in self.script.codec_numbers:
            return ("codec", self.script.codec_numbers[name], int(place))
        return self.bad("no one has this name")

    def forms(self):
        self.want("wcrun report 1")
        for c, (name, _) in enumerate(self.script.callers):
            self.want("caller " + name)
            while self.at < len(self.lines) and self.numbered(len(self.run.results[c])) is not None:
                self.run.results[c].append(self.result(self.numbered(len(self.run.results[c]))))
                self.at += 1
        for k, (name, _, _) in enumerate(self.script.codecs):
            found = re.fullmatch("codec %s (%s) %s" % (name, "|".join(ROLES), NUMBER), self.line())
            if not found or int(found.group(2)) >= 2**32:
                self.bad("the line of the codec is wanted")
            self.opened.append((found.group(1), int(found.group(2))))
            self.at += 1
            self.codec_lines(k)
        self.want("pool")
        while self.numbered(len(self.run.pool)) is not None:
            self.pool_entry(self.numbered(len(self.run.pool)))
        self.want("slots")
        while self.numbered(len(self.run.slots)) is not None:
            self.slot_entry(self.numbered(len(self.run.slots)))
        found = re.fullmatch("held " + NUMBER, self.line())
        if not found:
            self.bad("`held N` is wanted")
        self.run.held = int(found.group(1))
        self.at += 1
        self.want("end")
        if self.at < len(self.lines):
            self.bad("nothing follows the end")

    def result(self, text):
        name, parts = matched(RESULTS, text)
        if name is None:
            self.bad("this is no result")
        if name in ("local", "ok"):
            return ("local", parts[0] if parts else None)
        if name in ("absent", "nothing"):
            return (name,)
        if name == "from":
            if parts[0] not in self.script.caller_numbers:
                self.bad("no caller has this name")
            return ("from", self.script.caller_numbers[parts[0]], int(parts[1]))
        if name == "size":
            return ("size", int(parts[0]))
        if name == "copied":
            return ("copied", int(parts[0]), None, raw(parts[1]))
        if name == "frame":
            return ("copied", int(parts[0]), [tuple(map(int, it.split(":"))) for it in parts[1].split(",")], raw(parts[-1]))
        k, place = self.codec_of(parts[0]), int(parts[1])
        if name == "call":
            return ("call", k, place, parts[2])
        if name == "look":
            return ("look", k, place, tuple(parts[2].split(" ")))
        if name == "state":
            return ("state", k, place, parts[2], int(parts[3]))
        return (name, k, place) + ((int(parts[2]),) if name == "unit" else ())

    def codec_lines(self, k):
        while True:
            text = self.line()
            if text.startswith("  "):
                name, parts = matched(EVENTS, text[2:])
                if name is None:
                    self.bad("this is nothing that an entry shows")
                self.events[k].append((self.at, name, parts))
            else:
                rest = self.numbered(len(self.told[k]))
                if rest is None:
                    return
                name, parts = matched(ENTRIES, rest)
                if name is None:
                    self.bad("this is no entry")
                if name in ("call", "take", "ground") and parts[0] not in self.script.caller_numbers:
                    self.bad("no caller has this name")
                self.told[k].append((self.at, name, parts))
            self.at += 1

    def pool_entry(self, text):
        found = re.fullmatch(rf"{NAME}\.{NUMBER} (make|clone|end) {NUMBER} {NUMBER}( kept| gone)?", text)
        if not found or (found.group(3) == "end") != (found.group(6) is not None):
            self.bad("this is no entry of the pool")
        by = self.by(found.group(1), found.group(2))
        self.pool_at.append(self.at)
        self.run.pool.append((by, found.group(3), int(found.group(4)), int(found.group(5))) + ((found.group(6).strip(),) if found.group(6) else ()))
        self.at += 1

    def slot_entry(self, text):
        found = re.fullmatch(rf"{NAME}\.{NUMBER} (acquire|give) {ROLE} (?:{NUMBER}|none {NUMBER} {NUMBER})", text)
        if not found or found.group(4) not in CODERS or (found.group(3) == "give" and found.group(5) is None):
            self.bad("this is no entry of the registry")
        by, op, name = self.by(found.group(1), found.group(2)), found.group(3), found.group(4)
        self.slots_at.append(self.at)
        self.run.slots.append((by, op, name, int(found.group(5))) if found.group(5) is not None else (by, "none", name, int(found.group(6)), int(found.group(7))))
        self.at += 1

    # -- what callers' variables hold, by the results

    def outputs(self, k):
        """The outputs that a codec's lines show, in order, each with the config behind it."""
        kind, out = self.opened[k][0], []
        wanted = {"audio-decoder": "audio", "video-decoder": "video"}.get(kind, "chunk")
        lines = self.events[k]
        for i, (at, name, parts) in enumerate(lines):
            if name != wanted:
                continue
            config = None
            if name == "audio":
                unit = ("audio", parts[0], int(parts[1]), int(parts[2]), int(parts[3]), int(parts[4]), raw(parts[6]))
            elif name == "video":
                unit = ("video", parts[0], int(parts[1]), int(parts[2]), int(parts[3]), optional(parts[4]), raw(parts[5]))
            else:
                unit = ("chunk", parts[0] == "key", int(parts[1]), optional(parts[2]), raw(parts[3]))
                behind = lines[i + 1] if i + 1 < len(lines) else None
                if kind == "audio-encoder" and behind and behind[1] == "config" and behind[0] == at + 1:
                    config = (behind[2][0], int(behind[2][1]), int(behind[2][2]), raw(behind[2][3]) or None)
            out.append((at, unit, config))
        return out

    def variables(self):
        """For each caller and step what its `decode` or `encode` is given, and what own entries of the pool it calls for."""
        self.shown = [self.outputs(k) for k in range(len(self.script.codecs))]
        self.given = [{} for _ in self.script.callers]
        self.answers = [{} for _ in self.script.callers]
        self.wanted_pool = [[] for _ in self.script.callers]
        self.posted, self.received = {}, set()
        own = [{} for _ in self.script.callers]
        for entry in self.run.pool:
            if entry[0][0] == "caller":
                own[entry[0][1]].setdefault(entry[0][2], []).append(entry)
        pools, values = [_OwnPool(it, wanted) for it, wanted in zip(own, self.wanted_pool)], [{} for _ in own]
        self.values = values
        done, waits_no_more = [0] * len(own), False
        # A caller waits at a receive until the post that it names was read.
        while True:
            moved = False
            for c, (_, steps) in enumerate(self.script.callers):
                while done[c] < min(len(self.run.results[c]), len(steps)):
                    found = self.run.results[c][done[c]]
                    if steps[done[c]]["do"] == "receive" and found[0] == "from" and found[1:] not in self.posted and not waits_no_more:
                        break
                    self.step(c, done[c], steps[done[c]], values[c], pools[c])
                    done[c], moved = done[c] + 1, True
            if not moved and waits_no_more:
                break
            waits_no_more = not moved

    def step(self, c, j, step, values, pool):
        do, bound = step["do"], self.script.bound[c][j]
        found = self.run.results[c][j]
        if do == "decode":
            self.given[c][j] = values.get(bound["chunk"])
        elif do == "encode":
            held = values.get(bound["data"])
            self.given[c][j] = None if held is None else ("gone",) if held.pair is None else ("held", held.unit, held.pair)
        elif do == "take":
            if found[0] == "unit" and found[3] < len(self.shown[found[1]]):
                unit = self.shown[found[1]][found[3]][1]
                values[j] = unit[1:5] if unit[0] == "chunk" else Held(unit, pool.make(("caller", c, j)))
        elif do == "post":
            held = values.get(bound["data"])
            if held is None or held.pair is None:
                self.answers[c][j] = ("absent",) if held is None else ("local", "DataCloneError")
            else:
                self.answers[c][j] = ("local", None)
                self.posted[c, j] = (step["to"], Held(held.unit, held.pair))
                held.pair = None
        elif do == "receive":
            if found[0] == "from" and self.posted.get(found[1:], (None, None))[0] == step["from"] and found[1:] not in self.received:
                self.received.add(found[1:])
                values[j] = self.posted[found[1:]][1]
        elif do not in ("configure", "flush", "reset", "close", "ground", "poll", "await", "state"):
            self.answers[c][j] = local_answer(self.script, c, j, values, pool, ("caller", c, j))

    # -- entries, and the report of what was read

    def argument(self, k, place, name, parts, codec):
        c, j = self.script.caller_numbers[parts[0]], int(parts[1])
        steps = self.script.callers[c][1]
        if j >= len(steps):
            return None
        step = steps[j]
        if step["do"] != (name if name != "call" else parts[2]):
            return None
        who, do = (c, j), step["do"]
        if do == "configure":
            return ("call", who, do, self.script.config(step))
        if do == "take":
            return ("call", who, do, int(parts[2]))
        if do == "ground":
            return ("call", who, do, step["to"]) if parts[2] == step["to"] else None
        if do in ("flush", "reset", "close"):
            return ("call", who, do, None)
        if do == "decode":
            chunk = self.chunk(c, self.script.bound[c][j]["chunk"])
            return None if chunk is None else ("call", who, do, chunk)
        return self.encode(k, place, who, self.script.bound[c][j]["data"], codec)

    def chunk(self, c, i):
        """The chunk that the variable of a step has: what the step makes, or the output that it took."""
        if self.script.callers[c][1][i]["do"] == "chunk" and i not in self.values[c]:
            local_answer(self.script, c, i, self.values[c], None, ("caller", c, i))
        found = self.values[c].get(i)
        return found if isinstance(found, tuple) else None

    def encode(self, k, place, who, i, codec):
        """An encode by its caller's results: those before it say whether its medium is there, and whether it is detached."""
        (c, j), results, steps = who, self.run.results[who[0]], self.script.callers[who[0]][1]
        if i >= len(results) or not (results[i][0] in ("unit", "from") or results[i] == ("local", None)):
            return None
        if any(steps[n]["do"] in ("transfer", "close-data", "post") and self.script.bound[c][n].get("of", self.script.bound[c][n].get("data")) == i
               and results[n] == ("local", None) for n in range(min(j, len(results)))):
            return ("call", who, "encode", ("gone",))
        if codec.phase != "configured":
            return ("call", who, "encode", ("kept",))
        held = self.values[c].get(i)
        pair = next((it[2:4] for it in self.run.pool if it[0] == ("codec", k, place) and it[1] == "clone"), None)
        return None if pair is None or not isinstance(held, Held) else ("call", who, "encode", ("cloned", held.unit) + tuple(pair))

    def entry(self, k, place, name, parts, codec):
        if name in ("call", "take", "ground"):
            return self.argument(k, place, name, parts, codec)
        if name == "start":
            return ("start", int(parts[0]), int(parts[1]))
        if name == "done":
            words = parts[3].split(" ")
            return ("done", int(parts[0]), int(parts[1]), int(parts[2]), (words[0],) + tuple(map(int, words[1:])))
        return ("turn",) if name == "turn" else ("reclaim", int(parts[0]))

    def entries(self):
        """Each entry with its arguments follows those before it, and its lines are those of what it shows."""
        for k in range(len(self.script.codecs)):
            codec, shown_so_far = Codec(*self.opened[k], follows=True), 0
            for place, (at, name, parts) in enumerate(self.told[k]):
                entry = self.entry(k, place, name, parts, codec)
                if entry is None:
                    raise AtFault(at + 1, "the entry has no arguments in the script")
                try:
                    shown = codec.step(entry)
                except Illegal:
                    raise AtFault(at + 1, "the entry does not follow")
                shown, shown_so_far = self.filled(k, shown, shown_so_far)
                lines = entry_lines(self.script, place, entry, shown, codec.turned if entry[0] == "turn" else None)
                self.compare(at, lines)
                self.run.entries[k].append((entry, shown, codec.turned if entry[0] == "turn" else None))

    def filled(self, k, shown, count):
        """What an entry shows, with the outputs that the lines show."""
        out = []
        for event in shown:
            if event[0] == "output":
                found = self.shown[k][count] if count < len(self.shown[k]) else (None, None, None)
                event, count = ("output", found[1], found[2]), count + 1
            out.append(event)
        return out, count

    def compare(self, at, lines):
        """The lines from this place are these, up to the next entry."""
        there = []
        for i in range(at, len(self.lines)):
            if i > at and not self.lines[i].startswith("  "):
                break
            there.append(self.lines[i])
        for i in range(max(len(lines), len(there))):
            if i >= len(lines) or i >= len(there) or lines[i] != there[i]:
                raise AtFault(at + i + 1, "the entry shows something else")


class _OwnPool:
    """The pool as one caller's own entries show it: each step takes the numbers of its own entry. It lists what is called for."""

    def __init__(self, own, wanted):
        self.own, self.wanted = own, wanted

    def numbers(self, by, op):
        found = next((it for it in self.own.get(by[2], []) if it[1] == op), None)
        return (None, None) if found is None else found[2:4]

    def make(self, by):
        pair = self.numbers(by, "make")
        self.wanted.append((by, "make") + tuple(pair))
        return tuple(pair)

    def clone(self, by, resource):
        pair = (resource, self.numbers(by, "clone")[1])
        self.wanted.append((by, "clone") + pair)
        return pair

    def end(self, by, pair):
        self.wanted.append((by, "end") + tuple(pair))


# ---- legality

def lacking(kind, given, item):
    """The coder of which an item needs a box that its codec has not, or None. `given` is the last config of this epoch."""
    if item[0] != "configure" or not is_supported(kind, item[1]) or coder_id(kind, item[1]) == coder_id(kind, given):
        return None
    return coder_id(kind, item[1])


def box_allows(script, lack, outcome):
    """Whether an item that lacked this ends so: none is refused a box that it does not lack, or works without a coder."""
    if lack is None:
        return outcome[0] != "no-slot"
    return outcome[0] in ("no-slot", "no-memory") or script.made(lack) > 0


def check_legal(reading):
    """Each codec's history is legal and shows what its definitions give. It gives the codecs with what is known by places."""
    known = []
    for k, (_, kind, saturation) in enumerate(reading.script.codecs):
        codec, phases, sizes, ends, count = Codec(kind, saturation), ["unconfigured"], [0], {}, 0
        lets, items, given, lack = [], [], None, None
        for place, (entry, read, _) in enumerate(reading.run.entries[k]):
            at = reading.told[k][place][0]
            running, epoch = codec.running, codec.epoch
            item = codec.work[0] if entry[0] == "start" and codec.work else running
            try:
                shown = codec.step(entry)
            except Illegal:
                raise AtFault(at + 1, "the entry is not legal there")
            if entry[0] == "start":
                lack = lacking(kind, given, item[1])
                given = item[1][1] if item[1][0] == "configure" else given
            if entry[0] == "done" and not box_allows(reading.script, lack, entry[4]):
                raise AtFault(at + 1, "the end does not suit the item's box")
            given = given if codec.epoch == epoch else None
            for i, (event, other) in enumerate(zip(shown, read)):
                if event[0] == "output" and event != other:
                    line = reading.shown[k][count][0]
                    raise AtFault(line + 1 + (event[1] == other[1]), "the output is not the one that the definition gives")
                count += event[0] == "output"
            for event in shown:
                if event[0] in ("resolve", "reject"):
                    ends[event[1]] = (place, ("resolved",) if event[0] == "resolve" else ("rejected", event[2]))
            phases.append(codec.phase)
            sizes.append(codec.size)
            lets.append(list(codec.let_go))
            items.append((item, codec.epoch != epoch, codec.running is not None, entry[0] == "done" and running[0][0] != codec.epoch))
        known.append({"codec": codec, "phases": phases, "sizes": sizes, "ends": ends, "lets": lets, "items": items})
    return known


def check_pool(reading):
    pool = Pool()
    for n, entry in enumerate(reading.run.pool):
        by, op, resource, reference = entry[:4]
        if op == "end":
            good = pool.live.get(reference) == resource
        else:
            good = reference == pool.references and (resource == pool.resources if op == "make" else resource in pool.live.values())
        if good:
            pool.make(by) if op == "make" else pool.clone(by, resource) if op == "clone" else pool.end(by, (resource, reference))
        if not good or pool.entries[-1] != entry:
            raise AtFault(reading.pool_at[n] + 1, "the entry of the pool is not legal")
    return pool


def check_slots(reading):
    out = {}
    for n, (by, op, name, *rest) in enumerate(reading.run.slots):
        boxes, made = out.setdefault(name, {}), reading.script.made(name)
        if op == "acquire":
            good = rest[0] == next((i for i in range(made) if i not in boxes), None)
            boxes[rest[0]] = by
        elif op == "none":
            good = len(boxes) == made and rest == [len(boxes), made]
        else:
            good = rest[0] in boxes and by[0] == "codec" and boxes[rest[0]][:2] == by[:2] and by[2] > boxes[rest[0]][2]
            boxes.pop(rest[0], None)
        if not good or by[0] != "codec":
            raise AtFault(reading.slots_at[n] + 1, "the entry of the registry is not legal")


# ---- whether a run fits its script

class Unfit(Exception):
    pass


def need(is_so, why):
    if not is_so:
        raise Unfit(why)


CALLS = ("configure", "decode", "encode", "flush", "reset", "close", "ground")


def check_calls(reading, known):
    """Calls stand once and in order; looks stand between them and show what the history up to them tells."""
    script, run = reading.script, reading.run
    named = set()
    for c, (name, steps) in enumerate(script.callers):
        need(len(run.results[c]) <= len(steps), "caller %s made more steps than it has" % name)
        reached = [0] * len(script.codecs)
        for j, r in enumerate(run.results[c]):
            step, where = steps[j], "step %d of %s" % (j, name)
            do, k = step["do"], script.codec_numbers.get(step.get("on"))
            if do in CALLS:
                need(r[0] in ("call", "absent"), where + " is a call")
                need(r[0] == "call" or (do in ("decode", "encode") and reading.given[c].get(j) is None), where + " is not absent")
                need(r[0] == "absent" or r[1] == k, where + " calls another codec")
            elif do == "take":
                need(r[0] in ("unit", "none") and r[1] == k, where + " takes an output")
            elif do in ("poll", "await"):
                need(r[0] == "look", where + " looks at a promise")
            elif do == "state":
                need(r[0] == "state" and r[1] == k, where + " looks at a state")
            elif do == "receive":
                need(r[0] in ("from", "nothing"), where + " receives")
            else:
                need(r == reading.answers[c][j], where + " has another answer")
            if r[0] in ("call", "unit"):
                k, place = r[1], r[2]
                need(place < len(run.entries[k]), where + " has no entry")
                entry, shown, _ = run.entries[k][place]
                need(entry[0] == "call" and entry[1] == (c, j), where + " has another's entry")
                need((entry[2], entry[3]) == ("take", r[3]) if r[0] == "unit" else r[3] == (shown[0][1] if shown and shown[0][0] == "refusal" else None), where + " has another answer")
                need(place >= reached[k], where + " is out of order")
                reached[k] = place + 1
                named.add((k, place))
            elif r[0] in ("look", "state", "none"):
                check_look(reading, known, c, j, r, where)
                need(r[2] >= reached[r[1]], where + " looks too early")
                reached[r[1]] = r[2]
    for k, entries in enumerate(run.entries):
        for place, (entry, _, _) in enumerate(entries):
            need(entry[0] != "call" or (k, place) in named, "entry %d of %s is no step's" % (place, script.codecs[k][0]))


def check_look(reading, known, c, j, r, where):
    k, length = r[1], r[2]
    need(length <= len(reading.run.entries[k]), where + " saw more than there is")
    here = known[k]
    if r[0] == "state":
        need((r[3], r[4]) == (here["phases"][length], here["sizes"][length]), where + " saw another state")
    elif r[0] == "look":
        flush = reading.run.results[c][reading.script.bound[c][j]["promise"]]
        need(flush[0] == "call" and flush[1] == k, where + " looks at another codec")
        ended = here["ends"].get(flush[2])
        need(r[3] == (ended[1] if ended and ended[0] < length else ("pending",)), where + " saw another end")
    else:
        taken = sum(1 for e, _, _ in reading.run.entries[k][:length] if e[0] == "call" and e[2] == "take")
        shown = sum(1 for _, s, _ in reading.run.entries[k][:length] for e in s if e[0] == "output")
        need(taken == shown, where + " saw no output")


def check_ports(reading):
    """A receive gets what one post gave, each once, and the posts of each caller from the first on and in order."""
    script, run = reading.script, reading.run
    for port in script.port_numbers:
        named = {}
        for c, (name, steps) in enumerate(script.callers):
            last = {}
            for j, r in enumerate(run.results[c]):
                step, where = steps[j], "step %d of %s" % (j, name)
                if step["do"] != "receive" or step["from"] != port:
                    continue
                if r[0] == "from":
                    need(reading.posted.get(r[1:], (None,))[0] == port and r[1:] not in named, where + " names no post of this port, or one that was got")
                    need(last.get(r[1], -1) < r[2], where + " gets posts out of order")
                    named[r[1:]], last[r[1]] = (c, j), r[2]
        for c, (name, steps) in enumerate(script.callers):
            posts = sorted(it for it, (to, _) in reading.posted.items() if it[0] == c and to == port)
            got = [it in named for it in posts]
            need(got == sorted(got, reverse=True), "a later post of %s was got before an earlier one" % name)
            for j, r in enumerate(run.results[c]):
                if steps[j]["do"] == "receive" and steps[j]["from"] == port and r[0] == "nothing":
                    need(all(it in named for it in posts if it[1] < j), "step %d of %s found nothing, though its own post waited" % (j, name))


def check_media(reading, known):
    """The pool has what steps and entries call for, each once, and nothing else."""
    run, script = reading.run, reading.script
    for c in range(len(script.callers)):
        own = [it[:4] for it in run.pool if it[0][:2] == ("caller", c)]
        need(own == reading.wanted_pool[c], "the media of %s are not those of its steps" % script.callers[c][0])
    for k, entries in enumerate(run.entries):
        there = {}
        for it in run.pool:
            if it[0][:2] == ("codec", k):
                there.setdefault(it[0][2], []).append(it[1:4])
        for place, (entry, _, _) in enumerate(entries):
            wanted = [("end",) + tuple(pair) for pair in known[k]["lets"][place]]
            if entry[0] == "call" and entry[2] == "encode" and entry[3][0] == "cloned":
                held = reading.given[entry[1][0]][entry[1][1]]
                wanted.append(("clone", held[2][0], entry[3][3]))
            need(sorted(there.pop(place, []), key=str) == sorted(wanted, key=str), "entry %d of %s has other media" % (place, script.codecs[k][0]))
        need(not there, "the pool names entries of %s that are not there" % script.codecs[k][0])


def check_boxes(reading, known, by_order):
    """Boxes go out where they lack, and back by the entry that lets them go."""
    run, script = reading.run, reading.script
    refusals = 0
    for k, (name, kind, _) in enumerate(script.codecs):
        there = {}
        for n, it in enumerate(run.slots):
            if it[0][:2] == ("codec", k):
                there.setdefault(it[0][2], []).append((n, it))
        box, asked = None, None
        for place, (entry, _, _) in enumerate(run.entries[k]):
            here, where = there.pop(place, []), "entry %d of %s" % (place, name)
            gives, asks = [it for it in here if it[1][1] == "give"], [it for it in here if it[1][1] != "give"]
            item, removed, still_out, old = known[k]["items"][place]
            lets = box is not None and ((removed and not still_out) or old)
            if entry[0] == "start":
                asked = None
                if item[1][0] == "configure" and is_supported(kind, item[1][1]):
                    wanted = coder_id(kind, item[1][1])
                    if box is None or box[1][2] != wanted:
                        lets = box is not None
                        check_asks(reading, k, place, asks, wanted, by_order, where)
                        asked = asks
                        refusals += bool(asks) and asks[0][1][1] == "none"
                        asks = []
            need(not asks, where + " asks for no box")
            need(len(gives) == lets and (not lets or (gives[0][1][2:] == box[1][2:] and gives[0][0] > box[0])), where + " gives other boxes back")
            if lets:
                box = None
            if entry[0] == "start" and asked and asked[-1][1][1] == "acquire":
                box = asked[-1]
            if entry[0] == "done":
                last = asked[-1] if asked else None
                refused = last is not None and last[1][1] == "none"
                need(entry[4][0] != "no-slot" or (refused and entry[4][1] == last[0]), where + " names another refusal")
                need(not refused or entry[4][0] in ("no-slot", "no-memory"), where + " had no box")
                need(asked != [] or entry[4][0] == "no-memory", where + " asked for no box")
                asked = None
        need(not there, "the registry names entries of %s that are not there" % name)
    return refusals


def check_asks(reading, k, place, asks, wanted, by_order, where):
    need(all(it[1][2] == wanted for it in asks), where + " asks for another box")
    need(len(asks) <= (1 if by_order else 2) and (len(asks) > 0 or not by_order), where + " asks for a box once")
    need(len(asks) < 2 or asks[0][1][1] == "none", where + " asks twice only where the first was refused")


def check_quiet(reading, known, refusals):
    """All steps were made, no promise is waited for, and nothing is left."""
    run, script = reading.run, reading.script
    for c, (name, steps) in enumerate(script.callers):
        need(len(run.results[c]) == len(steps), "caller %s did not make all its steps" % name)
        need(not any(step["do"] == "await" and r[3] == ("pending",) for step, r in zip(steps, run.results[c])), "caller %s waits still" % name)
    for k, (name, _, _) in enumerate(script.codecs):
        need(known[k]["codec"].is_quiet(), "codec %s has something left" % name)
    reclaims = sum(1 for entries in run.entries for e, _, _ in entries if e[0] == "reclaim")
    need(reclaims <= refusals, "there are more reclaims than refused boxes")


def check_order(reading):
    starved = [(k, place) for k, entries in enumerate(reading.run.entries) for place, (e, _, _) in enumerate(entries) if e[0] == "done" and e[4] == ("no-memory",)]
    need(report_lines(reading.script, Replay(reading.script, starved).run) == reading.lines, "the order makes another run")


def verdict(script, text):
    """None where the report is right; else the line at fault and why."""
    try:
        reading = Reading(script, text)
        known = check_legal(reading)
        pool = check_pool(reading)
        check_slots(reading)
        try:
            need(reading.opened == [it[1:] for it in script.codecs], "a codec has another kind or saturation")
            need(reading.run.held == pool.held(), "another number of media is held")
            check_calls(reading, known)
            check_ports(reading)
            check_media(reading, known)
            refusals = check_boxes(reading, known, script.order is not None)
            check_quiet(reading, known, refusals) if script.order is None else check_order(reading)
        except Unfit as why:
            raise AtFault(len(reading.lines), str(why))
    except AtFault as fault:
        return fault.line, fault.why
    return None

"""One codec's steps, in Python: a reading of docs/DEFINITIONS.md apart from the program's code.

`Codec(kind, saturation)` is a codec as it is opened. `step` takes an entry and gives what it shows, or says `Illegal` where the
entry may not come next. Entries are tuples:

    ("call", who, name, argument)     name: configure, decode, encode, flush, reset, close, take, ground
    ("start", epoch, item)
    ("done", epoch, item, moment, outcome)     outcome: ("ran", units), ("refused",), ("no-slot", entry), ("no-memory",)
    ("turn",)
    ("reclaim", moment)

The argument of an encode is ("gone",), ("kept",) or ("cloned", medium, resource, reference). What an entry shows is a list of
("refusal", error), ("output", unit, config), ("resolve", place), ("reject", place, error), ("dequeue",) and ("error", error).
With `follows` the outcomes of items are taken as they stand, and what they gave is left open: outputs are then counted alone.
"""
import codec_definitions as definitions

ACTIVITY = 10_000_000
ROLES = {"audio-decoder": "decode", "audio-encoder": "encode", "video-decoder": "decode", "video-encoder": "encode"}
SOUND = ("pcm-u8", "pcm-s16", "pcm-s24", "pcm-s32", "alaw", "ulaw", "flac")


class Illegal(Exception):
    pass


def is_decoder(kind):
    return kind.endswith("decoder")


def coder_id(kind, config):
    """The id of the coder that a config asks for, or None. The kind is the config's own, if it has one."""
    kind = kind if config is None else config["kind"]
    if config is None or config["codec"] not in (SOUND if kind.startswith("audio") else definitions.PICTURES):
        return None
    return ROLES[kind] + ":" + config["codec"]


def is_valid(kind, config):
    if config is None or not config["codec"].strip("\t\n\f\r "):
        return False
    kind = config["kind"]
    if kind.startswith("audio"):
        if config["rate"] == 0 or config["channels"] == 0:
            return False
        return is_decoder(kind) or ((config["block_size"] == 0 or 16 <= config["block_size"] <= 65535) and config["level"] <= 8 and config["depth"] in (8, 16, 24, 32))
    if kind == "video-encoder":
        return config["width"] > 0 and config["height"] > 0
    pairs = ((config["width"], config["height"]), (config["aspect_width"], config["aspect_height"]))
    return all((a is None) == (b is None) and a != 0 and b != 0 for a, b in pairs)


def is_supported(kind, config):
    if not is_valid(kind, config) or coder_id(kind, config) is None:
        return False
    kind = config["kind"]
    if kind.startswith("video"):
        return config["width"] is not None and config["width"] <= 16384 and config["height"] <= 16384
    if config["codec"] != "flac":
        return config["channels"] <= 32
    if is_decoder(kind):
        return definitions.read_streaminfo(config["description"]) is not None
    return config["channels"] <= 8 and config["rate"] <= 1048575


def output_config(config):
    """The decoder's config that an audio encoder's outputs carry."""
    description = definitions.stream_description(config) if config["codec"] == "flac" else None
    return (config["codec"], config["rate"], config["channels"], description)


class Codec:
    def __init__(self, kind, saturation, follows=False):
        self.kind, self.saturation, self.follows = kind, saturation, follows
        self.phase, self.epoch, self.key_required, self.ground = "unconfigured", 0, True, "foreground"
        self.messages, self.work, self.tasks, self.pending = [], [], [], []
        self.blocked = self.saturated = self.halted = self.scheduled = False
        self.size, self.running, self.waiting, self.taken, self.shown = 0, None, 0, 0, 0
        self.active, self.progress, self.config, self.coder = None, None, None, None
        self.items, self.places, self.ends = 0, 0, {}
        # the clones that the last entry let go, each its resource and its reference; and the outputs that were shown
        self.let_go, self.units = [], []

    # -- what calls and tasks have in common

    def schedule(self):
        if not self.scheduled:
            self.scheduled = True
            self.tasks.append(("dequeue",))

    def coded_at_work(self):
        running = [self.running[1]] if self.running and self.running[0][0] == self.epoch else []
        return sum(1 for item in [it for _, it in self.work] + running if item[0] == "coded")

    def process(self):
        while self.messages and not self.blocked:
            front = self.messages[0]
            if front[0] == "coded":
                if self.saturated:
                    return
                if self.coded_at_work() == self.saturation - 1:
                    self.saturated = True
                self.size -= 1
                self.schedule()
            elif front[0] == "configure":
                self.blocked = True
            self.work.append(((self.epoch, self.items), front))
            self.items += 1
            self.messages.pop(0)

    def send(self, message):
        self.messages.append(message)
        self.process()

    def end_promise(self, place, how):
        self.ends[place] = how

    def reset(self, error):
        self.phase, self.epoch, self.items = "unconfigured", self.epoch + 1, 0
        self.blocked = self.saturated = self.halted = False
        self.active = self.progress = None
        self.let_go += [item[1][2:] for item in [it for _, it in self.work] + self.messages if item[0] == "coded" and item[1][0] == "cloned"]
        self.messages, self.work = [], []
        self.tasks = [task for task in self.tasks if task[0] == "dequeue"]
        if self.size:
            self.size = 0
            self.schedule()
        shown = [("reject", place, error) for place in self.pending]
        for place in self.pending:
            self.end_promise(place, ("rejected", error))
        self.pending = []
        return shown

    def close(self, error):
        shown = self.reset(error)
        self.phase = "closed"
        return shown + ([("error", error)] if error != "AbortError" else [])

    # -- entries

    def call_error(self, name, argument):
        """The exception of a call, or None."""
        if name == "configure":
            return "TypeError" if not is_valid(self.kind, argument) else "InvalidStateError" if self.phase == "closed" else None
        if name == "decode":
            if self.phase != "configured":
                return "InvalidStateError"
            is_key, _, _, data = argument
            faulty = self.kind == "video-decoder" and is_key and data[:1] == b"\1"
            return "DataError" if self.key_required and (not is_key or faulty) else None
        if name == "encode":
            return "TypeError" if argument[0] == "gone" else "InvalidStateError" if self.phase != "configured" else None
        if name in ("reset", "close"):
            return "InvalidStateError" if self.phase == "closed" else None
        return None

    def call(self, name, argument):
        if name == "encode" and argument[0] != "gone" and (argument[0] == "kept") != (self.phase != "configured"):
            raise Illegal
        if name == "take":
            if argument != self.taken or self.taken >= self.shown:
                raise Illegal
            self.taken += 1
            return []
        error = self.call_error(name, argument)
        if error:
            return [("refusal", error)]
        place = self.places
        if name == "configure":
            self.phase = "configured"
            self.key_required = self.key_required or is_decoder(self.kind)
            self.send(("configure", argument))
        elif name in ("decode", "encode"):
            if name == "decode":
                self.key_required = False
            self.size += 1
            self.send(("coded", argument if name == "encode" else ("chunk", argument)))
        elif name == "flush":
            if self.phase != "configured":
                self.end_promise(place, ("rejected", "InvalidStateError"))
                return [("reject", place, "InvalidStateError")]
            self.key_required = self.key_required or is_decoder(self.kind)
            self.pending.append(place)
            self.send(("flush", place))
        elif name == "reset":
            return self.reset("AbortError")
        elif name == "close":
            return self.close("AbortError")
        elif name == "ground":
            self.ground = argument
        return []

    def units_of(self, item):
        """What the definition gives for an item: its units, or `Refused`."""
        kind, what = item
        if kind == "configure":
            if not is_supported(self.kind, what):
                raise definitions.Refused
            self.config, self.coder = what, definitions.coder_of(what["kind"], what)
            return []
        if kind == "flush":
            return self.coder.drain()
        own = "chunk" if is_decoder(self.config["kind"]) else self.config["kind"].split("-")[0]
        if own != ("chunk" if what[0] == "chunk" else what[1][0]):
            raise definitions.Refused
        return self.coder.push(what[1])

    def outcome_of(self, outcome, item):
        """The units that an item gave where its outcome is legal: None where it gave none."""
        if outcome[0] == "no-memory":
            return None
        if outcome[0] == "no-slot":
            if item[0] != "configure" or not is_supported(self.kind, item[1]):
                raise Illegal
            return None
        if self.follows:
            if (outcome[0] == "refused" and item[0] == "flush") or (outcome[0] == "ran" and item[0] == "configure" and outcome[1]):
                raise Illegal
            if item[0] == "configure":
                self.config = item[1]
            return [None] * outcome[1] if outcome[0] == "ran" else None
        try:
            units = self.units_of(item)
        except definitions.Refused:
            units = None
        if outcome != (("refused",) if units is None else ("ran", len(units))):
            raise Illegal
        return units

    def done(self, epoch, number, moment, outcome):
        if not self.running or self.running[0] != (epoch, number):
            raise Illegal
        item, old = self.running[1], epoch != self.epoch
        units = self.outcome_of(outcome, item)
        self.running = None
        if item[0] == "coded" and item[1][0] == "cloned":
            self.let_go.append(item[1][2:])
        if old:
            return []
        self.progress = moment if self.progress is None else max(self.progress, moment)
        error = {"no-memory": "OutOfMemory", "no-slot": "QuotaExceededError"}.get(outcome[0])
        if outcome[0] == "refused":
            error = "NotSupportedError" if item[0] == "configure" else "EncodingError"
        if error:
            self.tasks.append(("close", error))
            self.halted = True
        elif item[0] == "configure":
            self.tasks.append(("unblock",))
        elif item[0] == "coded":
            if self.saturated and not any(task[0] == "desaturate" for task in self.tasks):
                self.tasks.append(("desaturate",))
            if units:
                self.tasks.append(("output", units, self.config))
        else:
            self.tasks.append(("flushed", units, self.config, item[1]))
        return []

    def show(self, units, config):
        shown = []
        for unit in units:
            carried = None
            if self.kind == "audio-encoder" and config is not None and config["kind"] == self.kind:
                own = output_config(config)
                if own != self.active:
                    carried, self.active = own, own
            shown.append(("output", unit, carried))
            self.units.append(unit)
            self.shown += 1
        return shown

    def turn(self):
        if not self.tasks:
            raise Illegal
        task = self.tasks.pop(0)
        self.turned = " ".join(task[:2]) if task[0] == "close" else task[0]
        if task[0] == "unblock":
            self.blocked = False
            self.tasks.append(("process",))
        elif task[0] == "process":
            self.process()
        elif task[0] == "desaturate":
            self.saturated = False
            self.process()
        elif task[0] == "dequeue":
            self.scheduled = False
            return [("dequeue",)]
        elif task[0] == "close":
            return self.close(task[1])
        elif task[0] == "output":
            return self.show(task[1], task[2])
        elif task[0] == "flushed":
            shown = self.show(task[1], task[2])
            self.pending.remove(task[3])
            self.end_promise(task[3], ("resolved",))
            return shown + [("resolve", task[3])]
        return []

    def may_reclaim(self, moment):
        if self.phase != "configured" or self.progress is None:
            return False
        return moment >= self.progress + ACTIVITY or (is_decoder(self.kind) and self.ground == "background")

    def may_start(self):
        return self.running is None and not self.halted and bool(self.work)

    def step(self, entry):
        """What the entry shows; `Illegal` where it may not come next."""
        self.let_go = []
        if entry[0] == "call":
            shown = self.call(entry[2], entry[3])
        elif entry[0] == "start":
            if not self.may_start() or self.work[0][0] != tuple(entry[1:3]):
                raise Illegal
            self.running = self.work.pop(0)
            shown = []
        elif entry[0] == "done":
            shown = self.done(*entry[1:])
        elif entry[0] == "turn":
            shown = self.turn()
        else:
            if not self.may_reclaim(entry[1]):
                raise Illegal
            shown = self.close("QuotaExceededError")
        self.places += 1
        return shown

    def promise(self, place):
        return self.ends.get(place, ("pending",))

    def is_quiet(self):
        return not self.work and not self.running and not self.tasks

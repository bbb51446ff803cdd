"""What a script's steps answer, and what following its order makes, in Python: a reading of docs/FORMATS.md and
docs/DEFINITIONS.md apart from the program's code. Scripts are those that the program takes: their faults are not looked for.
"""
import json
import os
import sys

import codec_definitions as definitions
from codec_history import Codec, coder_id, is_supported

sys.path.append(os.path.join(os.path.dirname(os.path.realpath(__file__)), ".."))
import sound_reader  # noqa: E402

U32, U53 = 2**32 - 1, 2**53 - 1
FORMATS = ("u8", "s16", "s32", "u8-planar", "s16-planar", "s32-planar")
BOXES = 8


class Fault(Exception):
    """The exception of a step."""

    def __init__(self, name):
        super().__init__(name)
        self.name = name


# ---- members of inits, configs and options

def number(obj, name, most, default=None, least=0, needed=True):
    if name not in obj:
        if default is None and needed:
            raise Fault("TypeError")
        return default
    value = obj[name]
    if isinstance(value, bool) or not isinstance(value, int) or not least <= value <= most:
        raise Fault("TypeError")
    return value


def word(obj, name, words, needed=True):
    if name not in obj and not needed:
        return None
    if obj.get(name) not in words:
        raise Fault("TypeError")
    return obj[name]


def text(obj, name):
    if name not in obj:
        raise Fault("TypeError")
    return obj[name]


def config_of(kind, obj):
    """The config that a step's object spells, or None where it breaks a rule of WebIDL."""
    try:
        config = {"kind": kind, "codec": text(obj, "codec")}
        if kind.startswith("audio"):
            config.update(rate=number(obj, "sampleRate", U32), channels=number(obj, "numberOfChannels", U32))
            if kind == "audio-decoder":
                config["description"] = bytes.fromhex(obj["description"]) if "description" in obj else None
            else:
                flac = obj.get("flac", {})
                config.update(block_size=number(flac, "blockSize", U32, 0), level=number(flac, "compressLevel", U32, 5), depth=number(flac, "bitsPerSample", U32, 16))
        elif kind == "video-encoder":
            config.update(width=number(obj, "width", U32), height=number(obj, "height", U32), key_interval=number(obj, "keyInterval", U32, 0))
        else:
            for name, member in (("width", "codedWidth"), ("height", "codedHeight"), ("aspect_width", "displayAspectWidth"), ("aspect_height", "displayAspectHeight")):
                config[name] = number(obj, member, U32, needed=False)
        return config
    except Fault:
        return None


def content(init, buffers):
    """The bytes of an init's data: hex, or those of a buffer; a detached one has none."""
    data = text(init, "data")
    if isinstance(data, str):
        return bytes.fromhex(data)
    held = buffers[data["buffer"]]
    return held.unit[1] if held.pair is not None else b""


def chunk_of(init, buffers):
    kind = word(init, "type", ("key", "delta"))
    timestamp, duration = number(init, "timestamp", U53, least=-U53), number(init, "duration", U53, needed=False)
    return (kind == "key", timestamp, duration, content(init, buffers))


def sound_of(init, buffers):
    form = word(init, "format", FORMATS)
    rate, frames, channels = (number(init, it, U32) for it in ("sampleRate", "numberOfFrames", "numberOfChannels"))
    timestamp, data = number(init, "timestamp", U53, least=-U53), content(init, buffers)
    size = frames * channels * definitions.SAMPLE_BYTES[definitions.plain(form)]
    if not rate or not frames or not channels or len(data) < size:
        raise Fault("TypeError")
    return ("audio", form, rate, channels, frames, timestamp, data[:size])


def picture_of(init, buffers):
    form = word(init, "format", ("I420", "I422", "I444", "NV12"))
    width, height = number(init, "codedWidth", U32), number(init, "codedHeight", U32)
    timestamp, duration = number(init, "timestamp", U53, least=-U53), number(init, "duration", U53, needed=False)
    data = content(init, buffers)
    if not width or not height or len(data) < definitions.picture_bytes(form, width, height):
        raise Fault("TypeError")
    return ("video", form, width, height, timestamp, duration, data[:definitions.picture_bytes(form, width, height)])


# ---- copies

def sound_options(options):
    return (number(options, "planeIndex", U32), number(options, "frameOffset", U32, 0), number(options, "frameCount", U32, needed=False),
            word(options, "format", FORMATS + ("f32", "f32-planar"), needed=False))


def copied_sound(medium, options):
    """The bytes that a copy of sound gives."""
    _, own, _, channels, frames, _, data = medium
    plane, offset, count, form = options
    form = form or own
    is_planar = form.endswith("planar")
    if (not is_planar and plane > 0) or (is_planar and plane >= channels):
        raise Fault("RangeError")
    if form.startswith("f32"):
        raise Fault("NotSupportedError")
    if offset >= frames or (count is not None and count > frames - offset):
        raise Fault("RangeError")
    rows = definitions.samples_of(own, channels, frames, data)[offset:offset + (frames - offset if count is None else count)]
    before, after = definitions.depth_of(own), definitions.depth_of(form)
    return b"".join(definitions.bytes_of(form, definitions.resized(x, before, after)) for row in rows for x in (row[plane:plane + 1] if is_planar else row))


def picture_options(options):
    rect = options.get("rect")
    if rect is not None:
        rect = tuple(number(rect, it, U32, 0) for it in ("x", "y", "width", "height"))
    layout = options.get("layout")
    if layout is not None:
        layout = [(number(it, "offset", U32), number(it, "stride", U32)) for it in layout]
    return rect, layout


def picture_parts(medium, options):
    """For each plane of a copy: offset, stride, the bytes of each row; and the size."""
    _, form, width, height, _, _, data = medium
    rect, layout = options
    parts = definitions.planes(form, width, height)
    x, y, w, h = (0, 0, width, height) if rect is None else rect
    if not w or not h or x + w > width or y + h > height or any(x % across or y % down for _, _, across, down, _ in parts):
        raise Fault("TypeError")
    if layout is not None and len(layout) != len(parts):
        raise Fault("TypeError")
    out, at, end = [], 0, 0
    for i, (row, rows, across, down, size) in enumerate(parts):
        wide, high = size * (-(-w // across)), -(-h // down)
        offset, stride = layout[i] if layout is not None else (end, wide)
        if stride < wide or stride * high > U32 or offset + stride * high > U32:
            raise Fault("TypeError")
        if any(offset < o + s * len(r) and o < offset + stride * high for o, s, r in out):
            raise Fault("TypeError")
        first, left = y // down, size * (x // across)
        out.append((offset, stride, [data[at + (first + r) * row + left:at + (first + r) * row + left + wide] for r in range(high)]))
        at, end = at + row * rows, max(end, offset + stride * high)
    return out, end


# ---- scripts

class Script:
    def __init__(self, path, boxes=None):
        with open(path, "rb") as file:
            self.value = json.loads(file.read())
        self.folder = os.path.dirname(path) or "."
        self.codecs = [(it["name"], it["kind"], it.get("saturation", 4)) for it in self.value["codecs"]]
        self.callers = [(it["name"], it["steps"]) for it in self.value["callers"]]
        self.codec_numbers = {it[0]: i for i, it in enumerate(self.codecs)}
        self.caller_numbers = {it[0]: i for i, it in enumerate(self.callers)}
        self.order, self.boxes, self.media = self.value.get("order"), boxes or {}, {}
        self.port_numbers = {it["name"]: i for i, it in enumerate(self.value.get("ports", []))}
        self.bound = []
        for _, steps in self.callers:
            names, bound = {}, []
            for j, step in enumerate(steps):
                found = {it: names[step[it]] for it in ("chunk", "data", "of", "promise") if isinstance(step.get(it), str) and step[it] in names}
                init = step.get("init", {})
                used = list(init.get("transfer", [])) + ([init["data"]["buffer"]] if isinstance(init.get("data"), dict) else [])
                found["buffers"] = {it: names[it] for it in used}
                bound.append(found)
                if "as" in step:
                    names[step["as"]] = j
            self.bound.append(bound)

    def chunks(self, name):
        if name not in self.media:
            with open(os.path.join(self.folder, name), "rb") as file:
                self.media[name] = chunks_of_file(file.read())
        return self.media[name]

    def made(self, name):
        return self.boxes.get(name, BOXES)

    def source(self, step, buffers):
        """The chunk of a `chunk` step; a fault where its init breaks a rule."""
        return self.chunks(step["file"])[step["index"]] if "file" in step else chunk_of(step["init"], buffers)

    def config(self, step):
        return config_of(self.codecs[self.codec_numbers[step["on"]]][1], step["config"])


def chunks_of_file(data):
    if data[:4] in (b"RIFF", b"fLaC"):
        found = (sound_reader.read_wav if data[:4] == b"RIFF" else sound_reader.read_flac)(data)[1]
        return [(True,) + chunk for chunk in found]
    at, out = 4, []
    while at < len(data):
        timestamp = int.from_bytes(data[at + 1:at + 9], "big", signed=True)
        duration = int.from_bytes(data[at + 10:at + 18], "big") if data[at + 9] else None
        size = int.from_bytes(data[at + 18:at + 22], "big")
        out.append((data[at] == 0, timestamp, duration, data[at + 22:at + 22 + size]))
        at += 22 + size
    return out


# ---- the pool of media, and what callers' variables hold

class Pool:
    def __init__(self):
        self.entries, self.resources, self.references, self.live = [], 0, 0, {}

    def make(self, by):
        self.entries.append((by, "make", self.resources, self.references))
        self.live[self.references] = self.resources
        self.resources, self.references = self.resources + 1, self.references + 1
        return self.resources - 1, self.references - 1

    def clone(self, by, resource):
        self.entries.append((by, "clone", resource, self.references))
        self.live[self.references] = resource
        self.references += 1
        return resource, self.references - 1

    def end(self, by, pair):
        del self.live[pair[1]]
        self.entries.append((by, "end") + tuple(pair) + ("kept" if pair[0] in self.live.values() else "gone",))

    def held(self):
        return len(set(self.live.values()))


class Held:
    """A variable's medium: its unit, with the pair of its reference, or detached."""

    def __init__(self, unit, pair):
        self.unit, self.pair = unit, pair


def local_answer(script, c, j, values, pool, who):
    """The answer of a step that calls no codec and looks at none. It changes the caller's variables and the pool."""
    step, bound = script.callers[c][1][j], script.bound[c][j]
    do = step["do"]
    try:
        if do == "buffer":
            values[j] = Held(("buffer", bytes.fromhex(step["data"])), pool.make(who))
            return ("local", None)
        if do in ("chunk", "audio", "frame"):
            values[j] = made(script, step, {name: values[at] for name, at in bound["buffers"].items()}, pool, who)
            return ("local", None)
        held = values.get(bound["of"])
        if held is None:
            return ("absent",)
        if do == "clone":
            if held.pair is None:
                raise Fault("InvalidStateError")
            values[j] = Held(held.unit, pool.clone(who, held.pair[0]))
        elif do == "transfer":
            if held.pair is None:
                raise Fault("DataCloneError")
            values[j], held.pair = Held(held.unit, held.pair), None
        elif do == "close-data":
            if held.pair is not None:
                pool.end(who, held.pair)
                held.pair = None
        else:
            return copy_answer(step, held)
        return ("local", None)
    except Fault as fault:
        return ("local", fault.name)


def made(script, step, buffers, pool, who):
    """What a step makes: a chunk, or a medium that takes over its data's buffer where its list names it."""
    init, do = step.get("init", {}), step["do"]
    if do == "chunk":
        value = script.source(step, buffers)
    else:
        unit = (sound_of if do == "audio" else picture_of)(init, buffers)
    listed = [buffers[name] for name in init.get("transfer", [])]
    if any(it.pair is None for it in listed) or len(set(map(id, listed))) < len(listed):
        raise Fault("DataCloneError")
    own = None
    if do != "chunk":
        data = init["data"]
        own = buffers[data["buffer"]] if isinstance(data, dict) else None
        if own in listed:
            value, own.pair = Held(unit, own.pair), None
        else:
            value, own = Held(unit, pool.make(who)), None
    for held in listed:
        if held is not own:
            pool.end(who, held.pair)
            held.pair = None
    return value


def copy_answer(step, held):
    """The answer of a copy or a size."""
    if isinstance(held, tuple):
        data = held[3]
        if step["size"] < len(data):
            raise Fault("TypeError")
        return ("copied", len(data), None, data + bytes(step["size"] - len(data)))
    if held.unit[0] == "buffer":
        return ("size", len(held.unit[1]) if held.pair is not None else 0)
    options, is_sound = step.get("options", {}), held.unit[0] == "audio"
    options = (sound_options if is_sound else picture_options)(options)
    if held.pair is None:
        raise Fault("InvalidStateError")
    if is_sound:
        data = copied_sound(held.unit, options)
        if step["do"] == "size":
            return ("size", len(data))
        if step["size"] < len(data):
            raise Fault("RangeError")
        return ("copied", len(data), None, data + bytes(step["size"] - len(data)))
    parts, end = picture_parts(held.unit, options)
    if step["do"] == "size":
        return ("size", end)
    if step["size"] < end:
        raise Fault("TypeError")
    out = bytearray(step["size"])
    for offset, stride, rows in parts:
        for r, row in enumerate(rows):
            out[offset + stride * r:offset + stride * r + len(row)] = row
    return ("copied", end, [(offset, stride) for offset, stride, _ in parts], bytes(out))


# ---- a replay

class Run:
    """What is recorded: results of callers, entries of codecs with what they showed, the pool's entries and the registry's."""

    def __init__(self, script):
        self.results = [[] for _ in script.callers]
        self.entries = [[] for _ in script.codecs]
        self.pool, self.slots, self.held = [], [], 0


class Registry:
    def __init__(self, made):
        self.made, self.out, self.entries = made, {}, []

    def acquire(self, by, name):
        out, made = self.out.setdefault(name, set()), self.made(name)
        if len(out) == made:
            self.entries.append((by, "none", name, len(out), made))
            return None
        box = next(i for i in range(made) if i not in out)
        out.add(box)
        self.entries.append((by, "acquire", name, box))
        return box

    def give(self, by, name, box):
        self.out[name].remove(box)
        self.entries.append((by, "give", name, box))


class Replay:
    """Follows a script's order; at the (codec, place)s of `starved` an end says that it was out of memory."""

    def __init__(self, script, starved=()):
        self.script, self.starved, self.run = script, set(starved), Run(script)
        self.codecs = [Codec(kind, saturation) for _, kind, saturation in script.codecs]
        self.values, self.pool, self.slots = [{} for _ in script.callers], Pool(), Registry(script.made)
        self.boxes, self.refused = [None] * len(self.codecs), [None] * len(self.codecs)
        self.made, self.ports = [0] * len(script.callers), [[] for _ in script.port_numbers]
        for item in script.order:
            self.item(item)
        self.run.pool, self.run.slots, self.run.held = self.pool.entries, self.slots.entries, self.pool.held()

    def entry(self, k, entry):
        """One entry of a codec, and what goes back by it. It gives the entry's place."""
        codec = self.codecs[k]
        place, was_running, phase, epoch = codec.places, codec.running, codec.phase, codec.epoch
        shown = codec.step(entry)
        self.run.entries[k].append((entry, shown, codec.turned if entry[0] == "turn" else None))
        for pair in codec.let_go:
            self.pool.end(("codec", k, place), pair)
        removed = codec.epoch != epoch
        if self.boxes[k] is not None:
            left_behind = entry[0] == "done" and was_running[0][0] != codec.epoch
            if (removed and codec.running is None) or left_behind:
                self.slots.give(("codec", k, place), *self.boxes[k])
                self.boxes[k] = None
        return place, shown

    def item(self, item):
        if isinstance(item, str):
            c = self.script.caller_numbers[item]
            j, self.made[c] = self.made[c], self.made[c] + 1
            self.run.results[c].append(self.caller_step(c, j))
            return
        do = next(it for it in ("start", "done", "turn", "reclaim") if it in item)
        k = self.script.codec_numbers[item[do]]
        codec = self.codecs[k]
        if do == "start" and codec.may_start():
            self.start(k)
        elif do == "done" and codec.running:
            self.done(k, item["at"])
        elif do == "turn" and codec.tasks:
            self.entry(k, ("turn",))
        elif do == "reclaim" and codec.may_reclaim(item["at"]):
            self.entry(k, ("reclaim", item["at"]))

    def start(self, k):
        codec = self.codecs[k]
        number_of, (kind, what) = codec.work[0]
        place, _ = self.entry(k, ("start",) + number_of)
        self.refused[k] = None
        if kind == "configure" and is_supported(codec.kind, what):
            name, by = coder_id(codec.kind, what), ("codec", k, place)
            if self.boxes[k] is None or self.boxes[k][0] != name:
                if self.boxes[k] is not None:
                    self.slots.give(by, *self.boxes[k])
                box = self.slots.acquire(by, name)
                self.boxes[k] = None if box is None else (name, box)
                self.refused[k] = len(self.slots.entries) - 1 if box is None else None

    def done(self, k, moment):
        codec = self.codecs[k]
        number_of, item = codec.running
        if (k, codec.places) in self.starved:
            outcome = ("no-memory",)
        elif self.refused[k] is not None:
            outcome = ("no-slot", self.refused[k])
        else:
            outcome = self.asked(codec, item)
        self.refused[k] = None
        self.entry(k, ("done",) + number_of + (moment, outcome))

    def asked(self, codec, item):
        """The outcome of an item by its codec's definition. What it gave is kept for the step."""
        try:
            units = codec.units_of(item)
            outcome = ("ran", len(units))
        except definitions.Refused:
            units, outcome = None, ("refused",)

        def given(_):
            del codec.units_of
            if units is None:
                raise definitions.Refused
            return units
        codec.units_of = given
        return outcome

    def call(self, c, j, k, name, argument):
        place, shown = self.entry(k, ("call", (c, j), name, argument))
        error = shown[0][1] if shown and shown[0][0] == "refusal" else None
        return ("call", k, place, error)

    def caller_step(self, c, j):
        step, bound, values = self.script.callers[c][1][j], self.script.bound[c][j], self.values[c]
        do, who = step["do"], ("caller", c, j)
        k = self.script.codec_numbers.get(step.get("on"))
        if do == "configure":
            return self.call(c, j, k, do, self.script.config(step))
        if do in ("flush", "reset", "close"):
            return self.call(c, j, k, do, None)
        if do == "ground":
            return self.call(c, j, k, do, step["to"])
        if do == "decode":
            chunk = values.get(bound["chunk"])
            return ("absent",) if chunk is None else self.call(c, j, k, do, chunk)
        if do == "encode":
            return self.encode(c, j, k, values.get(bound["data"]))
        if do in ("poll", "await"):
            answer = self.run.results[c][bound["promise"]]
            return ("look", answer[1], self.codecs[answer[1]].places, self.codecs[answer[1]].promise(answer[2]))
        if do == "state":
            return ("state", k, self.codecs[k].places, self.codecs[k].phase, self.codecs[k].size)
        if do == "take":
            return self.take(c, j, k)
        if do == "post":
            return self.post(c, j, values.get(bound["data"]), self.ports[self.script.port_numbers[step["to"]]])
        if do == "receive":
            return self.receive(values, j, self.ports[self.script.port_numbers[step["from"]]])
        return local_answer(self.script, c, j, values, self.pool, who)

    def encode(self, c, j, k, held):
        if held is None:
            return ("absent",)
        if held.pair is None:
            return self.call(c, j, k, "encode", ("gone",))
        if self.codecs[k].phase != "configured":
            return self.call(c, j, k, "encode", ("kept",))
        pair = self.pool.clone(("codec", k, self.codecs[k].places), held.pair[0])
        return self.call(c, j, k, "encode", ("cloned", held.unit) + pair)

    def post(self, c, j, held, port):
        if held is None:
            return ("absent",)
        if held.pair is None:
            return ("local", "DataCloneError")
        port.append(((c, j), Held(held.unit, held.pair)))
        held.pair = None
        return ("local", None)

    def receive(self, values, j, port):
        if not port:
            return ("nothing",)
        who, values[j] = port.pop(0)
        return ("from",) + who

    def take(self, c, j, k):
        codec = self.codecs[k]
        if codec.taken >= codec.shown:
            return ("none", k, codec.places)
        n = codec.taken
        unit = codec.units[n]
        place, _ = self.entry(k, ("call", (c, j), "take", n))
        self.values[c][j] = unit[1:5] if unit[0] == "chunk" else Held(unit, self.pool.make(("caller", c, j)))
        return ("unit", k, place, n)


# ---- the text of a run

def dash(data):
    return data.hex() if data else "-"


def or_dash(value):
    return "-" if value is None else "%d" % value


def unit_line(unit):
    if unit is None:
        return "missing"
    if unit[0] == "audio":
        _, form, rate, channels, frames, timestamp, data = unit
        return "audio %s %d %d %d %d %d %s" % (form, rate, channels, frames, timestamp, definitions.duration_of(frames, rate), dash(data))
    if unit[0] == "video":
        _, form, width, height, timestamp, duration, data = unit
        return "video %s %d %d %d %s %s" % (form, width, height, timestamp, or_dash(duration), dash(data))
    _, key, timestamp, duration, data = unit
    return "chunk %s %d %s %s" % ("key" if key else "delta", timestamp, or_dash(duration), dash(data))


def shown_lines(event):
    if event[0] == "refusal":
        return []
    if event[0] == "output":
        config = ["  config %s %d %d %s" % (event[2][:3] + (dash(event[2][3]),))] if event[2] else []
        return ["  output " + unit_line(event[1])] + config
    return ["  " + " ".join(str(it) for it in event)]


def entry_lines(script, place, entry, shown, turned):
    if entry[0] == "call":
        who = "%s.%d" % (script.callers[entry[1][0]][0], entry[1][1])
        if entry[2] == "take":
            head = "%s take = %d" % (who, entry[3])
        elif entry[2] == "ground":
            head = "%s ground %s = ok" % (who, entry[3])
        else:
            head = "%s %s = %s" % (who, entry[2], shown[0][1] if shown and shown[0][0] == "refusal" else "ok")
    elif entry[0] == "done":
        head = "done %d.%d %d %s" % (entry[1], entry[2], entry[3], " ".join(str(it) for it in entry[4]))
    elif entry[0] == "turn":
        head = "turn " + turned
    elif entry[0] == "start":
        head = "start %d.%d" % entry[1:]
    else:
        head = "reclaim %d" % entry[1]
    return ["%d %s" % (place, head)] + [line for event in shown for line in shown_lines(event)]


def by_text(script, by):
    return "%s.%d" % ((script.callers if by[0] == "caller" else script.codecs)[by[1]][0], by[2])


def pool_line(script, place, entry):
    return "%d %s %s" % (place, by_text(script, entry[0]), " ".join(str(it) for it in entry[1:]))


def slot_line(script, place, entry):
    by, op, name = entry[:3]
    rest = "none %d %d" % entry[3:] if op == "none" else "%d" % entry[3]
    return "%d %s %s %s %s" % (place, by_text(script, by), "give" if op == "give" else "acquire", name, rest)


def end_text(end):
    return " ".join(end)


def result_line(script, j, r):
    def at(mark):
        return "%s%s%d" % (script.codecs[r[1]][0], mark, r[2])
    if r[0] == "call":
        return "%d %s %s" % (j, at("."), r[3] or "ok")
    if r[0] == "local":
        return "%d %s" % (j, r[1] or "ok")
    if r[0] == "look":
        return "%d %s %s" % (j, at(":"), end_text(r[3]))
    if r[0] == "state":
        return "%d %s %s %d" % (j, at(":"), r[3], r[4])
    if r[0] == "unit":
        return "%d %s unit %d" % (j, at("."), r[3])
    if r[0] == "none":
        return "%d %s none" % (j, at(":"))
    if r[0] == "size":
        return "%d size %d" % (j, r[1])
    if r[0] == "from":
        return "%d from %s.%d" % (j, script.callers[r[1]][0], r[2])
    if r[0] == "nothing":
        return "%d none" % j
    if r[0] == "copied":
        layout = "" if r[2] is None else ",".join("%d:%d" % it for it in r[2]) + " "
        return "%d copied %d %s%s" % (j, r[1], layout, dash(r[3]))
    return "%d absent" % j


def report_lines(script, run):
    out = ["wcrun report 1"]
    for (name, _), results in zip(script.callers, run.results):
        out += ["caller " + name] + [result_line(script, j, r) for j, r in enumerate(results)]
    for (name, kind, saturation), entries in zip(script.codecs, run.entries):
        out.append("codec %s %s %d" % (name, kind, saturation))
        for place, (entry, shown, turned) in enumerate(entries):
            out += entry_lines(script, place, entry, shown, turned)
    out.append("pool")
    out += [pool_line(script, n, it) for n, it in enumerate(run.pool)]
    out.append("slots")
    out += [slot_line(script, n, it) for n, it in enumerate(run.slots)]
    return out + ["held %d" % run.held, "end"]


def report_text(script, run):
    return "".join(line + "\n" for line in report_lines(script, run))

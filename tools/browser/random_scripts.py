"""Random scripts for browsers: valid for `wcrun replay` too, and the same for the same seed.

Most are such as a page could have: a configure, chunks, flushes that are awaited; beside them stand resets, closes, invalid
configs, broken chunks, and callers whose steps are made inside callbacks.
"""
import random

# A description and two frames that belong to it, of 16 and of 4 samples, written by the program (demo/flac.report).
FLAC_HEAD = "664c6143800000220010001000000000000001f400f00000000000000000000000000000000000000000"
FLAC_FRAMES = ["fff86408000fce0000648fde", "fff864080103ff00006421f4"]
# 20 ms of silence in one packet (RFC 6716, section 3.1).
OPUS_PACKET = "f8fffe"
# Pictures of 16 by 16 gray pixels, by libvpx.
VP8_KEY = "1002009d012a100010000047088585888584880202000c0e6000fe6800"
VP8_DELTA = "b1010001101000180018582ff400080000"

AUDIO = [
    ({"codec": "ulaw", "sampleRate": 8000, "numberOfChannels": 1}, ["ff7f", "f070ff7f"]),
    ({"codec": "alaw", "sampleRate": 8000, "numberOfChannels": 2}, ["d555", "d5555555"]),
    ({"codec": "pcm-s16", "sampleRate": 8000, "numberOfChannels": 1}, ["01000200", "0100"]),
    ({"codec": "flac", "sampleRate": 8000, "numberOfChannels": 1, "description": FLAC_HEAD}, FLAC_FRAMES),
    ({"codec": "opus", "sampleRate": 48000, "numberOfChannels": 2}, [OPUS_PACKET]),
]
VIDEO = [({"codec": "vp8", "codedWidth": 16, "codedHeight": 16}, [VP8_KEY, VP8_DELTA])]
ENCODED = [
    ({"codec": "opus", "sampleRate": 48000, "numberOfChannels": 1}, {"format": "s16", "sampleRate": 48000, "numberOfFrames": 960, "numberOfChannels": 1, "data": "0000" * 960}),
    ({"codec": "flac", "sampleRate": 8000, "numberOfChannels": 1, "flac": {"blockSize": 16}}, {"format": "s16", "sampleRate": 8000, "numberOfFrames": 16, "numberOfChannels": 1, "data": "6400" * 16}),
]
UNSUPPORTED = {"codec": "nonesuch", "sampleRate": 8000, "numberOfChannels": 1}
INVALID = {"codec": " ", "sampleRate": 8000, "numberOfChannels": 1}
EVENTS = ["output", "output", "dequeue", "dequeue", "error", "flush"]


class Writer:
    """One caller's steps."""

    def __init__(self, draw, name):
        self.draw, self.name, self.steps, self.promises, self.made, self.time = draw, name, [], [], 0, 0

    def step(self, **members):
        self.steps.append(members)

    def variable(self):
        self.made += 1
        return "v%d" % self.made

    def configure(self, codec):
        config = codec["config"]
        lot = self.draw.random()
        if lot < 0.05:
            config = UNSUPPORTED if codec["kind"] != "video-decoder" else {"codec": "nonesuch"}
        elif lot < 0.08:
            config = INVALID if codec["kind"] != "video-decoder" else {"codec": " "}
        self.step(do="configure", on=codec["name"], config=config)

    def coded(self, codec):
        self.time += self.draw.choice([250, 500, 20000])
        name = self.variable()
        if codec["kind"] == "audio-encoder":
            self.step(**{"do": "audio", "as": name, "init": dict(codec["data"], timestamp=self.time)})
            if self.draw.random() < 0.04:
                self.step(do="close-data", of=name)
            self.step(do="encode", on=codec["name"], data=name)
            return
        lot, data = self.draw.random(), self.draw.choice(codec["data"])
        kind = "key"
        if codec["kind"] == "video-decoder":
            data = codec["data"][1] if lot < 0.55 else codec["data"][0]
            kind = "delta" if lot < 0.55 else "key"
        elif lot < 0.06:
            kind = "delta"
        if self.draw.random() < 0.07:
            data = self.draw.choice(["", data[:2], "ffffff"])
        self.step(**{"do": "chunk", "as": name, "init": {"type": kind, "timestamp": self.time, "data": data}})
        self.step(do="decode", on=codec["name"], chunk=name)

    def flush(self, codec):
        name = self.variable()
        self.step(**{"do": "flush", "on": codec["name"], "as": name})
        self.promises.append(name)

    def look(self, codec, can_wait):
        lot = self.draw.random()
        if lot < 0.4 and self.promises and can_wait:
            self.step(do="await", promise=self.promises[-1])
        elif lot < 0.6 and self.promises:
            self.step(do="poll", promise=self.draw.choice(self.promises))
        elif lot < 0.75:
            self.step(**{"do": "take", "on": codec["name"], "as": self.variable()})
        else:
            self.step(do="state", on=codec["name"])

    def some(self, codec, can_wait=True):
        lot = self.draw.random()
        if lot < 0.50:
            self.coded(codec)
        elif lot < 0.66:
            self.flush(codec)
        elif lot < 0.76:
            self.look(codec, can_wait)
        elif lot < 0.86:
            self.step(do="reset", on=codec["name"])
            if self.draw.random() < 0.7:
                self.configure(codec)
        elif lot < 0.95:
            self.configure(codec)
        else:
            self.step(do="close", on=codec["name"])


def codec_of(draw, name):
    lot = draw.random()
    kind, table = ("audio-decoder", AUDIO) if lot < 0.65 else ("video-decoder", VIDEO) if lot < 0.85 else ("audio-encoder", ENCODED)
    config, data = draw.choice(table)
    return {"name": name, "kind": kind, "config": config, "data": data}


def order_of(draw, callers, codecs):
    left, order = {caller.name: len(caller.steps) for caller in callers}, []
    turns = draw.choice([0.05, 0.2, 0.45])
    while any(left.values()):
        if draw.random() < turns:
            codec = draw.choice(codecs)["name"]
            order += [{"start": codec}, {"done": codec, "at": len(order)}, {"turn": codec}, {"turn": codec}]
        name = draw.choice([name for name, count in left.items() if count])
        run = min(left[name], draw.choice([1, 1, 2, 3]))
        left[name] -= run
        order += [name] * run
    for codec in codecs:
        order += [{"start": codec["name"]}, {"done": codec["name"], "at": len(order)}] + [{"turn": codec["name"]}] * 3
    return order


def random_script(seed):
    draw = random.Random("zemirako %s" % seed)
    codecs = [codec_of(draw, name) for name in ("d", "e")[:draw.choice([1, 1, 1, 2])]]
    callers, extra = [Writer(draw, "a")], {}
    for codec in codecs:
        if draw.random() < 0.95:
            callers[0].configure(codec)
    if draw.random() < 0.25:
        callers.append(Writer(draw, "b"))
    for _ in range(draw.choice([3, 5, 8, 12])):
        draw.choice(callers).some(draw.choice(codecs))
    if draw.random() < 0.4:
        inside = Writer(draw, "in")
        for _ in range(draw.choice([1, 2, 3])):
            inside.some(draw.choice(codecs), can_wait=False)
        extra["in"] = {"in": {"on": draw.choice(codecs)["name"], "event": draw.choice(EVENTS)}}
        callers.append(inside)
    if draw.random() < 0.5:
        callers[0].flush(codecs[0])
        callers[0].step(do="await", promise=callers[0].promises[-1])
    callers = [caller for caller in callers if caller.steps]
    return {"about": "random script %s" % seed,
            "codecs": [{"name": codec["name"], "kind": codec["kind"]} for codec in codecs],
            "callers": [{"name": caller.name, **extra.get(caller.name, {}), "steps": caller.steps} for caller in callers],
            "order": order_of(draw, callers, codecs)}

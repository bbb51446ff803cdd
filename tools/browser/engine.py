"""The program beside a browser: what its codecs make of each call, and whether it gives the order that was found."""
import json
import os
import secrets
import struct
import subprocess
import tempfile

import observed
from observed import CALLS

WORKING = ("configure", "decode", "encode", "flush")    # calls that queue a message


class Engine:
    def __init__(self, program):
        self.program, self.last = os.path.abspath(program), {}

    def replay(self, script, folder):
        """The report of a script. The last ones are kept, since a probe is often asked again."""
        text = json.dumps(script)
        if (text, folder) not in self.last:
            if len(self.last) > 40:
                self.last.pop(next(iter(self.last)))
            self.last[text, folder] = self.run(text, folder)
        return self.last[text, folder]

    def run(self, text, folder):
        with tempfile.NamedTemporaryFile("w", suffix=".json", delete=False) as file:
            file.write(text)
        try:
            done = subprocess.run([self.program, "replay", file.name], cwd=folder, capture_output=True, text=True, timeout=300)
        finally:
            os.unlink(file.name)
        if done.returncode:
            raise RuntimeError("wcrun ended with status %d: %s" % (done.returncode, (done.stdout + done.stderr)[:200]))
        return done.stdout


def steps_of(callers):
    return {caller["name"]: caller["steps"] for caller in callers}


class Probe:
    """What the engine's codecs make of each call, each run to its end before the next step: fates, outputs and answers. A
    refusal closes the codec, so what stands behind one is asked again without the call that was refused."""

    def __init__(self, engine, script, folder, steps):
        self.fates, self.outputs, self.answers = {}, {}, {}
        wanted = {"%s.%d" % it for it in steps if steps_of(script["callers"])[it[0]][it[1]]["do"] in WORKING}
        gone = set()
        for _ in range(12):
            refused = self.read(engine.replay(*self.settled(script, folder, steps, gone))) - gone
            if not refused or wanted <= set(self.fates):
                break
            gone |= refused

    @staticmethod
    def settled(script, folder, steps, gone):
        callers = {name: [{"do": "state", "on": step["on"]} if "%s.%d" % (name, number) in gone else step for number, step in enumerate(all_steps)]
                   for name, all_steps in steps_of(script["callers"]).items()}
        order, made = [], set(steps)
        for name, number in steps + [(name, number) for name in callers for number in range(len(callers[name])) if (name, number) not in made]:
            order.append(name)
            if callers[name][number]["do"] in CALLS:
                codec = callers[name][number]["on"]
                order += [{"start": codec}, {"done": codec, "at": 0}] + [{"turn": codec}] * 5
        return dict(script, callers=[{"name": name, "steps": own} for name, own in callers.items()], order=order), folder

    def read(self, text):
        refused = set()
        for entries in observed.parse(text)[1].values():
            asked = last = None
            for words, shows in entries:
                if observed.is_call_entry(words):
                    self.answers.setdefault(words[0], words[3])
                    asked = words[0] if words[3] == "ok" and words[1] in WORKING else None
                elif words[0] == "done" and asked:
                    last = None
                    if words[3] == "refused":
                        refused.add(asked)
                    if words[3] in ("ran", "refused") and asked not in self.fates:
                        self.fates[asked] = "refused" if words[3] == "refused" else int(words[4])
                        self.outputs[asked], last = [], asked
                    asked = None
                if last is not None:
                    self.take(self.outputs[last], shows)
        return refused

    @staticmethod
    def take(outputs, shows):
        for words in shows:
            if words[0] == "output":
                outputs.append([words, None])
            elif words[0] == "config":
                outputs[-1][1] = words[1:]


# ---------------------------------------------------------------- histories

def chunk_types(folder, name, known):
    if name not in known:
        with open(os.path.join(folder, name), "rb") as file:
            content = file.read()
        at, types = 4, []
        while at < len(content):
            types.append("key" if content[at] == 0 else "delta")
            at += 22 + struct.unpack(">I", content[at + 18:at + 22])[0]
        known[name] = types
    return known[name]


class Histories:
    """Of each codec the events for the judge, each with its place in the log's list (`n`)."""

    def __init__(self, job, log, probe):
        self.folder, self.probe, self.files, self.variables, self.outputs = job["folder"], probe, {}, {}, {}
        self.steps = steps_of(job["script"]["callers"])
        self.kinds = {codec["name"]: codec["kind"] for codec in job["script"]["codecs"]}
        self.events = {name: [] for name in self.kinds}
        for n, it in enumerate(log["list"]):
            if it["t"] == "seen":
                self.seen(n, it)
            else:
                self.step(n, it, self.steps[it["by"]][it["j"]])
        for events in self.events.values():
            for event, after in zip(events, events[1:]):
                if event["k"] == "dequeue" and after.get("inside") == "dequeue":
                    event["holds"] = True

    def seen(self, n, it):
        if it["e"] == "output":
            self.outputs.setdefault(it["on"], []).append(it["o"])
        event = {"k": it["e"], "of": it.get("of"), "error": it.get("error"), "state": it["state"], "size": it["size"], "n": n}
        events = self.events[it["on"]]
        look = events[-1] if it.get("in_call") and events and events[-1].get("behind") == it["in_call"] else None
        events.append(event)
        if it.get("in_call"):
            event["in_call"] = it["in_call"]
        if look:                                    # what was read behind the call was read behind this too
            events[-2:] = [event, look]

    def step(self, n, it, step):
        if observed.is_call(it):
            return self.call(n, it, step)
        if it["do"] == "state" and it["answer"] == "state":
            event = {"k": "look", "state": it["state"], "size": it["size"], "n": n, "behind": None}
            if it.get("inside") and it["inside"][1] == it["on"]:
                event["inside"] = it["inside"][0]
            return self.events[it["on"]].append(event)
        if "as" in step and it["answer"] in ("ok", "unit"):
            self.variable(it, step)
        elif it["do"] == "close-data" and it["answer"] == "ok":
            self.variables[it["by"], step["of"]]["detached"] = True

    def variable(self, it, step):
        made = {"detached": False, "type": None}
        if it["do"] == "chunk":
            made["type"] = step["init"].get("type") if "init" in step else chunk_types(self.folder, step["file"], self.files)[step["index"]]
        elif it["do"] == "take":
            made["type"] = self.outputs[step["on"]][it["unit"]].get("type")
        elif it["do"] == "transfer":
            self.variables[it["by"], step["of"]]["detached"] = True
        self.variables[it["by"], step["as"]] = made

    def call(self, n, it, step):
        who, on = "%s.%d" % (it["by"], it["j"]), it["on"]
        event = {"k": "call", "do": it["do"], "by": who, "answer": it["answer"], "n": n}
        if it.get("inside") and it["inside"][1] == on:
            event["inside"] = it["inside"][0]
        if it["do"] == "configure":
            # a browser without the encoder of FLAC reads no `flac` member
            has_flac = isinstance(step["config"], dict) and "flac" in step["config"]
            event["valid"] = it["answer"] != "TypeError" if has_flac else self.probe.answers.get(who) != "TypeError"
        elif it["do"] == "decode":
            event["key"] = self.variables.get((it["by"], step["chunk"]), {}).get("type") == "key"
            if self.kinds[on] == "video-decoder" and event["key"]:
                event["key"] = None                 # the codec may look into the chunk
        elif it["do"] == "encode":
            event["attached"] = not self.variables.get((it["by"], step["data"]), {}).get("detached")
        self.events[on].append(event)
        if "state" in it:
            self.events[on].append({"k": "look", "state": it["state"], "size": it["size"], "n": n, "behind": who,
                                    **({"inside": event["inside"]} if "inside" in event else {})})


# ---------------------------------------------------------------- the order that was found, for a replay

def items_of(path, events, name):
    """A path as items of an order, by the place in the list that they stand before; and those behind all."""
    before, wait = {}, []
    for kind, detail in path:
        if kind == "event":
            place, begins = detail
            if begins:
                wait.append(("turn", name))
            before.setdefault(events[place]["n"], []).extend(wait)
            wait = []
        elif kind == "work":
            wait += [("start", name), ("done", name)]
        elif detail not in (None, "fired", "processing"):
            wait.append(("turn", name))
    return before, wait


def ordered(job, log, events, verdicts):
    """The script with the order that was found, and with a caller that looks at the state where the page did: (script, its
    name). Steps that the page did not come to are left out."""
    script, before, at_end = job["script"], {}, []
    for name, verdict in verdicts.items():
        own, wait = items_of(verdict.path, events[name], name)
        for n, items in own.items():
            before.setdefault(n, []).extend(items)
        at_end += wait
    eye = "page" if all(caller["name"] != "page" for caller in script["callers"]) else "page-" + secrets.token_hex(4)
    order, looks, moment, made = [], [], 0, {}

    def put(items):
        for what, name in items:
            order.append({what: name, "at": moment} if what == "done" else {what: name})
    for n, it in enumerate(log["list"]):
        moment = max(moment, int(it.get("ms", 0) * 1000))
        put(before.get(n, []))
        if it["t"] == "step":
            order.append(it["by"])
            made[it["by"]] = made.get(it["by"], 0) + 1
        if it["t"] == "seen" or ("state" in it and observed.is_call(it)):
            looks.append({"do": "state", "on": it["on"]})
            order.append(eye)
    put(at_end)
    callers = [{"name": caller["name"], "steps": caller["steps"][:made.get(caller["name"], 0)]} for caller in script["callers"]]
    codecs = [dict(codec, saturation=verdicts[codec["name"]].rules.saturation or codec.get("saturation", 4)) for codec in script["codecs"]]
    return {"codecs": codecs, "callers": callers + [{"name": eye, "steps": looks}], "order": order}, eye


def outputs_of(events, path):
    """{call: places of its outputs}, by the path that was found."""
    given, queue, current = {}, [], None
    for kind, detail in path:
        if kind == "work":
            item, fate = detail
            if item[0] in ("coded", "flush") and fate not in (0, "refused"):
                queue.append(item[1])
        elif kind == "silent" and detail == "output" and queue:
            queue.pop(0)
        elif kind == "event":
            place, begins = detail
            event = events[place]
            if event["k"] == "output":
                if begins or current is None:
                    current = queue.pop(0) if queue else None
                given.setdefault(current, []).append(place)
            elif event["k"] == "resolve":
                queue = [call for call in queue if call != event["of"]]
            elif event["k"] == "error" or (event["k"] == "call" and event["do"] in ("reset", "close") and event["answer"] == "ok"):
                queue = []
    return given


def fates_of(path):
    return {item[1]: fate for kind, detail in path if kind == "work" for item, fate in [detail] if item[0] in ("configure", "coded", "flush")}


class NoStandIn(Exception):
    pass


class StandIns:
    """A script of one codec in which each call comes to what the browser's came to: `pcm-u8` of two channels, of which a chunk of
    2 bytes gives one output, one of 0 none, and one of 1 is refused. So the engine judges the queues of any codec."""

    def __init__(self, name, events, verdict):
        if not verdict.rules.saturation:
            raise NoStandIn
        self.fates, self.counts = fates_of(verdict.path), {call: len(places) for call, places in outputs_of(events, verdict.path).items()}
        self.name, self.steps, self.looks, self.order, self.events = name, [], [], [], events
        for kind, detail in verdict.path:
            if kind == "work":
                self.order += [{"start": name}, {"done": name, "at": 0}]
            elif kind == "event":
                self.event(events[detail[0]], detail[1])
            elif detail not in (None, "fired", "processing"):
                self.order.append({"turn": name})
        self.script = {"codecs": [{"name": name, "kind": "audio-decoder", "saturation": verdict.rules.saturation}],
                       "callers": [{"name": "a", "steps": self.steps}, {"name": "eye", "steps": self.looks}], "order": self.order}

    def event(self, event, begins):
        if event["k"] != "call":
            if begins:
                self.order.append({"turn": self.name})
            self.looks.append({"do": "state", "on": self.name})
            self.order.append("eye")
        elif event["do"] != "encode" or event["answer"] != "TypeError":
            self.call(event)

    def call(self, event):
        do, fate, count = event["do"], self.fates.get(event["by"], 0), self.counts.get(event["by"], 0)
        step = {"do": "decode" if do == "encode" else do, "on": self.name}
        if do == "configure":
            codec = " " if not event["valid"] else "none" if fate == "refused" else "pcm-u8"
            step["config"] = {"codec": codec, "sampleRate": 8000, "numberOfChannels": 2}
        elif do in ("decode", "encode"):
            if count > 1:
                raise NoStandIn
            is_key = do == "encode" or event["key"] or (event["key"] is None and event["answer"] != "DataError")
            data = "80" if fate == "refused" else "8080" if count or event["by"] not in self.fates or fate == "some" else ""
            step["chunk"] = "c%d" % len(self.steps)
            self.steps.append({"do": "chunk", "as": step["chunk"], "init": {"type": "key" if is_key else "delta", "timestamp": 0, "data": data}})
            self.order.append("a")
        elif do == "flush":
            if count:
                raise NoStandIn
            step["as"] = "p%d" % len(self.steps)
        self.steps.append(step)
        self.order.append("a")


def is_given_by_stand_ins(engine, name, events, verdict, entries):
    """Whether the engine gives the history with stand-ins; None where there are none."""
    try:
        script = StandIns(name, events, verdict).script
    except NoStandIn:
        return None
    given = observed.project(engine.replay(script, "."), script, "eye").codecs[name]
    seen = [entry for entry in entries if not (entry.call and entry.call[1] == "encode" and entry.call[2] == "TypeError")]
    return observed.is_same(seen, given, by_kind=True)


def has_calls_in_turns(events):
    """Whether a call was made while a task of this codec was under way, which the program's turns do not allow."""
    return any(event["k"] == "call" and event.get("inside") in ("dequeue", "output") for event in events)

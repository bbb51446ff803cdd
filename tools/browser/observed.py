"""Observed reports: what a page saw of a script, in a form like that of `wcrun replay`'s reports (docs/CONFORMANCE.md), and
what a page could have seen of such a report."""
import re

CALLS = ("configure", "decode", "encode", "flush", "reset", "close")


class NoReport(Exception):
    pass


class Entry:
    """A call (who, do, answer), or something seen (its words), with the state and size that were read there."""

    def __init__(self, call=None, seen=None, look=None, config=None, origin=None, inside=None, within=None):
        self.call, self.seen, self.look, self.config, self.origin = call, seen, look, config, origin
        self.inside, self.within, self.line = inside, within, None

    def detail(self):
        """What the judge compares of it: what it is, its answer or error, and what was read."""
        if self.call:
            return "%s %s" % self.call[:2], self.call[2], self.look
        word = self.seen[0]
        error = self.seen[2] if word == "reject" else self.seen[1] if word == "error" else None
        return " ".join(self.seen[:2]) if word in ("resolve", "reject") else word, error, self.look


class Report:
    def __init__(self, who, script):
        self.who, self.support, self.lines = who, [], {}
        self.callers = {caller["name"]: {} for caller in script["callers"]}
        self.codecs = {codec["name"]: [] for codec in script["codecs"]}
        self.kinds = {codec["name"]: codec["kind"] for codec in script["codecs"]}

    def text(self):
        """The report. Notes the line of each result and entry."""
        out = ["wcrun observed 1 %s" % self.who]
        places = {name: {entry.call[0]: place for place, entry in enumerate(entries) if entry.call} for name, entries in self.codecs.items()}
        for name, results in self.callers.items():
            out.append("caller %s" % name)
            for step, result in results.items():
                out.append("%d %s" % (step, result))
                self.lines[name, step] = len(out)
        for name, entries in self.codecs.items():
            out.append("codec %s %s" % (name, self.kinds[name]))
            for place, entry in enumerate(entries):
                self.entry(out, places[name], place, entry)
        out += ["support"] * bool(self.support) + ["%s.%d %s" % (name, places[name][call], answer) for name, call, answer in self.support if call in places[name]]
        return "\n".join(out + ["end", ""])

    def entry(self, out, places, place, entry):
        if entry.call:
            out.append("%d %s %s = %s" % (place, *entry.call) + (" in %s %s" % entry.inside if entry.inside else ""))
        else:
            out.append("%d seen" % place + (" within %d" % places[entry.within] if entry.within else ""))
            words = list(entry.seen)
            if words[0] in ("resolve", "reject"):
                words[1] = str(places.get(words[1], words[1]))
            out.append("  " + " ".join(words))
        entry.line = len(out)
        if entry.config:
            out.append("  config " + " ".join(entry.config))
        if entry.look:
            out.append("  state %s %s" % entry.look)


def dash(value):
    return "-" if value is None else str(value)


def output_words(it):
    if it["is"] == "audio":
        head = [dash(it.get(name)) for name in ("format", "rate", "channels", "frames", "timestamp", "duration")]
        return ["output", "audio", *head, (it["bytes"] or "-") if "bytes" in it else "?"]
    if it["is"] == "chunk":
        return ["output", "chunk", dash(it.get("type")), dash(it.get("timestamp")), dash(it.get("duration")), (it["bytes"] or "-") if "bytes" in it else "?"]
    return ["output", "video", *[dash(it.get(name)) for name in ("format", "width", "height", "timestamp", "duration")], "?"]


def seen_entry(it, place):
    config = None
    if it["e"] == "output":
        words = output_words(it["o"])
        if "config" in it["o"]:
            of = it["o"]["config"]
            config = [dash(of["codec"]), dash(of["rate"]), dash(of["channels"]), of.get("description") or "-"]
    else:
        words = [it["e"]] + [it[name] for name in ("of", "error") if it.get(name) is not None]
    return Entry(seen=words, config=config, look=(it["state"], it["size"]), origin=place, within=it.get("in_call"))


def result_text(it, entries):
    """The result of a step that is no call."""
    on, answer, do = it.get("on"), it["answer"], it["do"]
    if answer in ("absent", "skipped"):
        return answer
    if do == "state":
        return "%s:%d %s %s" % (on, len(entries), it["state"], it["size"])
    if do in ("poll", "await"):
        return "%s:%d %s" % (on, len(entries), answer + (" " + it["error"] if "error" in it else ""))
    if do == "take":
        return "%s:%d %s" % (on, len(entries), "unit %d" % it["unit"] if answer == "unit" else answer)
    if answer == "copied":
        layout = ",".join("%d:%d" % tuple(plane) for plane in it["layout"]) + " " if "layout" in it else ""
        return "copied %d %s%s" % (it["bytes"], layout, it["data"] or "-")
    return "size %d" % it["bytes"] if answer == "size" else answer


def is_call(it):
    return it["t"] == "step" and it["do"] in CALLS and it["answer"] not in ("absent", "skipped")


def behind_calls(entries):
    """A log's list, in which what ran inside a call stands behind it, marked with the call."""
    out = []
    for it in entries:
        count = it.get("within", 0) if it["t"] == "step" else 0
        moved = out[len(out) - count:] if count else []
        call = "%s.%d" % (it["by"], it["j"]) if count else None
        moved = [dict(other, in_call=call) if other["t"] == "seen" and other["on"] == it["on"] else other for other in moved]
        out[len(out) - count:] = [it] + moved
    return out


def of_log(log, who, script):
    """The observed report of a page's log."""
    report = Report(who, script)
    for place, it in enumerate(log["list"]):
        entries = report.codecs.get(it.get("on"))
        if it["t"] == "seen":
            entries.append(seen_entry(it, place))
        elif is_call(it):
            call = ("%s.%d" % (it["by"], it["j"]), it["do"], it["answer"])
            inside = tuple(it["inside"]) if it.get("inside") else None
            report.callers[it["by"]][it["j"]] = "%s.%d %s" % (it["on"], len(entries), it["answer"])
            entries.append(Entry(call=call, look=(it["state"], it["size"]) if "state" in it else None, origin=place, inside=inside))
        else:
            report.callers[it["by"]][it["j"]] = result_text(it, entries)
    report.callers = {name: dict(sorted(results.items())) for name, results in report.callers.items()}
    report.support = [(codec["name"], "%s.%d" % (it["by"], it["j"]), str(it["is"]).lower() if isinstance(it["is"], bool) else it["is"])
                      for codec in log["codecs"] for it in codec.get("support", [])]
    return report


def settled(entries):
    """Entries as if promises that one step rejects had their reactions before any call is made inside the error callback or
    a reaction: the program's turns and calls are whole. What was read at such an entry is left out."""
    out = []
    for entry in entries:
        at = len(out)
        if entry.seen and entry.seen[0] == "reject":
            while at and out[at - 1].call and (out[at - 1].inside or ("",))[0] in ("error", "reject") and out[at - 1].call[0] != entry.seen[1]:
                at -= 1
        moved = Entry(entry.call, entry.seen, None if at < len(out) else entry.look, inside=entry.inside)
        out.insert(at, moved)
    return out


def is_same(seen, given, by_kind=False):
    """Whether entries of the program are those that the page saw. `by_kind`: which step of which caller made a call counts not."""
    def of(entry):
        what, error, look = entry.detail()
        return ("call" if entry.call else entry.seen[0]) if by_kind else what, error, look
    seen, given = [of(entry) for entry in settled(seen)], [of(entry) for entry in given]
    return [it[:2] for it in seen] == [it[:2] for it in given] and all(None in (a[2], b[2]) or a[2] == b[2] for a, b in zip(seen, given))


# ---------------------------------------------------------------- an observed report, read

class Reader:
    """A log from an observed report. One order of all that agrees with the report stands for the page's."""

    def __init__(self, text, script):
        self.lines, self.script = text.split("\n"), script
        self.steps = {caller["name"]: caller["steps"] for caller in script["callers"]}
        self.results, self.entries, self.support = {}, {}, []

    def fail(self, at, why):
        raise NoReport("line %d %s" % (at + 1, why))

    def read(self):
        head = re.fullmatch(r"wcrun observed 1 (.+)", self.lines[0])
        if not head:
            self.fail(0, "is not `wcrun observed 1 WHO`")
        part = name = None
        for at, line in enumerate(self.lines[1:], 1):
            words = line.split(" ")
            if line == "end":
                return head[1], self.log()
            if words[0] in ("caller", "codec") and len(words) == {"caller": 2, "codec": 3}[words[0]]:
                part, name = words[0], words[1]
                if name not in (self.steps if part == "caller" else {codec["name"] for codec in self.script["codecs"]}):
                    self.fail(at, "names nothing of the script")
                self.results.setdefault(name, {}) if part == "caller" else self.entries.setdefault(name, [])
            elif line == "support":
                part = line
            elif part == "caller":
                self.result(at, name, words)
            elif part == "codec":
                self.entry(at, name, line, words)
            elif part == "support":
                self.support.append(words)
            else:
                self.fail(at, "stands in no part of a report")
        self.fail(len(self.lines) - 1, "is missing: there should be `end`")

    def result(self, at, name, words):
        if not words[0].isdigit() or int(words[0]) >= len(self.steps[name]) or len(words) < 2:
            self.fail(at, "is no result of a step of caller %s" % name)
        self.results[name][int(words[0])] = words[1:]

    def entry(self, at, name, line, words):
        entries = self.entries[name]
        found = re.fullmatch(r"(\d+) (?:(\S+)\.(\d+) (configure|decode|encode|flush|reset|close) = (\w+)(?: in (output|dequeue|error|resolve|reject) (\S+))?|seen(?: within (\d+))?)", line)
        if found:
            place, caller, step, do, answer, event, of, within = found.groups()
            if int(place) != len(entries):
                self.fail(at, "is not entry %d" % len(entries))
            if caller is None:
                entries.append({"t": "seen", "on": name})
                if within is not None:
                    call = entries[int(within)] if int(within) < len(entries) - 1 else {}
                    entries[-1]["in_call"] = "%s.%s" % (call.get("by"), call.get("j"))
                return
            if caller not in self.steps or int(step) >= len(self.steps[caller]) or self.steps[caller][int(step)]["do"] != do:
                self.fail(at, "is no call of the script")
            entries.append({"t": "step", "by": caller, "j": int(step), "do": do, "answer": answer, "on": name, **({"inside": [event, of]} if event else {})})
        elif not entries or words[:2] != ["", ""]:
            self.fail(at, "is no entry of a codec")
        else:
            self.below(at, name, entries[-1], words[2:])

    def below(self, at, name, entry, words):
        """A line below an entry."""
        if words[0] == "state" and len(words) == 3:
            entry.update(state=words[1], size=int(words[2]))
        elif words[0] == "config" and len(words) == 5 and "o" in entry:
            entry["o"]["config"] = {"codec": words[1], "rate": words[2], "channels": words[3], "description": None if words[4] == "-" else words[4]}
        elif entry["t"] != "seen" or "e" in entry:
            self.fail(at, "is nothing that can stand below its entry")
        elif words[0] in ("resolve", "reject"):
            if not words[1].isdigit() or int(words[1]) >= len(self.entries[name]) or self.entries[name][int(words[1])].get("do") != "flush":
                self.fail(at, "names no flush")
            flush = self.entries[name][int(words[1])]
            entry.update(e=words[0], of="%s.%d" % (flush["by"], flush["j"]), error=words[2] if len(words) > 2 else None)
        elif words[0] in ("dequeue", "error"):
            entry.update(e=words[0], error=words[1] if len(words) > 1 else None)
        elif words[0] == "output":
            entry.update(e="output", o=self.output(at, words[1:]), i=sum(1 for it in self.entries[name] if it.get("e") == "output"))
        else:
            self.fail(at, "is nothing that a page sees")

    def output(self, at, words):
        number = lambda text: None if text == "-" else int(text)
        try:
            if words[0] == "audio":
                names, values = ("rate", "channels", "frames", "timestamp", "duration"), [number(it) for it in words[2:7]]
                told = {"is": "audio", "format": None if words[1] == "-" else words[1], **dict(zip(names, values))}
            elif words[0] == "chunk":
                told = {"is": "chunk", "type": words[1], "timestamp": number(words[2]), "duration": number(words[3])}
            else:
                names, values = ("width", "height", "timestamp", "duration"), [number(it) for it in words[2:6]]
                told = {"is": "video", "format": None if words[1] == "-" else words[1], **dict(zip(names, values))}
        except (ValueError, IndexError):
            self.fail(at, "is no output")
        if words[-1] != "?":
            told["bytes"] = "" if words[-1] == "-" else words[-1]
        return told

    def local(self, caller, step):
        """A step that is no call, from its result."""
        words, do = self.results[caller][step], self.steps[caller][step]["do"]
        told = {"t": "step", "by": caller, "j": step, "do": do, "answer": words[-1] if len(words) == 1 else words[0]}
        looked = re.fullmatch(r"(\S+):(\d+)", words[0])
        if looked:
            told.update(on=looked[1], upto=int(looked[2]), answer="state" if do == "state" else words[1])
            if do == "state":
                told.update(state=words[1], size=int(words[2]))
            elif do == "take" and words[1] == "unit":
                told.update(unit=int(words[2]))
            elif len(words) > 2:
                told.update(error=words[2])
        elif words[0] == "copied":
            told.update(bytes=int(words[1]), data="" if words[-1] == "-" else words[-1], **({"layout": [list(map(int, it.split(":"))) for it in words[2].split(",")]} if len(words) == 4 else {}))
        elif words[0] == "size":
            told.update(bytes=int(words[1]))
        return told

    def log(self):
        """One list: each caller's steps and each codec's entries in their order, a look behind what it saw."""
        at, done, merged = {name: 0 for name in self.results}, {name: 0 for name in self.entries}, []
        calls = {(it["by"], it["j"]): (name, place) for name, entries in self.entries.items() for place, it in enumerate(entries) if it["t"] == "step"}
        progress = True
        while progress:
            progress = False
            for caller in at:
                for step in sorted(self.results[caller])[at[caller]:]:
                    if (caller, step) in calls:
                        name, place = calls[caller, step]
                        if done[name] != place:
                            break
                        merged.append(self.entries[name][place])
                        done[name] += 1
                    else:
                        it = self.local(caller, step)
                        if it.get("upto", 0) > done.get(it.get("on"), 0):
                            break
                        merged.append(it)
                    at[caller] += 1
                    progress = True
            for name, entries in self.entries.items():
                looks = [it.get("upto") for caller in at for step in sorted(self.results[caller])[at[caller]:at[caller] + 1] if (caller, step) not in calls
                         for it in [self.local(caller, step)] if it.get("on") == name]
                if done[name] < len(entries) and entries[done[name]]["t"] == "seen" and done[name] not in looks:
                    if "e" not in entries[done[name]]:
                        raise NoReport("entry %d of codec %s tells nothing" % (done[name], name))
                    merged.append(entries[done[name]])
                    done[name] += 1
                    progress = True
        if any(done[name] < len(entries) for name, entries in self.entries.items()):
            raise NoReport("callers' results and codecs' entries have no order that agrees with both")
        support = {}
        for words in self.support:
            name, _, place = words[0].rpartition(".")
            it = self.entries[name][int(place)]
            support.setdefault(name, []).append({"by": it["by"], "j": it["j"], "is": {"true": True, "false": False}.get(words[1], words[1])})
        return {"list": merged, "codecs": [{"name": codec["name"], "kind": codec["kind"], "support": support.get(codec["name"], [])} for codec in self.script["codecs"]]}


def read_observed(text, script):
    """(who, log) of an observed report."""
    return Reader(text, script).read()


# ---------------------------------------------------------------- reports of the program

def parse(text):
    """Of a report: callers' results {caller: {step: words}}, and codecs' entries {codec: [(words, shown lines)]}."""
    callers, codecs, part, current = {}, {}, None, None
    lines = text.split("\n")
    if lines[0] != "wcrun report 1":
        raise NoReport("no report: %s" % text[:200])
    for line in lines[1:]:
        words = line.split(" ")
        if words[0] in ("caller", "codec"):
            part, current = words[0], callers.setdefault(words[1], {}) if words[0] == "caller" else codecs.setdefault(words[1], [])
        elif line in ("pool", "slots") or words[0] == "held":
            part = None
        elif part == "caller":
            current[int(words[0])] = words[1:]
        elif part == "codec" and line.startswith("  "):
            current[-1][1].append(line[2:].split(" "))
        elif part == "codec":
            current.append((words[1:], []))
    return callers, codecs


def is_call_entry(words):
    return len(words) == 4 and words[2] == "=" and words[1] in CALLS


def seen_of(shows, flushes, look, origin):
    """What a page sees of an entry: each thing by itself. Of a close by an error the error comes first, since the promises'
    reactions run when the error callback has returned."""
    parts = []
    for words in shows:
        if words[0] == "config":
            parts[-1].config = words[1:]
        else:
            told = [words[0], flushes.get(int(words[1]), words[1])] + words[2:] if words[0] in ("resolve", "reject") else words
            parts.append(Entry(seen=told, look=look, origin=origin))
    if any(part.seen[0] == "error" for part in parts):
        parts.sort(key=lambda part: part.seen[0] == "reject")
    return parts


def project(text, script, eye=None):
    """What a page could have seen of a report. `eye`: the caller that looks at the state behind each entry that can be seen."""
    callers, codecs = parse(text)
    report = Report("of wcrun", script)
    looks = {}
    for words in callers.get(eye, {}).values():
        name, place = words[0].split(":")
        looks[name, int(place)] = (words[1], int(words[2]))
    for name, entries in codecs.items():
        flushes, out = {}, report.codecs[name]
        for place, (words, shows) in enumerate(entries):
            look = looks.get((name, place + 1))
            if is_call_entry(words):
                out.append(Entry(call=(words[0], words[1], words[3]), look=look, origin=place))
                if words[1] == "flush":
                    flushes[place] = words[0]
            out += seen_of(shows, flushes, look, place)
    for caller in report.callers:
        report.callers[caller] = {step: " ".join(words) for step, words in callers.get(caller, {}).items()}
    return report

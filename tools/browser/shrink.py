"""Makes a script least for a finding: as few callers, codecs, steps and turns as still show it in a browser."""
import json

import browsers
import findings


def dependents(steps, gone):
    """The steps of one caller that fall with these, since they use a variable that is not made any more."""
    gone = set(gone)
    while True:
        made = {steps[number]["as"] for number in gone if "as" in steps[number]}
        more = {number for number, step in enumerate(steps) if number not in gone and made & {step.get(name) for name in ("chunk", "data", "promise", "of")}}
        if not more:
            return gone
        gone |= more


def without_steps(script, gone):
    """The script without these steps {caller: numbers}, and what falls with them."""
    gone = {caller["name"]: dependents(caller["steps"], gone.get(caller["name"], ())) for caller in script["callers"]}
    at, order = {}, []
    for item in script["order"]:
        if isinstance(item, str):
            number = at.get(item, 0)
            at[item] = number + 1
            if number in gone[item]:
                continue
        order.append(item)
    callers = [dict(caller, steps=[step for number, step in enumerate(caller["steps"]) if number not in gone[caller["name"]]]) for caller in script["callers"]]
    return dict(script, callers=[caller for caller in callers if caller["steps"]], order=order)


def without_codec(script, name):
    gone = {caller["name"]: [number for number, step in enumerate(caller["steps"]) if step.get("on") == name] for caller in script["callers"]}
    less = without_steps(script, gone)
    callers = [caller for caller in less["callers"] if caller.get("in", {}).get("on") != name]
    kept = {caller["name"] for caller in callers}
    order = [item for item in less["order"] if (item in kept if isinstance(item, str) else name not in (item.get("start"), item.get("done"), item.get("turn"), item.get("reclaim")))]
    return dict(less, codecs=[codec for codec in less["codecs"] if codec["name"] != name], callers=callers, order=order)


def turns_of(order):
    """The stretches of the order with no caller's step: (from, to)."""
    runs, start = [], None
    for place, item in enumerate(order + [""]):
        if isinstance(item, str):
            if start is not None:
                runs.append((start, place))
            start = None
        elif start is None:
            start = place
    return runs


def smaller(script):
    """Changes that make the script less, each a function of a script; the largest first."""
    for codec in script["codecs"]:
        if len(script["codecs"]) > 1:
            yield lambda it, name=codec["name"]: without_codec(it, name) if any(other["name"] == name for other in it["codecs"]) and len(it["codecs"]) > 1 else it
    for caller in script["callers"]:
        if len(script["callers"]) > 1:
            yield lambda it, name=caller["name"]: without_steps(it, {other["name"]: range(len(other["steps"])) for other in it["callers"] if other["name"] == name})
    for caller in script["callers"]:
        for step in caller["steps"][::-1]:
            # by the step itself, since numbers change as others go
            yield lambda it, name=caller["name"], gone=step: without_steps(it, {other["name"]: [number for number, own in enumerate(other["steps"]) if own is gone] for other in it["callers"] if other["name"] == name})
    for start, end in turns_of(script["order"]):
        first = script["order"][start]
        yield lambda it, gone=first: without_turns(it, gone)


def without_turns(script, first):
    for start, end in turns_of(script["order"]):
        if any(item is first for item in script["order"][start:end]):
            return dict(script, order=script["order"][:start] + script["order"][end:])
    return script


def size_of(script):
    return sum(len(caller["steps"]) for caller in script["callers"]) + len(script["codecs"]) + len(script["callers"]) + len(turns_of(script["order"]))


class Shrinker:
    def __init__(self, engine, browser, folder, code, pace, runs=1, workers=False, told=print):
        self.engine, self.browser, self.folder, self.code, self.pace, self.runs, self.workers, self.told = engine, browser, folder, code, pace, runs, workers, told
        self.tried = 0

    def seen(self, scripts):
        """Of each script in how many runs the finding was seen."""
        jobs = [browsers.job_of(script, self.folder, self.pace, self.workers) for script in scripts for _ in range(self.runs)]
        counts = [0] * len(scripts)
        for number, (job, log) in enumerate(zip(jobs, browsers.in_browser(self.browser, jobs))):
            self.tried += 1
            if "fault" in log:
                continue
            judged = findings.Judged(job, log, self.engine, self.browser)
            counts[number // self.runs] += any(it["class"] == findings.DEVIATES and it["code"] == self.code for it in judged.findings.list)
        return counts

    def least(self, script):
        """The least script that was found, or None where the finding is not seen at all."""
        if not self.seen([script])[0]:
            return None
        while True:
            changes = list(smaller(script))
            made = [change(script) for change in changes]
            shown = [(change, less) for change, less, count in zip(changes, made, self.seen(made)) if count and size_of(less) < size_of(script)]
            if not shown:
                return script
            script = self.together(script, shown)
            self.told("  %d steps, %d turns: still seen" % (sum(len(caller["steps"]) for caller in script["callers"]), len(turns_of(script["order"]))))

    def together(self, script, shown):
        """As many of the changes at once as still show it: all, half of them, and so on, or the greatest alone."""
        count = len(shown)
        while count > 1:
            less = script
            for change, _ in shown[:count]:
                less = change(less)
            if less["callers"] and self.seen([less])[0]:
                return less
            count //= 2
        return min((less for _, less in shown), key=size_of)


def text_of(script):
    """A script with one step a line."""
    lines = ['{"about":%s,' % json.dumps(script["about"])] if "about" in script else ["{"]
    short = lambda value: json.dumps(value, separators=(",", ":"))
    lines.append(' "codecs":%s,' % short(script["codecs"]))
    callers = ['  {%s,"steps":[\n%s]}' % (",".join('"%s":%s' % (name, short(value)) for name, value in caller.items() if name != "steps"),
                                          ",\n".join("   " + short(step) for step in caller["steps"])) for caller in script["callers"]]
    return "\n".join(lines + [' "callers":[', ",\n".join(callers) + "],", ' "order":%s}' % short(script["order"]), ""])

"""The findings of judged scripts as one HTML page that needs no network, in the form of tools/view: lanes for callers and
codecs, columns in the order in which the page saw things, a hover that shows the line; what no order gives is red."""
import html

import findings

WIDTH, LABELS, HIGH = 128, 170, 34

STYLE = """
body{font:13px/1.4 system-ui,sans-serif;margin:16px;color:#1b1f24;background:#fff;max-width:100%}
h1{font-size:17px;margin:0 0 4px}h2{font-size:14px;margin:26px 0 4px}p{margin:4px 0 10px;max-width:70em}
table{border-collapse:collapse;margin:8px 0}td,th{border:1px solid #cfd6dd;padding:3px 8px;text-align:left;vertical-align:top}th{background:#f5f7f9}
.frame{position:relative;border:1px solid #cfd6dd;border-radius:4px;overflow-x:auto}
svg{display:block}svg text{font:11px ui-monospace,monospace;fill:#1b1f24;pointer-events:none}svg .label{font:12px system-ui,sans-serif}
.rule{stroke:#e4e8ec}.mark rect{stroke-width:1;fill:#eef1f4;stroke:#9aa5b1}
.call rect{fill:#dbe9fb;stroke:#5b8bc9}.inside rect{stroke-dasharray:4 2}.seen rect{fill:#f3e8fb;stroke:#9a6cc0}.output rect{fill:#e3f1e0;stroke:#6ba35a}
.mark.refused rect{stroke:#c62828}.mark.impossible rect{fill:#c62828;stroke:#c62828}.mark.impossible text{fill:#fff}
.mark.first rect{stroke:#000;stroke-width:2.5}.mark:hover rect{stroke-width:2.5}
.what{color:#c62828;font-weight:600}.step{color:#4b5560}
.line{background:#1b1f24;color:#fff;font:12px ui-monospace,monospace;padding:5px 10px;margin:6px 0;border-radius:4px;min-height:1.4em;white-space:pre-wrap;overflow-wrap:anywhere}
pre{font:12px ui-monospace,monospace;white-space:pre-wrap;overflow-wrap:anywhere}
"""

SCRIPT = """
for (const part of document.querySelectorAll('.part')) {
  const lines = part.querySelector('.report').textContent.split('\\n'), shown = part.querySelector('.line'), hint = shown.textContent;
  part.querySelector('.frame').addEventListener('mouseover', event => {
    const mark = event.target.closest('[data-line]');
    shown.textContent = mark ? lines[mark.dataset.line - 1] + (mark.dataset.more ? '\\n' + mark.dataset.more : '') : hint;
  });
}
"""


def short(text, width):
    most = int((width - 8) / 6.7)
    return text if len(text) <= most else text[:most - 1] + "…"


class Drawing:
    """The lanes of one run of a script."""

    def __init__(self, judged):
        self.judged, self.out, self.lanes = judged, [], {}
        self.impossible, self.first = {}, {}        # (codec, place in the log): what is allowed there
        for name, verdict in judged.verdicts.items():
            events = judged.events[name]
            for fault in verdict.faults:
                self.impossible.setdefault((name, events[fault.place]["n"]), "allowed there: %s" % ("; ".join(fault.instead) or "nothing"))
            for event in events:
                if "in_call" in event:
                    self.impossible.setdefault((name, event["n"]), "it ran inside the call %s, before it returned" % event["in_call"])
            if verdict.faults:
                self.first[name, events[verdict.faults[0].place]["n"]] = True
        for caller in judged.script["callers"]:
            self.lane(("caller", caller["name"]), "caller %s%s" % (caller["name"], " (in %(event)s of %(on)s)" % caller["in"] if "in" in caller else ""))
        for codec in judged.script["codecs"]:
            self.lane(("calls", codec["name"]), "%s: calls" % codec["name"])
            self.lane(("seen", codec["name"]), "%s: seen" % codec["name"])
        self.entries()

    def lane(self, key, label):
        top = len(self.lanes) * HIGH
        self.lanes[key] = top
        self.out.append('<text class="label" x="8" y="%d">%s</text><line class="rule" x1="0" x2="%d" y1="%d" y2="%d"/>' % (
            top + 21, html.escape(label), LABELS + len(self.judged.log["list"]) * WIDTH, top + HIGH, top + HIGH))

    def mark(self, lane, column, kinds, line, text, more=""):
        x, y = LABELS + column * WIDTH, self.lanes[lane] + 6
        self.out.append('<g class="mark %s" data-line="%d" data-more="%s"><rect x="%d" y="%d" width="%d" height="22" rx="3"/><text x="%d" y="%d">%s</text></g>' % (
            kinds, line, html.escape(more, quote=True), x, y, WIDTH - 6, x + 5, y + 15, html.escape(short(text, WIDTH - 6))))

    def entries(self):
        report, log = self.judged.report, self.judged.log["list"]
        at = {name: {entry.origin: entry for entry in entries} for name, entries in report.codecs.items()}
        for column, it in enumerate(log):
            entry = at.get(it.get("on"), {}).get(column)
            size = "" if it.get("size") is None else " (%s)" % it["size"]
            if it["t"] == "step":
                line = report.lines[it["by"], it["j"]]
                refused = " refused" if it["answer"].endswith("Error") else ""
                self.mark(("caller", it["by"]), column, refused, line, "%d %s" % (it["j"], it["do"]) + (" %s" % it["answer"] if it["answer"] != "ok" else ""))
                if entry and entry.call:
                    self.entry("calls", "call%s%s" % (" inside" if entry.inside else "", refused), it["on"], column, entry, it["do"] + size)
            else:
                word = {"resolve": "resolve %s" % it.get("of"), "reject": "reject %s" % it.get("of"), "error": str(it.get("error"))}.get(it["e"], it["e"])
                self.entry("seen", "seen%s" % (" output" if it["e"] == "output" else ""), it["on"], column, entry, word + size)

    def entry(self, lane, kinds, name, column, entry, text):
        more = self.impossible.get((name, column), "")
        self.mark((lane, name), column, kinds + (" impossible" if more else "") + (" first" if (name, column) in self.first else ""), entry.line, text, more)

    def html(self):
        width, height = LABELS + len(self.judged.log["list"]) * WIDTH, len(self.lanes) * HIGH + 2
        return '<div class="frame"><svg width="%d" height="%d">%s</svg></div>' % (width, height, "".join(self.out))


def part_of(head, judged):
    told = [it for it in judged.findings.list if it["class"] == findings.DEVIATES]
    rows = "".join("<li><span class=\"what\">%s</span> <span class=\"step\">%s</span></li>" % (
        html.escape("line %s, %s: %s" % (it["line"], it["where"], it["text"])), html.escape(it["step"])) for it in told)
    verdicts = "".join("<p>%s</p>" % html.escape(line) for line in judged.lines if not line.startswith("    "))
    about = judged.script.get("about")
    return '<div class="part"><h2>%s</h2>%s%s%s<div class="line">A mark shows its line of the observed report here.</div><ul>%s</ul><details><summary>The observed report</summary><pre class="report">%s</pre></details></div>' % (
        html.escape(head), "<p>%s</p>" % html.escape(about) if about else "", verdicts, Drawing(judged).html(), rows, html.escape(judged.text, quote=False))


def table_of(shown):
    """How often each finding was seen, by what it is."""
    rows = {}
    for head, judged in shown:
        who = " ".join(judged.report.who.split(" ")[:2])
        for code in {(it["code"], it["step"]) for it in judged.findings.list if it["class"] == findings.DEVIATES}:
            rows.setdefault(code, {}).setdefault(who, []).append(head.split("  ")[0])
    body = "".join("<tr><td>%s</td><td>%s</td><td>%s</td></tr>" % (
        html.escape(code), html.escape(step), "<br>".join(html.escape("%s: in %d of the runs, as %s" % (who, len(names), names[0])) for who, names in sorted(by.items())))
        for (code, step), by in sorted(rows.items(), key=lambda row: -sum(map(len, row[1].values()))))
    return "<table><tr><th>finding</th><th>step of the standard</th><th>seen</th></tr>%s</table>" % body


def page_of(shown):
    """A page of (head, judged) runs: those with something against the standard are drawn."""
    drawn = [(head, judged) for head, judged in shown if judged.findings.count(findings.DEVIATES)]
    about = ("%d runs were judged, and %d have something against the standard. Columns are the order in which the page saw things; a number in brackets is the queue's size there. "
             "Filled red is what no order gives, framed black the first of it; what follows that is told as if it had been right." % (len(shown), len(drawn)))
    return "\n".join(['<!DOCTYPE html>', '<html lang="en"><head><meta charset="utf-8"><title>Findings in browsers</title>', "<style>%s</style></head><body>" % STYLE,
                      "<h1>Findings in browsers</h1><p>%s</p>" % html.escape(about), table_of(shown), *[part_of(head, judged) for head, judged in drawn],
                      "<script>%s</script></body></html>\n" % SCRIPT])

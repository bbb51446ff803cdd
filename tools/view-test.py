#!/usr/bin/env python3
"""Opens pages of `tools/view` in headless Chromium and Firefox, and compares what stands in them with the reports; and gives
`tools/view` texts that are no reports.

    tools/view-test.py [--browsers NAME,..] [--lines N] [REPORT ..]

Wants the browsers (Debian's packages `chromium` and `firefox-esr`). The reports are demo's, one of 2,000 entries, and one
of N lines (100,000 where it is left out), of which the seconds to make it and to open it are printed. What is compared is
read off the report here, apart from `tools/view`: each line with something to show has one mark, in its lane, and a hover
shows the line; entries stand in the order of their places; a flush reaches from its call to its end; waves have the
outputs' samples, and a picture its bytes; refusals are red; the curve of the queue agrees with each look at a codec's
state; outputs lead to their calls and promises to their ends; media last from their first reference to their end, and a way
through a port from its post to its receive; filters hide lanes; a line at fault is marked; the next refusal and the next error are those of the report. Ends with 1 where one differs.
"""
import argparse
import glob
import http.server
import json
import os
import queue
import re
import struct
import subprocess
import sys
import tempfile
import threading
import time

TOP = os.path.dirname(os.path.dirname(os.path.realpath(__file__)))
VIEW = os.path.join(TOP, "tools", "view")

# Goes through all windows of the page and tells what stands in them; of a long report through some.
PROBE = """
<script>
addEventListener('error', event => fetch('told', {method: 'POST', body: JSON.stringify({fault: event.message + ' at line ' + event.lineno})}));
</script>
<script>
{
const told = new Map(), hide = (kind, n) => { const it = document.querySelector(`[data-${kind}="${n}"]`); it.click(); };
const collect = () => {
  for (const mark of document.querySelectorAll('#drawn [data-line]')) {
    const rect = mark.querySelector('rect'), box = rect.getBBox(), style = getComputedStyle(rect), kinds = mark.getAttribute('class').split(' ').filter(it => it !== 'found' && it !== 'linked');
    const lane = lanes.findIndex(it => it.seen && it.top <= box.y + 1 && box.y + box.height <= it.top + it.height + 1);
    const key = [mark.dataset.line, lane, ...kinds].join(' ');
    if (!told.has(key)) {
      rect.dispatchEvent(new MouseEvent('mouseover', {bubbles: true}));
      told.set(key, {line: Number(mark.dataset.line), kinds, lane, stroke: style.stroke, fill: style.fill, height: box.height, y: box.y,
        hover: document.getElementById('line').textContent, waves: [...mark.querySelectorAll('polyline')].map(it => it.getAttribute('points'))});
    }
  }
};
const ready = Number(document.body.dataset.ready), few = columns < 3000;
state.width = 64;
const room = laneWidth / state.width, windows = few ? Math.ceil(columns / room * 2) + 1 : 40;
const began = performance.now();
for (let k = 0; k < windows; k++) { state.first = few ? k * room / 2 : k / 40 * columns; draw(); collect(); }
const drawing = (performance.now() - began) / windows;
const visits = kinds => { const found = []; state.line = 0; state.first = 0; for (let k = 0; k < (few ? 400 : 20); k++) { next(kinds, 1); if (!state.line || found.includes(state.line)) break; found.push(state.line); } return found; };
const refusals = visits(isRefused), errors = visits(isError);
const pictures = [...told.values()].filter(it => it.kinds.includes('picture')).map(it => {
  select(it.line, true);
  const canvas = document.getElementById('large'), data = canvas.getContext('2d').getImageData(0, 0, canvas.width, canvas.height).data;
  return {line: it.line, width: canvas.width, height: canvas.height, hidden: canvas.hidden, data: [...data]};
});
const linked = [...told.keys()].map(key => Number(key.split(' ')[0])).map(line => [line, [...linkedTo(line)]]);
const spansOf = word => marks.filter(mark => model.kinds[mark[KIND]].split(' ').includes(word)).map(mark => [mark[LINE], mark[FIRST], mark[LAST]]);
const firsts = marks.map(mark => [mark[LINE], mark[FIRST], mark[LAST], model.lanes[mark[LANE]].kind]);
const steps = marks.filter(mark => mark[MORE]).map(mark => [mark[LINE], mark[MORE]]);
const hidden = {};
for (const kind of ['caller', 'codec']) {
  if (!document.querySelector(`[data-${kind}="0"]`)) continue;
  hide(kind, 0);
  hidden[kind] = {lanes: lanes.filter(it => it.seen && it[kind] === 0).length, others: lanes.filter(it => it.seen).length, columns, drawn: document.querySelectorAll('#drawn [data-line]').length};
  hide(kind, 0);
}
select(1, false);
const answer = JSON.stringify({marks: [...told.values()], lanes: model.lanes, report: document.getElementById('report').textContent, ready, drawing, windows,
  outside: [...document.querySelectorAll('[src],[href]')].filter(it => !(it.getAttribute('href') || '').startsWith('data:image/')).length,
  refusals, errors, pictures, links: linked, flushes: spansOf('flush').filter(it => it[1] !== it[2]), media: spansOf('medium'), ways: spansOf('way'), firsts: few ? firsts : [], steps, hidden,
  curves: model.curves.map(it => ({...it, points: few ? it.points : it.points.slice(0, 100)})), columns: model.columns,
  text: document.getElementById('text').textContent.slice(0, 200)});
fetch('told', {method: 'POST', body: answer}).then(() => fetch('next')).then(it => it.text()).then(name => { if (name) location = name; });
}
</script>
"""


# Tells what a page shows first, which marks a line at fault.
FAULT_PROBE = """
<script>
{
const answer = JSON.stringify({begins: state.line, marks: [...document.querySelectorAll('#drawn .fault')].map(it => Number(it.dataset.line)),
  lines: [...document.querySelectorAll('#text .fault')].map(it => it.textContent), says: document.getElementById('told').textContent});
fetch('told', {method: 'POST', body: answer}).then(() => fetch('next')).then(it => it.text()).then(name => { if (name) location = name; });
}
</script>
"""


def commands(name, profile, url):
    """How a browser is started on a page."""
    if name == "chromium":
        return ["chromium", "--headless", "--no-sandbox", "--disable-gpu", "--window-size=1000,900", "--user-data-dir=" + profile, url]
    return ["firefox-esr", "--headless", "--no-remote", "--window-size", "1000,900", "--profile", profile, url]


class Server:
    """Hands out pages, one after another, and takes what each tells."""

    def __init__(self, pages):
        self.pages, self.told, self.at = pages, queue.Queue(), 0
        outer = self

        class Handler(http.server.BaseHTTPRequestHandler):
            def answer(self, content, kind="text/html; charset=utf-8"):
                self.send_response(200)
                self.send_header("Content-Type", kind)
                self.send_header("Content-Length", str(len(content)))
                self.end_headers()
                self.wfile.write(content)

            def do_GET(self):
                path = self.path.lstrip("/")
                if path == "next":
                    outer.at += 1
                    name = outer.pages[outer.at][0] if outer.at < len(outer.pages) else ""
                    self.answer(name.encode(), "text/plain")
                else:
                    self.answer(dict(outer.pages).get(path, b""))

            def do_POST(self):
                body = self.rfile.read(int(self.headers["Content-Length"]))
                outer.told.put(json.loads(body))
                self.answer(b"", "text/plain")

            def log_message(self, *_):
                pass

        self.server = http.server.ThreadingHTTPServer(("127.0.0.1", 0), Handler)
        threading.Thread(target=self.server.serve_forever, daemon=True).start()

    def url(self):
        return "http://127.0.0.1:%d/%s" % (self.server.server_port, self.pages[0][0])


def told_by(browser, pages):
    """What a browser tells of each page."""
    server = Server(pages)
    with tempfile.TemporaryDirectory() as profile:
        started = subprocess.Popen(commands(browser, profile, server.url()), stdout=subprocess.DEVNULL, stderr=subprocess.DEVNULL, env={**os.environ, "HOME": profile})
        try:
            told = []
            for _ in pages:
                told.append(server.told.get(timeout=600))
                if "fault" in told[-1]:
                    raise SystemExit("%s: %s: %s" % (browser, pages[server.at][0], told[-1]["fault"]))
        except queue.Empty:
            raise SystemExit("%s told nothing of %s" % (browser, pages[server.at][0]))
        finally:
            started.terminate()
            started.wait()
            server.server.shutdown()
    return told


def expected(lines):
    """For each line that has a mark: its lane, and the codec and place of its entry; and each flush with its end."""
    marks, flushes, part, codec, place = {}, {}, "", "", -1
    for n, line in enumerate(lines, 1):
        words = line.split(" ")
        if words[0] in ("caller", "codec"):
            part, codec = words[0], words[1]
        elif words[0] in ("pool", "slots"):
            part = words[0]
        elif part == "caller":
            marks[n] = (("caller", codec), None)
        elif part == "pool" and words[0].isdigit():
            marks[n] = (("pool", None), None)
        elif part == "slots" and words[0].isdigit():
            marks[n] = (("work", words[1].split(".")[0]), None)
        elif part == "codec" and words[0].isdigit():
            place = int(words[0])
            kind = {"start": "work", "done": "work", "turn": "tasks"}.get(words[1], "messages")
            marks[n] = ((kind, codec), place)
            if len(words) > 2 and words[2] == "flush":
                flushes[codec, place] = [n, None]
        elif part == "codec":
            marks[n] = (("outputs" if words[2:4] in (["output", "audio"], ["output", "video"]) else "tasks", codec), place)
            if words[2] in ("resolve", "reject"):
                flushes[codec, int(words[3])][1] = n
    return marks, flushes


def is_refusal(line):
    return bool(re.search(r"Error\b|OutOfMemory| refused$| no-slot | no-memory$| none | reclaim ", line))


def values_of(line):
    """The first channel's samples, from -1 to 1."""
    _, _, _, _, form, _, channels, frames, _, _, content = line.split(" ")
    data = bytes.fromhex(content) if content != "-" else b""
    size = {"u8": 1, "s16": 2, "s32": 4}[form.split("-")[0]]
    step = 1 if form.endswith("planar") else int(channels)
    raw = [data[size * k:size * (k + 1)] for k in range(0, int(frames) * step, step)]
    if size == 1:
        return [(r[0] - 128) / 128 for r in raw]
    return [struct.unpack("<h" if size == 2 else "<i", r)[0] / (1 << (8 * size - 1)) for r in raw]


def is_drawn(line, mark):
    """Whether the wave in a mark has the samples of its line."""
    values = values_of(line)
    points = [tuple(map(float, p.split(","))) for p in mark["waves"][0].split()]
    channels = int(line.split(" ")[6])
    middle = mark["y"] + mark["height"] / channels / 2
    half = mark["height"] / channels / 2 - 2
    drawn = [(middle - y) / half for _, y in points]
    if len(mark["waves"]) != channels:
        return False
    if len(points) == len(values):
        return all(abs(a - b) < 0.01 for a, b in zip(drawn, values))
    return abs(max(drawn) - max(values)) < 0.01 and abs(min(drawn) - min(values)) < 0.01


def is_painted(line, picture):
    """Whether the picture's pixels are those of its planes, by full-range BT.601."""
    words = line.split(" ")
    form, width, height, data = words[4], int(words[5]), int(words[6]), bytes.fromhex(words[9])
    across, down = (1 if form == "I444" else 2), (2 if form in ("I420", "NV12") else 1)
    cw, ch = -(-width // across), -(-height // down)
    if picture["hidden"] or (picture["width"], picture["height"]) != (width, height):
        return False
    for row in range(height):
        for column in range(width):
            n = row // down * cw + column // across
            y = data[row * width + column]
            u, v = (data[width * height + 2 * n], data[width * height + 2 * n + 1]) if form == "NV12" else (data[width * height + n], data[width * height + cw * ch + n])
            wanted = [y + 1.402 * (v - 128), y - 0.344136 * (u - 128) - 0.714136 * (v - 128), y + 1.772 * (u - 128), 255]
            got = picture["data"][4 * (row * width + column):][:4]
            if any(abs(min(max(a, 0), 255) - b) > 1 for a, b in zip(wanted, got)):
                return False
    return True


def ways_of(lines, script):
    """Each post whose medium a receive got, with that receive; with a script each other post too, with no end."""
    line_of, caller, posts = {}, None, {}
    for n, line in enumerate(lines, 1):
        if line.startswith("caller "):
            caller = line.split(" ")[1]
        elif not line[0].isdigit():
            caller = None
        elif caller:
            line_of[caller, line.split(" ")[0]] = n
    for (caller, _), n in line_of.items():
        found = re.fullmatch(r"\d+ from (\S+)\.(\d+)", lines[n - 1])
        if found:
            posts[line_of[found[1], found[2]]] = n
    for caller in json.load(open(script, encoding="utf-8"))["callers"] if script else []:
        for number, step in enumerate(caller["steps"]):
            n = line_of[caller["name"], str(number)]
            if step["do"] == "post" and lines[n - 1].endswith(" ok"):
                posts.setdefault(n, None)
    return posts


def check_ways(lines, told, script, bad):
    """Ways through ports, from their posts to their receives."""
    if not told["firsts"]:
        return
    columns = {line: a for line, a, _, kind in told["firsts"] if kind == "caller"}
    wanted = {post: (columns[post], columns[receive] if receive else told["columns"]) for post, receive in ways_of(lines, script).items()}
    got = {line: (a, b) for line, a, b in told["ways"]}
    if got != wanted:
        bad.append("ways through ports are %s, and not %s" % (got, wanted))


def check_lanes(lines, told, names, script, bad):
    callers, codecs = names
    kinds = [(it["kind"], it.get("caller", it.get("codec"))) for it in told["lanes"]]
    has_pool = any(re.match(r"\d+ \S+ (make|clone|end) ", line) for line in lines)
    wanted = [("caller", n) for n in range(len(callers))] + [("ports", None)] * bool(ways_of(lines, script)) + [("pool", None), ("media", None)] * has_pool
    for n in range(len(codecs)):
        wanted += [(it, n) for it in ("head", "messages", "work", "queue", "tasks")]
    if [it for it in kinds if it[0] != "outputs"] != wanted:
        bad.append("its lanes are %s" % kinds)


def check_marks(lines, told, marks, names, bad, is_long):
    lane_of = {n: (it["kind"], names[0][it["caller"]] if "caller" in it else names[1][it["codec"]] if "codec" in it else None) for n, it in enumerate(told["lanes"])}
    plain = [m for m in told["marks"] if not ({"flush", "medium", "way"} & set(m["kinds"]) and "call" not in m["kinds"])]
    found = sorted(m["line"] for m in plain)
    if (found != sorted(marks)) if not is_long else (len(set(found)) != len(found) or not set(found) <= set(marks)):
        bad.append("lines with marks: %s too many, %s missing" % (sorted(set(found) - set(marks))[:9], sorted(set(marks) - set(found))[:9]))
    for mark in plain:
        line = lines[mark["line"] - 1]
        lane, _ = marks.get(mark["line"], (None, None))
        if lane_of.get(mark["lane"]) != lane:
            bad.append("line %d stands in %s" % (mark["line"], lane_of.get(mark["lane"])))
        if mark["hover"] != "%d: %s" % (mark["line"], line if len(line) <= 400 else line[:400] + "… (%d characters)" % len(line)):
            bad.append("line %d shows %r" % (mark["line"], mark["hover"][:80]))
        if is_refusal(line) and "rgb(198, 40, 40)" not in (mark["stroke"], mark["fill"]):
            bad.append("line %d is a refusal, and not red" % mark["line"])
        if not is_refusal(line) and "refused" in mark["kinds"] and " start " not in line:
            bad.append("line %d is red, and no refusal" % mark["line"])
        if lane and lane[0] == "outputs" and line.startswith("  output audio") and not is_drawn(line, mark):
            bad.append("line %d: its wave is another one" % mark["line"])
    return plain


def check_order(lines, told, marks, flushes, bad):
    """Entries by their places, and flushes from their calls to their ends."""
    first = {}
    for line, a, b, kind in told["firsts"]:
        if line not in first and kind not in ("media",) and a == b or kind == "work" and lines[line - 1].split(" ")[1] == "start":
            first[line] = a
    last = {}
    for n in sorted(marks):
        (_, codec), place = marks[n]
        if place is not None and not lines[n - 1].startswith("  ") and n in first:
            if first[n] <= last.get(codec, -1):
                bad.append("line %d does not stand behind the entry before it" % n)
            last[codec] = first[n]
    bars = {line: (a, b) for line, a, b in told["flushes"]}
    for line, end in flushes.values():
        owner = max((n for n in first if n <= end and not lines[n - 1].startswith("  ")), default=None) if end else None
        wanted = (first[line], first[owner] if end else told["columns"])
        if bars.get(line, wanted if wanted[0] == wanted[1] else None) != wanted:
            bad.append("the flush of line %d reaches %s, and not %s" % (line, bars.get(line), wanted))


def check_curves(lines, told, names, bad):
    """The queue's sizes at each look at a codec's state."""
    columns = {}
    for line, a, b, kind in told["firsts"]:
        columns.setdefault(line, a)
    entry_lines, codec, looks = {}, None, 0
    for n, line in enumerate(lines, 1):
        found = re.match(r"codec (\S+) ", line)
        if found:
            codec = found[1]
        if line == "pool":
            break
        found = re.match(r"(\d+) \S+", line)
        if codec and found:
            entry_lines[codec, int(found[1])] = n
    for n, line in enumerate(lines, 1):
        found = re.fullmatch(r"\d+ (\S+):(\d+) (?:unconfigured|configured|closed) (\d+)", line)
        if not found:
            continue
        looks += 1
        at = columns[entry_lines[found[1], int(found[2]) - 1]] if int(found[2]) else -1
        points = told["curves"][names[1].index(found[1])]["points"]
        size = next((p[1] for p in reversed(points) if p[0] <= at), 0)
        if size != int(found[3]):
            bad.append("line %d: the curve has %d queued" % (n, size))
    return looks


def check_links(lines, told, marks, flushes, bad):
    links = {line: others for line, others in told["links"]}
    count = 0
    for n in links:
        line = lines[n - 1]
        if line.startswith("  output"):
            calls = [lines[it - 1].split(" ")[2] for it in links[n]]
            count += 1
            if not calls or not set(calls) <= {"decode", "encode", "flush"} or any(it > n for it in links[n]):
                bad.append("the output of line %d leads to %s" % (n, links[n]))
    for line, end in flushes.values():
        if end and line in links:
            count += 1
            if end not in links[line] or line not in links.get(end, [line]):
                bad.append("the flush of line %d leads to %s, and not to %d" % (line, links[line], end))
    return count


def check_media(lines, told, bad):
    begun, wanted = {}, {}
    for n, line in enumerate(lines, 1):
        found = re.fullmatch(r"\d+ \S+ (make|clone|end) (\d+) \d+(?: (kept|gone))?", line)
        if found and found[1] == "make":
            begun[found[2]] = n
            wanted[n] = None
        elif found and found[3] == "gone":
            wanted[begun[found[2]]] = n
    columns = {}
    for line, a, _, kind in told["firsts"]:
        if kind == "pool":
            columns[line] = a
    if not told["firsts"]:
        return
    got = {line: (a, b) for line, a, b in told["media"]}
    for n, end in wanted.items():
        if got.get(n) != (columns[n], columns[end] if end else told["columns"]):
            bad.append("the resource of line %d lasts %s" % (n, got.get(n)))
    if set(got) != set(wanted):
        bad.append("media of lines %s" % sorted(got))


def check(name, text, told, script):
    """The differences between a page and its report."""
    bad = []
    lines = text.split("\n")[:-1]
    is_long = len(lines) > 20000
    marks, flushes = expected(lines)
    names = [[re.match(r"\w+ (\S+)", line)[1] for line in lines if line.startswith(word + " ")] for word in ("caller", "codec")]
    if told["report"] != text:
        bad.append("the text of the report is another one")
    if told["outside"]:
        bad.append("the page takes something from elsewhere")
    if not told["text"].startswith("1wcrun report 12caller"):
        bad.append("its lines have no numbers: %r" % told["text"][:40])
    check_lanes(lines, told, names, script, bad)
    plain = check_marks(lines, told, marks, names, bad, is_long)
    looks = 0
    if not is_long:
        check_order(lines, told, marks, flushes, bad)
        looks = check_curves(lines, told, names, bad)
    links = check_links(lines, told, marks, flushes, bad)
    check_media(lines, told, bad)
    check_ways(lines, told, script, bad)
    for picture in told["pictures"]:
        if not is_painted(lines[picture["line"] - 1], picture):
            bad.append("line %d: its picture is another one" % picture["line"])
    refusals = {n for n in marks if is_refusal(lines[n - 1])}
    if not is_long and not refusals <= set(told["refusals"]) | {n for n in refusals if " none " in lines[n - 1]} and len(refusals) < 400:
        bad.append("the next refusals are %s, and not %s" % (told["refusals"][:20], sorted(refusals)[:20]))
    errors = {n for n in marks if lines[n - 1].startswith("  error ")}
    if len(errors) < 400 and set(told["errors"]) != errors:
        bad.append("the next errors are %s, and not %s" % (told["errors"], sorted(errors)))
    for kind, it in told["hidden"].items():
        if it["lanes"] or (len(names[kind == "codec"]) == 1 and kind == "codec" and it["others"] > len(names[0]) + 2):
            bad.append("without a %s there are %d of its lanes" % (kind, it["lanes"]))
    steps = sum(kind == "caller" for (kind, _), _ in marks.values())
    if script and (len(told["steps"]) != steps or not all(words for _, words in told["steps"])):
        bad.append("%d of %d steps have words" % (len(told["steps"]), steps))
    print("  %s: %d marks%s, %d flushes, %d links, %d looks at a queue, %d pictures; opened in %.1f s, a window in %d ms: %s" % (
        name, len(plain), " of some windows" if is_long else "", len(flushes), links, looks, len(told["pictures"]), told["ready"] / 1000, told["drawing"],
        "as in the report" if not bad else "%d differ" % len(bad)))
    for it in bad[:10]:
        print("    " + it)
    return len(bad)


def long_report(count):
    """One decode after another: so many entries, of which each fifth decode is refused."""
    results, entries, place, step = ["0 d.0 ok"], ["0 a.0 configure = ok", "1 start 0.0", "2 done 0.0 1 ran 0", "3 turn unblock", "4 turn process"], 5, 1
    item = 1
    while place < count - 5:
        if step % 5 == 0:
            results.append("%d d.%d DataError" % (step, place))
            entries.append("%d a.%d decode = DataError" % (place, step))
            place += 1
        else:
            results.append("%d d.%d ok" % (step, place))
            content = "".join("%02x%02x" % ((k * step) % 256, (k * 3) % 128) for k in range(160 if count < 10000 else 16))
            entries += ["%d a.%d decode = ok" % (place, step), "%d start 0.%d" % (place + 1, item), "%d done 0.%d %d ran 1" % (place + 2, item, place),
                        "%d turn dequeue" % (place + 3), "  dequeue", "%d turn output" % (place + 4), "  output audio s16 8000 1 %d %d 20000 %s" % (len(content) // 4, step * 20000, content)]
            place, item = place + 5, item + 1
        step += 1
    while place < count:
        results.append("%d d.%d DataError" % (step, place))
        entries.append("%d a.%d decode = DataError" % (place, step))
        place, step = place + 1, step + 1
    return "\n".join(["wcrun report 1", "caller a", *results, "codec d audio-decoder 4", *entries, "pool", "slots", "0 d.1 acquire decode:pcm-s16 0", "held 0", "end", ""])


def refusals(folder, text, ported):
    """Texts that are no reports, each with the line that is to be named; of the second text each receive is changed."""
    lines = text.split("\n")
    first = next(n for n, line in enumerate(lines) if re.match(r"\d+ start ", line))
    output = next(n for n, line in enumerate(lines) if line.startswith("  output audio"))
    rows = [("", 1), ("{}\n", 1), (text[:-1], len(lines) - 1), (text + "end\n", len(lines)), ("\n".join(lines[:-2]) + "\n", len(lines) - 1)]
    for n, line in ((first, lines[first].replace("start ", "begin ")), (first, lines[first].replace(" start", "  start")), (first, "7" + lines[first]), (output, lines[output] + "00"), (output, lines[output].upper())):
        rows.append(("\n".join([*lines[:n], line, *lines[n + 1:]]), n + 1))
    lines = ported.split("\n")
    first, second = [n for n, line in enumerate(lines) if re.match(r"\d+ from ", line)][:2]
    again = lines[second].split(" ")[0] + lines[first][lines[first].index(" "):]
    for n, line in ((first, "0 from nobody.1"), (first, re.sub(r"\d+$", "99", lines[first])), (second, again)):
        line = lines[n].split(" ")[0] + line[line.index(" "):]
        rows.append(("\n".join([*lines[:n], line, *lines[n + 1:]]), n + 1))
    bad = 0
    for text, line in rows:
        at = os.path.join(folder, "no.report")
        with open(at, "w", encoding="utf-8") as it:
            it.write(text)
        done = subprocess.run([VIEW, at], capture_output=True, text=True)
        if done.returncode != 1 or ("line %d " % line) not in done.stderr or os.path.exists(os.path.join(folder, "no.html")):
            print("a text that is no report, at line %d: status %d, %s" % (line, done.returncode, done.stderr.strip()))
            bad += 1
    print("%d texts that are no reports: %s" % (len(rows), "each refused at its line" if not bad else "%d wrong" % bad))
    return bad


def faults(folder, browser, text):
    """Pages that mark a line at fault: of an entry, of an output, and of a text that is no report."""
    lines = text.split("\n")
    rows = [(text, next(n for n, line in enumerate(lines, 1) if re.match(r"\d+ start ", line))),
            (text, next(n for n, line in enumerate(lines, 1) if line.startswith("  output "))), (text.replace(" start ", " begin "), 9)]
    pages = [("%d.html" % n, made_page(folder, "a line at fault", row, None, line, FAULT_PROBE)[0]) for n, (row, line) in enumerate(rows)]
    bad = 0
    for n, ((row, line), told) in enumerate(zip(rows, told_by(browser, pages))):
        wanted = {"begins": line, "marks": [line] if n < 2 else [], "lines": ["%d%s" % (line, row.split("\n")[line - 1])]}
        if any(told[key] != value for key, value in wanted.items()) or not told["says"].startswith("the line at fault"):
            print("  a page with line %d at fault shows %s" % (line, told))
            bad += 1
    print("  %d pages with a line at fault: %s" % (len(rows), "each marks it" if not bad else "%d wrong" % bad))
    return bad


def made_page(folder, name, text, script, fault=0, probe=PROBE):
    """The page of a report, with the probe behind it, and the seconds that it took."""
    at = os.path.join(folder, "it.report")
    with open(at, "w", encoding="utf-8") as it:
        it.write(text)
    began = time.time()
    made = subprocess.run([VIEW, at, *(["--script", script] if script else []), *(["--fault", str(fault)] if fault else [])], capture_output=True, text=True)
    if made.returncode:
        raise SystemExit("%s: %s" % (name, made.stderr.strip()))
    spent = time.time() - began
    with open(os.path.join(folder, "it.html"), encoding="utf-8") as it:
        return (it.read() + probe).encode(), spent


def main():
    words = argparse.ArgumentParser(prog="tools/view-test.py", description=__doc__, formatter_class=argparse.RawDescriptionHelpFormatter)
    words.add_argument("--browsers", default="chromium,firefox")
    words.add_argument("--lines", type=int, default=100000)
    words.add_argument("reports", nargs="*")
    given = words.parse_args()
    paths = given.reports or sorted(glob.glob(os.path.join(TOP, "demo", "*.report")))
    texts = []
    for path in paths:
        script = os.path.splitext(path)[0] + ".json"
        texts.append((os.path.basename(path), open(path, encoding="utf-8").read(), script if os.path.exists(script) else None))
    bad = 0
    if not given.reports:
        texts.append(("2,000 entries", long_report(2000), None))
        texts.append(("{:,} lines".format(given.lines), long_report(given.lines * 62 // 100), None))
    with tempfile.TemporaryDirectory() as folder:
        pages = []
        for n, (name, text, script) in enumerate(texts):
            page, spent = made_page(folder, name, text, script)
            pages.append(("%d.html" % n, page))
            if len(page) > 1000000:
                print("%s: %d lines, a page of %d bytes, made in %.1f s" % (name, text.count("\n"), len(page), spent))
        for browser in given.browsers.split(","):
            print("%s:" % browser)
            for (name, text, script), told in zip(texts, told_by(browser, pages)):
                bad += check(name, text, told, script)
            bad += faults(folder, browser, next(text for _, text, _ in texts if "  output audio" in text))
        with open(os.path.join(TOP, "demo", "ports.report"), encoding="utf-8") as it:
            bad += refusals(folder, next(text for _, text, _ in texts if "  output audio" in text), it.read())
    return 1 if bad else 0


if __name__ == "__main__":
    sys.exit(main())

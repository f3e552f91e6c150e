#!/usr/bin/env python3
"""Drives Chromium over the page of a run: page.py CHROMIUM PAGE..., as page.sh does. With --pictures DIR it keeps what it saw.

Nothing beyond Python's own library: the browser is spoken to over two pipes (--remote-debugging-pipe), in JSON."""
import base64
import json
import os
import subprocess
import sys
import tempfile

WIDTHS = {"desktop": (1440, 900), "phone": (390, 844)}


class Browser:
    """A headless browser without a window; one page at a time."""

    def __init__(self, program):
        self.folder = tempfile.TemporaryDirectory()
        hear, theirs_out = os.pipe()
        theirs_in, speak = os.pipe()
        words = [program, "--headless=new", "--no-sandbox", "--disable-gpu", "--hide-scrollbars", "--remote-debugging-pipe",
                 "--user-data-dir=" + self.folder.name, "about:blank"]
        # The browser hears on 3 and speaks on 4; the shell puts the pipes there.
        plumbing = ["bash", "-c", 'exec "$@" 3<&%d 4>&%d 2>/dev/null' % (theirs_in, theirs_out), "bash"]
        self.process = subprocess.Popen(plumbing + words, pass_fds=(theirs_in, theirs_out), stdout=subprocess.DEVNULL)
        os.close(theirs_in)
        os.close(theirs_out)
        self.hear, self.speak = hear, speak
        self.count, self.session, self.rest, self.events = 0, None, b"", []
        target = self.call("Target.createTarget", url="about:blank")["targetId"]
        self.session = self.call("Target.attachToTarget", targetId=target, flatten=True)["sessionId"]
        for domain in ("Page", "Runtime", "Log"):
            self.call(domain + ".enable")

    def receive(self):
        while b"\0" not in self.rest:
            read = os.read(self.hear, 1 << 20)
            if not read:
                raise SystemExit("page.py: the browser has ended")
            self.rest += read
        line, self.rest = self.rest.split(b"\0", 1)
        return json.loads(line)

    def call(self, method, **words):
        self.count += 1
        asked = {"id": self.count, "method": method, "params": words}
        if self.session:
            asked["sessionId"] = self.session
        os.write(self.speak, json.dumps(asked).encode() + b"\0")
        while True:
            told = self.receive()
            if told.get("id") == self.count:
                if "error" in told:
                    raise SystemExit("page.py: %s: %s" % (method, told["error"]["message"]))
                return told["result"]
            self.events.append(told)

    def evaluate(self, script):
        told = self.call("Runtime.evaluate", expression=script, returnByValue=True, awaitPromise=True)
        if "exceptionDetails" in told:
            raise SystemExit("page.py: %s: %s" % (script[:60], told["exceptionDetails"]))
        return told["result"].get("value")

    def open(self, path, width, height, touch):
        self.events = []
        self.call("Emulation.setDeviceMetricsOverride", width=width, height=height, deviceScaleFactor=1, mobile=touch)
        self.call("Emulation.setTouchEmulationEnabled", enabled=touch)
        self.call("Page.navigate", url="file://" + os.path.abspath(path))
        while not any(event.get("method") == "Page.loadEventFired" for event in self.events):
            self.events.append(self.receive())
        self.evaluate("new Promise(done => requestAnimationFrame(() => requestAnimationFrame(done)))")

    def complaints(self):
        """Errors and warnings that the page has made so far."""
        self.evaluate("0")
        found = []
        for event in self.events:
            words = event.get("params", {})
            if event.get("method") == "Runtime.exceptionThrown":
                found.append(words["exceptionDetails"].get("exception", {}).get("description", "an exception"))
            elif event.get("method") == "Runtime.consoleAPICalled" and words["type"] in ("error", "warning", "assert"):
                found.append("console: " + str(words["args"]))
            elif event.get("method") == "Log.entryAdded" and words["entry"]["level"] in ("error", "warning"):
                found.append(words["entry"]["text"])
        return found

    def press(self, x, y, touch):
        if touch:
            self.call("Input.dispatchTouchEvent", type="touchStart", touchPoints=[{"x": x, "y": y}])
            self.call("Input.dispatchTouchEvent", type="touchEnd", touchPoints=[])
        else:
            self.call("Input.dispatchMouseEvent", type="mouseMoved", x=x, y=y)
            for kind in ("mousePressed", "mouseReleased"):
                self.call("Input.dispatchMouseEvent", type=kind, x=x, y=y, button="left", clickCount=1)
        self.evaluate("new Promise(done => setTimeout(done, 80))")

    def drag(self, x, to, y, touch):
        steps = [("touchStart", "mousePressed", x), ("touchMove", "mouseMoved", (x + to) / 2), ("touchMove", "mouseMoved", to), ("touchEnd", "mouseReleased", to)]
        for finger, mouse, place in steps:
            if touch:
                points = [] if finger == "touchEnd" else [{"x": place, "y": y}]
                self.call("Input.dispatchTouchEvent", type=finger, touchPoints=points)
            else:
                self.call("Input.dispatchMouseEvent", type=mouse, x=place, y=y, button="left", buttons=1, clickCount=1)
        self.evaluate("new Promise(done => setTimeout(done, 80))")

    def picture(self, path, whole):
        words = {"captureBeyondViewport": True} if whole else {}
        if whole:
            size = self.call("Page.getLayoutMetrics")["cssContentSize"]
            words["clip"] = {"x": 0, "y": 0, "width": size["width"], "height": min(size["height"], 6000), "scale": 1}
        with open(path, "wb") as file:
            file.write(base64.b64decode(self.call("Page.captureScreenshot", format="png", **words)["data"]))

    def close(self):
        self.process.terminate()
        self.process.wait()
        self.folder.cleanup()


# ---- the checks

passed = failed = 0


def check(words, held, more=""):
    global passed, failed
    passed += bool(held)
    failed += not held
    if not held:
        print("FAILED: %s%s" % (words, ": %s" % (more,) if more else ""))


PAST_WIDTH = """[...document.querySelectorAll('body *')].filter(e => !e.ownerSVGElement && e.getClientRects().length)
    .filter(e => { const box = e.getBoundingClientRect(); return box.right > innerWidth + .5 || box.left < -.5; })
    .map(e => e.tagName + '#' + e.id + '.' + e.className).slice(0, 5)"""

# Words of the drawing itself; those that are cut by the right side are none that one reads.
WORDS_PAST = """[...document.querySelectorAll('svg text')].filter(e => { const box = e.getBoundingClientRect(), room = e.ownerSVGElement.getBoundingClientRect();
    return box.width && box.right > room.right + 3; }).map(e => e.textContent).slice(0, 5)"""

# In the middle of the first panel's height that the window shows: the place of a step, of an arrow's middle, of a transaction.
PLACE = """(() => { const panel = panels.find(p => p.hits.some(h => %s)), list = panel.hits.filter(h => %s), hit = list[Math.floor(list.length / 2)];
    panel.svg.scrollIntoView({block: 'center'}); const box = panel.svg.getBoundingClientRect();
    const [x, y] = hit.x0 === undefined ? [hit.x, hit.y] : [(hit.x0 + hit.x1) / 2, (hit.y0 + hit.y1) / 2];
    return [box.left + x, box.top + y]; })()"""
THINGS = {"a step": "h.p && h.x > 60 && h.x < panels[0].m.width - 20", "an arrow": "h.x0 > 60 && h.x1 < panels[0].m.width - 20 && Math.abs(h.y1 - h.y0) > 30",
          "a transaction": "h.ask && h.x > 60 && h.x < panels[0].m.width - 20"}
SHOWN = """(() => { const box = document.getElementById('details').getBoundingClientRect();
    return box.width > 0 && box.left >= 0 && box.right <= innerWidth && box.top >= 0 && box.bottom <= innerHeight ? document.getElementById('details').innerText : ''; })()"""


def check_page(browser, path, size, keep):
    """Everything that a person does first, at one width."""
    touch = size == "phone"
    said = "%s, %s: " % (os.path.basename(path), size)
    browser.open(path, *WIDTHS[size], touch)
    keep("opened")
    check(said + "it opens without a complaint", not browser.complaints(), browser.complaints()[:2])
    check(said + "it needs no other file", browser.evaluate("performance.getEntriesByType('resource').length") == 0)
    check(said + "the verdict comes first", browser.evaluate("document.querySelector('main').innerText").startswith("\u2713 Every promise held"))
    check(said + "it opens on the first change of leader", "view 1" in browser.evaluate("document.getElementById('heading').textContent"))
    check(said + "commits are marked in the lanes", browser.evaluate("document.querySelectorAll('.lanes text.c').length") > 0)
    check(said + "transactions are drawn", browser.evaluate("shown.has(1)") and browser.evaluate("panels.every(p => p.hits.some(h => h.ask))"))
    check(said + "no element is past the width", not browser.evaluate(PAST_WIDTH), browser.evaluate(PAST_WIDTH))
    check(said + "the page does not scroll sideways", browser.evaluate("document.documentElement.scrollWidth") <= WIDTHS[size][0])
    check(said + "no word is cut", not browser.evaluate(WORDS_PAST), browser.evaluate(WORDS_PAST))
    check_details(browser, said, touch, keep)
    check_strip(browser, said, touch, keep)
    check(said + "nothing has complained since", not browser.complaints(), browser.complaints()[:2])


def check_details(browser, said, touch, keep):
    for thing, which in THINGS.items():
        if not touch:
            x, y = browser.evaluate(PLACE % (which, which))
            browser.call("Input.dispatchMouseEvent", type="mouseMoved", x=x, y=y)
            check(said + "pointing at %s shows details" % thing, len(browser.evaluate(SHOWN)) > 40)
        browser.press(*browser.evaluate(PLACE % (which, which)), touch)
        told = browser.evaluate(SHOWN)
        check(said + "a press on %s shows details" % thing, len(told) > 40, told)
        keep(thing.replace(" ", "-"))
        check(said + "with details nothing is past the width", not browser.evaluate(PAST_WIDTH))
        before = browser.evaluate("document.getElementById('details').innerText")
        browser.evaluate("document.querySelector('#details [data-do=\"1\"]')?.click()")
        check(said + "the next one after %s" % thing, browser.evaluate("document.getElementById('details').innerText") != before)
        browser.evaluate("document.querySelector('#details [data-do=\"0\"]')?.click()")
        check(said + "details are closed", browser.evaluate(SHOWN) == "")


def check_strip(browser, said, touch, keep):
    browser.evaluate("scrollTo(0, 0)")
    before = browser.evaluate("document.getElementById('heading').textContent")
    x, y = browser.evaluate("(() => { const box = document.getElementById('strip').getBoundingClientRect(); return [box.left + box.width * .8, box.top + 20]; })()")
    browser.press(x, y, touch)
    check(said + "a press on the whole run goes there", browser.evaluate("document.getElementById('heading').textContent") != before)
    before = browser.evaluate("from")
    browser.drag(x, x - 60, y, touch)
    check(said + "the window is dragged", browser.evaluate("from") < before)
    for number in range(browser.evaluate("PARTS.length")):
        browser.evaluate("goTo(PARTS[%d])" % number)
        check(said + "part %d has no word that is cut" % number, not browser.evaluate(WORDS_PAST), browser.evaluate(WORDS_PAST))
    browser.evaluate("document.getElementById('all').click()")
    keep("whole-run")
    check(said + "the whole run can be shown", browser.evaluate("to - from === END"))
    check(said + "the whole run has no more arrows than can be seen", browser.evaluate("Math.max(...panels.map(p => p.hits.filter(h => h.x0 !== undefined).length)) < innerWidth / 2"))


def check_once(browser, path, keep):
    """What does not depend on the width."""
    browser.open(path, *WIDTHS["desktop"], False)
    said = os.path.basename(path) + ": "
    check(said + "views look different beyond eight", browser.evaluate("new Set([...Array(40).keys()].map(view => band(0, 0, 9, 9, { view, status: 1 }))).size") == 40)
    check(said + "every kind has its own line", browser.evaluate("new Set(Object.keys(LOOK).map(kind => LOOK[kind].slice(0, 2).join())).size === Object.keys(LOOK).length"))
    check(said + "every kind of the run is in the legend", browser.evaluate("[...new Set(ways.map(w => w.kind))].every(kind => document.querySelector(`[data-kind=\"${kind}\"]`))"))
    browser.call("Emulation.setEmulatedMedia", media="print")
    browser.evaluate("dispatchEvent(new Event('beforeprint'))")
    check(said + "print has no buttons", browser.evaluate("[...document.querySelectorAll('.row button')].every(b => !b.getClientRects().length)"))
    check(said + "print is not past the width", not browser.evaluate(PAST_WIDTH), browser.evaluate(PAST_WIDTH))
    keep("print")
    browser.call("Emulation.setEmulatedMedia", media="")


def lose_disk(path, made):
    """The same run, in which the site that falls silent loses its disk: its events and its steps until it is normal again."""
    lines = open(path, encoding="utf-8").read().split("\n")
    site, away, out = None, None, []
    for line in lines:
        row = json.loads(line.rstrip(",")) if line.startswith('["') else None
        if row and row[0] == "v" and row[3] in ("silent", "back"):
            site, away = row[2], row[3]
            row[3] = "lost" if away == "silent" else "returns"
        elif row and row[0] == "e" and row[2] == site:
            row[3] = row[3].replace("FALLS SILENT", "LOSES ITS DISK").replace("COMES BACK with the state that it had", "RETURNS without its state")
        elif row and row[0] == "p" and row[2] == site and away == "back":
            if row[5] == 1 and row[6] > 1:
                away = None
            else:
                row[5], row[7:11], row[12] = 4, [0, 0, 0, 0], 0
        out.append(json.dumps(row, separators=(",", ":")) + "," if row else line)
    open(made, "w", encoding="utf-8").write("\n".join(out))


def check_loss(browser, path, keep):
    browser.open(path, *WIDTHS["desktop"], False)
    said = os.path.basename(path) + ": "
    check(said + "the story tells of the loss", "lost its disk" in browser.evaluate("document.getElementById('story').textContent"))
    check(said + "one can go to the loss and the return", browser.evaluate("['loses its disk', 'returns without its state'].every(words => PARTS.some(p => p.label.includes(words)))"))
    browser.evaluate("goTo(PARTS.find(p => p.label.includes('returns without')))")
    check(said + "the return is drawn", browser.evaluate("document.querySelector('.lanes').innerHTML.includes('url(#recovers)')"))
    keep("return")


def main(words):
    pictures = words[words.index("--pictures") + 1] if "--pictures" in words else None
    if pictures:
        del words[words.index("--pictures"):words.index("--pictures") + 2]
    program, paths = words[0], words[1:]
    lost = os.path.splitext(paths[0])[0] + "-lost.html"
    lose_disk(paths[0], lost)
    browser = Browser(program)

    def keeper(path, size):
        def keep(what):
            if pictures:
                browser.picture(os.path.join(pictures, "%s-%s-%s.png" % (os.path.splitext(os.path.basename(path))[0], size, what)), what == "print")
        return keep
    for path in paths + [lost]:
        for size in WIDTHS:
            check_page(browser, path, size, keeper(path, size))
        check_once(browser, path, keeper(path, "desktop"))
    check_loss(browser, lost, keeper(lost, "desktop"))
    browser.close()
    print("%d passed, %d failed" % (passed, failed))
    return failed != 0


if __name__ == "__main__":
    sys.exit(main(sys.argv[1:]))

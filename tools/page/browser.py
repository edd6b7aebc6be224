"""Opens pages of runs in Chromium, and compares what they show at each step with play.py.

    browser.py CHROMIUM ROOM NAME ..

Of each NAME there is a page NAME.html, which play.py has read. It is stepped through by keys,
forward and back, and in jumps by slider, click and link. Files, queues, cursors, tasks, owners and
blockers have to be those of play.py, and new deadlocks those of the notes. Without its script, and
on paper, it has to show all lines, notes and the listing. No page may send a request, throw an
exception or breach its policy, and the policy has to keep from running what isn't the page's."""
import json
import os
import pathlib
import random
import socket
import subprocess
import sys

import play

# What a page shows at each move: a listing, then in any order what a listing doesn't tell; and
# deadlocks.
MOVES = r"""
(async () => {
  const owner = tag => tag.textContent.replace(/, line.*/, '')
    .replace(/^(\w+) (?:added|removed|holds$).*/, '$1');
  const shown = () => {
    const lines = ['LISTING'], tasks = [], more = [];
    for (const box of document.querySelectorAll('#boxes>.box:not([hidden])')) {
      const head = box.querySelector('h2'), title = head.firstChild.textContent, held = [];
      const id = title.replace(/ \w+ \w+ \d+$/, ''), tell = text => more.push(id + ': ' + text);
      const listed = title !== 'ENQUEUES' && head.className !== 'gone';
      if (listed) lines.push(title);
      for (const row of box.querySelectorAll('li:not([hidden])')) {
        const code = row.querySelector('code'), tag = row.querySelector('.hold,.mine');
        if (listed && !code.className) lines.push('  ' + code.textContent);
        if (tag && /^(FILE|ENQ)/.test(title)) held.push(owner(tag));
      }
      for (const tag of head.querySelectorAll('.tag'))
        if (tag.classList.contains('hold')) held.push(owner(tag));
        else if (/^cursor/.test(tag.textContent)) tell(tag.textContent);
      if (held.length) tell(held.sort().join(', '));
    }
    for (const name of document.querySelectorAll('#tasks dt')) {
      const text = name.nextSibling.textContent, label = name.textContent;
      if (!name.className) tasks.push('TASK ' + label + ' ' + text.split(/[ ,]/)[0]);
      else if (label === 'IDLE')
        for (const t of text.split(', ')) tasks.push('TASK ' + t + ' IDLE');
      const wait = /^WAITING(?: for (.*?))?, since/.exec(text);
      if (wait) more.push(label + ' waits for ' + (wait[1] || 'none'));
    }
    return [lines.concat(tasks.sort(), more.sort()).join('\n'),
      Array.from(document.querySelectorAll('.dead'), p => p.textContent.slice(10))];
  };
  const found = [];
  for (const [how, n] of %s) {
    if (how === 'key') document.dispatchEvent(new KeyboardEvent('keydown', {key: n}));
    if (how === 'click') document.querySelectorAll('ol div')[n - 1].click();
    if (how === 'slide') {
      const slider = document.getElementById('step');
      slider.value = n;
      slider.dispatchEvent(new Event('input'));
    }
    // The page puts the step before into its address 200 ms after it.
    if (how === 'link') await new Promise(done => setTimeout(done, 250));
    if (how === 'link' && location.hash !== '#s' + n) {
      location.hash = '#s' + n;
      await new Promise(done => addEventListener('hashchange', done, {once: true}));
    }
    found.push(shown());
  }
  return found;
})()
"""
# How the page's bar is shown, how wide it all is, how many elements may load or run something, and
# the words of the lines and of the listing.
WORDS = r"""
[Array.from(document.querySelectorAll('#bar'), e => getComputedStyle(e).display).join(),
 document.documentElement.scrollWidth, document.images.length + document.scripts.length,
 Array.from(document.querySelectorAll('h1,ol,pre'), e => e.innerText).join(' ')]
"""
# What may run only in a page with another policy.
MARKUP = "<script>document.title = 'ran'</script><img src='http://127.0.0.1:%d/'><ol>\n"


class Browser:
    """Chromium, driven over a pipe."""

    def __init__(self, chromium, room):
        self.number, self.events, self.rest, self.session = 0, [], b"", {}
        to_browser, self.out = os.pipe()
        self.back, from_browser = os.pipe()
        self.process = subprocess.Popen(
            ["sh", "-c", 'exec "$@" 3<&%d 4>&%d' % (to_browser, from_browser), "sh", chromium,
             "--headless=new", "--no-sandbox", "--disable-gpu", "--no-first-run",
             "--remote-debugging-pipe", "--user-data-dir=" + room,
             "--host-resolver-rules=MAP * ~NOTFOUND, EXCLUDE 127.0.0.1", "about:blank"],
            pass_fds=(to_browser, from_browser), stderr=subprocess.DEVNULL)
        os.close(to_browser)
        os.close(from_browser)
        target = self.call("Target.createTarget", url="about:blank")["targetId"]
        attached = self.call("Target.attachToTarget", targetId=target, flatten=True)
        self.session = {"sessionId": attached["sessionId"]}
        for domain in "Page", "Network", "Runtime", "Log":
            self.call(domain + ".enable")

    def message(self):
        while b"\0" not in self.rest:
            chunk = os.read(self.back, 1 << 20)
            assert chunk, "the browser ended"
            self.rest += chunk
        text, self.rest = self.rest.split(b"\0", 1)
        return json.loads(text)

    def call(self, method, **params):
        self.number += 1
        asked = dict(self.session, id=self.number, method=method, params=params)
        text = json.dumps(asked).encode() + b"\0"
        while text:
            text = text[os.write(self.out, text):]
        while True:
            message = self.message()
            if message.get("id") == self.number:
                assert "error" not in message, message
                return message["result"]
            self.events.append(message)

    def open(self, path, scripts=True, media="", width=1280):
        self.call("Emulation.setScriptExecutionDisabled", value=not scripts)
        self.call("Emulation.setEmulatedMedia", media=media)
        self.call("Emulation.setDeviceMetricsOverride", width=width, height=800,
                  deviceScaleFactor=1, mobile=width < 800)
        self.call("Page.navigate", url="about:blank")
        self.events = []
        self.call("Page.navigate", url=pathlib.Path(path).absolute().as_uri())
        loaded = "location.protocol === 'file:' && document.readyState !== 'loading'"
        while not self.evaluate(loaded):
            continue

    def evaluate(self, text):
        answer = self.call("Runtime.evaluate", expression=text, returnByValue=True,
                           awaitPromise=True)
        assert "exceptionDetails" not in answer, answer
        return answer["result"]["value"]

    def breaches(self):
        """Requests but that of the page itself, exceptions, and what the log tells."""
        return [e for e in self.events
                if e.get("method") in ("Runtime.exceptionThrown", "Log.entryAdded") or
                e.get("method") == "Network.requestWillBeSent" and
                not (e["params"]["request"]["url"].startswith("file:") and
                     e["params"].get("type") == "Document")]


def shown(view):
    """What a page shows of a view, as MOVES returns it."""
    boxes = {"file": "FILE ", "pre": "FILE ", "ts": "TSQUEUE ", "rd": "TDQUEUE ", "wr": "TDQUEUE "}
    rows, held, listing = {}, {}, view.listing()
    for (kind, name, key), (owner, count) in view.held.items():
        does = {"pre": " holds prefix %s" % key, "ts": " holds it", "rd": " reads", "wr": " writes",
                "enq": " holds \u00d7%d" % count * (count > 1)}
        row = play.to_bytes(key) if kind in ("file", "enq") else kind + str(key)
        rows[boxes[kind] + name if name else "ENQUEUES", row] = owner + does.get(kind, "")
    # What a unit changed is its own, also under a prefix that it holds.
    rows.update((("FILE " + name, key), owner) for (kind, name, key), (owner, _) in
                view.marks.items() if view.words[kind, name] == "RECOVERABLE" and kind == "file")
    for (box, _), owner in rows.items():
        held.setdefault(box, []).append(owner)
    more = ["%s: %s" % (box, ", ".join(sorted(owners))) for box, owners in held.items()]
    more += ["TSQUEUE %s: cursor %d" % (name, at) for name, at in view.cursors.items()
             if at and ("ts", name, 1) in view.cells]
    more += ["%s waits for %s" % (task, " and ".join(view.blockers(task)) or "none")
             for task in view.waits]
    files = [line for line in listing if not line.startswith("TASK ")]
    return "\n".join(files + sorted(listing[len(files):]) + sorted(more))


def wanted(name):
    """What a page shows at each step, which steps N goes to, deadlocks by line, and its words."""
    page, view, found, turns, rings = play.Page(name), play.View(), [], [], []
    words = [page.title, "\n"]
    for line in page.lines:
        for p in line.findall("p"):
            view.play_note(p)
            p.clear()
        for step in line.findall("div"):
            found = found or [shown(view)]
            view.play_step(step)
            found.append(shown(view))
            if {"wai", "wok", "abe", "dwn", "flt"} & set(step.get("class").split(" ")) or \
                    any(p.get("class") == "bak" for p in step):
                turns.append(len(found) - 1)
        rings.append((max(0, len(found) - 1), play.told_rings(line)))
        words += line.itertext()
    words.append(page.listing or "")
    return found or [shown(view)], turns, rings, " ".join("".join(words).split())


def check_steps(browser, steps, turns, rings):
    """Steps through a page, forward, back, and in jumps."""
    last = len(steps) - 1
    turns = [n for n in turns if n < last]
    moves = [("key", "ArrowRight", n) for n in range(1, last + 1)]
    moves += [("key", "ArrowLeft", n) for n in reversed(range(last))]
    moves += [("key", "n", n) for n in turns + [last]]
    moves += [("key", "p", n) for n in turns[::-1] + [0]]
    for n in random.choices(range(1, last + 1), k=15) if last else []:
        moves.append((random.choice(("click", "slide", "link")), n, n))
    found = browser.evaluate(MOVES % json.dumps([move[:2] for move in moves]))
    for (how, arg, n), (text, _) in zip(moves, found):
        assert text == steps[n], (how, arg, n, text, steps[n])
    before = []
    for n, told in rings:
        now = found[n - 1][1] if n else []
        assert told == [ring for ring in now if ring not in before], (n, told, now)
        before = now


def check(browser, name):
    """Looks at a page in each way, and returns how many steps it has."""
    steps, turns, rings, words = wanted(name)
    for scripts, media, width, bar in ((True, "", 1280, "flex"), (True, "print", 794, "none"),
                                       (True, "", 390, "flex"), (False, "", 390, "")):
        browser.open(name + ".html", scripts, media, width)
        *looks, text = browser.evaluate(WORDS)
        assert looks[0] == bar and looks[1] <= width and looks[2] == 1, (media, width, looks)
        if bar != "flex":
            assert " ".join(text.split()) == words, (media, text, words)
        elif width > 800:
            check_steps(browser, steps, turns, rings)
        assert not browser.breaches(), browser.breaches()
    return len(steps) - 1


def check_policy(browser, name):
    """Checks that markup in a page runs, and asks for a file, only with another policy."""
    server = socket.create_server(("127.0.0.1", 0))
    server.settimeout(1)
    page = pathlib.Path(name + ".html").read_text("ascii")
    page = page.replace("<ol>\n", MARKUP % server.getsockname()[1], 1)
    for policy in "Content-Security-Policy", "none":
        path = pathlib.Path(name + "-policy.html")
        path.write_text(page.replace("Content-Security-Policy", policy, 1), "ascii")
        browser.open(path)
        try:
            asked = bool(server.accept())
        except TimeoutError:
            asked = False
        ran = browser.evaluate("document.title") == "ran"
        assert ran == asked == (policy == "none"), (policy, ran, asked)


def main():
    chromium, room, *names = sys.argv[1:]
    browser, steps = Browser(chromium, room), 0
    for name in names:
        random.seed(name)
        try:
            steps += check(browser, name)
        except AssertionError as error:
            sys.exit("browser: %s: %s" % (name, error))
    check_policy(browser, names[0])
    browser.call("Browser.close")
    browser.process.wait()
    print("browser: ok, %d pages, %d steps forward and back" % (len(names), steps))


if __name__ == "__main__":
    main()

"""Reads pages of runs, plays their notes, and compares what comes with plain runs.

    play.py PROGRAM JOINED NAME ..

PROGRAM is cicsrun, JOINED a page without its data. Of each NAME there is a script NAME.cics and its
page NAME.html.

The data has to be of this grammar, its lines those of the script, and its events those of the
journal. Its notes, played from nothing, have to give what a run of the script cut at each line
tells: the listing, and the circles of its deadlocks. More tasks then ask for all that was ever
owned, and for the next item of each queue. They have to wait for the owners that the notes tell,
and for nothing else, and to be given the item behind the cursor."""
import re
import subprocess
import sys
import xml.etree.ElementTree

TEXT = r"(?:[ !#-%(-;=?-~]|&#(?:38|60|62|34|39|65533);)*"
NAME, KEY = "<i>%s</i>" % TEXT, "<b>%s</b>" % TEXT
OLD, NEW = "<del>%s</del>" % TEXT, "<ins>%s</ins>" % TEXT
CHANGE = "(?:added %s|removed %s|%s becomes %s)" % (NEW, OLD, OLD, NEW)
HELD = {"file": "record %s of %s" % (KEY, NAME), "pre": "prefix %s of %s" % (KEY, NAME),
        "ts": "queue " + NAME, "rd": "the reading end of " + NAME,
        "wr": "the writing end of " + NAME, "enq": "value " + KEY}
WANTED = dict(HELD, rd="a record of " + NAME, td="both ends of " + NAME)


def notes(*rows):
    """A pattern for one of these notes, each a class and a text."""
    return "(?:%s)" % "|".join('<p class="%s">%s</p>\n' % row for row in rows)


DEFINED = notes(("def file", "file %s <b>(?:UN)?RECOVERABLE</b>" % NAME),
                ("def td", "queue %s <b>(?:LOGICAL|PHYSICAL|NONE)</b>" % NAME))
SET = notes(*(("set " + kind + stays, "%s of %s: %s%s" % (word, NAME, CHANGE, tail))
              for kind, word in (("file", "record " + KEY), ("ts", "item <b>[0-9]+</b>"),
                                 ("td", "record <b>[0-9]+</b>"))
              for stays, tail in (("", ""), (" stays", ", which stays"))))
CURSOR = notes(("cur", "cursor of %s: <del>[0-9]+</del> becomes <ins>[0-9]+</ins>" % NAME))
OWN = notes(("off file", "releases " + HELD["file"]), ("off enq", "releases " + HELD["enq"]),
            *(("own " + kind, "holds " + words + " &#215;<i>[0-9]+</i>" * (kind == "enq"))
              for kind, words in HELD.items()))
ASK = notes(*(("ask " + kind, "wants %s(?:, for [0-9]+ seconds at most)?" % words)
              for kind, words in WANTED.items()))
BEGIN = notes(("beg com", "begins a unit that is committed"),
              ("beg bak", "begins a unit that is backed out"),
              ("beg opn", "begins a unit that stays open"))
END = notes(("com", "commits the unit of <b>[A-Z0-9]+</b>"),
            ("bak", "backs out the unit of <b>[A-Z0-9]+</b>"))
RING = notes(("ring", "deadlock: {0}(?:, {0})*".format("[A-Z0-9]+ waits for [A-Z0-9]+")))
KIND = "att|ans|con|wai|end|abe|ref|clk|dwn|flt|wok ans|wok con|wok abe"
CODE = "<code>%s</code>" % TEXT
STEP = r'<div id="s[0-9]+" class="(?:%s)">(?:%s)?\n<samp>%s</samp>\n%s</div>' % (
    KIND, CODE, TEXT, "%s?%s?%s*%s*(?:%s|%s)*(?:%s)*" % (ASK, BEGIN, OWN, END, SET, CURSOR, RING))
HEAD = re.compile(r"<title>(%s)</title>\n</head>\n<body>\n<h1>\1</h1>\n<ol>\n" % TEXT)
LINE = re.compile(r"<li>(?:%s\n(?:%s|%s)?|(?:%s)+)</li>\n" % (CODE, DEFINED, SET, STEP))
TAIL = re.compile(r"</ol>\n(?:<pre>LISTING(?:\n%s)*</pre>\n)?\Z" % TEXT)
# A command that has to wait for the owner of something, and else changes nothing that is listed.
PROBES = {"file": "READ FILE({name}) RIDFLD({key}) UPDATE",
          "pre": "DELETE FILE({name}) RIDFLD({key}) KEYLENGTH({size}) GENERIC",
          "ts": "WRITEQ TS QUEUE({name}) FROM('x') ITEM(32767) REWRITE",
          "rd": "READQ TD QUEUE({name})", "wr": "WRITEQ TD QUEUE({name}) FROM('x')",
          "enq": "ENQ RESOURCE({key}) LENGTH({size})"}


def check_grammar(data):
    line = HEAD.match(data)
    while line:
        at, line = line.end(), LINE.match(data, line.end())
    assert TAIL.match(data, at), ("grammar", data[at:at + 400])


def to_bytes(text):
    """The bytes of a name, a key or a value."""
    if text[0] == "X":
        return bytes.fromhex(text[2:-1])
    return text[1:-1].replace("''", "'").encode("cp037")


class View:
    """What notes lead to, played from nothing."""

    def __init__(self):
        self.words, self.cells, self.cursors, self.held = {}, {}, {}, {}
        self.units, self.waits, self.tasks, self.marks, self.seen = {}, {}, {}, {}, {}

    def play_set(self, p, kind, name, label):
        cell = kind, name, to_bytes(p.findtext("b")) if kind == "file" else int(p.findtext("b"))
        old, new = p.findtext("del"), p.findtext("ins")
        if kind == "ts":
            stays = "stays" in p.get("class").split(" ")
            self.words[kind, name] = "UNRECOVERABLE" if stays else "RECOVERABLE"
        assert self.cells.get(cell) == old, (p.get("class"), cell, self.cells.get(cell), old)
        self.cells[cell] = new
        if new is None:
            del self.cells[cell]
        if label in self.units and self.marks.get(cell, ("",))[0] != label:
            self.marks[cell] = label, old
        if kind == "file":
            self.seen[kind, name, p.findtext("b")] = True

    def play_note(self, p, label=None, code="", answer=""):
        what, kind = (p.get("class") + " ").split(" ")[:2]
        key, name = p.findtext("b"), p.findtext("i")
        resource = kind, None if kind == "enq" else name, key
        if what == "def":
            self.words[kind, name] = key
        elif what == "set":
            self.play_set(p, kind, name, label)
        elif what == "cur":
            assert self.cursors.get(name, 0) == int(p.findtext("del")), name
            self.cursors[name] = int(p.findtext("ins"))
            # READQ moves it to the item that it gives.
            item = answer.partition(" ITEM ")[2].split(" ")[0]
            assert item in ("", p.findtext("ins")), answer
        elif what == "own":
            owner, before = self.held.get(resource, (label, 0))
            count = int(name) if kind == "enq" else 1
            if kind == "enq":
                assert count == (before if owner == label else 0) + (-1 if " DEQ " in code else 1)
            self.held[resource] = label, count
            self.seen[resource] = True
        elif what == "off":
            assert self.held.pop(resource) == (label, 1)
        elif what == "ask":
            self.waits[label] = kind, name, key
        elif what == "beg":
            assert label not in self.units
            self.units[label] = kind
        elif what in ("com", "bak"):
            assert self.units.pop(key) == what
            self.held = {x: owner for x, owner in self.held.items() if owner[0] != key}
            self.marks = {x: mark for x, mark in self.marks.items() if mark[0] != key}

    def play_step(self, step):
        kinds = step.get("class").split(" ")
        text, code = step.findtext("samp"), step.findtext("code") or ""
        label = text.split(" ")[0]
        if "att" in kinds:
            self.tasks[label] = True
        if "wok" in kinds or "abe" in kinds:
            self.waits.pop(label, None)
        if "end" in kinds or "abe" in kinds:
            self.tasks[label] = False
        if "dwn" in kinds:
            self.waits = {}
            self.tasks = {task: False for task in self.tasks}
        for p in step.iter("p"):
            self.play_note(p, label, code, text)
        if "wai" in kinds:
            assert text.split(" ")[2] in self.blockers(label), text
        if "ans" in kinds and " ENQ " in code:
            assert any(p.get("class") == "own enq" for p in step.iter("p")), code

    def is_committed(self, name, label):
        """Whether a queue has a record for a task, without what other units did to it."""
        cells = [x for x in {**self.cells, **self.marks} if x[:2] == ("td", name)]
        marks = [self.marks.get(x, (label,)) for x in cells]
        return any(mark[1] is not None if mark[0] != label else x in self.cells
                   for x, mark in zip(cells, marks))

    def blockers(self, label, want=None):
        """The tasks that own what blocks a waiting one, or one that wants something."""
        kind, name, key = want or self.waits[label]
        if kind in ("file", "pre"):
            of_key = to_bytes(key)
            found = [owner for (k, n, other), owner in self.held.items()
                     if k in ("file", "pre") and n == name and
                     (to_bytes(other).startswith(of_key) or of_key.startswith(to_bytes(other)))]
        else:
            ends = {"td": ["rd", "wr"], "rd": ["rd", "wr"]}.get(kind, [kind])
            if kind == "rd" and self.is_committed(name, label):
                ends.pop()
            found = [self.held.get((end, None if kind == "enq" else name, key)) for end in ends]
        found = {owner[0] for owner in found if owner and owner[0] != label}
        return [task for task in self.tasks if task in found]

    def state(self, task):
        return "WAITING" if task in self.waits else "OPEN" if task in self.units else "IDLE"

    def listing(self):
        lines = ["LISTING"]
        for kind, word, counted in (("file", "FILE", "RECORDS"), ("ts", "TSQUEUE", "ITEMS"),
                                    ("td", "TDQUEUE", "RECORDS")):
            names = [name for k, name in self.words if k == kind]
            for name in sorted(names, key=lambda n: to_bytes(n).ljust(8, b"\x40")):
                cells = sorted(x for x in self.cells if x[:2] == (kind, name))
                if kind != "ts" or cells:
                    title = word, name, self.words[kind, name], counted, len(cells)
                    lines.append("%s %s %s %s %d" % title)
                    lines += ["  " + self.cells[x] for x in cells]
        return lines + ["TASK %s %s" % (task, self.state(task))
                        for task, lives in self.tasks.items() if lives]

    def probes(self):
        """Commands that tell who owns what and where a cursor is, and how each is answered."""
        free = []
        for kind, name, key in self.seen:
            ask = PROBES[kind].format(name=name, key=key, size=len(to_bytes(key)) if key else 0)
            owners = self.blockers(None, (kind, name, key))
            if owners:
                yield ask, "WAITING (?:%s)$" % "|".join(owners)
            elif kind in ("file", "ts", "enq"):
                free.append((ask, "(?!WAITING)"))
        yield from free
        for name in [name for kind, name in self.words if kind == "ts"]:
            item = self.cursors.get(name, 0) + 1
            there = [x for x in self.cells if x[:2] == ("ts", name)]
            yield ("READQ TS QUEUE(%s) NEXT" % name,
                   "QIDERR" if not there else "ITEMERR" if ("ts", name, item) not in self.cells
                   else "NORMAL 0 ITEM %d " % item)


def run(program, script):
    """The lines of the journal, those of the listing, none after a fault, and deadlocks."""
    done = subprocess.run([program], input=script, capture_output=True, check=False)
    lines = done.stdout.decode("ascii").split("\n")[:-1]
    at = lines.index("LISTING") if "LISTING" in lines else len(lines)
    rings = [", ".join("%s waits for %s" % pair for pair in
                       re.findall(r"(?:deadlock:|,) (\w+) waits for (\w+) \(", line))
             for line in done.stderr.decode("ascii").split("\n") if ": deadlock: " in line]
    return lines[:at], lines[at:], rings


class Page:
    """The page of a script: both as they are, and the page's data, title, lines and listing."""

    def __init__(self, name):
        with open(name + ".cics", "rb") as file:
            self.script = file.read().replace(b"\r\n", b"\n").split(b"\n")
        with open(name + ".html", "rb") as file:
            self.text = file.read().decode("ascii")
        end = self.text.index("<template>", self.text.rindex("</ol>"))
        self.data = self.text[self.text.index("<title>"):end]
        tree = xml.etree.ElementTree.fromstring("<html><head>" + self.data + "</body></html>")
        self.title, self.lines = tree.findtext("head/title"), list(tree.find("body/ol"))
        self.listing = tree.findtext("body/pre")


def told_rings(line):
    return [p.text.removeprefix("deadlock: ") for p in line.iter("p") if p.get("class") == "ring"]


def check_cut(program, script, view):
    """Compares a view with the run of a script, and returns the run's deadlocks."""
    probes = [] if not any(view.tasks.values()) else list(view.probes())
    more = "".join("\nATTACH PRB%d TRANSID('PROB')\nPRB%d EXEC CICS %s RESP(R)" % (n, n, ask)
                   for n, (ask, _) in enumerate(probes))
    journal, listing, rings = run(program, script + more.encode() + b"\n")
    if listing:
        listing = [line for line in listing if not line.startswith("TASK PRB")]
        assert view.listing() == listing, (view.listing(), listing)
        answers = journal[len(journal) - 2 * len(probes) + 1::2]
        for n, ((ask, wanted), answer) in enumerate(zip(probes, answers)):
            assert re.match("PRB%d %s" % (n, wanted), answer), (ask, wanted, answer)
    for one, other in re.findall(r"(\w+) waits for (\w+)", ", ".join(rings)):
        assert other in view.blockers(one), (one, other)
    return rings


def check(program, joined, name):
    """Checks a page, and returns how many steps and notes it has."""
    page, steps, view, rings = Page(name), [], View(), []
    assert page.text.replace(page.data, "", 1) == joined, "head or tail"
    check_grammar(page.data)
    for count, (line, text) in enumerate(zip(page.lines, page.script), 1):
        shown = "".join(chr(c) if 32 <= c < 127 else " " if c == 9 else "\ufffd" for c in text)
        assert (next(line.iter("code")).text or "") == shown, (count, "line")
        for p in line.findall("p"):
            view.play_note(p)
        for step in line.findall("div"):
            steps.append(step.findtext("samp"))
            assert step.get("id") == "s%d" % len(steps)
            view.play_step(step)
        before, rings = rings, check_cut(program, b"\n".join(page.script[:count]), view)
        assert told_rings(line) == [ring for ring in rings if ring not in before], (count, rings)
    journal, listing, _ = run(program, b"\n".join(page.script))
    assert (steps, page.listing or "") == (journal, "\n".join(listing)), "journal or listing"
    return len(steps), sum(1 for line in page.lines for _ in line.iter("p"))


def main():
    program, joined, *names = sys.argv[1:]
    with open(joined, encoding="ascii") as file:
        joined = file.read()
    steps = notes = 0
    for name in names:
        try:
            more = check(program, joined, name)
        except AssertionError as error:
            sys.exit("page: %s: %s" % (name, error))
        steps, notes = steps + more[0], notes + more[1]
    print("page: ok, %d pages, %d steps, %d notes" % (len(names), steps, notes))


if __name__ == "__main__":
    main()

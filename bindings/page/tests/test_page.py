#!/usr/bin/env python3
"""Tests the page in headless Chromium: files are dropped on it, and what it shows is compared with what the program
prints.

    test_page.py PAGE GOB [--pictures FOLDER]

PAGE is gob.html, and GOB the program. With --pictures what is seen is kept as pictures, to be looked at.
"""
import functools
import http.server
import os
import pathlib
import random
import re
import subprocess
import sys
import tempfile
import threading
import time

HERE = pathlib.Path(__file__).resolve().parent
ROOT = HERE.parents[2]
sys.path[:0] = [str(ROOT / "tools"), str(HERE)]
import damage  # noqa: E402
import rows  # noqa: E402
import streams  # noqa: E402
from chromium import Page  # noqa: E402

SEED, MUTANTS = 52, 300
ANSWERS = """(async () => {
    const text = async (kind) => (await linesOf(kind)).text();
    const { told } = shown, { refusal } = told;
    return {
        state: document.body.dataset.state, line: refusal?.line ?? "",
        fault: refusal ? [told.status, refusal.reason, refusal.place, refusal.seen] : [told.status],
        said: refusal?.said ?? "",
        show: await text("show"), values: await text("values"), types: told.source,
        source: document.getElementById("source").textContent,
        why: document.getElementById("why").textContent,
    };
})()"""


class Tests:
    def __init__(self, page, gob, pictures):
        self.address, self.gob, self.pictures = pathlib.Path(page).resolve().as_uri(), gob, pictures
        self.file = pathlib.Path(page).resolve()
        self.passed = self.failed = 0
        self.folder = tempfile.TemporaryDirectory()

    def due(self, name, is_so, *told):
        if is_so:
            self.passed += 1
        else:
            self.failed += 1
            print(f"test-page: not so: {name}", *(str(it)[:1500] for it in told), sep="\n    ")

    def path(self, name, data):
        path = pathlib.Path(self.folder.name) / name
        path.write_bytes(data)
        return path

    def picture(self, page, name, whole=True):
        if self.pictures:
            page.picture(f"{self.pictures}/{name}.png", whole)

    def printed(self, command, path):
        """What a command of the program prints of a file, and its line of a fault, without the one that names the file."""
        option = ["--go"] if command == "show" else []
        ran = subprocess.run([self.gob, command, *option, path], capture_output=True)
        return ran.stdout.decode(), ran.stderr.decode().partition("\n")[0]

    def said_by_program(self, path):
        """What gob why says of a file whose name it doesn't know."""
        with open(path, "rb") as file:
            return subprocess.run([self.gob, "why"], stdin=file, capture_output=True).stdout.decode()

    # ---- what is read

    def all_streams(self):
        for path in sorted([*ROOT.glob("interop/**/*.gob"), *ROOT.glob("examples/*.gob")]):
            yield path.name, path.read_bytes()
        for number, row in enumerate(rows.rows()):
            if row.limits is None:
                yield f"row {number}: {row.name}", row.stream
        dice, whole = random.Random(SEED), [*damage.streams(ROOT / "interop/streams"),
                                            *damage.streams(ROOT / "interop/filled/streams")]
        for number in range(MUTANTS):
            yield f"mutant {number}", damage.damaged(dice, dice.choice(whole))
        yield "floats", streams.floats(dice, 2000)
        yield "1000 lists in one another", streams.deep(1000)
        yield "1001 lists in one another", streams.deep(1001)

    def reads_streams(self):
        with Page(self.address) as page:
            for name, data in self.all_streams():
                path = self.path("dropped.gob", data)
                page.drop(path)
                self.compare(name, page.evaluate(ANSWERS), path, data)
            self.due("no complaint of the page", not page.complaints(), page.complaints())

    def compare(self, name, answer, path, data):
        lines, line = self.printed("show", path)
        found = re.match(r"gob: refused (\d+) \w+(?:\(\d+\))? at (\d+) seen (\d+)$", line)
        fault = [1, *map(int, found.groups())] if found else [0]
        due = {
            "state": "refused" if found else "whole", "line": line, "fault": fault, "show": lines,
            "values": self.printed("values", path)[0], "types": self.printed("types", path)[0],
            "said": self.said_by_program(path) if found else "",
        }
        differing = [part for part in due if answer[part] != due[part]]
        self.due(f"{name} is read as by the program", not differing, data.hex(), differing,
                 [(answer[part], due[part]) for part in differing])
        if found:
            told = [row.partition(": ")[2] for row in due["said"].split("\n")[2:-2]]
            self.due(f"{name}: it is told what gob why says", all(some in answer["why"] for some in [line, *told])
                     and "What to do" in answer["why"], answer["why"], told, data.hex())
            self.due(f"{name}: no command of a shell is told", "gob why" not in answer["why"], answer["why"])

    def explains(self):
        with Page(self.address) as page:
            for data, told in streams.explained():
                page.drop(self.path("refused.gob", data))
                why = page.evaluate("document.getElementById('why').textContent")
                self.due(f"{data.hex()} is explained", all(some in why for some in told), told, why)
            cut = (ROOT / "examples/logins.gob").read_bytes()[:175]
            page.drop(self.path("cut-off.gob", cut))
            page.wait("document.querySelectorAll('#tree li li').length > 0")
            self.picture(page, "cut-off", False)

    # ---- how it opens, and what it sends

    def opens_anywhere(self):
        handler = functools.partial(Quiet, directory=self.file.parent)
        server = http.server.ThreadingHTTPServer(("127.0.0.1", 0), handler)
        threading.Thread(target=server.serve_forever, daemon=True).start()
        address = f"http://127.0.0.1:{server.server_port}/{self.file.name}"
        with Page(address) as page:
            page.call("Network.enable")
            self.due("a stream is read from a server", page.drop(ROOT / "examples/logins.gob") == "whole")
            page.evaluate(ANSWERS)
            sent = [it["params"] for it in page.events if it["method"] == "Network.requestWillBeSent"]
            asked = [it["request"]["url"] for it in sent]
            self.due("nothing is fetched", all(url.startswith(("blob:", "data:")) for url in asked), asked)
        server.shutdown()
        with Page(self.address, before="delete window.Worker") as page:
            path = ROOT / "examples/logins.gob"
            self.due("without workers too", page.drop(path) == "whole")
            self.due("the same lines", page.evaluate(ANSWERS)["show"] == self.printed("show", path)[0])
            page.evaluate("Reader.prototype.take = function () { this.fault = { status: NO_MEMORY }; return null; }; 0")
            self.due("want of memory is told", page.drop(path) == "failed", page.evaluate("$('said').textContent"))
            self.due("and what to do", "The program gob reads it" in page.evaluate("$('said').textContent"))

    def has_examples(self):
        with Page(self.address) as page:
            for number, due in enumerate(["whole", "whole", "refused"]):
                page.evaluate("setState('dropped')")
                page.evaluate(f"document.querySelectorAll('#examples button')[{number}].click()")
                self.due(f"example {number} is {due}", page.settled() == due)
                page.wait("document.querySelector('#tree').children.length === 1")
                self.picture(page, ["whole", "lists", "damaged"][number])

    def saved(self, page, folder, kind, name):
        """What is saved under a name in the folder; None where nothing is."""
        page.evaluate(f"$('kind').value = '{kind}'; $('save').click()")
        path = pathlib.Path(folder) / name
        for _ in range(200):
            if path.exists():
                return path.read_bytes()
            time.sleep(0.05)
        return None

    def saves(self):
        with Page(self.address) as page, tempfile.TemporaryDirectory() as to:
            page.call("Browser.setDownloadBehavior", behavior="allow", downloadPath=to)
            path = ROOT / "examples/logins.gob"
            page.drop(path)
            for ending, command in ((".jsonl", "show"), (".values.jsonl", "values"), (".go", "types")):
                data = self.saved(page, to, command, f"logins.gob{ending}")
                self.due(f"what is saved as {ending} is what gob {command} prints",
                         data == self.printed(command, path)[0].encode(), data)
            cut = self.path("cut.gob", path.read_bytes()[:170])
            page.drop(cut)
            for kind, due in (("before", slice(0, 159)), ("rest", slice(159, 170))):
                data = self.saved(page, to, kind, f"cut.gob.{kind}.gob")
                self.due(f"what is saved as {kind} is that part of the file", data == cut.read_bytes()[due], data)
            kinds = "[$('saving').hidden, ...[...$('kind').options].map((it) => it.value)]"
            for data, due in ((b"", [True]), (streams.value(2, b"\2"), [False, "values", "show"]),
                              (streams.slice_type(65, b"", 2), [False, "show", "types"]),
                              (streams.value(2, b"\2") + b"\1", [False, "values", "show", "before", "rest"]),
                              (b"\x80", [True])):
                page.drop(self.path("some.gob", data))
                self.due(f"what there is of {data.hex()} can be saved", page.evaluate(kinds) == due)

    # ---- what is found

    def lists_files(self):
        paths = [ROOT / "examples/logins.gob", ROOT / "examples/damaged.gob", self.path("\x1b[31m.gob", b"")]
        names = "[...document.querySelectorAll('#list button')].map((it) => it.textContent)"
        with Page(self.address) as page:
            self.due("the first of three files is shown", page.drop(*paths) == "whole")
            self.due("three files are listed", page.evaluate(names) == ["logins.gob", "damaged.gob", "\\u001b[31m.gob"],
                     page.evaluate(names))
            page.evaluate("setState('dropped'); document.querySelectorAll('#list button')[1].click()")
            self.due("another is shown", page.settled() == "refused")
            page.wait("document.querySelector('#list [aria-current]')?.textContent === 'damaged.gob'")
            notes = page.evaluate("[...document.querySelectorAll('#list .note')].map((it) => it.textContent)")
            self.due("what they are stands beside them", notes[0] == "185 bytes, a whole gob stream"
                     and notes[1].endswith(", refused") and notes[2] == "0 bytes", notes)
            page.drop(paths[0])
            self.due("one file makes no list", page.evaluate("$('files').hidden"))

    def shows_what_interfaces_hold(self):
        with Page(self.address) as page:
            page.drop(ROOT / "interop/filled/streams/go-cache.gob")
            page.wait("document.querySelectorAll('#tree li li').length > 0")
            page.evaluate("document.querySelectorAll('#tree details').forEach((it) => { it.open = true; })")
            page.wait("document.querySelectorAll('#tree li li li').length >= 5")
            lines = "document.querySelectorAll('#tree .leaf, #tree summary')"
            told = page.evaluate(f"[...{lines}].map((it) => it.textContent)")
            for due in ("Object 42 int", 'Object []string, 2 elements ["a", "b"]',
                        'Object User, 1 of 2 fields {Name: "ann"}'):
                self.due(f"{due} is shown", due in told, told)
            self.picture(page, "held", False)
            for text, due in (("ANN", "{element 2}.Object.Name"), ("main.user", "{element 2}.Object")):
                told = self.found(page, "finder", text=text)
                self.due(f"{text} is found", told.startswith(f'1 value with "{text}".#0 at {due}'), told)
            size = (ROOT / "interop/filled/streams/go-cache.gob").stat().st_size
            for unit, place in (("item", 2), ("byte", size - 1)):
                told = self.found(page, "jumper", unit=unit, place=str(place))
                due = told.startswith("Item 2 has the bytes ") and f" to {size - 1}: a value." in told
                self.due(f"{unit} {place} is gone to", due, told)
            # the file is read again from places behind the values that define types
            path = self.path("many.gob", streams.holding(20_000))
            page.drop(path)
            lines = page.evaluate("linesOf('values').then((it) => it.text())")
            self.due("the lines of many are the program's", lines == self.printed("values", path)[0])
            for number, due in ((19_999, "{X: 22}"), (20_001, '["midway"]'), (40_001, '["midway"]')):
                for unit, place in (("value", number), ("item", number + 1)):
                    told = self.found(page, "jumper", unit=unit, place=str(place))
                    self.due(f"{unit} {place} is gone to", f"#{number:,}" in told and due in told, told)

    def found(self, page, form, **words):
        """What is found, as text."""
        page.evaluate("".join(f"$('{name}').value = {text!r}; " for name, text in words.items())
                      + f"$('found').replaceChildren(); $('{form}').requestSubmit()")
        page.wait("$('found').children.length > 0")
        return page.evaluate("$('found').textContent")

    def finds(self):
        with Page(self.address) as page:
            page.drop(ROOT / "examples/logins.gob")
            for text, due in (("BOB", '1 value with "BOB".#1 at .User'), ("<b>", '0 values with "<b>".'),
                              ("tries", '1 value with "tries".#0 at .Tries'), ("login", '2 values with "login".#0 '),
                              ("08:31", '1 value with "08:31".#1 at .At'),
                              ("ip", '1 value with "ip".#0 at .Tags{key 0}')):
                told = self.found(page, "finder", text=text)
                self.due(f"{text} is found", told.startswith(due), told)
            item = "Item {} has the bytes {} to {}: "
            for unit, place, due in (("value", "#1", "#1 Login"), ("value", "2", "No such value: there are 0 to 1."),
                                     ("value", "x", "No such value"),
                                     ("byte", "185", "No such byte: there are 0 to 184"),
                                     ("byte", "120", item.format(3, 108, 120) + "the definition of type 67, []int."),
                                     ("byte", "121", item.format(4, 121, 158) + "a value."),
                                     ("byte", "184", item.format(5, 159, 184) + "a value."),
                                     ("item", "0", item.format(0, 0, 56) + "the definition of type 65, Login."),
                                     ("item", "5", item.format(5, 159, 184) + "a value."),
                                     ("item", "6", "No such item: there are 0 to 5.")):
                told = self.found(page, "jumper", unit=unit, place=place)
                self.due(f"{unit} {place} is gone to", told.startswith(due), told)
            self.picture(page, "found", False)
            many = streams.struct_type(65, b"P", [(b"X", 6)]) + b"".join(
                streams.value(65, b"\1" + streams.raw(b"even" if number % 2 == 0 else b"odd") + b"\0", True)
                for number in range(100_000))
            page.drop(self.path("many.gob", many))
            told = self.found(page, "finder", text="even")
            due = '100 values with "even", and more may follow.#0 at'
            self.due("a hundred are found at once", told.startswith(due), told[:300])
            page.evaluate("$('found').querySelector('button').click()")
            page.wait("$('found').textContent.includes('#200 at')")
            told = self.found(page, "jumper", unit="byte", place=str(len(many) - 1))
            self.due("the last byte is gone to", "Item 100,000 has" in told and "#99,999" in told, told[:300])
            told = self.found(page, "jumper", unit="item", place="60,000")
            self.due("an item amid is gone to", "Item 60,000 has" in told and "#59,999" in told, told[:300])
            page.drop(self.path("cut.gob", many[:-1]))
            told = self.found(page, "jumper", unit="byte", place=str(len(many) - 2))
            self.due("no item was read there", told == "This byte is behind the items that were read.", told)
            self.due("nothing is complained of", not page.complaints(), page.complaints())

    # ---- hostile files

    def shows_text_as_text(self):
        with Page(self.address) as page:
            for name, data in streams.hostile():
                path = self.path("<img src=x onerror=window.hit=1>.gob", data)
                state = page.drop(path)
                page.evaluate("document.querySelectorAll('details').forEach((it) => it.setAttribute('open', ''))")
                time.sleep(0.2)
                tags = page.evaluate("[...new Set([...document.querySelectorAll('main *')].map((it) => it.tagName))]")
                self.due(f"{name}: no markup comes of it", set(tags) <= TAGS, state, tags)
                text = page.evaluate("document.body.textContent.replace(/\\n/g, '')")
                self.due(f"{name}: no character turns the text", not CONTROLS.search(text), CONTROLS.findall(text))
                self.due(f"{name}: nothing of it is run", page.evaluate("window.hit") is None)
                self.compare(name, page.evaluate(ANSWERS), path, data)
            self.picture(page, "hostile")
            self.due("hostile files: no complaint", not page.complaints(), page.complaints())
            page.evaluate(OTHER_SCRIPT)
            self.due("no other script is run", page.evaluate("window.hit") is None)
            fetched = page.evaluate("fetch('http://127.0.0.1:1/').then(() => 'fetched', (error) => String(error))")
            told = [it["params"]["entry"]["text"] for it in page.events if it.get("method") == "Log.entryAdded"]
            is_by_policy = sum("Content Security Policy" in text for text in told) >= 2
            self.due("nothing can be fetched", fetched != "fetched" and is_by_policy, fetched, told)

    # ---- people

    def serves_keyboards(self):
        with Page(self.address) as page:
            page.drop(ROOT / "examples/logins.gob")
            page.wait("document.querySelectorAll('#tree summary').length >= 2")
            reached = []
            for _ in range(30):
                page.press("Tab", 9)
                reached.append(page.evaluate(f"{ACTIVE}.id || {ACTIVE}.textContent.slice(0, 30)"))
                if reached[-1].startswith("#1"):
                    break
            first = ["pick", "two logins", "lists of points and texts", "a damaged file"]
            all_of = {"kind", "save", "text", "unit", "place"}
            self.due("the tab key reaches all", reached[:4] == first and all_of <= set(reached)
                     and reached[-1].startswith("#1"), reached)
            page.press("Enter", 13, "\r")
            opened = f"{ACTIVE}.parentElement.open && {ACTIVE}.parentElement.querySelectorAll('li').length"
            page.wait(opened)
            self.due("the enter key opens a value", page.evaluate(opened) == 2)
            self.walks(page)
            nodes = page.call("Accessibility.getFullAXTree")["nodes"]
            roles = [(it["role"]["value"], it.get("name", {}).get("value", "")) for it in nodes if not it["ignored"]]
            pressed = ("button", "DisclosureTriangle", "textbox", "progressbar")
            nameless = [role for role, name in roles if role in pressed and not name]
            self.due("all that can be pressed has a name", not nameless, nameless)
            status = [it for it in roles if it[0] == "status"]
            self.due("the outcome is a status", bool(status), roles[:40])

    def walks(self, page):
        """The arrows walk the tree from its second value on, which is open."""
        steps = [("ArrowDown", 'User "bob"'), ("ArrowDown", 'At "2026'), ("ArrowUp", 'User "bob"'),
                 ("ArrowLeft", "#1 "), ("ArrowLeft", "#1 "), ("ArrowUp", "Tags "), ("ArrowRight", "Tags "),
                 ("ArrowRight", '"ip" '), ("ArrowLeft", "Tags "), ("ArrowLeft", "Tags "), ("ArrowLeft", "#0 ")]
        codes = {"ArrowLeft": 37, "ArrowUp": 38, "ArrowRight": 39, "ArrowDown": 40}
        for key, due in steps:
            page.press(key, codes[key])
            # (what a key opens is filled behind it)
            time.sleep(0.3)
            told = page.evaluate(f"{ACTIVE}.textContent")
            self.due(f"{key} leads to {due}", told.startswith(due), told)
        page.press("/", 191, "/")
        self.due("/ leads to the search", page.evaluate(f"[{ACTIVE}.id, {ACTIVE}.value]") == ["text", ""])

    def fits_phones(self):
        for scheme in ("light", "dark"):
            with Page(self.address, (390, 780), scheme, is_phone=True) as page:
                for name in ("logins", "damaged"):
                    page.drop(ROOT / f"examples/{name}.gob")
                    page.wait("document.querySelector('#tree').children.length === 1")
                    time.sleep(0.2)
                    width = page.evaluate("document.documentElement.scrollWidth")
                    self.due(f"{name} is no wider than a phone", width <= 390, width)
                    self.picture(page, f"phone-{name}-{scheme}")

    # ---- large files

    def stays_alive(self):
        path = pathlib.Path(self.folder.name) / "large.gob"
        count = streams.write_large(path, 100_000_000)
        with Page(self.address) as page:
            page.evaluate(WATCH)
            began = time.monotonic()
            state = page.drop(path)
            seconds = time.monotonic() - began
            watched = page.evaluate("watched")
            self.due("100 MB are read", state == "whole" and page.evaluate("shown.told.values") == count, state)
            self.due("the page stays alive", watched["longest"] < 1000, watched)
            self.due("progress is shown", watched["bars"] >= 3, watched)
            print(f"test-page: {count} values of 100 MB in {seconds:.1f} s, and a pause of {watched['longest']:.0f} ms")
            page.wait("document.querySelectorAll('#tree li details li').length > 0")
            began = time.monotonic()
            last = "[...document.querySelectorAll('#tree details')].at(-1)"
            while f"#{count - 1:,}" not in page.evaluate(f"{last}.textContent"):
                page.evaluate(f"{last}.open = true")
                page.wait(f"!{last}.open")
            seconds = time.monotonic() - began
            self.due("the last of a million values is shown at once", seconds < 5, seconds)
            page.evaluate("[...document.querySelectorAll('#tree details')].at(-1)?.scrollIntoView()")
            self.picture(page, "large-last", False)
            page.evaluate("scrollTo(0, 0)")
            self.picture(page, "large", False)
            self.stops(page, path)
        path.unlink()

    def stops(self, page, path):
        page.evaluate(STOP)
        state = page.drop(path)
        self.due("a reading can be stopped", state == "stopped", state)
        self.due("what was read is shown", page.evaluate("shown.told.values") > 0)
        self.picture(page, "stopped", False)

    def opens_large_values(self):
        path = self.path("one.gob", streams.numbers(1_000_000))
        with Page(self.address) as page:
            page.drop(path)
            began = time.monotonic()
            page.wait("document.querySelectorAll('#tree li').length > 200")
            seconds = time.monotonic() - began
            self.due("a list of a million numbers opens at once", seconds < 5, seconds)
            last = "#tree > ul > li > details > ul > li:last-child details"
            page.evaluate(f"document.querySelector('{last}').open = true")
            ranges = "[...document.querySelectorAll('#tree .range')]"
            page.wait(f"{ranges}.some((it) => it.textContent === '999,900 to 999,999')")
            self.picture(page, "numbers", False)
            self.due("and its lines are the program's", page.evaluate("linesOf('show').then((it) => it.text())")
                     == self.printed("show", path)[0])

    def run(self):
        for part in (self.reads_streams, self.explains, self.opens_anywhere, self.has_examples, self.saves,
                     self.lists_files, self.finds, self.shows_what_interfaces_hold, self.shows_text_as_text,
                     self.serves_keyboards, self.fits_phones, self.opens_large_values, self.stays_alive):
            try:
                part()
            except (TimeoutError, RuntimeError, OSError) as error:
                self.due(part.__name__, False, repr(error))
        print(f"{self.passed} passed, {self.failed} failed")
        return self.failed == 0


# what the page makes its own elements of
TAGS = set("A BUTTON CODE DD DETAILS DIV DL DT FORM H2 INPUT LABEL LI MARK NOSCRIPT OPTION OUTPUT P PRE PROGRESS "
           "SECTION SELECT SPAN STRONG SUMMARY UL".split())
ACTIVE = "document.activeElement"
OTHER_SCRIPT = """{
    const script = document.createElement("script");
    script.textContent = "window.hit = 1";
    document.body.append(script);
}"""
# presses the button as soon as it is seen
STOP = """{
    const go = setInterval(() => {
        if (document.getElementById("progress").hidden) return;
        document.getElementById("stop").click();
        clearInterval(go);
    }, 20);
}"""
CONTROLS = re.compile("[\u0000-\u0008\u000b-\u001f\u007f-\u009f\u061c\u200b-\u200f\u2028-\u202e\u2066-\u2069\ufeff]")
WATCH = """
    var watched = { longest: 0, bars: 0 };
    {
        let last = performance.now(), far = -1;
        setInterval(() => {
            const now = performance.now(), bar = document.getElementById("bar");
            watched.longest = Math.max(watched.longest, now - last);
            last = now;
            if (!document.getElementById("progress").hidden && bar.value > far) watched.bars += 1;
            far = bar.value;
        }, 10);
    }
    watched"""


class Quiet(http.server.SimpleHTTPRequestHandler):
    def log_message(self, *_):
        pass


def main(words):
    pictures = None
    if "--pictures" in words:
        pictures = words[words.index("--pictures") + 1]
        os.makedirs(pictures, exist_ok=True)
    sys.exit(not Tests(words[0], os.path.abspath(words[1]), pictures).run())


if __name__ == "__main__":
    main(sys.argv[1:])

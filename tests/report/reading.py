"""The page of sill report: what a test lead does with it, and the numbers that it shows."""

import json

WORDS = {"accepted": "accepted", "no-place": "NO PLACE", "not-whole": "NOT WHOLE", "refused": "refused", "trouble": "trouble"}
WORST_FIRST = ["trouble", "refused", "not-whole", "no-place", "accepted"]


def hold(shown, told):
    assert shown == told, f"the page has\n{shown!r}\nand the command tells\n{told!r}"


def number(text):
    return int(text.replace(",", ""))


class Page:
    """The page, open and new, beside what check tells."""

    def __init__(self, window, path, files, totals, command):
        self.window, self.files, self.totals, self.command = window, files, totals, command
        self.damaged = [file for file in files if file["verdict"] != "accepted"]
        self.sound = [file for file in files if file["verdict"] == "accepted"]
        window.look()
        window.open(path.as_uri())
        window.frame()

    def get(self, expression):
        return self.window.evaluate(expression)

    def texts(self, selector):
        return self.get(f"[...document.querySelectorAll({selector!r})].map((element) => element.textContent)")

    def cells(self, selector):
        """The texts of each row's cells."""
        found = f"document.querySelectorAll({json.dumps(selector)})"
        return self.get(f"[...{found}].map((row) => [...row.cells].map((cell) => cell.textContent))")

    def rows(self, table=".damaged"):
        """Every row of a table, as texts of its cells: the window is led from its top to its end."""
        seen = {}
        self.get("scrollTo(0, 0)")
        while True:
            self.window.frame()
            rows = self.get(f"[...document.querySelectorAll('{table} > tbody > tr.file')].map((row) => "
                            "[row.getAttribute('aria-rowindex'), ...[...row.cells].map((cell) => cell.textContent)])")
            seen |= {int(index): cells for index, *cells in rows}
            if self.get("scrollY + innerHeight + 1 >= document.documentElement.scrollHeight"):
                break
            self.get("scrollBy(0, innerHeight)")
        self.get("scrollTo(0, 0)")
        self.window.frame()
        hold(sorted(seen), list(range(2, len(seen) + 2)))
        return [seen[index] for index in sorted(seen)]

    def open_file(self, ending):
        """Leads the window to the row of a file, clicks it, and says which it is."""
        [file] = [file for file in self.damaged if file["path"].endswith(ending)]
        label = json.dumps(f"{WORDS[file['verdict']]}: {file['shown']}")
        found = f"[...document.querySelectorAll('.damaged .open')].find((button) => button.getAttribute('aria-label') === {label})"
        self.get("scrollTo(0, 0)")
        self.window.frame()
        while not self.get(f"Boolean({found})"):
            assert not self.get("scrollY + innerHeight + 1 >= document.documentElement.scrollHeight"), label
            self.get("scrollBy(0, innerHeight)")
            self.window.frame()
        self.window.click_on(found)
        return file

    def told(self):
        return number(self.texts("#count")[0].split()[0])


def in_order(page):
    return sorted(page.damaged, key=lambda file: WORST_FIRST.index(file["verdict"]))


def refusal(file):
    faults = sorted({(fault["number"], fault["name"]) for fault in file["faults"] if fault["number"]})
    more = f" +{len(faults) - 1}" if len(faults) > 1 else ""
    return f"{faults[0][0]} {faults[0][1]}{more}" if faults else ""


def test_nothing_is_complained_of_or_asked_for(page):
    hold(page.window.complaints(), [])
    hold(len(page.window.requests()), 1)


def test_totals(page):
    shown = page.get("Object.fromEntries([...document.querySelectorAll('.words button')].map((button) => "
                     "[button.dataset.verdict, button.querySelector('b').textContent]))")
    hold({verdict: number(count) for verdict, count in shown.items()},
         {verdict: count for verdict, count in page.totals.items() if verdict != "files"})
    lengths = page.get("[...document.querySelectorAll('.bar button')].map((piece) => piece.getBoundingClientRect().width)")
    counts = [page.totals[verdict] for verdict in WORST_FIRST if page.totals[verdict] > 0]
    whole = sum(lengths)
    assert all(abs(length / whole - count / sum(counts)) < 0.02 for length, count in zip(lengths, counts, strict=True)), lengths


def test_every_file_has_its_row(page):
    rows = page.rows()
    hold([row[0] for row in rows], [WORDS[file["verdict"]] for file in in_order(page)])
    hold([row[1] for row in rows], [refusal(file) for file in in_order(page)])
    hold([row[3] for row in rows], [file["shown"].rsplit("/", 1)[1] for file in in_order(page)])
    for row, file in zip(rows, in_order(page)):
        first = file["faults"][0]["text"] if file["faults"] else file["error"]
        assert first in row[4], (row[4], first)


def test_a_click_on_the_bar_filters(page):
    pieces = [verdict for verdict in WORST_FIRST if page.totals[verdict] > 0]
    for at, verdict in enumerate(pieces):
        page.window.click(".bar button", at)
        wanted = [WORDS[verdict]] * page.totals[verdict] if verdict != "accepted" else []
        hold([row[0] for row in page.rows()], wanted)
        hold(page.get(f"document.querySelector('[data-verdict={verdict}]').getAttribute('aria-pressed')"), "true")
        page.window.click(f"[data-verdict={verdict}]")
        hold(page.told(), len(page.damaged))


def test_text_is_typed(page):
    page.window.press("/")
    hold(page.get("document.activeElement.id"), "text")
    page.window.type("Total.<locals>.NET")
    hold([row[3] for row in page.rows()], ["nested.golden"])
    page.window.press("Escape")
    hold(page.told(), len(page.damaged))
    page.window.type("q3")
    hold(len(page.rows()), sum("/q3/" in file["path"] for file in page.damaged))
    sound = sum("/q3/" in file["path"] for file in page.sound)
    hold(page.texts("#sound > summary"), [f"{len(page.sound)} accepted files, {sound} of them match"])


def test_verdict_refusal_and_folder_are_chosen(page):
    page.get("document.querySelector('#refusal').focus()")
    page.window.type("3")
    hold(page.get("document.querySelector('#refusal').value"), "3")
    wanted = [file for file in in_order(page) if any(fault["number"] == 3 for fault in file["faults"])]
    hold([row[3] for row in page.rows()], [file["shown"].rsplit("/", 1)[1] for file in wanted])
    page.window.click("#folder")
    page.window.type("q4")
    hold(len(page.rows()), sum("/q4/" in file["path"] for file in wanted))
    page.window.click("#reset")
    page.get("document.querySelector('#verdict').focus()")
    page.window.type("N")
    hold({row[0] for row in page.rows()}, {"NOT WHOLE"})
    page.window.click("#reset")
    hold((page.told(), page.texts("[aria-pressed=true]")), (len(page.damaged), []))


def test_every_column_sorts(page):
    name = lambda file: file["shown"].rsplit("/", 1)
    numbers = lambda file: min((fault["number"] for fault in file["faults"] if fault["number"]), default=float("inf"))
    keys = [lambda file: WORST_FIRST.index(file["verdict"]), numbers, lambda file: name(file)[0], lambda file: name(file)[1]]
    for column, key in enumerate(keys):
        for turned in (False, True):
            page.window.click(".damaged th button", column)
            if column == 0 and not turned:
                page.window.click(".damaged th button", column)  # it is the order at first
            order = page.get(f"document.querySelectorAll('.damaged th')[{column}].getAttribute('aria-sort')")
            hold(order, "descending" if turned else "ascending")
            wanted = sorted(page.damaged, key=key, reverse=turned)
            hold([key(file) for file in wanted], [key(by_name(page, row)) for row in page.rows()])


def by_name(page, row):
    [file] = [file for file in page.damaged if file["shown"].endswith(f"{row[2].rsplit('/')[-1]}/{row[3]}")]
    return file


def test_the_text_column_sorts(page):
    page.window.click(".damaged th button", 4)
    found = [row[4] for row in page.rows()]
    hold(found, sorted(found, key=lambda text: text.encode("utf-16-be")))


def test_a_code_object_opens(page):
    for ending in ("q1/rates.golden", "q1/fees.golden", "q2/number.golden"):
        page.window.click("#reset")
        file = page.open_file(ending)
        found = [fault for fault in file["faults"] if fault["kind"] in ("not-whole", "line-table")][0]
        selector = f".object[data-byte='{found['code_byte']}']"
        hold(page.texts(f"{selector} .found"), [fault["text"] for fault in file["faults"]])
        hold_origins(page, selector, file, found)
        hold_rows(page, selector, file, found)
        page.open_file(ending)
        hold(page.texts(".object"), [])


def hold_origins(page, selector, file, found):
    """The legend has the counts of check; the strip has as many instructions as the code object."""
    legend = page.get(f"Object.fromEntries([...document.querySelectorAll(\"{selector} .legend li\")].map((item) => "
                      "[item.dataset.origin, item.querySelector('b').textContent]))")
    legend = {origin: number(count) for origin, count in legend.items()}
    hold(sum(legend.values()), found["instructions"])
    unsure = [finding for finding in file["findings"] if finding["kind"] == "not-sure"]
    for word, field in (("left over", "left_over"), ("no place", "no_place"), ("cut entry", "cut_entry"), ("below line 1", "below_line_1")):
        hold(legend.get(word, 0), unsure[0][field] if unsure else 0)
    grown = page.get(f"[...document.querySelectorAll(\"{selector} .strip span\")].map((piece) => Number(piece.style.flexGrow))")
    hold(sum(grown), found["instructions"])


def hold_rows(page, selector, file, found):
    """The rows are those of sill lines, instruction by instruction, and the repair is that of a dry run."""
    cells = page.cells(f"{selector} .pair > div:first-child tbody tr")
    shown = []
    for instructions, row, _ in cells:
        first, *last = [number(at) for at in instructions.split(" to ")]
        hold(first, len(shown))
        shown += [row] * (1 + (last[0] - first if last else 0))
    [told] = page.command.lines("lines", "--json", file["path"])
    if told.get("instructions"):
        hold(["-" if row.startswith("-") else row.split(":")[0].split()[0] for row in shown],
             [str(place["line"] or "-") for place in told["instructions"]])
    [plan] = page.command.lines("repair", "--dry-run", "--json", file["path"])[0]["code_objects"]
    [words] = page.texts(f"{selector} .repair")
    assert f"keep {plan['kept']} entr" in words and f"drop {plan['dropped']} byte" in words and f"cover {plan['covered']} instr" in words, words
    handlers = page.cells(f"{selector} .pair > div:last-child tbody tr")
    hold([number(row[2]) for row in handlers], [handler["target"] for handler in told["handlers"] or []])


def test_a_refusal_opens(page):
    for file in [file for file in page.damaged if any(fault["kind"] == "value" for fault in file["faults"])]:
        page.window.click("#reset")
        page.open_file(file["path"])
        fault = file["faults"][-1]
        hold(page.texts(".refusal h3 span:first-child"), [f"{fault['number']} {fault['name']}" for fault in file["faults"] if fault["number"]])
        hold(page.texts(".refusal > p")[0], fault["meaning"])
        with open(page.command.real(file), "rb") as contents:
            there = contents.read()[fault["byte"]:fault["byte"] + 1]
        hold(page.texts(".refusal .bytes mark")[0], f"[{there.hex() or '  '}]")
        page.open_file(file["path"])


def test_ways_to_refused_bytes(page):
    for ending, way in (("q2/text.golden", "value 1 .file"), ("q2/letter.golden", 'value 2 ["rows"][1]'),
                        ("q3/reference.golden", "value 1 [1]"), ("q3/empty.golden", "value 1"), ("q2/handlers.golden", "value 1 .exception_table")):
        page.window.click("#reset")
        page.open_file(ending)
        assert way in page.texts(".refusal dd code"), (ending, page.texts(".refusal dd code"))
        page.open_file(ending)


def test_many_code_objects_fold(page):
    page.open_file("q4/many.golden")
    hold(len(page.texts(".object")), 12)
    hold(page.texts(".known > .more"), ["and 8 damaged code objects more; sill check --all names each."])
    hold(page.get("document.querySelectorAll('.object table').length"), 0)
    page.window.click(".object summary", 3)
    hold(page.get("[...document.querySelectorAll('.object')].map((object) => object.querySelectorAll('table').length)"),
         [0, 0, 0, 1] + [0] * 8)


def test_a_long_code_object_is_cut_and_says_so(page):
    page.open_file("q4/long.golden")
    hold([text for text in page.texts(".object .quiet") if "left out" in text], ["3,830 rows left out; sill lines has them"])
    assert "Each piece stands for 35 instructions, and is coloured by the worst of them." in page.texts(".object p.quiet")


def test_accepted_files_unfold(page):
    hold(page.texts("#sound > summary"), [f"{len(page.sound)} accepted files"])
    hold(page.get("document.querySelectorAll('.counts tr.file').length"), 0)
    page.window.click("#sound > summary")
    rows = page.rows(".counts")
    hold([row[1] for row in rows], [file["shown"].rsplit("/", 1)[1] for file in page.sound])
    told = [[file[field] for field in ("values", "code_objects", "instructions", "not_sure")] for file in page.sound]
    hold([[number(cell) for cell in row[2:]] for row in rows], told)
    assert page.get("document.querySelectorAll('.counts tr.file').length") < len(page.sound)


def test_the_keyboard_reaches_all(page):
    page.window.press("Tab")
    hold(page.get("document.activeElement.textContent"), "To the table of files")
    for _ in range(30):
        page.window.press("Tab")
        if page.get("document.activeElement.matches('.damaged .open')"):
            break
    labels = [f"{WORDS[file['verdict']]}: {file['shown']}" for file in in_order(page)]
    focused = lambda: page.get("document.activeElement.getAttribute('aria-label')")
    hold((focused(), page.get("document.activeElement.getAttribute('aria-expanded')")), (labels[0], "false"))
    for key, at in (("ArrowDown", 1), ("ArrowDown", 2), ("ArrowUp", 1), ("End", len(labels) - 1), ("Home", 0), ("PageDown", None)):
        page.window.press(key)
        assert focused() in labels and (at is None or focused() == labels[at]), (key, focused())
    page.window.press("Enter")
    hold(page.get("document.activeElement.getAttribute('aria-expanded')"), "true")
    hold(len(page.texts(".known")), 1)
    page.window.press("Space")
    hold(page.get("document.activeElement.getAttribute('aria-expanded')"), "false")


def test_hostile_names_are_text(page):
    shown = ""
    for file in page.damaged:
        if "/q4/" in file["path"]:
            page.open_file(file["path"])
            shown += "\n".join(page.texts(".known"))
    hold(page.get("[document.querySelectorAll('img, iframe, svg, b b').length, document.scripts.length]"), [0, 2])
    hold([event for event in page.window.events if event.get("method") == "Page.javascriptDialogOpening"], [])
    hold(page.window.complaints(), [])
    for text in ("\\0</script><script>alert(1)</script><img src=x onerror=alert(1)>", "\\u{202e}evil\\u{2066}", "line\\nbreak\\u{7f}.golden",
                 "(bytes 6e696768742f71342ffffe", '["\\udc80<script>alert(1)</script>"]'):
        assert text in shown, text
    raw = [letter for letter in shown if letter in "\u202a\u202b\u202c\u202d\u202e\u2066\u2067\u2068\u2069\0\x7f"]
    hold(raw, [])


def test_the_policy_forbids_the_rest(page):
    tries = """(async () => {
      const refused = [];
      addEventListener("securitypolicyviolation", (event) => refused.push(event.effectiveDirective));
      const script = document.createElement("script");
      try { script.textContent = "window.alerted = 1"; document.body.append(script); } catch { refused.push("script text"); }
      try { document.body.innerHTML = "<p>"; } catch { refused.push("markup"); }
      try { await fetch("https://example.org/"); } catch { refused.push("fetch"); }
      const image = new Image();
      image.src = "https://example.org/x.png";
      const style = document.createElement("style");
      style.textContent = "body { display: none }";
      document.head.append(style);
      document.body.setAttribute("style", "display: none");
      await new Promise((done) => setTimeout(done, 200));
      return [[...new Set(refused)].sort(), window.alerted ?? null, getComputedStyle(document.body).display];
    })()"""
    refused, alerted, display = page.get(tries)
    hold((alerted, display), (None, "block"))
    for word in ("script text", "markup", "fetch", "connect-src", "img-src", "style-src-attr", "style-src-elem"):
        assert word in refused, (word, refused)

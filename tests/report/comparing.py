"""The page of sill diff --html, held to what sill diff --all tells."""

import night
from reading import hold, number


def opened(window, command, one, other, folder):
    """The page of two files, open, and what diff tells of them."""
    page = folder / "diff.html"
    page.write_bytes(command.run("diff", "--html", one, other))
    window.look()
    window.open(page.as_uri())
    window.frame()
    return command.run("diff", "--all", one, other).decode().splitlines()


def lines(window):
    """The lines that can be seen: level, whether open, and the texts of their cells."""
    return window.evaluate("[...document.querySelectorAll('.tree tr.line')].map((row) => [Number(row.getAttribute('aria-level')), "
                           "row.getAttribute('aria-expanded'), ...[...row.cells].map((cell) => cell.textContent)])")


def test_a_cut_line_table(window, command, folder):
    told = opened(window, command, night.SAMPLES / "rates.golden", night.SAMPLES / "cut-line-table.golden", folder)
    hold(window.complaints(), [])
    hold(window.evaluate("document.querySelector('#verdict').textContent"), "different: 1 difference")
    rows = window.evaluate("[...document.querySelectorAll('.tree .small tr.changed')].map((row) => [...row.cells].map((cell) => cell.textContent))")
    different = {}
    for instructions, left, right, word in rows:
        first, *last = [number(at) for at in instructions.split(" to ")]
        different |= {at: (left.split(":")[0].strip(), right.strip()[0]) for at in range(first, (last or [first])[0] + 1)}
        hold(word, "different")
    wanted = [line.split() for line in told if line.startswith("  instruction ")]
    hold(sorted(different), [int(words[1].rstrip(":")) for words in wanted])
    hold([different[at] for at in sorted(different)], [(words[2], "-") for words in wanted])


def test_what_is_the_same_is_folded(window, command, folder):
    opened(window, command, night.SAMPLES / "rates.golden", night.SAMPLES / "cut-line-table.golden", folder)
    before = lines(window)
    hold([line[1] for line in before], ["true", "false", None, None])
    window.click(".tree tr.line", 1)
    hold(len(lines(window)), len(before) + 8)
    window.click(".tree tr.line", 1)
    hold(lines(window), before)


def test_keys_lead_through_the_tree(window, command, folder):
    one, other = folder / "one.golden", folder / "other.golden"
    member = lambda number: b"i" + number.to_bytes(4, "little")
    one.write_bytes(b"[\x05\0\0\0" + b"".join(map(member, (1, 2, 3, 4, 5))))
    other.write_bytes(b"[\x06\0\0\0" + b"".join(map(member, (1, 9, 3, 8, 5, 6))))
    told = opened(window, command, one, other, folder)
    hold(window.evaluate("data.differences"), sum(line.startswith("different in ") for line in told))
    focused = lambda: window.evaluate("document.activeElement.querySelector('.where code')?.textContent")
    wanted = ["the value itself", "[1]", "[3]", "[5]", "the value itself"]
    for step in wanted:
        window.press("n")
        hold(focused(), step)
    window.press("p")
    hold(focused(), "[5]")
    for key, step in (("ArrowUp", "[4]"), ("Home", "the value itself"), ("ArrowRight", "[0]"), ("End", "[5]"), ("ArrowLeft", "the value itself")):
        window.press(key)
        hold(focused(), step)
    window.press("ArrowLeft")
    hold(len(lines(window)), 1)
    window.click("#next")
    window.click("#next")
    hold(focused(), "[1]")


def test_spans_and_sides(window, command, folder):
    one, other = folder / "left.golden", folder / "right.golden"
    one.write_bytes(b"N{" + night.text("rows") + b"i\x05\0\0\0" + night.text("name") + b"N0")
    other.write_bytes(b"N{" + night.text("rows") + b"[\0\0\0\0" + night.text("name") + b"N0")
    opened(window, command, one, other, folder)
    shown = [[cell.strip() for cell in line[2:]] for line in lines(window)]
    hold(shown, [["the value itself differs below", "dict of 2 pairs bytes 1 to 26", "dict of 2 pairs bytes 1 to 26"],
                 ['["rows"] different', "5 bytes 11 to 15", "list of 0 bytes 11 to 15"],
                 ['["name"] the same', "None byte 25", "None byte 25"]])
    hold(window.evaluate("[...document.querySelectorAll('h2')].map((head) => head.textContent)"),
         ["value 1: the same A byte 0, B byte 0", "value 2: 1 difference A bytes 1 to 26, B bytes 1 to 26"])


def test_a_side_that_is_refused(window, command, folder):
    opened(window, command, night.SAMPLES / "rates.golden", night.SAMPLES / "damaged-text.golden", folder)
    hold(window.evaluate("[...document.querySelectorAll('.refusal h3 span, .refusal mark, .refusal dd code')].map((part) => part.textContent)"),
         ["9 InvalidUtf8", "B is refused", "value 1 .file", "[72]", "r"])


def test_hostile_values_are_text(window, command, folder):
    one, other = folder / "hostile.golden", folder / "plain.golden"
    one.write_bytes(b"{" + night.text(night.MARKUP + "\0\udc80") + night.text(night.MARKUP) + b"0")
    other.write_bytes(b"{" + night.text(night.MARKUP + "\0\udc80") + b"N0")
    opened(window, command, one, other, folder)
    hold(window.complaints(), [])
    hold(window.evaluate("[document.querySelectorAll('img, svg, b').length, document.scripts.length]"), [0, 2])
    shown = "\n".join(cell for line in lines(window) for cell in line[2:])
    assert "<img src=x onerror=alert(1)>" in shown and "\\u{202e}\\u{2066}" in shown and "\\0\\udc80" in shown, shown
    hold([letter for letter in shown if letter in "\u202e\u2066\0"], [])


def take_pictures(window, command, folder, pictures):
    opened(window, command, night.SAMPLES / "rates.golden", night.SAMPLES / "cut-line-table.golden", folder)
    for name, how in {"light": {}, "dark": {"scheme": "dark"}, "narrow": {"width": 380, "height": 1000}}.items():
        window.look(**{"width": 1200, "height": 900, **how})
        window.picture(pictures / f"diff-{name}.png")

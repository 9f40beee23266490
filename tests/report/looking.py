"""How the pages look: light and dark, to the colour-blind, on paper and in narrow windows."""

import itertools
import re

from reading import hold

ORIGINS = 7
VERDICTS = ["accepted", "no-place", "not-whole", "refused", "trouble"]
# What is left of red, green and blue to those who lack one kind of cone (Machado, Oliveira and Fernandes 2009, severity 1).
BLINDNESS = {
    "none": ((1, 0, 0), (0, 1, 0), (0, 0, 1)),
    "protanopia": ((0.152286, 1.052583, -0.204868), (0.114503, 0.786281, 0.099216), (-0.003882, -0.048116, 1.051998)),
    "deuteranopia": ((0.367322, 0.860646, -0.227968), (0.280085, 0.672501, 0.047413), (-0.011820, 0.042940, 0.968881)),
    "tritanopia": ((1.255528, -0.076749, -0.178779), (-0.078411, 0.930809, 0.147602), (0.004733, 0.691367, 0.303900)),
}
READ = "p, td, th button, h1, h3, h4, dt, dd, summary, label, .words button, mark, input, select"
APART = 10  # the least distance of two colours in CIE Lab; 2.3 is what an eye just tells


def linear(value):
    value /= 255
    return value / 12.92 if value <= 0.04045 else ((value + 0.055) / 1.055) ** 2.4


def light(colour):
    red, green, blue = map(linear, colour)
    return 0.2126 * red + 0.7152 * green + 0.0722 * blue


def contrast(one, other):
    high, low = sorted((light(one), light(other)), reverse=True)
    return (high + 0.05) / (low + 0.05)


def lab(colour, blindness):
    seen = [linear(part) for part in colour]
    seen = [min(1, max(0, sum(share * part for share, part in zip(row, seen)))) for row in blindness]
    white = (0.95047, 1, 1.08883)
    rows = ((0.4124, 0.3576, 0.1805), (0.2126, 0.7152, 0.0722), (0.0193, 0.1192, 0.9505))
    xyz = [sum(share * part for share, part in zip(row, seen)) / whole for row, whole in zip(rows, white)]
    root = [part ** (1 / 3) if part > 0.008856 else 7.787 * part + 16 / 116 for part in xyz]
    return 116 * root[1] - 16, 500 * (root[0] - root[1]), 200 * (root[1] - root[2])


def numbers(colour):
    return [float(part) for part in re.findall(r"[\d.]+", colour)][:3]


def show(window, page, **how):
    window.look(**how)
    window.open(page.as_uri())
    window.frame()


def open_first(window, ending):
    window.evaluate("document.querySelector('#text').focus()")
    window.type(ending)
    window.click(".damaged > tbody > tr.file")


def backgrounds(window, kinds):
    """Colour and pattern of each kind of piece."""
    return window.evaluate(f"""{kinds!r}.map((kind) => {{
      const piece = make("span", {{ class: kind }});
      document.body.append(piece);
      const {{ backgroundColor, backgroundImage }} = getComputedStyle(piece);
      piece.remove();
      return [backgroundColor, backgroundImage];
    }})""")


def test_light_and_dark_differ_and_can_be_read(window, page):
    papers = []
    for scheme in ("light", "dark"):
        show(window, page, scheme=scheme)
        open_first(window, "fees")
        pairs = window.evaluate(f"""[...document.querySelectorAll("{READ}")].map((element) => {{
          let under = element;
          while (under && getComputedStyle(under).backgroundColor === "rgba(0, 0, 0, 0)") under = under.parentElement;
          const {{ backgroundColor }} = getComputedStyle(under ?? document.body);
          return [element.className || element.tagName, getComputedStyle(element).color, backgroundColor];
        }})""")
        assert len(pairs) > 60, len(pairs)
        for kind, ink, under in pairs:
            assert contrast(numbers(ink), numbers(under)) >= 4.5, (scheme, kind, ink, under)
        papers.append(window.evaluate("getComputedStyle(document.body).backgroundColor"))
    hold(len(set(papers)), 2)


def test_the_colour_blind_tell_them_apart(window, page):
    for scheme in ("light", "dark"):
        show(window, page, scheme=scheme)
        for kinds in ([f"o{origin}" for origin in range(ORIGINS)], VERDICTS):
            looks = backgrounds(window, kinds)
            for name, blindness in BLINDNESS.items():
                seen = [lab(numbers(colour), blindness) for colour, _ in looks]
                for (one, first), (other, second) in itertools.combinations(zip(kinds, seen), 2):
                    distance = sum((a - b) ** 2 for a, b in zip(first, second)) ** 0.5
                    assert distance >= APART, (scheme, name, one, other, round(distance, 1))


def test_no_colour_stands_alone(window, page):
    """Every kind has a pattern of its own, and wherever one is shown a word is beside it."""
    show(window, page)
    for kinds in ([f"o{origin}" for origin in range(ORIGINS)], VERDICTS):
        patterns = [pattern for _, pattern in backgrounds(window, kinds)]
        hold(len(set(patterns)), len(kinds))
    open_first(window, "fees")
    alone = window.evaluate("[...document.querySelectorAll('.swatch')].filter((swatch) => swatch.parentElement.textContent.trim() === '').length")
    hold((alone, window.evaluate("document.querySelectorAll('.swatch').length > 10")), (0, True))
    hold(window.evaluate("[...document.querySelectorAll('.strip span')].every((piece) => piece.title.includes(': '))"), True)


def test_narrow_windows_do_not_scroll_sideways(window, page):
    for width in (320, 380, 700):
        show(window, page, width=width, height=800)
        for ending in ("fees", "text.golden", "alert"):
            open_first(window, ending)
            wide = window.evaluate("document.documentElement.scrollWidth")
            assert wide <= width, (width, ending, wide)
            window.click("#reset")
        window.click("#sound > summary")
        assert window.evaluate("document.documentElement.scrollWidth") <= width, width


def test_paper_has_every_row(window, page):
    show(window, page)
    open_first(window, "rates")
    window.click("#reset")
    window.evaluate("addEventListener('beforeprint', () => { window.printed = document.querySelectorAll('.damaged tr.file').length; })")
    paper = window.paper()
    assert paper.startswith(b"%PDF-"), paper[:20]
    hold(window.evaluate("[printed, files.shown.length]"), [window.evaluate("data.damaged.length")] * 2)
    window.look(media="print")
    hold(window.evaluate("[getComputedStyle(document.querySelector('.filters')).display, getComputedStyle(document.body).backgroundColor]"),
         ["none", "rgb(255, 255, 255)"])


def show_ten_thousand(window, page):
    show(window, page)
    window.evaluate("counts.items = Array.from({ length: 10000 }, (_, turn) => ({ ...sound[0], turn })); counts.filter(); soundFold.open = true")
    window.frame()


def test_ten_thousand_rows_are_not_made(window, page):
    """Of a table of many files only the rows in sight are there, wherever it is scrolled to."""
    show_ten_thousand(window, page)
    for place in ("0", "document.body.scrollHeight / 2", "document.body.scrollHeight"):
        window.evaluate(f"scrollTo(0, {place})")
        window.frame()
        made = window.evaluate("document.querySelectorAll('.counts tr.file').length")
        assert made < 120, (place, made)
    hold(window.evaluate("[...document.querySelectorAll('.counts tr.file')].at(-1).getAttribute('aria-rowindex')"), "10001")


def test_paper_says_what_it_leaves_out(window, page):
    show_ten_thousand(window, page)
    window.evaluate("""addEventListener("beforeprint", () => {
      window.printed = [document.querySelectorAll(".counts tr.file").length, counts.rest.checkVisibility(), counts.rest.textContent];
    })""")
    window.paper()
    hold(window.evaluate("printed"), [2000, True, "and 8,000 files more, on the screen alone"])
    hold(window.evaluate("[counts.rest.checkVisibility(), document.querySelectorAll('.counts tr.file').length < 120]"), [False, True])


LOOKS = {
    "light": {},
    "dark": {"scheme": "dark"},
    "narrow": {"width": 380, "height": 1400},
    "print": {"media": "print", "width": 794, "height": 1123},
}


def take_pictures(window, page, pictures):
    """A picture of each look, for a person to see."""
    pictures.mkdir(parents=True, exist_ok=True)
    for name, how in LOOKS.items():
        show(window, page)
        open_first(window, "q1")
        window.look(**{"width": 1200, "height": 1000, **how})
        if name == "print":
            window.evaluate("dispatchEvent(new Event('beforeprint'))")
        window.evaluate("scrollTo(0, 0)")
        window.frame()
        window.picture(pictures / f"report-{name}.png")
    (pictures / "report.pdf").write_bytes(window.paper())

"""How what is there can be read: directions, lines that are longer than the page, paper, and cells without output."""

import os
import unittest

from harness import PageCase, needs_chromium, needs_program, opened

ARABIC = "\u0645\u0631\u062d\u0628\u0627."
STYLE = "getComputedStyle(document.querySelector('%s'))"
# Whether the first letter of an element's text stands in the right half of its box.
IS_AT_RIGHT = """
((node) => {
  const range = document.createRange(), text = document.createTreeWalker(node, NodeFilter.SHOW_TEXT).nextNode();
  range.setStart(text, 0);
  range.setEnd(text, 1);
  const [letter, box] = [range.getBoundingClientRect(), node.getBoundingClientRect()];
  return letter.x > box.x + box.width / 2;
})(document.querySelector('%s'))
"""
WIDTHS = """
((output) => [output.scrollWidth > output.clientWidth, document.documentElement.scrollWidth <= innerWidth,
  document.querySelector('#cell-1 pre').getClientRects()[0].height])(document.querySelector('#cell-1 .output'))
"""


LONG = " + ".join(f"{number} x^{{{number}}}" for number in range(500))
# Of each formula whether it has several lines, and none that is wider than the page.
LINES = """
[...document.querySelectorAll('.formula.set')].map((node) => {
  const boxes = [...node.querySelectorAll('.base')].map((one) => one.getBoundingClientRect());
  return [new Set(boxes.map((box) => Math.round(box.bottom / 10))).size > 3, Math.max(...boxes.map((box) => box.right)) <= innerWidth];
})
"""
# Whether a long formula is set where the page has as many as it can hold, and again where it hasn't.
FULL = """
(async () => {
  const { OutputView, outputShape } = await import('./output.js');
  const tex = document.querySelector('#cell-1 .formula').dataset.tex, many = document.createElement('div');
  const isSet = async () => {
    const box = document.body.appendChild(outputShape());
    new OutputView(0, box).update({ parts: [{ tex }], isError: false, text: tex, isCut: false, length: tex.length, unset: 0 }, false);
    while (!box.querySelector('.set, .more')) await new Promise((done) => setTimeout(done, 20));
    const why = box.querySelector('.more')?.textContent ?? '';
    box.remove();
    return why === '' || !why.endsWith('more would hold the page up.');
  };
  many.className = 'formula';
  many.setAttribute('role', 'math');
  many.dataset.tex = 'x'.repeat(1_000_000);
  document.body.append(many);
  const found = [await isSet()];
  many.remove();
  return [...found, await isSet()];
})()
"""
SET_AGAIN = """
(async () => {
  const { setInto } = await import('./setter.js'), place = document.querySelector('#cell-3 .formula'), start = performance.now();
  await setInto(place, 'tex', place.dataset.tex + ' ');
  place.getBoundingClientRect();
  return Math.round(performance.now() - start);
})()
"""
WHY = "[...document.querySelectorAll('.output')].map((box) => box.querySelector('pre').previousElementSibling?.textContent ?? '')"


@needs_program
@needs_chromium
class Reading(PageCase):
    def test_directions(self) -> None:
        """A text has the direction of its first letter, and so has each paragraph of prose; what an interpreter wrote begins at the left."""
        self.begin()
        self.page.call("new", session="s", text=ARABIC, after=0)
        self.page.call("new", session=None, text=f"{ARABIC}\n\nleft\n\n- {ARABIC}", after=1)
        self.page.call("eval", id=1)
        self.page.until_idle()
        tab = opened(self.browser, self.server)
        tab.until("document.querySelector('#cell-2 .reading').classList.contains('set')")
        self.assertEqual(tab.value(f"{STYLE % '#cell-1 textarea'}.direction"), "rtl")
        self.assertEqual([tab.value(IS_AT_RIGHT % f"#cell-2 .reading {place}") for place in ("p:first-child", "p:nth-child(2)", "li")],
            [True, False, True])
        self.assertEqual(tab.value(f"{STYLE % '#cell-1 .output pre'}.direction"), "ltr")

    def test_long_lines_scroll(self) -> None:
        """They aren't wrapped, so that what stands below one another stays so, and the page itself doesn't scroll sideways. On paper they are."""
        self.begin()
        self.page.call("new", session="s", text="say " + "\u2028".join(["x " * 300] * 2), after=0)
        self.page.call("eval", id=1)
        self.page.until_idle()
        tab = opened(self.browser, self.server)
        for width in (1000, 360):
            tab.size(width, 740)
            is_scrolled, is_still, height = tab.value(WIDTHS)
            self.assertEqual((is_scrolled, is_still), (True, True), width)
            self.assertLess(height, 80)
        tab.ask("Emulation.setEmulatedMedia", {"media": "print"})
        self.assertEqual(tab.value(WIDTHS)[:2], [False, True])

    def test_an_answer_without_output(self) -> None:
        """It is distinguished from none."""
        self.begin()
        for after, text in enumerate(("say ", "say 1", "say 2")):
            self.page.call("new", session="s", text=text, after=after)
        self.page.call("eval", id=1)
        self.page.call("eval", id=2)
        self.page.until_idle()
        tab = opened(self.browser, self.server)
        self.assertEqual(tab.value("[...document.querySelectorAll('.answer-state')].map((node) => node.textContent)"),
            ["evaluated: it has no output", "", ""])

    def test_formulas_that_are_not_set(self) -> None:
        """It is said why, and no more where all is wanted as text."""
        self.answer("$" + "x" * 6_000 + "$", "$" + "x" * 60_000 + "$", "$x$", f"${LONG} + {{$", f"$\\left({LONG}$", f"${LONG} + \\nonsense$")
        tab = opened(self.browser, self.server)
        tab.until("document.querySelectorAll('.formula.set').length", 1)
        alone = "it has no signs between terms at which it could be broken"
        wanted = [
            f"A formula of 6,002 characters is shown as text: {alone}.",
            "A formula of 60,002 characters is shown as text: at most 50,000 are set, since more would hold the page up.", "",
            f"A formula of {len(LONG) + 6:,} characters is shown as text: it is no text with formulas.",
            f"A formula of {len(LONG) + 8:,} characters is shown as text: {alone}.", f"A formula of {len(LONG) + 14:,} characters is shown as text: it can't be set.",
        ]
        tab.until(WHY, wanted)
        tab.click("#cell-1 .number")
        tab.key("t")
        self.assertEqual(tab.value(WHY)[0], "")

    def answer(self, *formulas: str) -> None:
        self.begin()
        for after, text in enumerate(formulas):
            path = os.path.join(self.folder, f"formula{after}")
            with open(path, "w", encoding="utf-8") as file:
                file.write(text)
            self.page.call("eval", id=self.page.call("new", session="s", text=f"file latex {path}", after=after)["id"])
        self.page.until_idle()

    def test_long_sums(self) -> None:
        """They are set in lines, none of which is wider than the page, on paper too; T shows the source of one, piece by piece. The time for one of 50,000
        characters is printed."""
        longest = " - ".join(f"{number}\\*\\frac{{x^{{{number}}}}}{{y + {number}}}" for number in range(1_500))
        self.answer(f"${LONG}$", f"a $\\displaystyle {LONG}$ and $$x$$", f"${longest}$", f"$3({LONG.replace(' + ', '+')}) + 1$")
        tab = opened(self.browser, self.server)
        tab.until("document.querySelectorAll('.formula.set').length", 4)
        self.assertEqual(tab.value(WHY), [""] * 4)
        self.assertIn(len(longest), range(45_000, 49_000))
        for media, width in (("", 1000), ("", 360), ("print", 700)):
            tab.ask("Emulation.setEmulatedMedia", {"media": media})
            tab.size(width, 800)
            self.assertEqual(tab.value(LINES), [[True, True]] * 4, (media, width))
        self.assertEqual(tab.value("[...document.querySelectorAll('.formula')].map((node) => [node.getAttribute('role'), node.getAttribute('aria-label') === node.dataset.tex])"),
            [["math", True]] * 4)
        self.assertEqual(tab.value(FULL), [False, True])
        tab.click("#cell-3 .number")
        tab.key("t")
        self.assertIn("20,000 of", tab.value("document.querySelector('#cell-3 .more').textContent"))
        tab.key("t")
        milliseconds = tab.value(SET_AGAIN)
        print(f" {len(longest):,} characters were set and laid out in {milliseconds} ms", end="")
        if os.environ.get("TMHOST_LIMITS"):
            self.assertLess(milliseconds, 1_000)

    def test_headings_on_paper(self) -> None:
        """None stands at the foot of a page, also where its text is in the next cell."""
        self.begin()
        for after, text in enumerate(("# Head\n\ntext", "text\n\n## Head")):
            self.page.call("new", session=None, text=text, after=after)
        tab = opened(self.browser, self.server)
        tab.until("document.querySelectorAll('.reading.set').length", 2)
        found = {place: tab.value(f"{STYLE % place}.breakAfter") for place in ("h3", "h4", "#cell-1", "#cell-2")}
        self.assertEqual(found, {"h3": "avoid", "h4": "avoid", "#cell-1": "auto", "#cell-2": "avoid"})

    def test_removed_lines(self) -> None:
        """A removed cell has its lines in the list."""
        self.begin()
        self.page.call("new", session="s", text="say 1\nsay 2", after=0)
        self.page.call("remove", id=1)
        tab = opened(self.browser, self.server)
        self.assertEqual(tab.value("document.querySelector('#removed-list code').innerText"), "say 1\nsay 2")
        self.assertEqual(tab.value(f"{STYLE % '#removed-list code'}.whiteSpace"), "pre-wrap")


if __name__ == "__main__":
    unittest.main()

import os
import pathlib
import re
import unittest
from unittest import mock

import tests
from tests.browser import Browser, needs_browser
from tests.served import Files, run
from tests.test_days import TARIFFS

GROWTH = pathlib.Path(tests.__file__).resolve().parents[3] / "docs" / "growth.html"
EXPORT = """cover,since,until,cents,signed,sys_start,sys_end
fire,20260101,20260201,120,a,1765789200000000,forever
fire,20260201,20270101,120,a,1765789200000000,1775138400000000
fire,20260201,20260401,115,b,1775138400000000,forever
fire,20260401,99991231,120,,1775138400000000,forever
water,20260101,20270101,80,,1765789200000000,forever
"""
TITLE = "The {{DATA}} and DATA of a <TITLE>"
LUMINANCE = """(() => {
  const part = value => { value /= 255; return value <= .04045 ? value / 12.92 : ((value + .055) / 1.055) ** 2.4; };
  const light = text => { const [r, g, b] = text.match(/[0-9.]+/g).map(Number); return .2126 * part(r) + .7152 * part(g) + .0722 * part(b); };
  const paper = node => { const own = getComputedStyle(node).backgroundColor;
    return own === "rgba(0, 0, 0, 0)" && node.parentElement ? paper(node.parentElement) : own === "rgba(0, 0, 0, 0)" ? "rgb(255, 255, 255)" : own; };
  return SELECTOR.map(node => { const one = light(getComputedStyle(node).color), other = light(paper(node));
    return (Math.max(one, other) + .05) / (Math.min(one, other) + .05); });
})()"""


class Made(Files):
    def setUp(self):
        super().setUp()
        patched = mock.patch.dict(os.environ, TZ="UTC")
        patched.start()
        self.addCleanup(patched.stop)

    def page(self, export=EXPORT, *words):
        """Makes the page of an export, and returns its path."""
        file = self.file("history.csv", export)
        out, err, status = run("timeline", file, *words)
        self.assertEqual((err, status), ("", 0))
        return self.file("page.html", out)

    def tariffs(self):
        """Makes the page of the tariffs."""
        return self.page(EXPORT, "--schema", self.file("tariffs.schema", TARIFFS), "--title", TITLE)

    def test_a_title_is_no_place_for_data(self):
        made = pathlib.Path(self.tariffs()).read_text(encoding="utf-8")
        title = TITLE.replace("<", "&lt;").replace(">", "&gt;")
        self.assertEqual(re.findall("<title>(.*)</title>", made), [title])
        self.assertEqual(re.findall("<h1>(.*)</h1>", made), [title])
        self.assertEqual(made.count('"names"'), 1)

    def test_the_period_is_that_of_the_schema_or_of_the_words(self):
        file = self.file("history.csv", EXPORT)
        for words, period in [
                (("--schema", self.file("tariffs.schema", TARIFFS)), '"period": {"name": "validity", "start": 1, "end": 2, "entity": [0]}'),
                (("--key", "cover,since", "--period", "since, until"), '"start": 1, "end": 2, "entity": [0]}'),
                (("--key", "cover,since"), '"period": null')]:
            out, err, status = run("timeline", file, *words)
            self.assertEqual((err, status), ("", 0))
            self.assertIn(period, out)
        for words in (("--period", "since"), ("--period", "since,signed"), ("--period", "since,x")):
            out, err, status = run("timeline", file, *words)
            self.assertEqual((out, status), ("", 1))


@needs_browser
class Shown(Made):
    @classmethod
    def setUpClass(cls):
        super().setUpClass()
        try:
            cls.browser = Browser()
        except AssertionError as why:
            raise unittest.SkipTest(f"{why}, so pages are not looked at") from None
        cls.addClassCleanup(cls.browser.__exit__)

    def show(self, path, **words):
        """Shows a page, and returns the function that asks it."""
        self.browser.open(path, **words)
        return self.browser.value

    def test_a_click_on_the_label_does_not_step_back(self):
        value = self.show(self.tariffs())
        self.assertEqual(value("document.getElementById('at').value"), "1")
        self.browser.click("document.querySelector('label[for=at]')")
        self.assertEqual(value("document.getElementById('at').value"), "1")
        self.assertEqual(value("document.getElementById('at').labels[0].textContent"), "AS OF")
        self.browser.click("document.getElementById('back')")
        self.assertEqual(value("document.getElementById('at').value"), "0")
        self.browser.click("document.getElementById('on')")
        self.assertEqual(value("document.getElementById('at').value"), "1")

    def test_bars_are_reached_by_keys(self):
        value = self.show(self.tariffs())
        focused = "document.activeElement.getAttribute('aria-label')"
        value("document.getElementById('only').focus()")
        self.browser.press("Tab")
        self.assertIn("since = 20260101", value(focused))
        self.browser.press("ArrowDown")
        self.assertIn("cents = 120, signed = a, from 2025-12-15", value(focused))
        self.browser.press("Enter")
        self.assertEqual(value("document.getElementById('at').value"), "0")
        self.browser.press("ArrowRight", "Enter")
        self.assertIn("cents = 115", value(focused))
        self.assertEqual(value("document.getElementById('at').value"), "1")
        self.browser.press("ArrowRight", "ArrowUp", "ArrowUp")
        self.assertIn("since = 20260101", value(focused))

    def test_application_time_is_a_strip_for_each_entity(self):
        path = self.tariffs()
        value = self.show(path + "#at=0")
        strips = ("[...document.querySelectorAll('#strips .row')].filter(row => row.querySelector('.line')).map(row => [row.querySelector('.key').textContent, "
                  "...[...row.querySelectorAll('.span')].map(span => span.title.split('\\n')[0] + ': ' + span.textContent)])")
        self.assertEqual(value(strips), [
            ["fire", "from 2026-01-01 to 2026-02-01: 120, a", "from 2026-02-01 to 2027-01-01: 120, a"],
            ["water", "from 2026-01-01 to 2027-01-01: 80"]])
        self.browser.click("document.getElementById('on')")
        self.assertEqual(value(strips)[0], ["fire", "from 2026-01-01 to 2026-02-01: 120, a", "from 2026-02-01 to 2026-04-01: 115, b",
                                            "from 2026-04-01 to 9999-12-31: 120"])
        edges = value("[...document.querySelectorAll('#strips .row:first-child .span')].map(span => "
                      "[span.getBoundingClientRect().left, span.getBoundingClientRect().right])")
        for (_, right), (left, _) in zip(edges, edges[1:]):
            self.assertLess(abs(left - right), 1)
        self.assertEqual(value("[...document.querySelectorAll('.axis span')].map(tick => tick.textContent)"),
                         ["2026-01-01", "2026-02-01", "2026-04-01", "2027-01-01", "9999-12-31"])
        ticks = "[...document.querySelectorAll('.axis span')].map(tick => [tick.getBoundingClientRect().left, tick.getBoundingClientRect().right])"
        for width in (360, 600, 1200):
            self.show(path, width=width)
            drawn = value(ticks)
            self.assertTrue(all(right < left for (_, right), (left, _) in zip(drawn, drawn[1:])), width)
        self.show(self.page())
        self.assertTrue(value("document.getElementById('applies').hidden"))

    def test_colours_can_be_read_in_light_and_in_dark(self):
        path, papers = self.tariffs(), []
        for dark in (False, True):
            value = self.show(path, dark=dark)
            told = value(LUMINANCE.replace("SELECTOR", "[...document.querySelectorAll('h1,h2,.note,.key,.version,.span,td,th,output,.axis')]"))
            self.assertGreater(len(told), 20)
            # the least contrast that WCAG 2 asks of small text
            self.assertGreater(min(told), 4.5)
            papers.append(value("getComputedStyle(document.body).backgroundColor"))
        self.assertEqual(papers[0], "rgb(255, 255, 255)")
        self.assertLess(max(map(int, re.findall("[0-9]+", papers[1]))), 64)

    def test_a_narrow_window_does_not_scroll_sideways(self):
        for path in (self.tariffs(), str(GROWTH)):
            for width in (360, 1200):
                value = self.show(path, width=width)
                self.assertEqual(value("window.innerWidth"), width)
                self.assertLessEqual(value("document.documentElement.scrollWidth - document.documentElement.clientWidth"), 0)
        self.show(self.tariffs(), width=360)
        self.assertGreater(value("document.getElementById('at').getBoundingClientRect().width"), 100)

    def test_a_step_makes_nodes_for_what_is_shown_alone(self):
        rows = "".join(f"{n},a,5,7\n{n},b,7,forever\n" for n in range(10000))
        value = self.show(self.page("no,name,s,e\n" + rows, "--key", "no"))
        self.assertEqual(value("document.querySelectorAll('#rows .row').length"), 500)
        self.assertEqual(value("document.querySelectorAll('#table tr').length"), 501)
        self.assertIn("The first 500 of 10000 rows", value("document.getElementById('more').textContent"))
        made = value("""(() => { let count = 0; const make = document.createElement.bind(document);
            document.createElement = name => { count += 1; return make(name); };
            go(0); const told = count; document.createElement = make; return told; })()""")
        # a head of 3 nodes, and 500 rows of 3
        self.assertEqual(made, 1503)
        self.assertEqual(value("document.querySelectorAll('.version.shown').length"), 500)
        self.assertEqual(value("document.querySelector('#table td:nth-child(2)').textContent"), "a")

    def test_more_entities_than_are_drawn_are_told(self):
        rows = "".join(f"c{n},1,2,3,,5,forever\n" for n in range(101))
        value = self.show(self.page(EXPORT.split("\n")[0] + "\n" + rows, "--schema", self.file("t.schema", TARIFFS)))
        value("document.getElementById('only').click()")
        self.assertEqual(value("document.querySelectorAll('#strips .line').length"), 100)
        self.assertEqual(value("document.getElementById('fewer').textContent"), "The first 100 of 101 are shown.")

    def test_an_empty_table_is_a_page_without_faults(self):
        value = self.show(self.page("no,name,s,e\n"))
        self.assertEqual(value("document.getElementById('when').textContent"), "no versions")
        value = self.show(self.page("cover,since,until,cents,signed,sys_start,sys_end\n", "--schema", self.file("t.schema", TARIFFS)))
        self.assertEqual(value("document.getElementById('count').textContent"), "0 of 0 keys")

    def test_the_growth_of_a_tree_counts_commits(self):
        value = self.show(str(GROWTH))
        self.assertRegex(value("document.getElementById('place').textContent"), r"^step 1 of \d+: line 3 of the script, 1 commit$")
        self.browser.click("document.getElementById('on')")
        self.assertRegex(value("document.getElementById('place').textContent"), r"^step 2 of \d+: line \d+ of the script, \d+ commits$")
        self.show(str(GROWTH), dark=True)
        told = value(LUMINANCE.replace("SELECTOR", "[...document.querySelectorAll('h1,p,#place')]"))
        self.assertGreater(min(told), 4.5)


class Growth(unittest.TestCase):
    def test_the_page_is_of_its_generator(self):
        made = GROWTH.read_text(encoding="utf-8")
        source = (GROWTH.parents[1] / "examples" / "draw_shape.py").read_text(encoding="utf-8")
        frame = source.split('PAGE = """', 1)[1].split('"""', 1)[0]
        for part in re.split("PICTURE|STEPS", frame):
            self.assertIn(part, made)
        self.assertIn('<meta name="viewport"', made)

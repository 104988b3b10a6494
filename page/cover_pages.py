"""Pages of coverages, opened in a browser: their numbers, what is missing, the check box, plans, and light and dark."""

import cover_sample
from pages import same

TABLES = "[...document.querySelectorAll('section')].map((it) => [...it.querySelectorAll('tbody tr')].map((row) => [...row.cells].map((cell) => cell.textContent)))"
MISSING = "[...document.querySelectorAll('td.missing')].length"
SHOWN = "[...document.querySelectorAll('tbody tr')].filter((row) => row.offsetParent !== null).map((row) => [...row.querySelectorAll('th')].map((head) => head.textContent).join(' '))"
COLOURS = "(({color, backgroundColor}) => [color, backgroundColor])(getComputedStyle(document.body))"
STYLE = "((it) => [it.outlineStyle, it.outlineWidth, Number(it.fontWeight) > 400])(getComputedStyle(document.querySelector('td.missing')))"
EXCLUDED = "[...document.querySelectorAll('td.excluded')].map((cell) => [cell.title, cell.textContent])"


def try_small(pages):
    """Two operations: what they covered stands in its cells, and all else is missing."""
    browser = pages.browser
    pages.open(cover_sample.page(cover_sample.small()), "a coverage of two operations")
    same(pages.text(".summary"), "9 of 1410 bins are covered (0%), 1401 are missing.", "summary")
    same(browser.value("[...document.querySelectorAll('h2')].map((it) => it.textContent)"),
         ["operations: 2 of 1200", "compares: 0 of 16", "writes: 1 of 11", "results: 2 of 68", "open at once: 2 of 5", "overlaps: 1 of 36", "requesters: 1 of 2", "sequences: 0 of 36", "line sequences: 0 of 36", "missing: 1401"], "headings")
    tables = browser.value(TABLES)
    same([len(it) for it in tables], [160, 16, 11, 68, 5, 6, 2, 6, 6, 0], "rows")
    same(tables[0][81], ["AtomicLoad.ADD", "little-endian", "2 bytes", "0", "0", "1", "0", "0", "0", "0", "0"], "an AtomicLoad of two bytes at lane 4")
    same(tables[0][14], ["WriteNoSnpPtl", "big-endian", "4 bytes", "0", "1", "0", "0"], "a write of four bytes at lane 4")
    same(tables[5][1], ["WriteNoSnpPtl", "0", "0", "0", "1", "0", "0"], "a write while an AtomicLoad was open")
    same(tables[6], [["an overlap with an earlier operation of the same requester", "0"], ["an overlap with an earlier operation of another requester", "1"]], "requesters")
    same(browser.value(MISSING), 1401, "cells that are missing")
    same(browser.value(EXCLUDED), [], "cells that are excluded")
    same(browser.value(STYLE), ["solid", "2px", True], "how a missing cell is marked, beside its colour")
    missing = browser.value("[...document.querySelectorAll('#missing li')].map((it) => it.textContent)")
    same((len(missing), missing[0], missing[-1]), (1401, "ReadNoSnp, little-endian, 1 byte, lane 0", "AtomicCompare after AtomicCompare on the line"), "missing bins")
    same(browser.pdf()[:5], b"%PDF-", "print")


def try_lanes(pages):
    """A cell stands under the lane of its bin, and is as wide as the operand."""
    boxes = """((row, heads) => [...row.querySelectorAll('td')].map((cell) => {
      const box = cell.getBoundingClientRect();
      return [...heads].filter((head) => head.getBoundingClientRect().left > box.left - 1 && head.getBoundingClientRect().right < box.right + 1).map((head) => head.textContent); }))
      (document.querySelectorAll('#group-0 tbody tr')[2], document.querySelectorAll('#group-0 thead tr:last-child th'))"""
    same(pages.browser.value(boxes), [[str(lane + n) for n in range(4)] for lane in (0, 4, 8, 12)], "the lanes over the cells of four bytes")


def try_choice(pages):
    """The check box is reached by keys, and leaves the rows in which something is missing."""
    browser = pages.browser
    pages.open(cover_sample.page(cover_sample.nearly_whole()), "a coverage of all bins but two")
    same(pages.text(".summary"), "1408 of 1410 bins are covered (99%), 2 are missing.", "summary")
    same(pages.text("#group-4 td"), "18446744073709551615 or more", "the greatest count")
    same(len(browser.value(SHOWN)), 280, "rows")
    for _ in range(12):
        browser.key("Tab")
        if browser.value("document.activeElement.type") == "checkbox":
            break
    browser.key(" ", " ")
    same(browser.value(SHOWN), ["AtomicSwap big-endian 8 bytes", "AtomicCompare"], "rows in which something is missing")
    same(browser.value("[...document.querySelectorAll('table')].filter((it) => it.offsetParent !== null).length"), 2, "tables in which something is missing")
    browser.key(" ", " ")
    same(len(browser.value(SHOWN)), 280, "all rows again")


def try_goal(pages):
    """At a goal of five operations the bins that counted fewer are missing, whether they counted some or none."""
    browser = pages.browser
    pages.open(cover_sample.page(cover_sample.below_a_goal()), "a coverage at a goal of five operations")
    same(pages.text(".summary"), "1408 of 1410 bins are covered (99%), each at least 5, 2 are missing.", "summary")
    same(pages.text(".legend"), "A number says how many operations were of a bin. A bold number with a thick border is missing: fewer than 5 operations were of that bin.", "legend")
    same(browser.value("[...document.querySelectorAll('td.missing')].map((cell) => [cell.title, cell.textContent])"),
         [["open 2: missing", "4"], ["AtomicCompare while ReadNoSnp was open: missing", "0"]], "cells that are missing")
    same(browser.value("[...document.querySelectorAll('#missing li')].map((it) => it.textContent)"), ["open 2", "AtomicCompare while ReadNoSnp was open"], "missing bins")


def try_plan(pages):
    """By a plan some bins are excluded, others have goals of their own, and its rules are listed."""
    browser = pages.browser
    pages.open(cover_sample.page(cover_sample.planned()), "a coverage by a plan")
    same(pages.text(".summary"), "1380 of 1382 bins are covered (99%), 2 are missing, 28 are excluded.", "summary")
    same(pages.text(".legend"), "A number says how many operations were of a bin. A bold number with a thick border is missing: fewer operations were of that bin than it has to count. "
         "A dim number with a dashed border is excluded: its bin need not be covered.", "legend")
    same(browser.value("[...document.querySelectorAll('h2')].map((it) => it.textContent)"),
         ["operations: 1171 of 1172", "compares: 16 of 16", "writes: 11 of 11", "results: 68 of 68", "open at once: 5 of 5", "overlaps: 35 of 36", "requesters: 2 of 2", "sequences: 36 of 36",
          "line sequences: 36 of 36", "missing: 2", "plan: 3"], "headings")
    same(browser.value("[...document.querySelectorAll('td.missing')].map((cell) => [cell.title, cell.textContent])"),
         [["ReadNoSnp, big-endian, 8 bytes, lane 8: missing", "0"], ["AtomicSwap while AtomicStore was open: missing", "2"]], "cells that are missing")
    excluded = browser.value(EXCLUDED)
    same((len(excluded), excluded[0], excluded[3]), (28, ["ReadNoSnp, big-endian, 1 byte, lane 0: excluded", "0"], ["ReadNoSnp, big-endian, 1 byte, lane 3: excluded but met", "7"]), "cells that are excluded")
    same(browser.value("(({outlineStyle}) => outlineStyle)(getComputedStyle(document.querySelector('td.excluded')))"), "dashed", "how an excluded cell is marked, beside its colour")
    rules = [["excluded", "ReadNoSnp, big-endian, *", "30", cover_sample.PLAN[0]["why"]], ["at least 1", "ReadNoSnp, big-endian, 8 *", "2", "but of these"], ["at least 3", "* while *", "36", ""]]
    same(browser.value("[...document.querySelectorAll('#plan tbody tr')].map((row) => [...row.cells].map((cell) => cell.textContent))"), rules, "rules of the plan")
    same(browser.value("document.querySelectorAll('b').length"), 0, "elements in the reason of a rule")
    browser.value("document.querySelector('.choice input').click()")
    same(browser.value("[...document.querySelectorAll('table')].filter((it) => it.offsetParent !== null).length"), 3, "tables in which something is missing, and the rules")
    same(browser.value("[...document.querySelectorAll('table:not(.plan) tbody tr')].filter((row) => row.offsetParent !== null).length"), 2, "rows in which something is missing")


def try_colours(pages):
    """The page follows what the browser is set to."""
    browser, found = pages.browser, []
    for scheme in ("light", "dark"):
        browser.send("Emulation.setEmulatedMedia", features=[{"name": "prefers-color-scheme", "value": scheme}])
        found.append(browser.value(COLOURS))
    same(found[0], ["rgb(0, 0, 0)", "rgb(255, 255, 255)"], "colours in light")
    same(found[1][0], "rgb(255, 255, 255)", "colour of the text in dark")
    browser.send("Emulation.setEmulatedMedia", features=[])


def try_cover(pages):
    """All of these."""
    try_small(pages)
    try_lanes(pages)
    try_choice(pages)
    try_goal(pages)
    try_plan(pages)
    try_colours(pages)
    whole = cover_sample.coverage(lambda name: 1)
    pages.open(cover_sample.page(whole), "a coverage of all bins")
    same(pages.text(".summary"), "1410 of 1410 bins are covered (100%), 0 are missing.", "summary")
    same(pages.browser.value(MISSING), 0, "cells that are missing")

"""Faults in copies of the page."""
from tests import looks, sentences, sheet, sheet_pictures as pictures, sheet_use as use


def shaped(check, width, scheme="light"):
    def run(page):
        page.driver.shaped(width, scheme)
        page.open(sheet.SAMPLE)
        return check(page)
    return run


def said(page):
    """The sentences are looked at on a copy of the copy, without the module."""
    return next(iter(sentences.faults(page.driver, page.folder)), None)


def without_network(page):
    return use.works_without_network(page.driver, page.folder)


# A name, the file, its text, the text in its place, and the check.
FAULTS = [
    ("decimals that are never exact", "sheet.js", "% d === 0n", "% d === -1n", sheet.forms_are_right),
    ("mixed numbers not asked for", "sheet.js", "mixed.checked ? mixedText : fraction", "fraction", sheet.forms_are_right),
    ("places not asked for", "sheet.js", "text, number }", "text, number: 6 }", sheet.forms_are_right),
    ("a shortened copy", "sheet.js", "copy(text, `${shortened(text)} is`)", "copy(shortened(text), `${shortened(text)} is`)", use.clicks_copy),
    ("names that do not go on", "sheet.js", 'line : "").join("\\n")', 'line : "").join("\\n\\n")', sheet.people_are_answered),
    ("a computation that goes on", "engine.js", "this.limit(0.3, null);", "", sheet.long_computations_end),
    ("no new line", "sheet.js", "go(next);", "", use.keyboard_works),
    ("a value not said", "sheet.js", "sayLater(row);", "", use.values_are_said),
    ("a refused line not marked", "sheet.js", 'setAttribute("aria-invalid", ', 'setAttribute("aria-busy", ', use.values_are_said),
    ("a focus that is not seen", "page.css", ":focus-visible { outline: 3px solid var(--strong);", ":focus-visible { outline: none;", use.focus_is_seen),
    ("a caret one column late", "sheet.js", '" ".repeat([...before].length)', '" ".repeat([...before].length + 1)', use.caret_is_under_the_place),
    ("a mark by bytes", "sheet.js", "at = Number(/at column (\\d+)/.exec(reason)[1]) - 1", "at = new TextEncoder().encode(text.slice(0, Number(/at column (\\d+)/.exec(reason)[1]) - 1)).length", use.caret_is_under_the_place),
    ("an error while it is typed", "page.css", ".unfinished .at-end .where", ".unfinished .never .where", use.unfinished_line_is_no_error_yet),
    ("nothing kept", "sheet.js", "localStorage.setItem(STORED,", "String(STORED,", use.lines_are_kept),
    ("storage that must be there", "sheet.js", "    return null;\n  }\n}\n\nfunction take(", "    throw new Error(STORED);\n  }\n}\n\nfunction take(", use.page_works_without_storage),
    ("a changed fragment not read", "sheet.js", 'addEventListener("hashchange"', 'addEventListener("never"', looks.changed_link_is_read),
    ("a decimal copied with its sign", "sheet.js", "copy(text, `$", "copy(before + text, `$", use.clicks_copy),
    ("a paste into one line", "sheet.js", 'addEventListener("paste"', 'addEventListener("never"', use.paste_makes_lines),
    ("a key that types another one", "keypad.js", '["×", "*", "times"]', '["×", "+", "times"]', use.keypad_types),
    ("a wrong convergent", "pictures.js", "quotient * d + under", "quotient * d + before", pictures.pictures_are_right),
    ("errors with the other sign", "pictures.js", "convergent.n * x.d - x.n * convergent.d", "x.n * convergent.d - convergent.n * x.d", pictures.pictures_are_right),
    ("a place cut towards 0", "pictures.js", "n < 0n && n % d !== 0n ? cut - 1n : cut", "cut", pictures.ruler_is_right),
    ("the product as the meeting", "pictures.js", "a / gcd(a, b) * b", "a * b", pictures.beats_meet),
    ("a picture without words", "pictures.js", '"aria-label": words', '"data-label": words', pictures.pictures_have_words),
    ("a wrong example", "index.html", "<code>3/2</code>", "<code>2/3</code>", sheet.examples_are_right),
    ("values that are cut off", "page.css", "sans-serif; overflow-wrap: anywhere;", "sans-serif; white-space: nowrap;", shaped(looks.nothing_is_cut_off, 320)),
    ("refusals too pale in the dark", "page.css", "--wrong: #ff9d94", "--wrong: #a3262a", shaped(looks.colours_are_readable, 1280, "dark")),
    ("pictures too pale in the dark", "page.css", "svg text { fill: var(--ink)", "svg text { fill: #333", shaped(looks.colours_are_readable, 320, "dark")),
    ("an icon from elsewhere", "index.html", '<link rel="icon" href="icon.svg">', '<link rel="icon" href="https://example.org/icon.png">', shaped(looks.nothing_comes_from_elsewhere, 1280)),
    ("no fragment", "link.js", "link.href = address;", 'link.href = address.split("#")[0];', looks.link_carries_lines),
    ("a fragment that is not encoded", "link.js", "encodeURIComponent(text.toWellFormed())", "text", looks.link_carries_lines),
    ("a broken link not said", "link.js", "decodeURIComponent(text)", "unescape(text)", looks.broken_link_is_said),
    ("a link without an end", "link.js", "const LINK_LENGTH = 8000", "const LINK_LENGTH = 80000", looks.long_link_is_said),
    ("a missing module not said", "module.js", "if (!response.ok)", "if (false)", said),
    ("a page from a file not said", "module.js", 'location.protocol === "file:"', "false", said),
    ("an example in the first line", "sheet.js", '{ lines: [""] });', '{ lines: ["1/3 + 0.25"] });', use.begins_on_an_empty_line),
    ("the first key behind a kept line", "sheet.js", '=== "" ? last : addRow(last)', '=== "" ? last : last', use.begins_on_an_empty_line),
    ("an example in the place of a line", "sheet.js", "? current : addRow(rows.lastElementChild)", "? current : current", use.examples_are_one_tap_away),
    ("an example without a value", "index.html", ">5/8 &gt; 0.6<", ">5/8 &gt; 0.6 &gt; 0.5<", use.examples_are_one_tap_away),
    ("an answer behind the keypad", "sheet.js", 'row.scrollIntoView({ block: "nearest" });', "", shaped(use.answer_is_above_the_keypad, 390)),
    ("no room for the keypad", "sheet.js", "`${keypad.offsetHeight}px`", '"0"', shaped(use.answer_is_above_the_keypad, 390)),
    ("calls without their parenthesis", "keypad.js", "`${call}(`", "call", use.keypad_has_names),
    ("names that lines gave left out", "keypad.js", "...namesOf(lines),", "", use.keypad_has_names),
    ("small targets", "page.css", "summary { min-height: 2.75rem;", "summary { min-height: 2rem;", shaped(use.targets_are_large, 390)),
    ("a slow line that is not named", "sheet.js", 'showRow(index, ["slow"])', "undefined", sheet.slow_line_says_so),
    ("a slow line that is tried again", "sheet.js", "stopped.set(upTo(found.length), why);", "", sheet.slow_line_says_so),
    ("a stopped line that looks empty", "sheet.js", '["stopped", reason]', '["empty"]', sheet.slow_line_says_so),
    ("wholes that are all full", "pictures.js", "part(x.n - BigInt(k) * x.d, x.d)", "part(x.n, 1n)", pictures.wholes_are_right),
    ("a line too few between parts", "pictures.js", "let k = 0; k < count && count > 1", "let k = 1; k < count && count > 1", pictures.wholes_are_right),
    ("the sixteenth below", "pictures.js", "2n * absolute(x.n) * d + x.d", "2n * absolute(x.n) * d", pictures.ruler_is_right),
    ("a half towards 0 on the ruler", "pictures.js", "2n * absolute(x.n) * d + x.d", "2n * absolute(x.n) * d + x.d - 1n", pictures.ruler_is_right),
    ("a continued fraction before all", "index.html", "<details>", "<details open>", pictures.continued_fractions_are_below),
    ("fractions beside their slash", "page.css", "inline-flex; flex-direction: column;", "inline-flex; flex-direction: row;", pictures.fractions_are_stacked),
    ("a file that is not kept", "offline.js", "(?:href|src)", "(?:href)", without_network),
    ("nothing kept for visits without a network", "sheet.js", "  keepPage();\n", "", without_network),
    ("a server that must answer", "offline.js", "} catch {", "} catch (why) {\n    throw why;", without_network),
    ("advice that is wrong", "advice.js", "as `1 / 2`", "as `1 / 0`", use.advice_is_right),
    ("a reason without advice", "advice.js", '"this is no number":', '"this is not a number":', use.advice_is_right),
    ("advice beside a hint", "advice.js", 'behind === ""', "true", use.advice_is_right),
    ("small keys", "page.css", "#keypad button { min-height: 2.75rem;", "#keypad button { min-height: 1.5rem;", shaped(use.keys_are_large, 390)),
]

"""How the page is used: by keyboard, by a screen reader, by clicks, and after a reload. Each check gives a sentence that says what is wrong, or None."""
import re
import subprocess
import tempfile
from pathlib import Path

from selenium.common.exceptions import WebDriverException
from selenium.webdriver.common.by import By
from selenium.webdriver.common.keys import Keys
from tests import looks, sheet_pictures
from tests.browser import served
from tests.sheet import SAMPLE, VALUES, Sheet

REASONS = Path(__file__).resolve().parents[3] / "crates" / "ratio_expressions" / "src" / "refusal.rt"
SHAPES = [(1280, "light"), (1280, "dark"), (800, "light"), (390, "dark"), (320, "light"), (320, "dark")]


def begins_on_an_empty_line(sheet):
    """The first key is the beginning of a line: at the first visit, and behind the lines that are kept."""
    sheet.load()
    sheet.js("localStorage.clear()")
    sheet.load()
    at_first = sheet.js("return [texts(), element('examples').checkVisibility(), document.activeElement === inputs()[0]]")
    sheet.type("1/2 + 1/3")
    answered = sheet.answers(), sheet.js("return element('examples').checkVisibility()")
    sheet.load()
    sheet.type("2 * 3")
    again = sheet.js("return texts()"), sheet.answers()[1:]
    if at_first != [[""], True, True] or answered != ([["5/6", "≈ 0.833333"]], False):
        return f"the page begins with {at_first}, and a line typed there is answered {answered}"
    return None if again == (["1/2 + 1/3", "2 * 3"], [["6"]]) else f"behind a kept line, a line that is typed gives {again}"


def examples_are_one_tap_away(sheet):
    """An example goes into the line in use if it is empty, and else into a new line."""
    sheet.open()
    sheet.load()
    for part in (sheet.driver.find_elements(By.CSS_SELECTOR, "#examples .example")[0], sheet.driver.find_elements(By.CSS_SELECTOR, ".help .example")[1]):
        part.click()
        sheet.settle()
    got = sheet.js("return [texts(), document.activeElement === inputs()[1]]"), sheet.answers()
    sheet.put("\n".join(sheet.js("return [...document.querySelectorAll('.example')].map((part) => part.textContent)")))
    refused = sheet.js("return [...rows.children].filter((row) => row.fields[0] !== 'value').map((row) => inputOf(row).value)")
    if got != ([["1/3 + 0.25", "(1/2 + 1/3) * 6"], True], [["7/12", "≈ 0.583333"], ["5"]]):
        return f"taps on two examples give {got}"
    return f"these examples have no value: {refused}" if refused else None


def keyboard_works(sheet):
    sheet.begin()
    sheet.type("x = 1/2", Keys.ENTER, "x + 1", Keys.ENTER, "3", Keys.ARROW_UP, Keys.ARROW_UP, Keys.END, "0")
    got = sheet.answers()
    if got != [["1/20", "= 0.05"], ["21/20", "= 1.05"], ["3"]]:
        return f"typed lines, and a change to the first, give {got}"
    sheet.type(Keys.ARROW_DOWN, Keys.ARROW_DOWN, Keys.BACKSPACE, Keys.BACKSPACE)
    left = sheet.js("return [texts(), inputOf(current) === document.activeElement, numberOf(current)]")
    return None if left == [["x = 1/20", "x + 1"], True, 2] else f"Backspace in an empty line leaves {left}"


def values_are_said(sheet):
    sheet.begin()
    sheet.type("1/3 + 0.25")
    first = sheet.until("return spoken.textContent === 'Line 1: 7/12, about 0.583333'", 3) or sheet.js("return spoken.textContent")
    sheet.type(Keys.ENTER, "2 + q")
    wanted = "Line 2: error: nothing has this name, at column 5; type x = 3 first, to use x"
    second = sheet.until(f"return spoken.textContent === '{wanted}'", 3) or sheet.js("return spoken.textContent")
    sheet.js("showKeypad(true)")
    names = [part.accessible_name for part in sheet.driver.find_elements(By.CSS_SELECTOR, "main button, main input") if part.is_displayed()]
    sheet.js("showKeypad(false)")
    tied = sheet.js("return [...rows.children].every((row) => row.querySelector('.reply').id === inputOf(row).getAttribute('aria-describedby'))")
    invalid = sheet.js("return inputs().map((input) => input.getAttribute('aria-invalid'))")
    if first is not True or second is not True or sheet.js("return spoken.getAttribute('role')") != "status":
        return f"a screen reader is given {first!r} and {second!r}"
    if "" in names or not {"Line 1", "7/12, copy", "about 0.583333, copy", "Remove line 2", "Places", "divided by"} <= set(names):
        return f"some parts have no name for a screen reader: {names}"
    return None if tied and invalid == ["false", "true"] else f"the values are not tied to their lines, or the refused line is not marked: {invalid}"


def focus_is_seen(sheet):
    sheet.open("1/2")
    sheet.js("mixed.focus()")
    for _ in range(12):
        sheet.press(Keys.TAB)
        seen = sheet.js("""const style = getComputedStyle(document.activeElement);
            return style.outlineStyle !== "none" && parseFloat(style.outlineWidth) >= 2 ? null : document.activeElement.outerHTML.slice(0, 60);""")
        if seen:
            return f"the focus cannot be seen on {seen}"
    return None


def caret_is_under_the_place(sheet):
    """The mark is on the character of the column, and the caret is under it, also in a long line and behind characters of several bytes."""
    for line, marked in (("2 + (3 * y) + 4", "y"), ("2 × 3 ÷ y", "y"), ("1 + " * 30 + "y + 1", "y"), ("2 +", " ")):
        sheet.open(line)
        text, mark, row = sheet.js("return [rows.querySelector('.where').textContent, rows.querySelector('mark').textContent, rows.querySelector('.where').textContent.split('\\n')]")
        at = row[1].index("^")
        if mark != marked or (row[0] + " ")[at] != marked:
            return f"of {line!r} the page marks {text!r}"
        places = sheet.js("const box = (name) => rows.querySelector(name).getBoundingClientRect(); return [box('mark').left, box('.where b').left]")
        if abs(places[0] - places[1]) > 1:
            return f"of {line!r} the caret is not under the mark: {places}"
    return None


def unfinished_line_is_no_error_yet(sheet):
    """A line that is wrong only at its end shows its mark when it is left, and one that is wrong before it at once."""
    sheet.begin()
    sheet.type("2 +")
    typing = sheet.js("return rows.querySelector('.where').checkVisibility()")
    sheet.js("inputs()[0].blur()")
    left = sheet.js("return rows.querySelector('.where').checkVisibility()")
    sheet.js("inputOf(rows.firstElementChild).focus()")
    sheet.type(" ) + 3")
    wrong = sheet.js("return rows.querySelector('.where').checkVisibility()")
    return None if [typing, left, wrong] == [False, True, True] else f"the mark is seen while a line is typed, when it is left, and in a wrong line: {[typing, left, wrong]}"


def lines_are_kept(sheet):
    sheet.open("1/3\nx = 2")
    sheet.js("mixed.checked = true; places.value = 9; changed()")
    sheet.load()
    sheet.settle()
    got = sheet.js("return [texts(), mixed.checked, placesWanted()]")
    return None if got == [["1/3", "x = 2", ""], True, 9] else f"after a reload the page has {got}"


def page_works_without_storage(sheet):
    with sheet.driver.with_script("Object.defineProperty(window, 'localStorage', { get() { throw new Error('refused'); } })"):
        sheet.load()
        sheet.put("1/3 + 1/6")
        got = sheet.js("return failure.textContent") or sheet.answers()
    return None if got == [["1/2", "= 0.5"]] else f"where the browser keeps nothing, the page gives {got}"


def link_carries_forms(sheet):
    sheet.open("1/3")
    sheet.js("mixed.checked = true; places.value = 3; changed()")
    address = sheet.link()
    sheet.js("localStorage.clear()")
    sheet.load(address[len(sheet.address):])
    got = sheet.js("return [texts(), mixed.checked, placesWanted()]")
    return None if got == [["1/3"], True, 3] else f"a link carries {got}"


def clicks_copy(sheet):
    """A long value is shortened on the page, and copied whole."""
    for line, part, wanted in (("1/3 + 0.25", "value", "7/12"), ("1/3 + 0.25", "decimal", "0.583333"), ("2^2000", "value", str(2**2000))):
        sheet.open(line)
        got = sheet.copied(f"#rows .{part}")
        if got != wanted:
            return f"a click on the {part} of {line} copies {got[:60]!r}"
    return None


def paste_makes_lines(sheet):
    sheet.begin()
    sheet.type("10", Keys.ARROW_LEFT)
    sheet.js("navigator.clipboard.writeText('1 + 1\\r\\nx = 2\\n3 + ').then(() => { window.isWritten = true; })")
    sheet.until("return window.isWritten")
    sheet.type(Keys.CONTROL, "v")
    got = sheet.js("return texts()")
    return None if got == ["11 + 1", "x = 2", "3 + 0"] else f"a paste of three lines gives {got}"


def clearing_can_be_undone(sheet):
    sheet.open("1/2\n1/3")
    sheet.js("element('clear').click()")
    empty = sheet.js("return texts()")
    sheet.js("undo.click()")
    return None if [empty, sheet.js("return texts()")] == [[""], ["1/2", "1/3"]] else "the lines are not cleared, or not brought back"


def keypad_types(sheet):
    sheet.open("")
    sheet.js("if (keypad.hidden) keys.click(); inputOf(rows.firstElementChild).focus()")
    for name in ("1", "space", "1", "divided by", "2", "times", "7", "erase", "4", "new line", "ans", "minus", "1"):
        part = next(key for key in sheet.driver.find_elements(By.CSS_SELECTOR, "#keypad button") if key.accessible_name == name)
        part.click()
    sheet.settle()
    got = sheet.js("return [texts(), document.activeElement.className, inputs()[0].inputMode]"), sheet.answers()
    sheet.js("keys.click()")
    return None if got == ([["1 1/2*4", "ans-1"], "line", "none"], [["6"], ["5"]]) else f"the keypad types {got}"


def keypad_has_names(sheet):
    """The names that lines gave, and the calls with their parenthesis, beside the signs for them."""
    sheet.open("price = 3\n")
    sheet.js("if (keypad.hidden) keys.click(); inputOf(rows.lastElementChild).focus()")
    for name in ("max", "price", "comma", "5", "closing parenthesis", "greater than", "4"):
        for key in sheet.driver.find_elements(By.CSS_SELECTOR, f'#keypad button[aria-label="{name}"]'):
            key.click()
    sheet.settle()
    got = sheet.js("return texts()[1]"), sheet.answers()[1]
    sheet.js("keys.click()")
    return None if got == ("max(price,5)>4", ["true"]) else f"the keypad types {got}"


def answer_is_above_the_keypad(sheet):
    """The line that is typed on the keypad, and its answer, are between the top of the screen and the keypad: a value, and a refusal."""
    sheet.open("\n".join(["1/7"] * 15))
    sheet.js("showKeypad(true)")
    for at, name in ((14, "1"), (0, "2"), (14, "closing parenthesis")):
        sheet.js("lineInUse().blur(); select(rows.children[arguments[0]]); [...document.querySelectorAll('#keypad button')].find((key) => key.ariaLabel === arguments[1]).click()", at, name)
        sheet.settle()
        top, bottom, above = sheet.js("""const box = (part) => part.getBoundingClientRect();
            return [box(lineInUse()).top, box(replyOf(current)).bottom, box(keypad).top];""")
        if top < 0 or bottom > above or not sheet.answers()[at]:
            return f"line {at + 1} and its answer are from {top} to {bottom}, and the keypad begins at {above}"
    sheet.js("showKeypad(false)")
    return None


def keys_are_large(sheet):
    sheet.js("showKeypad(true)")
    small = small_parts(sheet, "#keypad button")
    sheet.js("showKeypad(false)")
    return f"these keys are smaller than a finger: {small}" if small else None


def small_parts(sheet, selector):
    return sheet.js("""return [...document.querySelectorAll(arguments[0])].filter((part) => part.checkVisibility())
        .filter((part) => { const box = part.getBoundingClientRect(); return box.width < 44 || box.height < 44; }).map((part) => part.outerHTML.slice(0, 60));""", selector)


def targets_are_large(sheet):
    """On a narrow screen, what is tapped is as large as a finger. A value may be short."""
    small = sheet.js("return document.documentElement.clientWidth <= 640") and small_parts(sheet, "main button:not(.value), main input:not([type=checkbox])")
    return f"these parts are smaller than a finger: {small}" if small else None


def advice_is_right(sheet):
    """Each reason of the proved source has advice, and each example in it has a value. A reason with its own advice has no other."""
    reasons = re.findall(r'=> "(.*)"', REASONS.read_text()) + ["the expression ends too soon"]
    sheet.open("2 + tip\nsqrt(2)")
    known = sheet.js("return Object.keys(ADVICE)")
    if sorted(known) != sorted(reasons):
        return f"the reasons without advice, or the advice without a reason, are {set(known) ^ set(reasons)}"
    got = sheet.js("return [...document.querySelectorAll('.advice')].map((part) => part.textContent)")
    if "tip = 3/7" not in got[0] or "floor, ceil" not in got[1] or not sheet.js("return document.querySelector('.advice').checkVisibility()"):
        return f"beside two errors the page says {got}"
    own = sheet.js("return adviceOn('error: nothing has this name, at column 3; type 2', 'x').textContent")
    sheet.js("setLines(Object.values(ADVICE).flatMap((text) => text.split('`').filter((_, k) => k % 2 === 1)).map((text) => text.replace('NAME', 'tip'))); changed()")
    sheet.settle()
    refused = sheet.js("return [...rows.children].filter((row) => row.fields[0] !== 'value').map((row) => inputOf(row).value)")
    return f"these examples have no value: {refused}" if refused else f"a reason with its own advice has {own!r}, too" if own else None


USE = [
    begins_on_an_empty_line, examples_are_one_tap_away, keypad_has_names, answer_is_above_the_keypad, advice_is_right, keyboard_works, values_are_said, focus_is_seen, caret_is_under_the_place, unfinished_line_is_no_error_yet, lines_are_kept,
    link_carries_forms, clicks_copy, paste_makes_lines, clearing_can_be_undone, keypad_types,
]


def one_file_works(driver, home):
    """The page as one file, opened without a server."""
    with tempfile.TemporaryDirectory() as name:
        file = Path(name, "fractions.html")
        file.write_bytes(subprocess.run([home / "one_file"], stdout=subprocess.PIPE, check=True).stdout)
        sheet = Sheet(driver, file.as_uri())
        sheet.open("1/3 + 0.25\n1 / 0")
        got = sheet.answers()
        sheet.load()
        kept = sheet.js("return texts()")
    wanted = [["7/12", "≈ 0.583333"], ["error: this divides by 0, at column 3"]]
    return None if [got, kept] == [wanted, ["1/3 + 0.25", "1 / 0", ""]] else f"the page as one file gives {got}, and keeps {kept}"


def works_without_network(driver, home):
    """After the first visit, the page needs no server."""
    with served(home) as address:
        sheet = Sheet(driver, address)
        sheet.load()
        sheet.js("navigator.serviceWorker.ready.then(() => { window.isReady = true; })")
        sheet.until("return window.isReady === true", 10)
    try:
        sheet.load()
        sheet.put("1/3 + 1/6")
        got = sheet.answers(), sheet.js("return getComputedStyle(rows).listStyleType")
    except WebDriverException as why:
        return f"without a network there is no page: {str(why).splitlines()[0]}"
    return None if got == ([["1/2", "= 0.5"]], "none") else f"without a network the page gives {got}"


def faults(sheet, home, folder):
    """A sentence for each check that finds a fault in the page."""
    sheet.driver.shaped(1280, "light")
    yield from looks.named([*VALUES, *USE, page_works_without_storage, *sheet_pictures.PICTURES, *looks.ONCE], sheet)
    for width, scheme in SHAPES:
        sheet.driver.shaped(width, scheme)
        sheet.open(SAMPLE)
        yield from looks.named([*looks.SHAPED, keys_are_large, targets_are_large], sheet, f", {width} points wide, {scheme}")
        sheet.driver.save_screenshot(str(folder / f"sheet-{width}-{scheme}.png"))
    sheet.driver.shaped(390, "light")
    yield from looks.named([answer_is_above_the_keypad], sheet, ", 390 points wide")
    yield one_file_works(sheet.driver, home)
    yield works_without_network(sheet.driver, home)

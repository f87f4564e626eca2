"""The page, and its values, which are compared with Python's fractions. Each check gives a sentence that says what is wrong, or None."""
import math
import random
import time
from fractions import Fraction
from pathlib import Path

from selenium.webdriver.common.keys import Keys

TYPED = Path(__file__).resolve().parents[3] / "checks" / "typed.txt"

# The lines of a sheet with everything on it: values of each kind, long ones, and a refusal.
SAMPLE = "1/3 + 0.25\nx = 3/7\n2 + (3 * y) + 4\n22/7 - x * 2\n1/3 < 0.333\n2^500 / 3\n\n1 / 0\n415/93"


# A worker in which a line with the number 987654321 takes 30 seconds.
SLOW = """
    const slow = () => {
        const post = self.postMessage.bind(self), answer = self.onmessage;
        let lines = [];
        const wait = () => { if (lines.shift()?.includes("987654321")) for (const end = Date.now() + 30000; Date.now() < end;); };
        self.postMessage = (message) => { post(message); if (message.piece !== undefined) wait(); };
        self.onmessage = (event) => { lines = (event.data.text ?? "").split("\\n"); wait(); answer(event); };
    };
    engine.source = URL.createObjectURL(new Blob([`(${engineMain})(); (${slow})()`], { type: "text/javascript" }));
    engine.worker.terminate();
    engine.begin();"""


class Sheet:
    """The page in a browser."""

    PARTS = ["index.html", "page.css", "link.js", "module.js", "engine.js", "pictures.js", "advice.js", "keypad.js", "sheet.js", "offline.js", "manifest.json", "icon.svg"]
    MODULE = "ratio_sheet.wasm"

    def __init__(self, driver, address):
        self.driver = driver
        self.address = address
        self.home = address[: address.rindex("/") + 1]

    def load(self, fragment=""):
        """Loads the page, and waits until it has answered its first lines or has said why it cannot."""
        self.driver.get("about:blank")
        self.driver.get(self.address + fragment)
        return self.until("return failure.textContent !== '' || !document.getElementById('sheet').hidden", 10)

    def js(self, script, *arguments):
        return self.driver.execute_script(script, *arguments)

    def until(self, asked, seconds=5):
        """Whether a script, or a function, gives true in time."""
        end = time.monotonic() + seconds
        while not (self.js(asked) if isinstance(asked, str) else asked()):
            if time.monotonic() > end:
                return False
            time.sleep(0.03)
        return True

    def press(self, *keys):
        """Presses keys where the focus is."""
        self.driver.switch_to.active_element.send_keys(*keys)

    def link(self):
        return self.js("return link.href")

    def copied(self, selector):
        """What a click on a part puts on the clipboard, as a paste into a box shows it."""
        self.js("told.textContent = ''")
        self.driver.find_elements("css selector", selector)[0].click()
        self.until("return told.textContent.endsWith('copied.')", 3)
        self.js("const box = document.createElement('textarea'); box.id = 'box'; document.body.append(box); box.focus()")
        self.press(Keys.CONTROL, "v")
        return self.js("const text = box.value; box.remove(); return text")

    def open(self, text=""):
        """Loads the page as for the first time, with these lines."""
        self.load()
        self.js("localStorage.clear()")
        self.load()
        self.put(text)

    def put(self, text):
        self.js("setLines(arguments[0].split('\\n')); changed()", text)
        self.settle()

    def text(self):
        return self.js("return texts().join('\\n')")

    def answers(self):
        """What each row has beside its line: the value and its decimal, or the reason."""
        return self.js("return [...rows.children].map((row) => [...row.querySelectorAll('.value, .reason')].map((part) => part.textContent.replace('\\u00a0', ' ')))")

    def settle(self):
        """Waits until the engine has nothing to do."""
        time.sleep(0.05)
        return self.until("return engine.asked === null && engine.waiting.size === 0", 60)

    def begin(self):
        """Loads the page with one empty line, and puts the focus there."""
        self.open()
        self.js("inputOf(rows.firstElementChild).focus()")

    def type(self, *keys):
        self.press(*keys)
        self.settle()


def people_are_answered(sheet):
    """The lines that people type, on which the program `ratio` is tried too, typed key by key. A line gives names to those below."""
    rows = [row.split("\t") for row in TYPED.read_text().splitlines()]
    sheet.begin()
    # A machine with other work may be slow.
    sheet.js("engine.seconds = 60")
    for line, _ in rows:
        sheet.type(line, Keys.ENTER)
    for (line, wanted), answer in zip(rows, sheet.answers()):
        if answer[:1] != [wanted if wanted.startswith("error") else short(wanted)]:
            return f"{line} gives {answer}, and not {wanted}"
    return None


def readings_are_shown(sheet):
    """A line is shown as it was read, if a chain of its slashes is taken whole."""
    lines = {"1/2 / 1/3": "read as 1/2 / (1/3)", "1/2 * 1/3": "", "3 / 2/4 < 2": "read as 3 / (2/4) < 2", "8 / 2/3": "read as 8 / (2/3)"}
    sheet.open("\n".join(lines))
    sheet.settle()
    got = sheet.js("return [...rows.children].map((row) => row.querySelector('.reading')?.textContent ?? '')")
    return None if got == [*lines.values()] else f"the lines are shown as {got}"


def decimal_of(x, places):
    """A half is rounded away from 0. An exact decimal has no zeros at its end."""
    scaled = abs(x) * 10**places
    nearest = math.floor(scaled + Fraction(1, 2))
    digits = str(nearest).zfill(places + 1)
    text = ("-" if x < 0 and nearest else "") + (f"{digits[:-places]}.{digits[-places:]}" if places else digits)
    return f"= {text.rstrip('0').rstrip('.')}" if nearest == scaled else f"≈ {text}"


def mixed_of(x):
    whole, rest = divmod(abs(x), 1)
    return str(x) if whole == 0 or rest == 0 else f"{'-' if x < 0 else ''}{whole} {rest}"


def forms_are_right(sheet):
    """Random sums and products, in three numbers of places, as fractions and as mixed numbers."""
    rng = random.Random(20261128)
    number = lambda: Fraction(rng.randrange(-10 ** rng.choice([1, 2, 6]), 10 ** rng.choice([1, 2, 6, 30])), rng.choice([1, 2, 3, 5, 8, 12, 40, 7, 10**6, 999999]))
    lines, values = [], []
    for _ in range(150):
        x, y = number(), number()
        operator, value = rng.choice([("+", x + y), ("-", x - y), ("*", x * y)])
        lines.append(f"({x}) {operator} ({y})")
        values.append(value)
    sheet.open("\n".join(lines))
    for places, mixed in ((6, False), (0, True), (41, False)):
        sheet.js("places.value = arguments[0]; mixed.checked = arguments[1]; changed()", places, mixed)
        sheet.settle()
        for line, value, got in zip(lines, values, sheet.answers()):
            wanted = [mixed_of(value) if mixed else str(value)] + ([decimal_of(value, places)] if value.denominator > 1 else [])
            if got != [short(part) for part in wanted]:
                return f"{line} with {places} places gives {got}, and not {wanted}"
    return None


def short(text):
    """A text with a sign before it is shortened behind the sign."""
    sign, text = (text[:2], text[2:]) if text[:1] in "=≈" else ("", text)
    return sign + (text if len(text) <= 48 else f"{text[:29]}…{text[-9:]} ({len(text)} characters)")


def long_computations_end(sheet):
    """A computation that takes too long is stopped, and the page goes on."""
    sheet.open("1 + 1")
    sheet.js(SLOW + "setLines(['987654321']); changed()")
    time.sleep(0.3)
    sheet.js("setLines(['2 + 2']); changed()")
    if not sheet.until("return rows.querySelector('.value')?.textContent === '4'", 5):
        return "the page does not go on after a long computation"
    return None


def slow_line_says_so(sheet):
    """A line that takes too long says so, while all others keep their values, and answer what is typed next."""
    sheet.open("1/2 + 1/3\nx = 5\nx + 1\nans * 2")
    wanted = [["5/6", "≈ 0.833333"], None, ["6"], ["12"]]
    sheet.js(SLOW + "engine.seconds = 3; inputs()[1].value = 'y = 987654321'; inputs()[2].value = '5 + 1'; changed()")
    for said in ("this takes long", "this took longer than 3 seconds"):
        if not sheet.until(f"return rows.children[1].textContent.includes('{said}')", 9):
            return f"a slow line does not say {said!r}: {sheet.answers()}"
        got = sheet.answers()
        if got[:1] + got[2:] != wanted[:1] + wanted[2:]:
            return f"beside a slow line, which says {said!r}, the others have {got}"
    sheet.js("inputs()[3].value = 'ans + 1/2'; changed()")
    if not sheet.until("return rows.children[3].querySelector('.value').textContent === '13/2'", 2):
        return f"below a slow line, a changed one is not answered at once: {sheet.answers()}"
    return None if sheet.settle() else "the engine does not come to rest"


def examples_are_right(sheet):
    """Each line and value of the page's own table."""
    sheet.open("")
    pairs = sheet.js("return [...document.querySelectorAll('.help tbody tr')].map((row) => [...row.cells].slice(0, 2).map((cell) => cell.textContent))")
    sheet.put("\n".join(line for line, _ in pairs))
    for (line, wanted), got in zip(pairs, sheet.answers()):
        if got[:1] != [wanted]:
            return f"the page says that {line} gives {wanted}, and it gives {got}"
    return None if len(pairs) > 5 else "the page has no examples"


VALUES = [people_are_answered, readings_are_shown, forms_are_right, long_computations_end, slow_line_says_so, examples_are_right]

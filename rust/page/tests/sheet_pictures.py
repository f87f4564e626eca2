"""The pictures of the page. Each check gives a sentence that says what is wrong, or None."""
import math
from fractions import Fraction

from tests.sheet import short


def quotients_of(x):
    found = []
    while True:
        whole = x.numerator // x.denominator
        found.append(whole)
        if x == whole:
            return found
        x = 1 / (x - whole)


def convergents_of(quotients):
    for count in range(1, len(quotients) + 1):
        value = Fraction(quotients[count - 1])
        for quotient in reversed(quotients[: count - 1]):
            value = quotient + 1 / value
        yield value


# What the picture of wholes shows: how full each circle and each bar is, and into how many parts the lines cut the wholes.
WHOLES = """
    const box = element("wholes"), share = (part) => Number(part.getAttribute("stroke-dasharray").split(" ")[0]), wide = (part) => Number(part.getAttribute("width"));
    const bars = [...box.querySelectorAll("rect.outline")], lines = box.querySelectorAll(".between").length / 2;
    return [[...box.querySelectorAll(".slice")].map(share), [...box.querySelectorAll(".part")].map((part, k) => wide(part) / wide(bars[k])), lines, box.textContent];"""


def wholes_are_right(sheet):
    """A fraction as parts of circles and bars. Above 8, and up to 0, there are none. More than 24 parts have no lines between them."""
    sheet.open()
    for text, said in (("7/12", "7 of 12 equal parts of a whole"), ("17/12", "1 whole and 5 of 12 equal parts"), ("3", "3 wholes"), ("1", "1 whole"),
                       ("8", "8 wholes"), ("31/100", "31 of 100 equal parts of a whole"), ("49/24", "2 wholes and 1 of 24 equal parts"), ("-1/2", ""), ("0", ""), ("25/3", "")):
        x = Fraction(text)
        wanted = [float(min(Fraction(1), x - k)) for k in range(math.ceil(x))] if said else []
        lines = len(wanted) * x.denominator if 1 < x.denominator <= 24 else 0
        sheet.put(text)
        slices, bars, cuts, words = sheet.js(WHOLES)
        if cuts != lines or words != (f"{text} is {said}." if said else "") or any(len(got) != len(wanted) or max(map(abs, map(float.__sub__, map(float, got), wanted)), default=0) > 1e-9 for got in (slices, bars)):
            return f"the parts of {text} are {slices}, {bars}, {cuts} lines and {words!r}"
    return None


def nearest(x, d):
    """The nearest fraction with this denominator, a half away from 0."""
    return Fraction(math.floor(abs(x) * d + Fraction(1, 2)), d) * (-1 if x < 0 else 1)


def ruler_is_right(sheet):
    """The mark is at its place between two whole numbers, and the nearest sixteenth and tenth are named."""
    sheet.open()
    for text in ("415/93", "-17/12", "5", "1/32", "-1/32", "1/1000003", "0", "7/20"):
        x = Fraction(text)
        sheet.put(text)
        place, words = sheet.js("const [left, right] = [30, width() - 30]; return [(Number(document.querySelector('#ruler circle').getAttribute('cx')) - left) / (right - left), element('ruler').textContent]")
        low, wide = (x - 1, 2) if x.denominator == 1 else (x.numerator // x.denominator, 1)
        if abs(place - float((x - low) / wide)) > 1e-9:
            return f"on the ruler {text} is at {place}"
        if x.denominator > 1 and f"nearest sixteenth is {nearest(x, 16)}, and the nearest tenth {nearest(x, 10)}." not in words:
            return f"of {text} on the ruler the page says {words!r}"
    return None


def continued_fractions_are_below(sheet):
    """The wholes, the ruler and the continued fraction have this order, and the last one is seen by those who open it."""
    sheet.open("7/12")
    seen = "return ['wholes', 'ruler', 'continued'].map((id) => element(id)).map((part) => part.checkVisibility() && part.getBoundingClientRect().top)"
    closed = sheet.js(seen)
    sheet.driver.find_elements("css selector", "summary")[0].click()
    opened = sheet.js(seen)
    return None if closed[2] is False and opened == sorted(opened) and 0 < opened[0] else f"the pictures are at {closed}, and after a click at {opened}"


def fractions_are_stacked(sheet):
    """A numerator is above its denominator, in a value, a mixed number and the heading. The text keeps its slash."""
    sheet.open("-17/12")
    boxes = "return [...document.querySelectorAll('.stack')].map((part) => [part.parentNode.textContent, ...[0, 2].map((k) => { const box = part.children[k].getBoundingClientRect(); return [box.top, box.bottom, box.left + box.width / 2]; })])"
    plain = sheet.js(boxes)
    sheet.js("mixed.checked = true; changed()")
    sheet.settle()
    for text, (_, bottom, middle), (top, _, other) in plain + sheet.js(boxes):
        if bottom > top + 1 or abs(middle - other) > 1:
            return f"the fraction of {text} is not stacked"
    texts = [row[0] for row in plain + sheet.js(boxes)]
    sheet.js("mixed.checked = false; changed()")
    return None if texts == ["-17/12", "-17/12", "-1 5/12", "-17/12"] else f"the stacked fractions are {texts}"


def pictures_are_right(sheet):
    for text in ("415/93", "-17/12", "5", "355/113", "3141592653589793/1000000000000000", "1/1000003", "0"):
        x = Fraction(text)
        sheet.open(text)
        quotients = quotients_of(x)
        wanted = [[short(str(c)), "exact" if c == x else short(str(c - x))] for c in convergents_of(quotients)][:16]
        got = sheet.js("return [...document.querySelectorAll('#continued tbody tr')].map((row) => [...row.cells].map((cell) => cell.textContent))")
        if got != wanted:
            return f"the convergents of {text} are {got}, and not {wanted}"
    return None


def beats_meet(sheet):
    for lengths in (("1/3", "1/4"), ("3/8", "5/12", "1/2"), ("12", "18"), ("x", "2 * x / 3"), ("7", "7")):
        values = [Fraction(eval(length, {"x": Fraction(3, 7)}) if "x" in length else length) for length in lengths]
        wanted = Fraction(math.lcm(*(x.numerator for x in values)), math.gcd(*(x.denominator for x in values)))
        sheet.open("x = 3/7")
        sheet.js("document.querySelectorAll('.beat').forEach((input, k) => { input.value = arguments[0][k] ?? ''; }); changed()", list(lengths))
        sheet.settle()
        said = sheet.js("return element('beats').textContent")
        dots = sheet.js("return document.querySelectorAll('#beats circle').length")
        if f"They meet at {wanted}:" not in said or dots != sum(int(wanted / x) + 1 for x in values):
            return f"{lengths} meet at {wanted}, and the page says {said!r}, with {dots} dots"
    sheet.js("element('beat-2').value = '0 - 1'; changed()")
    sheet.settle()
    said = sheet.js("return element('beats').textContent")
    return None if "second one is no length" in said else f"of a negative length the page says {said!r}"


def pictures_have_words(sheet):
    sheet.open("7/12")
    said = sheet.js("return [...document.querySelectorAll('svg')].map((one) => [one.getAttribute('role'), one.getAttribute('aria-label')])")
    return None if len(said) == 4 and all(role == "img" and words for role, words in said) else f"the pictures have the words {said}"


PICTURES = [wholes_are_right, ruler_is_right, continued_fractions_are_below, fractions_are_stacked, pictures_are_right, beats_meet, pictures_have_words]

"""Nothing is cut off or too pale, nothing comes from elsewhere, and the link carries the lines. Each check gives a sentence that says what is wrong, or None."""
import re

LEAST_CONTRAST = 4.5
LONGEST_LINK = 8000
SPECIAL = "1/2 + 1/3\n1 % 2 #&?=+\"'<>\\\n２ × 3 é 😀\n\n100% %41 %zz\n1 - 1"

# The contrast of two colours, each given as the computed style gives it, and the colours of a part of the page.
COLOURS = """
function channels(colour) { return colour.match(/[\\d.]+/g).map(Number); }
function over(top, ground) {
  const [r, g, b, a = 1] = channels(top), under = channels(ground);
  return `rgb(${[r, g, b].map((c, i) => a * c + (1 - a) * under[i]).join(" ")})`;
}
function light(colour) {
  const [r, g, b] = channels(colour).map((c) => c / 255 <= .04045 ? c / 255 / 12.92 : ((c / 255 + .055) / 1.055) ** 2.4);
  return .2126 * r + .7152 * g + .0722 * b;
}
function contrast(one, other) {
  const [low, high] = [light(one), light(other)].sort((a, b) => a - b);
  return (high + .05) / (low + .05);
}
function groundOf(part) {
  for (let at = part; at; at = at.parentElement) {
    const ground = getComputedStyle(at).backgroundColor;
    if (!/, 0\\)$/.test(ground)) return ground;
  }
  return "rgb(255 255 255)";
}
function contrastOf(part) { return contrast(getComputedStyle(part).color, groundOf(part)); }
"""


def colours_are_readable(page):
    low = page.js(COLOURS + """
        const own = (part) => part.matches("input") || [...part.childNodes].some((child) => child.nodeType === 3 && child.data.trim() !== "");
        const parts = [...document.querySelectorAll("main *")].filter((part) => part.checkVisibility() && !part.closest("svg") && own(part));
        const letters = [...document.querySelectorAll("svg text")].map((part) => [contrast(getComputedStyle(part).fill, groundOf(part.closest("div"))), part.textContent]);
        return parts.map((part) => [contrastOf(part), part.textContent.slice(0, 40)]).concat(letters).sort((a, b) => a[0] - b[0])[0];""")
    return None if low[0] >= LEAST_CONTRAST else f"the contrast of {low[1]!r} is {low[0]:.2f}, less than {LEAST_CONTRAST}"


def nothing_is_cut_off(page):
    """No part is wider than the screen, and no text is cut. Pictures may scroll."""
    return page.js("""
        const wide = document.documentElement.clientWidth;
        if (document.documentElement.scrollWidth > wide) return "the page is wider than the screen";
        const seen = [...document.querySelectorAll("main *")].filter((part) => part.checkVisibility() && !part.closest(".unseen, thead, svg, .scroll"));
        const outside = seen.find((part) => part.getBoundingClientRect().right > wide + .5 || part.getBoundingClientRect().left < -.5);
        if (outside) return `${outside.tagName} ${outside.id} is outside of the screen: ${outside.textContent.slice(0, 40)}`;
        const cut = seen.find((part) => !part.matches("input") && part.scrollWidth > part.clientWidth + 1 && part.clientWidth > 0);
        return cut ? `${cut.tagName} ${cut.id || cut.className} is cut off: ${cut.textContent.slice(0, 40)}` : null;""")


def nothing_comes_from_elsewhere(page):
    urls = page.js("return performance.getEntriesByType('resource').map((entry) => entry.name)")
    strange = [url for url in urls if not url.startswith((page.home, "data:", "blob:"))]
    source = page.js("return document.documentElement.outerHTML")
    strange += re.findall(r"""(?:src|href)=["']?(?:https?:)?//[^"' >]+|url\([^)]*\)|@import[^;]*""", source.replace(page.home, ""))
    policy = page.js("return document.querySelector('meta[http-equiv=Content-Security-Policy]')?.content || ''")
    if strange:
        return f"the page takes something from elsewhere: {strange}"
    return None if policy.startswith("default-src 'none'") else "the page has no policy that forbids what comes from elsewhere"


def named(checks, page, where=""):
    """A sentence with its name for each check that finds a fault."""
    for check in checks:
        fault = check(page)
        if fault:
            yield f"{check.__name__}{where}: {fault}"


# ---- The link

def link_carries_lines(page):
    """A link to lines with special characters opens with the same lines, which have their answers."""
    page.open(SPECIAL)
    address, answers = page.link(), page.answers()
    page.js("localStorage.clear()")
    page.load(address[len(page.address):])
    page.settle()
    if page.text() != SPECIAL:
        return "a link to lines with special characters does not carry them"
    return None if page.answers() == answers else "the lines of a link have other answers"


def changed_link_is_read(page):
    page.open()
    page.js("location.hash = '#lines=2%20%2B%202'")
    return None if page.until(lambda: page.answers() == [["4"]], 2) else "the page does not read the lines of a changed fragment"


def broken_link_is_said(page):
    page.open(SPECIAL)
    page.load("#lines=%E0%A4%A")
    told, text = page.js("return told.textContent"), page.text()
    return None if text and "could not be read" in told else f"of a broken link the page says {told!r}"


def long_link_is_said(page):
    """The longest link works, and above it a sentence says why there is none."""
    page.open()
    room = LONGEST_LINK - len(page.address + "#lines=")
    page.put("1" * room)
    address = page.link()
    page.put("1" * (room + 1))
    said, disabled = page.js("return [noLink.checkVisibility() && noLink.textContent, copyLink.disabled]")
    if page.link() or not disabled or "8,000" not in str(said):
        return f"of lines that are too long for a link the page says {said!r}"
    page.load(address[len(page.address):])
    return None if page.text() == "1" * room else "the longest link does not carry its lines"


def link_is_copied(page):
    page.open("1/2 + 1/3")
    return None if page.copied("#copy-link") == page.link() else "the button `Copy link` does not copy the link"


SHAPED = [colours_are_readable, nothing_is_cut_off]
ONCE = [nothing_comes_from_elsewhere, link_carries_lines, changed_link_is_read, broken_link_is_said, long_link_is_said, link_is_copied]

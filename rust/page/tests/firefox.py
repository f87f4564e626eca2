"""Firefox without a window, and what is tried in it. Debian has no driver of Firefox, so the tests speak its own protocol, Marionette."""
import base64
import contextlib
import json
import shutil
import socket
import subprocess
import sys
import tempfile
import time
from pathlib import Path

from selenium.common.exceptions import WebDriverException
from tests import looks, sheet, sheet_faults, sheet_pictures, sheet_use
from tests.faults import not_found

# A script of the page itself, since one of Marionette's does not see what the page names by `const` and `let`.
OF_PAGE = """
    const script = document.createElement("script");
    script.text = `document.currentScript.dataset.found = JSON.stringify((function () { ${arguments[0]} })(...${JSON.stringify(arguments[1])}) ?? null);`;
    document.head.append(script);
    script.remove();
    return script.dataset.found;"""


class Part:
    """A part of the page, as selenium's."""

    def __init__(self, driver, reference):
        self.driver = driver
        [self.id] = reference.values()

    def send_keys(self, *keys):
        self.driver.ask("WebDriver:ElementSendKeys", id=self.id, text="".join(keys))

    def click(self):
        self.driver.ask("WebDriver:ElementClick", id=self.id)

    def is_displayed(self):
        return self.driver.ask("WebDriver:IsElementDisplayed", id=self.id)["value"]

    @property
    def accessible_name(self):
        return self.driver.ask("WebDriver:GetComputedLabel", id=self.id)["value"]


class Firefox:
    """It has those calls of selenium's drivers that the checks use."""

    def __init__(self, port):
        self.connection = socket.create_connection(("127.0.0.1", port), 180)
        self.replies = self.connection.makefile("rb")
        self.count = 0
        self.heard()
        self.ask("WebDriver:NewSession")

    def heard(self):
        """The next message: its length, a colon, and JSON."""
        length = b""
        while (byte := self.replies.read(1)) != b":":
            if not byte:
                raise WebDriverException("Firefox ended")
            length += byte
        return json.loads(self.replies.read(int(length)))

    def ask(self, command, **parameters):
        self.count += 1
        message = json.dumps([0, self.count, command, parameters]).encode()
        self.connection.sendall(b"%d:%s" % (len(message), message))
        _, _, error, answer = self.heard()
        if error:
            raise WebDriverException(f"{command}: {error['message']}")
        return answer

    def get(self, address):
        self.ask("WebDriver:Navigate", url=address)

    def execute_script(self, script, *arguments):
        found = self.ask("WebDriver:ExecuteScript", script=OF_PAGE, args=[script, arguments])["value"]
        if found is None:
            raise WebDriverException(f"the page does not run: {script}")
        return json.loads(found)

    @property
    def switch_to(self):
        return self

    @property
    def active_element(self):
        return Part(self, self.ask("WebDriver:GetActiveElement")["value"])

    def find_elements(self, by, selector):
        return [Part(self, one) for one in self.ask("WebDriver:FindElements", using=by, value=selector)]

    def shaped(self, width, scheme):
        """Gives the window a width of at least 500 points. Its colours are light."""
        self.ask("WebDriver:SetWindowRect", width=width, height=900)

    def save_screenshot(self, file):
        Path(file).write_bytes(base64.b64decode(self.ask("WebDriver:TakeScreenshot", full=False)["value"]))


def port_in(profile):
    """The port that Firefox takes, which it writes into its profile."""
    file, end = profile / "MarionetteActivePort", time.monotonic() + 60
    while not (file.exists() and file.read_text()):
        if time.monotonic() > end:
            raise WebDriverException("Firefox does not start")
        time.sleep(0.1)
    return int(file.read_text())


@contextlib.contextmanager
def firefox():
    with tempfile.TemporaryDirectory(ignore_cleanup_errors=True) as name:
        profile = Path(name)
        (profile / "user.js").write_text('user_pref("marionette.port", 0);\n')
        command = ["firefox-esr", "--headless", "--marionette", "--no-remote", "--profile", name, "about:blank"]
        process = subprocess.Popen(command, stdout=subprocess.DEVNULL, stderr=subprocess.DEVNULL)
        try:
            yield Firefox(port_in(profile))
        finally:
            process.terminate()
            process.wait()


CHECKS = [*sheet.VALUES, *sheet_use.USE, *sheet_pictures.PICTURES, *looks.ONCE]
# The faults that it must find in copies of the page.
FAULTS = [fault for fault in sheet_faults.FAULTS if fault[-1] in (sheet.people_are_answered, sheet_use.caret_is_under_the_place)]


def tried(driver, address, home, folder):
    page = sheet.Sheet(driver, address + "index.html")
    driver.shaped(1280, "light")
    page.load()
    yield from looks.named(CHECKS, page, " in Firefox")
    page.open(sheet.SAMPLE)
    for width in (1280, 500):
        driver.shaped(width, "light")
        yield from looks.named(looks.SHAPED, page, f" in Firefox, {width} points wide")
        driver.save_screenshot(folder / f"firefox-{width}.png")
    yield sheet_use.one_file_works(driver, home)
    yield sheet_use.works_without_network(driver, home)
    yield from not_found(driver, home, FAULTS)


def faults(address, home, folder):
    """What is wrong in Firefox, if it is there."""
    if shutil.which("firefox-esr") is None:
        print("rust/page/test: nothing is tried in Firefox, which is missing: apt-get install firefox-esr", file=sys.stderr)
        return []
    try:
        with firefox() as driver:
            return list(tried(driver, address, home, folder))
    except (WebDriverException, OSError) as error:
        return [f"Firefox did not do what the test asked: {error}"]

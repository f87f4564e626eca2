"""What the page says where the calculator cannot run."""
import shutil
import tempfile
from pathlib import Path

from tests.browser import served
from tests.sheet import Sheet


def said_at(driver, address):
    """The sentence that the page says in place of answers."""
    page = Sheet(driver, address)
    page.load()
    return page.js("return failure.textContent")


def said_without_script(driver, address):
    driver.execute_cdp_cmd("Emulation.setScriptExecutionDisabled", {"value": True})
    try:
        driver.get(address)
        return driver.find_element("tag name", "main").text
    finally:
        driver.execute_cdp_cmd("Emulation.setScriptExecutionDisabled", {"value": False})


def faults(driver, home):
    """What is wrong in the sentence of each case."""
    with tempfile.TemporaryDirectory() as name, served(name) as server:
        for part in Sheet.PARTS:
            shutil.copy(home / part, name)
        file, address = Path(name, "index.html"), server + "index.html"
        cases = [
            ("a missing module", "is missing", said_at(driver, address)),
            ("a page from a file", "opened from a file", said_at(driver, file.as_uri())),
            ("no JavaScript", "needs JavaScript", said_without_script(driver, address)),
        ]
        Path(name, Sheet.MODULE).write_bytes(b"\0asm")
        with driver.with_script("delete globalThis.WebAssembly"):
            cases.append(("a browser without WebAssembly", "no WebAssembly", said_at(driver, address)))
        cases.append(("a broken module", "not a whole WebAssembly module", said_at(driver, address)))
    return [f"{case}: the page says {said[:200]!r}" for case, wanted, said in cases if wanted not in said]

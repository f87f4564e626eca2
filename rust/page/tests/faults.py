"""Faults in copies of a page, each of which one check must find: they are the tests of the checks."""
import shutil
import tempfile
from pathlib import Path

from tests.browser import served
from tests.sheet import Sheet


def fault_in(page, home, fault):
    """Why a fault was not found, if it was not."""
    name, file, old, new, check = fault
    source = (home / file).read_text()
    if source.count(old) != 1:
        return f"the fault `{name}` changes {source.count(old)} places of {file}, and must change one"
    (page.folder / file).write_text(source.replace(old, new))
    page.driver.shaped(1280, "light")
    found = check(page)
    (page.folder / file).write_text(source)
    if not found:
        return f"no check finds the fault `{name}`"
    print(f"found: {name}: {' '.join(found.split())[:150]}", flush=True)
    return None


def not_found(driver, home, faults):
    """A sentence for each fault that is not found in a copy of the page. A fault is a name, the file, its text, the text in its place, and the check."""
    with tempfile.TemporaryDirectory() as name, served(name) as address:
        for part in [*Sheet.PARTS, Sheet.MODULE]:
            shutil.copy(home / part, name)
        page = Sheet(driver, address + "index.html")
        page.folder = Path(name)
        return [fault_in(page, home, fault) for fault in faults]

"""What the tests of scripts share: the script as a module, one change of a text, and how the tests end.

The tests of `checks/header` are `checks/header-tests`, and so on.
"""
import importlib.machinery
import importlib.util
import sys
from pathlib import Path

TESTS = Path(sys.argv[0]).resolve()
SCRIPT = TESTS.with_name(TESTS.name.removesuffix("-tests"))
ME = f"{TESTS.parent.name}/{TESTS.name}"


def script():
    """The script that the tests are of, as a module."""
    loader = importlib.machinery.SourceFileLoader(SCRIPT.name, str(SCRIPT))
    module = importlib.util.module_from_spec(importlib.util.spec_from_loader(SCRIPT.name, loader))
    loader.exec_module(module)
    return module


def changed(text, old, new):
    """The text with one change: at the only place of `old`, or at the end if `old` is empty."""
    if old and text.count(old) != 1:
        sys.exit(f"{ME}: a text has {text.count(old)} times: {old}")
    return text.replace(old, new) if old else text + new


def written(top, files):
    """Writes files, each with the folders that it needs."""
    for name, text in files.items():
        place = Path(top, name)
        place.parent.mkdir(parents=True, exist_ok=True)
        place.write_text(text, encoding="utf-8")


def result(name, passed, wanted, got):
    """Nothing if a test passed, else what to print."""
    return "" if passed else f"{name}: wanted {wanted}\ngot {got}"


def finish(results):
    """Ends the script. It prints the results that are not empty, and how many are."""
    results = list(results)
    failed = [it for it in results if it]
    for fault in failed:
        print(f"{ME}: {fault}", file=sys.stderr)
    print(f"{ME}: {len(results) - len(failed)} passed, {len(failed)} failed")
    sys.exit(bool(failed))

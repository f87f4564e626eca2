"""Chromium without a window, and servers of folders."""
import contextlib
import functools
import http.server
import shutil
import threading

from selenium import webdriver
from selenium.webdriver.chrome.service import Service


class Chromium(webdriver.Chrome):
    def __init__(self):
        options = webdriver.ChromeOptions()
        for argument in ("--headless=new", "--no-sandbox", "--window-size=1280,900", "--disable-dev-shm-usage"):
            options.add_argument(argument)
        options.set_capability("goog:loggingPrefs", {"browser": "ALL"})
        super().__init__(service=Service(shutil.which("chromedriver")), options=options)

    def shaped(self, width, scheme):
        """Gives the page a width in points, and light or dark colours."""
        self.execute_cdp_cmd("Emulation.setDeviceMetricsOverride", {"width": width, "height": 900, "deviceScaleFactor": 1, "mobile": False})
        features = [{"name": "prefers-color-scheme", "value": scheme}, {"name": "prefers-reduced-motion", "value": "reduce"}]
        self.execute_cdp_cmd("Emulation.setEmulatedMedia", {"features": features})

    @contextlib.contextmanager
    def with_script(self, script):
        """Each page runs the script first."""
        added = self.execute_cdp_cmd("Page.addScriptToEvaluateOnNewDocument", {"source": script})
        try:
            yield
        finally:
            self.execute_cdp_cmd("Page.removeScriptToEvaluateOnNewDocument", added)

    def console_errors(self):
        return [f"the console says: {entry['message']}" for entry in self.get_log("browser") if entry["level"] == "SEVERE"]


class Quiet(http.server.SimpleHTTPRequestHandler):
    """A server that prints nothing, and whose files no browser keeps."""

    def end_headers(self):
        self.send_header("Cache-Control", "no-store")
        super().end_headers()

    def copyfile(self, source, outputfile):
        # A browser leaves a file that it needs no more.
        with contextlib.suppress(ConnectionError):
            super().copyfile(source, outputfile)

    def log_message(self, *words):
        pass


@contextlib.contextmanager
def served(folder):
    """The address of a folder, on a server of this process."""
    server = http.server.ThreadingHTTPServer(("127.0.0.1", 0), functools.partial(Quiet, directory=str(folder)))
    threading.Thread(target=server.serve_forever, daemon=True).start()
    try:
        yield f"http://127.0.0.1:{server.server_port}/"
    finally:
        server.shutdown()
        server.server_close()

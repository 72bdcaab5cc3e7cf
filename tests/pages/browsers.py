"""The browsers of this machine, each driven by what Debian has for it: Chromium by Selenium and its driver, Firefox by WebDriver
BiDi, which it speaks itself, since Debian has no driver of it.

Both answer the same calls, those of `Browser`. What is missing is told by `missing`, and nothing is installed.
"""

import base64
import json
import os
import shutil
import subprocess
import tempfile
import time
from importlib.util import find_spec
from pathlib import Path

if find_spec("selenium"):
    from selenium import webdriver
    from selenium.webdriver.chrome.service import Service
    from selenium.webdriver.common.action_chains import ActionChains
if find_spec("websocket"):
    import websocket

LIGHT, DARK, FORCED = "light", "dark", "forced colours"

# The height of the part of a page that is seen, and the sheet of paper in centimetres.
HEIGHT = 900
PAPER = {"width": 21.0, "height": 29.7}

# The longest that a browser may take to start, and to answer.
START, ANSWER = 60, 300

# Where a browser comes from when it opens a part of a page, since it doesn't open anew a page that it shows.
BLANK = "about:blank"

# Keys, as WebDriver names them.
KEYS = {"Tab": "\ue004", "Enter": "\ue007", "Space": " "}

# What the two call the parts of a page in the tree that a screen reader sees.
ROLES = {
    "table": "table",
    "columnheader": "column header",
    "rowheader": "row header",
    "checkbox": "check box",
    "checkbutton": "check box",
    "DisclosureTriangle": "fold",
    "summary": "fold",
}


class Browser:
    """A browser with one tab. `requests` and `messages` are what the page has asked for and what the console has been told
    since the page was opened, without the page itself; a `data:` address asks nothing of anybody."""

    def open(self, address):
        """Shows a page and waits until it is complete."""
        raise NotImplementedError

    def ask(self, script):
        """The value of an expression of JavaScript in the page."""
        raise NotImplementedError

    def width(self, pixels):
        raise NotImplementedError

    def colours(self, look):
        """Light, dark or forced colours, whatever those of this machine are."""
        raise NotImplementedError

    def press(self, keys):
        raise NotImplementedError

    def requests(self):
        raise NotImplementedError

    def messages(self):
        raise NotImplementedError

    def parts(self):
        """The role and the name of each part that a screen reader sees, of the roles above. Firefox gives no name to parts
        that it has not drawn yet."""
        raise NotImplementedError

    def paper(self):
        """The page as it is printed: a file PDF."""
        raise NotImplementedError

    def close(self):
        raise NotImplementedError

    def __enter__(self):
        return self

    def __exit__(self, *_):
        self.close()


class Chromium(Browser):
    name = "chromium"
    needs = {"chromium": "chromium", "chromedriver": "chromium-driver", "selenium": "python3-selenium"}

    # A container often lets nobody make a sandbox, and has little shared memory.
    WORDS = ["--headless=new", "--no-sandbox", "--disable-dev-shm-usage", "--disable-gpu"]

    def __init__(self, *words):
        options = webdriver.ChromeOptions()
        options.binary_location = shutil.which("chromium")
        for word in [*self.WORDS, *words]:
            options.add_argument(word)
        options.set_capability("goog:loggingPrefs", {"browser": "ALL", "performance": "ALL"})
        options.add_experimental_option("perfLoggingPrefs", {"enableNetwork": True, "enablePage": False})
        self.driver = webdriver.Chrome(service=Service(shutil.which("chromedriver")), options=options)
        self.driver.set_page_load_timeout(ANSWER)
        self.driver.set_script_timeout(ANSWER)
        self.version = self.driver.capabilities["browserVersion"]
        self.reader = None

    def tell(self, method, **parameters):
        """A command of the DevTools protocol."""
        return self.driver.execute_cdp_cmd(method, parameters)

    def open(self, address):
        for log in ("browser", "performance"):
            self.driver.get_log(log)
        if "#" in address:
            self.driver.get(BLANK)
        self.driver.get(address)
        self.address = address

    def ask(self, script):
        return json.loads(self.driver.execute_script(f"return JSON.stringify({script}) ?? 'null'"))

    def width(self, pixels):
        self.tell("Emulation.setDeviceMetricsOverride", width=pixels, height=HEIGHT, deviceScaleFactor=1, mobile=False)

    def colours(self, look):
        scheme = {"name": "prefers-color-scheme", "value": DARK if look == DARK else LIGHT}
        forced = {"name": "forced-colors", "value": "active" if look == FORCED else "none"}
        self.tell("Emulation.setEmulatedMedia", features=[scheme, forced])

    def press(self, keys):
        chain = ActionChains(self.driver, duration=0)
        for key in keys:
            chain.send_keys(KEYS[key])
        chain.perform()

    def requests(self):
        told = [json.loads(entry["message"])["message"] for entry in self.driver.get_log("performance")]
        asked = [event["params"]["request"]["url"] for event in told if event["method"] == "Network.requestWillBeSent"]
        return others(asked, self.address)

    def messages(self):
        return [entry["message"] for entry in self.driver.get_log("browser")]

    def parts(self):
        # Where no screen reader runs, it leaves out what it has not drawn.
        self.reader = self.reader or Chromium("--force-renderer-accessibility")
        self.reader.open(self.address)
        nodes = in_order(self.reader.tell("Accessibility.getFullAXTree")["nodes"])
        found = [(node["role"]["value"], node["name"]["value"]) for node in nodes if not node["ignored"] and "name" in node]
        return [(ROLES[role], name) for role, name in found if role in ROLES]

    def paper(self):
        inches = {f"paper{side.title()}": size / 2.54 for side, size in PAPER.items()}
        return base64.b64decode(self.tell("Page.printToPDF", **inches)["data"])

    def picture(self, width, height):
        """The top of the page, without scroll bars: a file PNG."""
        self.tell("Emulation.setScrollbarsHidden", hidden=True)
        clip = {"x": 0, "y": 0, "width": width, "height": height, "scale": 1}
        return base64.b64decode(self.tell("Page.captureScreenshot", format="png", captureBeyondViewport=True, clip=clip)["data"])

    def close(self):
        if self.reader:
            self.reader.close()
        self.driver.quit()


class Firefox(Browser):
    name = "firefox-esr"
    needs = {"firefox-esr": "firefox-esr", "websocket": "python3-websocket"}

    # BiDi has no words for colours and for what a screen reader sees. The browser's own window has them.
    WORDS = ["--headless", "--no-remote", "--remote-debugging-port=0", "--remote-allow-system-access"]
    COLOURS = """(() => {{
        const page = gBrowser.selectedBrowser.browsingContext;
        page.prefersColorSchemeOverride = "{scheme}";
        page.forcedColorsOverride = "{forced}";
    }})()"""
    READER = """(() => {
        const reader = Cc["@mozilla.org/accessibilityService;1"].getService(Ci.nsIAccessibilityService);
        const found = [];
        const walk = (part) => {
            if (!part) return;
            found.push([reader.getStringRole(part.role), part.name ?? ""]);
            for (let at = 0; at < part.childCount; at++) walk(part.getChildAt(at));
        };
        walk(reader.getAccessibleFor(gBrowser.selectedBrowser));
        return JSON.stringify(found);
    })()"""

    def __init__(self):
        self.folder = tempfile.TemporaryDirectory(ignore_cleanup_errors=True)
        words = [shutil.which("firefox-esr"), *self.WORDS, "--profile", self.folder.name, BLANK]
        quiet = {name: subprocess.DEVNULL for name in ("stdin", "stdout", "stderr")}
        self.process = subprocess.Popen(words, env=os.environ | {"HOME": self.folder.name}, **quiet)
        self.socket = websocket.create_connection(self.where(), suppress_origin=True, timeout=ANSWER)
        self.number, self.events, self.look = 0, [], LIGHT
        self.version = self.tell("session.new", capabilities={})["capabilities"]["browserVersion"]
        self.tab = self.tell("browsingContext.getTree")["contexts"][0]["context"]
        self.window = self.tell("browsingContext.getTree", **{"moz:scope": "chrome"})["contexts"][0]["context"]
        self.tell("session.subscribe", events=["log.entryAdded", "network.beforeRequestSent"])

    def where(self):
        """The address that it listens at, which it writes into its profile."""
        told = Path(self.folder.name, "WebDriverBiDiServer.json")
        for _ in range(10 * START):
            if told.exists() and told.read_text().endswith("}"):
                server = json.loads(told.read_text())
                return f"ws://{server['ws_host']}:{server['ws_port']}/session"
            time.sleep(0.1)
        self.process.kill()
        raise RuntimeError("it does not listen")

    def tell(self, method, **parameters):
        """A command of BiDi. Events that come before its answer are kept."""
        self.number += 1
        self.socket.send(json.dumps({"id": self.number, "method": method, "params": parameters}))
        while True:
            came = json.loads(self.socket.recv())
            if came.get("id") != self.number:
                self.events.append(came)
            elif came["type"] == "error":
                raise RuntimeError(f"{method}: {came['message']}")
            else:
                return came["result"]

    def evaluate(self, script, context):
        done = self.tell("script.evaluate", expression=script, target={"context": context}, awaitPromise=True)
        if done["type"] == "exception":
            raise RuntimeError(done["exceptionDetails"]["text"])
        return done["result"].get("value")

    def open(self, address):
        self.events.clear()
        for place in [BLANK, address] if "#" in address else [address]:
            self.tell("browsingContext.navigate", context=self.tab, url=place, wait="complete")
        self.address = address
        self.colours(self.look)

    def ask(self, script):
        return json.loads(self.evaluate(f"JSON.stringify({script}) ?? 'null'", self.tab))

    def width(self, pixels):
        self.tell("browsingContext.setViewport", context=self.tab, viewport={"width": pixels, "height": HEIGHT})

    def colours(self, look):
        # A page of another process knows nothing of it, so each page is told anew.
        self.look = look
        scheme, forced = (DARK if look == DARK else LIGHT), ("active" if look == FORCED else "none")
        self.evaluate(self.COLOURS.format(scheme=scheme, forced=forced), self.window)

    def press(self, keys):
        # They go to the bar of the address at first.
        self.evaluate("gBrowser.selectedBrowser.focus()", self.window)
        actions = [{"type": kind, "value": KEYS[key]} for key in keys for kind in ("keyDown", "keyUp")]
        self.tell("input.performActions", context=self.tab, actions=[{"type": "key", "id": "keys", "actions": actions}])

    def requests(self):
        told = self.told("network.beforeRequestSent")
        return others([event["request"]["url"] for event in told], self.address)

    def messages(self):
        return [event["text"] or "" for event in self.told("log.entryAdded")]

    def told(self, method):
        self.tell("session.status")
        return [event["params"] for event in self.events if event["method"] == method]

    def parts(self):
        # The page tells its window of its parts bit by bit, and late on a busy machine.
        parts, before = [], None
        end = time.monotonic() + ANSWER
        while (not parts or parts != before) and time.monotonic() < end:
            time.sleep(0.5)
            found, before = json.loads(self.evaluate(self.READER, self.window)), parts
            parts = [(ROLES[role], name) for role, name in found if role in ROLES]
        return parts

    def paper(self):
        return base64.b64decode(self.tell("browsingContext.print", context=self.tab, page=PAPER)["data"])

    def close(self):
        try:
            self.tell("browser.close")
            self.process.wait(START)
        except (OSError, RuntimeError, subprocess.TimeoutExpired, websocket.WebSocketException):
            self.process.kill()
            self.process.wait()
        self.folder.cleanup()


ALL = [Chromium, Firefox]


def in_order(nodes):
    """The nodes of a tree in the order of the page: each before those inside of it."""
    named, ordered, waiting = {node["nodeId"]: node for node in nodes}, [], [nodes[0]["nodeId"]]
    while waiting:
        node = named.get(waiting.pop())
        ordered += [node] if node else []
        waiting += reversed(node["childIds"]) if node else []
    return ordered


def others(addresses, own):
    return [address for address in addresses if address != own and not address.startswith(("data:", "about:"))]


def missing(browser):
    """The packages of Debian that a browser needs and that are not here, for this Python."""
    return [package for tool, package in browser.needs.items() if not (shutil.which(tool) or find_spec(tool))]

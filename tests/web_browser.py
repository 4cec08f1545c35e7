"""Browsers without a screen, and what the tests of the page ask of them."""
import base64
import json
import os
import socket
import subprocess
import time
import urllib.error
import urllib.request
import zlib

ELEMENT = "element-6066-11e4-a52e-4f735466cecf"
FLAGS = ["--headless=new", "--no-sandbox", "--disable-gpu", "--disable-background-networking", "--no-first-run", "--disable-dev-shm-usage",
         "--window-size=1100,1400"]


class Browser:
    """A browser with one page: what is asked of it, whichever way its commands go."""

    @staticmethod
    def wait_for(holds, why, seconds=60):
        """Waits until something holds."""
        until = time.monotonic() + seconds
        while not holds():
            if time.monotonic() > until:
                raise TimeoutError(why)
            time.sleep(0.03)

    def text(self, selector):
        return self.run("return document.querySelector(arguments[0])?.textContent", selector)

    def press(self, *keys):
        """Presses keys, where the focus is."""
        acts = [{"type": it, "value": key} for key in keys for it in ("keyDown", "keyUp")]
        self.act([{"type": "key", "id": "keys", "actions": acts}])

    def fill(self, selector, value):
        """Has this in a field, as one who types it and goes on."""
        self.run("const it = document.querySelector(arguments[0]); it.value = arguments[1]; it.onchange()", selector, value)

    def choose(self, *files):
        """Chooses files, which may be those that were chosen before, and waits for what the page shows of them."""
        self.run("delete document.body.dataset.done")
        self.type("#files", "\n".join(files))
        self.settle()

    def hold(self, *files):
        """Has files ready to be dropped, which may be gone by then."""
        self.run("document.getElementById('held')?.remove();"
                 "document.body.append(Object.assign(document.createElement('input'), { id: 'held', type: 'file', multiple: true }))")
        self.type("#held", "\n".join(files))

    def drop_held(self):
        """Drops these files, and waits for what the page shows of them. Tells the kind of the verdict that stood when they were dropped."""
        left = self.run("delete document.body.dataset.done; const data = new DataTransfer(), drop = { bubbles: true, cancelable: true, dataTransfer: data };"
                        "for (const it of document.getElementById('held').files) data.items.add(it);"
                        "document.body.dispatchEvent(new DragEvent('drop', drop)); return document.getElementById('verdict').className")
        self.settle()
        return left

    def drop(self, *files):
        self.hold(*files)
        return self.drop_held()

    def settle(self, seconds=100):
        """Waits until the page is done with the files."""
        self.wait_for(lambda: self.run("return document.body.dataset.done !== undefined"), "the page is not done", seconds)

    def save_report(self, folder, name):
        """Saves a report as a hand does, into a folder that takes nothing else, and moves it to a name. Tells what the page says then."""
        self.downloads_into(folder)
        self.click("#save-report")
        self.wait_for(lambda: not self.text("#of-report").endswith(".."), "no report is made")
        said, at = self.text("#of-report"), f"{folder}/report.html"
        if not said.startswith("There is no report"):
            self.wait_for(lambda: os.listdir(folder) == ["report.html"] and os.path.getsize(at), "no report is saved")
            os.replace(at, name)
        return said

    def screenshot(self):
        return base64.b64decode(self.shot())


class Chromium(Browser):
    """A headless Chromium, driven by WebDriver."""

    def __init__(self, driver, binary, port):
        self.base = f"http://127.0.0.1:{port}"
        self.driver = subprocess.Popen([driver, f"--port={port}", "--log-level=SEVERE"], stdout=subprocess.DEVNULL, stderr=subprocess.DEVNULL)
        self.at = ""
        try:
            self.wait_for(self.is_ready, "the driver does not begin")
            options = {"binary": binary, "args": FLAGS}
            logs = {"browser": "ALL", "performance": "ALL"}
            wanted = {"alwaysMatch": {"goog:chromeOptions": options, "goog:loggingPrefs": logs}}
            made = self.call("POST", "/session", {"capabilities": wanted})
        except BaseException:
            self.driver.kill()
            self.driver.wait()
            raise
        self.at = f"/session/{made['sessionId']}"
        self.version = made["capabilities"]["browserVersion"]

    def __enter__(self):
        return self

    def __exit__(self, *_):
        try:
            self.call("DELETE", "")
        finally:
            self.driver.terminate()
            self.driver.wait()

    def is_ready(self):
        try:
            return self.call("GET", "/status")["ready"]
        except OSError:
            return False

    def call(self, method, path, data=None):
        body = None if method != "POST" else json.dumps(data or {}).encode()
        asked = urllib.request.Request(f"{self.base}{self.at}{path}", body, {"Content-Type": "application/json"}, method=method)
        try:
            with urllib.request.urlopen(asked, timeout=120) as got:
                return json.load(got)["value"]
        except urllib.error.HTTPError as error:
            raise RuntimeError(error.read().decode(errors="replace")[:500]) from error

    def open(self, url):
        self.call("POST", "/url", {"url": url})

    def run(self, script, *words):
        """What a script in the page answers."""
        return self.call("POST", "/execute/sync", {"script": script, "args": list(words)})

    def run_later(self, script, *words):
        """What a script answers to the function that it gets as its last word."""
        return self.call("POST", "/execute/async", {"script": script, "args": list(words)})

    def type(self, selector, text):
        found = self.call("POST", "/element", {"using": "css selector", "value": selector})[ELEMENT]
        self.call("POST", f"/element/{found}/value", {"text": text})

    def click(self, selector):
        found = self.call("POST", "/element", {"using": "css selector", "value": selector})[ELEMENT]
        self.call("POST", f"/element/{found}/click")

    def downloads_into(self, folder):
        self.cdp("Browser.setDownloadBehavior", behavior="allow", downloadPath=folder)

    def act(self, actions):
        self.call("POST", "/actions", {"actions": actions})

    def shot(self):
        return self.call("GET", "/screenshot")

    def cdp(self, command, **words):
        return self.call("POST", "/goog/cdp/execute", {"cmd": command, "params": words})

    def log(self, kind):
        return self.call("POST", "/se/log", {"type": kind})

    def drop_folder(self, folder):
        """Drops a folder, as a hand does."""
        self.run("delete document.body.dataset.done")
        data = {"items": [], "files": [folder], "dragOperationsMask": 1}
        for kind in ("dragEnter", "dragOver", "drop"):
            self.cdp("Input.dispatchDragEvent", type=kind, x=400, y=200, data=data)
        self.settle()

    def resize(self, width, height):
        """Has the page in a window of this size."""
        self.cdp("Emulation.setDeviceMetricsOverride", width=width, height=height, deviceScaleFactor=1, mobile=False)

    def has_look(self, **features):
        """Has the page in a look: of a colour scheme, or with colours that are forced."""
        self.cdp("Emulation.setEmulatedMedia", features=[{"name": name.replace("_", "-"), "value": value} for name, value in features.items()])

    def requests(self):
        """The places that were asked for, since the last call."""
        found = [json.loads(it["message"])["message"] for it in self.log("performance")]
        return [it["params"]["request"]["url"] for it in found if it["method"] == "Network.requestWillBeSent"]

    def complaints(self):
        """What the browser complained of, since the last call."""
        return [it["message"] for it in self.log("browser") if it["level"] == "SEVERE"]

    def printed(self):
        return base64.b64decode(self.call("POST", "/print", {}))


class Firefox(Browser):
    """A headless Firefox with a new profile, driven by Marionette: the same commands, on a connection to Firefox itself."""

    def __init__(self, binary, profile):
        os.mkdir(profile)
        with open(f"{profile}/user.js", "w") as file:
            # (a folder that a script drops is not one that a hand has let the page read)
            file.write('user_pref("marionette.port", 0);\nuser_pref("dom.filesystem.pathcheck.disabled", true);\n')
        words = [binary, "--headless", "--marionette", "--remote-allow-system-access", "--no-remote", "--profile", profile]
        self.browser = subprocess.Popen(words, stdout=subprocess.DEVNULL, stderr=subprocess.DEVNULL)
        self.calls = 0
        try:
            self.wait_for(lambda: self.port_in(profile), "Firefox does not begin")
            self.link = socket.create_connection(("127.0.0.1", self.port_in(profile)), timeout=120)
            self.said = self.link.makefile("rb")
            self.heard()
            self.version = self.call("WebDriver:NewSession")["capabilities"]["browserVersion"]
        except BaseException:
            self.browser.kill()
            self.browser.wait()
            raise

    def __enter__(self):
        return self

    def __exit__(self, *_):
        try:
            self.call("Marionette:Quit", flags=["eForceQuit"])
            self.browser.wait(30)
        finally:
            self.browser.kill()
            self.browser.wait()
            self.said.close()
            self.link.close()

    @staticmethod
    def port_in(profile):
        """The port that Firefox has written down, or 0."""
        name = f"{profile}/MarionetteActivePort"
        if not os.path.exists(name):
            return 0
        with open(name) as file:
            return int(file.read() or 0)

    def heard(self):
        """A message: its length, a colon, and so many bytes of JSON."""
        length = b""
        while not length.endswith(b":"):
            byte = self.said.read(1)
            if not byte:
                raise ConnectionError("Firefox has ended")
            length += byte
        return json.loads(self.said.read(int(length[:-1])))

    def call(self, command, **words):
        self.calls += 1
        asked = json.dumps([0, self.calls, command, words]).encode()
        self.link.sendall(b"%d:%s" % (len(asked), asked))
        _, _, error, answer = self.heard()
        if error:
            raise RuntimeError(str(error)[:500])
        return answer

    def open(self, url):
        self.call("WebDriver:Navigate", url=url)

    def run(self, script, *words):
        """What a script in the page answers."""
        return self.call("WebDriver:ExecuteScript", script=script, args=list(words))["value"]

    def type(self, selector, text):
        found = self.call("WebDriver:FindElement", using="css selector", value=selector)["value"][ELEMENT]
        self.call("WebDriver:ElementSendKeys", id=found, text=text)

    def click(self, selector):
        found = self.call("WebDriver:FindElement", using="css selector", value=selector)["value"][ELEMENT]
        self.call("WebDriver:ElementClick", id=found)

    def downloads_into(self, folder):
        self.run_inside("Services.prefs.setIntPref('browser.download.folderList', 2); Services.prefs.setStringPref('browser.download.dir', arguments[0])", folder)

    def act(self, actions):
        self.call("WebDriver:PerformActions", actions=actions)

    def shot(self):
        return self.call("WebDriver:TakeScreenshot", full=False)["value"]

    def resize(self, width, height):
        """Has the page in a window of this size."""
        for _ in range(2):
            inner, outer = self.run("return [[innerWidth, innerHeight], [outerWidth, outerHeight]]")
            self.call("WebDriver:SetWindowRect", width=width + outer[0] - inner[0], height=height + outer[1] - inner[1])

    def has_look(self, prefers_color_scheme="light"):
        """Has the page in a look: of a colour scheme."""
        self.run_inside("Services.prefs.setIntPref('layout.css.prefers-color-scheme.content-override', arguments[0])", ["dark", "light"].index(prefers_color_scheme))

    def run_inside(self, script, *words):
        """What a script of the browser's own answers."""
        self.call("Marionette:SetContext", value="chrome")
        self.run(script, *words)
        self.call("Marionette:SetContext", value="content")

    def drop_folder(self, folder):
        """Drops a folder, by a script of the browser's own, which may make a file of a folder."""
        script = """const place = Components.classes["@mozilla.org/file/local;1"].createInstance(Components.interfaces.nsIFile);
            place.initWithPath(arguments[0]);
            const given = new DataTransfer(), page = window.wrappedJSObject, data = new page.DataTransfer(), how = new page.Object();
            given.mozSetDataAt("application/x-moz-file", place, 0);
            data.items.add(given.files[0]);
            Object.assign(how, { bubbles: true, cancelable: true, dataTransfer: data });
            delete page.document.body.dataset.done;
            page.document.body.dispatchEvent(new page.DragEvent("drop", how))"""
        self.call("WebDriver:ExecuteScript", script=script, args=[folder], sandbox="system")
        self.settle()


def rows_of(png):
    """How many different rows a picture has. They are told apart as they are packed, where the rows of an empty page are alike."""
    width, depth, kind = int.from_bytes(png[16:20], "big"), png[24], png[25]
    packed, at = b"", 8
    while at < len(png):
        length = int.from_bytes(png[at:at + 4], "big")
        if png[at + 4:at + 8] == b"IDAT":
            packed += png[at + 8:at + 8 + length]
        at += length + 12
    data = zlib.decompress(packed)
    size = 1 + width * depth // 8 * {0: 1, 2: 3, 6: 4}[kind]
    return len({data[it:it + size] for it in range(0, len(data), size)})

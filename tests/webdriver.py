"""Headless Chromium, driven through chromedriver by the protocol of W3C WebDriver, without libraries."""
import base64, json, re, subprocess, time, urllib.error, urllib.request

from running import started

KEYS = {"Enter": "\ue007", "Tab": "\ue004", "Escape": "\ue00c", "Backspace": "\ue003", "Left": "\ue012", "Up": "\ue013",
        "Right": "\ue014", "Down": "\ue015", "Shift": "\ue008", "Control": "\ue009"}
ELEMENT = "element-6066-11e4-a52e-4f735466cecf"


class Failed(Exception):
    """What a browser was asked for and couldn't do, or what isn't as the documents tell it."""


def expect(what, got, wanted):
    if got != wanted:
        raise Failed(f"{what}: {got!r}, and not {wanted!r}")


def expect_in(what, part, whole):
    if part not in whole:
        raise Failed(f"{what}: {part!r} isn't in {whole!r}")


def noted(lines, seen):
    """Passes lines on and keeps them in `seen`."""
    for line in lines:
        seen.append(line.strip())
        yield line


class Driver:
    """A chromedriver on a port that it found free."""

    def __init__(self):
        # Two that start at once may find the same port free, and then one of them ends: it is started again.
        for _ in range(10):
            self.process = started(["chromedriver", "--port=0"], stdin=subprocess.DEVNULL, stdout=subprocess.PIPE, stderr=subprocess.STDOUT, text=True)
            lines = []
            told = next((found for found in map(re.compile(r"on port ([1-9]\d*)").search, noted(self.process.stdout, lines)) if found), None)
            if told is not None:
                break
            self.process.stdout.close()
            status = self.process.wait()
            time.sleep(0.5)
        else:
            raise Failed(f"chromedriver ended with status {status}: {' '.join(lines)[-400:]}")
        self.port = int(told[1])
        self.sessions = []

    def call(self, method, path, body=None):
        data = None if body is None else json.dumps(body).encode()
        request = urllib.request.Request(f"http://127.0.0.1:{self.port}{path}", data, method=method)
        request.add_header("Content-Type", "application/json")
        try:
            with urllib.request.urlopen(request, timeout=120) as response:
                return json.load(response)["value"]
        except urllib.error.HTTPError as error:
            raise Failed(f"{method} {path}: {error.read().decode()[:400]}")

    def stop(self):
        for session in self.sessions:
            try:
                self.call("DELETE", session)
            except (OSError, Failed):
                pass
        self.process.terminate()
        self.process.wait()
        self.process.stdout.close()


class Browser:
    """One browser with a profile of its own."""

    def __init__(self, driver, size="1100,800", dark=False, insecure=False):
        self.driver = driver
        args = ["--headless=new", "--no-sandbox", "--disable-gpu", "--disable-dev-shm-usage", "--disable-background-networking", f"--window-size={size}"]
        if dark:
            args.append("--force-dark-mode")
        options = {"args": args, "prefs": {"profile.default_content_setting_values.clipboard": 1}}
        wanted = {"browserName": "chrome", "goog:chromeOptions": options, "goog:loggingPrefs": {"browser": "ALL"}, "unhandledPromptBehavior": "accept",
                  "acceptInsecureCerts": insecure}
        self.session = "/session/" + driver.call("POST", "/session", {"capabilities": {"alwaysMatch": wanted}})["sessionId"]
        driver.sessions.append(self.session)

    def call(self, method, path, body=None):
        return self.driver.call(method, self.session + path, body)

    def close(self):
        self.driver.call("DELETE", self.session)
        self.driver.sessions.remove(self.session)

    def go(self, address):
        self.call("POST", "/url", {"url": address})

    def address(self):
        return self.call("GET", "/url")

    def script(self, text, *given):
        return self.call("POST", "/execute/sync", {"script": text, "args": list(given)})

    def wait_script(self, text, *given):
        """The value that an async function of this text gives."""
        wrapped = f"const done = arguments[arguments.length - 1]; (async (...given) => {{ {text} }})(...arguments).then(done, (e) => done('error: ' + e));"
        return self.call("POST", "/execute/async", {"script": wrapped, "args": list(given)})

    def find(self, selector):
        return self.call("POST", "/elements", {"using": "css selector", "value": selector})

    def texts(self, selector):
        return self.script("return [...document.querySelectorAll(arguments[0])].map((it) => it.innerText)", selector)

    def click(self, selector):
        found = self.find(selector)
        if not found:
            raise Failed(f"there is no {selector}")
        self.call("POST", f"/element/{found[0][ELEMENT]}/click", {})

    def button(self, text, within=""):
        """Clicks the first visible button with this text."""
        self.until(lambda: self.labelled(text, within), f"a button {text}")
        self.call("POST", f"/element/{self.labelled(text, within)[ELEMENT]}/click", {})

    def labelled(self, text, within):
        return self.script("""return [...document.querySelectorAll(arguments[1] + ' button')]
            .find((it) => it.textContent.trim() === arguments[0] && it.offsetParent !== null) || null""", text, within)

    def keys(self, *given):
        """Presses keys one after the other: names of KEYS, or the letters of a text."""
        pressed = []
        for key in given:
            for one in ([KEYS[key]] if key in KEYS else key):
                pressed += [{"type": "keyDown", "value": one}, {"type": "keyUp", "value": one}]
        self.call("POST", "/actions", {"actions": [{"type": "key", "id": "keys", "actions": pressed}]})

    def chord(self, held, key):
        """Presses a key while another one is held."""
        order = [("keyDown", KEYS[held]), ("keyDown", key), ("keyUp", key), ("keyUp", KEYS[held])]
        self.call("POST", "/actions", {"actions": [{"type": "key", "id": "keys", "actions": [{"type": it, "value": value} for it, value in order]}]})

    def cdp(self, command, **given):
        return self.call("POST", "/goog/cdp/execute", {"cmd": command, "params": given})

    def busy(self, action):
        """How many milliseconds the page's own thread works while something is done."""
        self.cdp("Performance.enable", timeDomain="threadTicks")
        before = self.work()
        action()
        return 1000 * (self.work() - before)

    def work(self):
        return next(it["value"] for it in self.cdp("Performance.getMetrics")["metrics"] if it["name"] == "TaskDuration")

    def look(self, scheme, width, height):
        """Takes a colour scheme and the size of a screen, and wants as little motion as can be."""
        wanted = [{"name": "prefers-color-scheme", "value": scheme}, {"name": "prefers-reduced-motion", "value": "reduce"}]
        self.cdp("Emulation.setEmulatedMedia", features=wanted)
        self.cdp("Emulation.setDeviceMetricsOverride", width=width, height=height, deviceScaleFactor=1, mobile=False)

    def offline(self, is_off):
        """Takes the network away, or gives it back."""
        conditions = {"offline": is_off, "latency": 0, "download_throughput": -1, "upload_throughput": -1}
        self.call("POST", "/chromium/network_conditions", {"network_conditions": conditions})

    def windows(self):
        return self.call("GET", "/window/handles")

    def window(self, handle):
        self.call("POST", "/window", {"handle": handle})

    def new_window(self):
        """Opens a page in a window of its own, and goes there."""
        handle = self.call("POST", "/window/new", {"type": "window"})["handle"]
        self.window(handle)
        return handle

    def crash(self):
        """Ends the process of the page, with all pages that it has."""
        try:
            self.cdp("Page.crash")
        except (Failed, OSError):
            pass

    def enter(self, selector):
        """Goes into a frame; without one, out of all."""
        found = self.find(selector)[0] if selector else None
        self.call("POST", "/frame", {"id": found})

    def until(self, test, what, seconds=30):
        """Waits until the test gives something, and returns that."""
        end = time.time() + seconds
        while True:
            got = test()
            if got:
                return got
            if time.time() > end:
                raise Failed(f"in {seconds} s there was not: {what}")
            time.sleep(0.05)

    def picture(self, path):
        with open(path, "wb") as file:
            file.write(base64.b64decode(self.call("GET", "/screenshot")))

    def logs(self):
        return [it["message"] for it in self.call("POST", "/se/log", {"type": "browser"})]

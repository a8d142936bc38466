"""Browsers without a window, driven by the protocols that they bring: Chromium, Firefox and WebKitGTK."""

import base64
import http.client
import json
import os
import shutil
import socket
import subprocess
import tempfile
import time

MINI_BROWSER = "/usr/lib/x86_64-linux-gnu/webkit2gtk-4.{}/MiniBrowser"
CHROMIUM_WORDS = ["--headless=new", "--no-sandbox", "--disable-gpu", "--disable-dev-shm-usage", "--hide-scrollbars", "--force-color-profile=srgb"]
START_SECONDS, SCRIPT_SECONDS = 60, 1800


class Missing(Exception):
    """A browser or its driver is not on this machine."""


class Failed(Exception):
    """A browser refused a command."""


def need(*programs):
    """Returns the paths of programs. Raises Missing if one is not here."""
    missing = [it for it in programs if not shutil.which(it)]
    if missing:
        raise Missing(", ".join(missing))
    return [shutil.which(it) for it in programs]


def free_port():
    with socket.socket() as it:
        it.bind(("127.0.0.1", 0))
        return it.getsockname()[1]


def await_port(port, process):
    """Waits until a program listens."""
    end = time.monotonic() + START_SECONDS
    while time.monotonic() < end and process.poll() is None:
        try:
            return socket.create_connection(("127.0.0.1", port), 5)
        except OSError:
            time.sleep(0.1)
    raise Failed(f"{process.args[0]} does not listen")


class Browser:
    """A browser with one page. `send` makes a command of WebDriver."""

    def __init__(self):
        self.processes, self.directories = [], []

    def start(self, words, **how):
        process = subprocess.Popen(words, stdout=subprocess.DEVNULL, stderr=subprocess.DEVNULL, **how)
        self.processes.append(process)
        return process

    def directory(self):
        self.directories.append(tempfile.mkdtemp(prefix="check-web-"))
        return self.directories[-1]

    def open(self, url):
        raise NotImplementedError

    def run(self, script, *arguments):
        """Returns what the body of a function returns in the page."""
        raise NotImplementedError

    def wait(self, script, *arguments, seconds=60):
        """Runs a script until it returns something true, and returns that."""
        end = time.monotonic() + seconds
        while True:
            found = self.run(script, *arguments)
            if found:
                return found
            if time.monotonic() > end:
                raise Failed(f"not within {seconds} s: {script[:200]}")
            time.sleep(0.05)

    def close(self):
        for process in reversed(self.processes):
            process.terminate()
            try:
                process.wait(10)
            except subprocess.TimeoutExpired:
                process.kill()
        for directory in self.directories:
            shutil.rmtree(directory, ignore_errors=True)


class WebDriver(Browser):
    """A browser with a driver that speaks WebDriver over HTTP."""

    def connect(self, words, capabilities, **how):
        self.port = free_port()
        await_port(self.port, self.start([*words, f"--port={self.port}"], **how)).close()
        found = self.request("POST", "/session", {"capabilities": {"alwaysMatch": capabilities}})
        self.session = f"/session/{found['sessionId']}"
        self.version = f"{found['capabilities']['browserName']} {found['capabilities']['browserVersion']}"
        self.send("POST", "/timeouts", {"script": SCRIPT_SECONDS * 1000})

    def request(self, method, path, body=None):
        connection = http.client.HTTPConnection("127.0.0.1", self.port, timeout=SCRIPT_SECONDS)
        connection.request(method, path, None if body is None else json.dumps(body), {"Content-Type": "application/json"})
        value = json.loads(connection.getresponse().read())["value"]
        connection.close()
        if isinstance(value, dict) and "error" in value:
            raise Failed(f"{value['error']}: {value['message'][:600]}")
        return value

    def send(self, method, path, body=None):
        return self.request(method, self.session + path, body)

    def open(self, url):
        self.send("POST", "/url", {"url": url})

    def run(self, script, *arguments):
        return self.send("POST", "/execute/sync", {"script": script, "args": list(arguments)})

    def screenshot(self):
        return base64.b64decode(self.send("GET", "/screenshot"))

    def resize(self, width, height):
        self.send("POST", "/window/rect", {"width": width, "height": height})

    def close(self):
        try:
            self.send("DELETE", "")
        except (Failed, OSError, AttributeError):
            pass
        super().close()


class Chromium(WebDriver):
    name = "Chromium"

    def __init__(self):
        super().__init__()
        browser, driver = need("chromium", "chromedriver")
        options = {"binary": browser, "args": [*CHROMIUM_WORDS, f"--user-data-dir={self.directory()}"]}
        self.connect([driver], {"goog:chromeOptions": options})

    def command(self, name, parameters):
        """Makes a command of the DevTools protocol."""
        return self.send("POST", "/goog/cdp/execute", {"cmd": name, "params": parameters})

    def resize(self, width, height):
        self.command("Emulation.setDeviceMetricsOverride", {"width": width, "height": height, "deviceScaleFactor": 1, "mobile": width < 600})
        self.command("Emulation.setTouchEmulationEnabled", {"enabled": width < 600})

    def prefer(self, scheme):
        """Has the page see a preference for light or dark."""
        self.command("Emulation.setEmulatedMedia", {"features": [{"name": "prefers-color-scheme", "value": scheme}]})


class WebKit(WebDriver):
    name = "WebKitGTK"

    def __init__(self):
        super().__init__()
        driver, display_server = need("WebKitWebDriver", "Xvfb")
        browser = next((it for it in map(MINI_BROWSER.format, (1, 0)) if os.path.exists(it)), None)
        if not browser:
            raise Missing("MiniBrowser")
        display = f":{90 + os.getpid() % 800}"
        self.start([display_server, display, "-screen", "0", "1280x1000x24", "-nolisten", "tcp"])
        time.sleep(1)
        environment = {**os.environ, "DISPLAY": display, "WEBKIT_DISABLE_SANDBOX_THIS_IS_DANGEROUS": "1", "HOME": self.directory()}
        options = {"binary": browser, "args": ["--automation"]}
        self.connect([driver], {"webkitgtk:browserOptions": options}, env=environment)


class Firefox(Browser):
    """Firefox by Marionette, its own protocol: lengths and JSON over a socket."""

    name = "Firefox"

    def __init__(self):
        super().__init__()
        (browser,) = need("firefox-esr")
        port, profile = free_port(), self.directory()
        preferences = {"marionette.port": port, "browser.shell.checkDefaultBrowser": False, "datareporting.policy.dataSubmissionEnabled": False}
        preferences |= {"app.update.enabled": False, "browser.startup.homepage_override.mstone": "ignore"}
        with open(os.path.join(profile, "user.js"), "w", encoding="utf-8") as file:
            file.writelines(f"user_pref({json.dumps(name)}, {json.dumps(value)});\n" for name, value in preferences.items())
        words = [browser, "--headless", "--marionette", "--no-remote", "--profile", profile, "--width", "1280", "--height", "1000"]
        process = self.start(words, env={**os.environ, "HOME": profile, "MOZ_HEADLESS": "1"})
        self.socket, self.count = await_port(port, process), 0
        self.socket.settimeout(SCRIPT_SECONDS)
        self.receive()
        found = self.send("WebDriver:NewSession", {"capabilities": {"alwaysMatch": {"timeouts": {"script": SCRIPT_SECONDS * 1000}}}})
        self.version = f"{found['capabilities']['browserName']} {found['capabilities']['browserVersion']}"

    def receive(self):
        length = b""
        while not length.endswith(b":"):
            length += self.socket.recv(1)
        data, size = b"", int(length[:-1])
        while len(data) < size:
            data += self.socket.recv(size - len(data))
        return json.loads(data)

    def send(self, command, parameters):
        self.count += 1
        data = json.dumps([0, self.count, command, parameters]).encode()
        self.socket.sendall(b"%d:%s" % (len(data), data))
        _, _, error, found = self.receive()
        if error:
            raise Failed(f"{error['error']}: {error['message'][:600]}")
        return found["value"] if isinstance(found, dict) and list(found) == ["value"] else found

    def open(self, url):
        self.send("WebDriver:Navigate", {"url": url})

    def run(self, script, *arguments):
        return self.send("WebDriver:ExecuteScript", {"script": script, "args": list(arguments)})

    def screenshot(self):
        return base64.b64decode(self.send("WebDriver:TakeScreenshot", {"full": False}))

    def resize(self, width, height):
        self.send("WebDriver:SetWindowRect", {"width": width, "height": height})

    def close(self):
        try:
            self.send("Marionette:Quit", {"flags": ["eForceQuit"]})
        except (Failed, OSError, AttributeError, ValueError):
            pass
        super().close()


ENGINES = {it.name: it for it in (Chromium, Firefox, WebKit)}

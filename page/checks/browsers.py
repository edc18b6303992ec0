"""The browsers for the cases of page/check: Debian's Chromium and Firefox, without a screen."""

import contextlib
import json
import os
import shutil
import socket
import subprocess
import tempfile

from selenium import webdriver
from selenium.common.exceptions import WebDriverException
from selenium.webdriver.chrome.service import Service

from clients import wait_for

# A name of another site, which the browsers take for this machine's.
FOREIGN = "evil.test"
# The roles of what must have a name for a screen reader, and what has them.
NAMED = ("button", "link", "textbox", "searchbox", "combobox", "checkbox", "grid")
CONTROLS = "button, a[href], input, select, textarea, [role=grid]"


class Chromium(webdriver.Chrome):
    """Chromium with a page of this size."""

    needs = ["chromium", "chromedriver"]
    # What it says of a name to which nginx gives no handshake.
    refusal = "ERR_SSL_UNRECOGNIZED_NAME_ALERT"

    def __init__(self, width, height, is_phone, is_dark):
        options = webdriver.ChromeOptions()
        options.set_capability("goog:loggingPrefs", {"browser": "ALL", "performance": "ALL"})
        if is_phone:
            size = {"width": width, "height": height, "pixelRatio": 2}
            options.add_experimental_option("mobileEmulation", {"deviceMetrics": size})
        flags = ["--headless=new", "--no-sandbox", "--ignore-certificate-errors", "--disable-gpu"]
        flags += [f"--window-size={width},{height}", "--lang=en-GB"]
        flags += [f"--host-resolver-rules=MAP {FOREIGN} 127.0.0.1"]
        for flag in [*flags, *["--force-dark-mode"] * is_dark]:
            options.add_argument(flag)
        super().__init__(service=Service("/usr/bin/chromedriver"), options=options)
        if is_dark:
            features = [{"name": "prefers-color-scheme", "value": "dark"}]
            self.execute_cdp_cmd("Emulation.setEmulatedMedia", {"features": features})

    def urls(self):
        """What it asked for since this was called last."""
        entries = [json.loads(it["message"])["message"] for it in self.get_log("performance")]
        asked = [it for it in entries if it["method"] == "Network.requestWillBeSent"]
        return [it["params"]["request"]["url"] for it in asked]

    def nameless(self):
        """The roles of what a screen reader has no name for."""
        self.execute_cdp_cmd("Accessibility.enable", {})
        nodes = self.execute_cdp_cmd("Accessibility.getFullAXTree", {})["nodes"]
        nodes = [it for it in nodes if not it.get("ignored") and it["role"]["value"] in NAMED]
        return [it["role"]["value"] for it in nodes if not it["name"]["value"]]


# Selenium's names of the commands that the cases give, and Firefox's own. Debian has no
# geckodriver, which turns those of WebDriver into these.
COMMANDS = {
    "newSession": "NewSession", "get": "Navigate", "getTitle": "GetTitle", "goBack": "Back",
    "refresh": "Refresh", "setTimeouts": "SetTimeouts", "w3cExecuteScript": "ExecuteScript",
    "findElement": "FindElement", "findElements": "FindElements",
    "w3cGetActiveElement": "GetActiveElement", "getElementText": "GetElementText",
    "getElementTagName": "GetElementTagName", "getElementAriaLabel": "GetComputedLabel",
    "sendKeysToElement": "ElementSendKeys", "clickElement": "ElementClick",
    "actions": "PerformActions", "newWindow": "NewWindow", "switchToWindow": "SwitchToWindow",
    "w3cGetCurrentWindowHandle": "GetWindowHandle", "setWindowRect": "SetWindowRect",
    "screenshot": "TakeScreenshot", "printPage": "Print",
}
# No question before the password, nor for that of another site's frame or script, which is asked of
# a person; and no request to its makers.
SETTINGS = {
    "marionette.port": 0, "network.auth.confirmAuth.enabled": False,
    "network.auth.subresource-http-auth-allow": 1, "network.dns.localDomains": FOREIGN,
    "browser.shell.checkDefaultBrowser": False, "browser.safebrowsing.update.enabled": False,
    "datareporting.policy.dataSubmissionEnabled": False, "app.normandy.enabled": False,
    "intl.accept_languages": "en-GB",
}
# How long Firefox may take to start, in seconds.
STARTED = 120
# What notes each request of a site's page, in the window of the browser itself.
NOTES = """
window.popboxAsked = [];
Services.obs.addObserver((it) => {
  const channel = it.QueryInterface(Ci.nsIHttpChannel);
  if (!channel.loadInfo.loadingPrincipal?.isSystemPrincipal) popboxAsked.push(channel.URI.spec);
}, 'http-on-modify-request');
"""
TAKES = "const all = window.popboxAsked; window.popboxAsked = []; return all;"
# A page as narrow as a phone's, which a window of Firefox can't be.
NARROWS = """
for (const side of ['min-width', 'max-width'])
  gBrowser.selectedBrowser.style.setProperty(side, `${arguments[0]}px`, 'important');
"""
SHOWN = "return [...document.querySelectorAll(arguments[0])].filter((it) => it.checkVisibility())"


class Marionette:
    """Firefox, which takes the commands that Selenium has for a server of WebDriver."""

    def __init__(self, settings):
        self.profile, self.number, self.line = tempfile.mkdtemp(), 0, None
        with open(f"{self.profile}/user.js", "w", encoding="ascii") as file:
            for name, value in {**SETTINGS, **settings}.items():
                file.write(f"user_pref({json.dumps(name)}, {json.dumps(value)});\n")
        words = ["firefox-esr", "--headless", "--marionette", "--remote-allow-system-access"]
        how = {"stdout": subprocess.DEVNULL, "stderr": subprocess.DEVNULL}
        how["env"] = {**os.environ, "HOME": self.profile}
        self.run = subprocess.Popen([*words, "--no-remote", "--profile", self.profile], **how)
        try:
            wait_for(self.is_open, "Firefox isn't there", STARTED)
            self.reader = self.line.makefile("rb")
            self.heard()
        except BaseException:
            self.close()
            raise

    def is_open(self):
        with contextlib.suppress(OSError, ValueError):
            with open(f"{self.profile}/MarionetteActivePort", encoding="ascii") as file:
                self.line = socket.create_connection(("127.0.0.1", int(file.read())))
        return self.line

    def heard(self):
        """The next message of Firefox: its length, a colon, and JSON."""
        length = b""
        while not length.endswith(b":"):
            octet = self.reader.read(1)
            if not octet:
                raise WebDriverException("Firefox ended")
            length += octet
        return json.loads(self.reader.read(int(length[:-1])))

    def asked(self, command, words):
        self.number += 1
        text = json.dumps([0, self.number, command, words]).encode()
        self.line.sendall(b"%d:%s" % (len(text), text))
        _, _, error, found = self.heard()
        if error:
            raise WebDriverException(f"{error['error']}: {error['message']}")
        return found

    def execute(self, name, words):
        """Does what Selenium asks of a browser."""
        if name == "quit":
            return {"value": None}
        words = {key: it for key, it in (words or {}).items() if key != "sessionId"}
        if name == "newSession":
            words = {"acceptInsecureCerts": True}
        found = self.asked(f"WebDriver:{COMMANDS[name]}", words)
        is_value = isinstance(found, dict) and [*found] == ["value"]
        return {"value": found["value"] if is_value else found}

    def in_browser(self, script, *words):
        """Runs a script in the browser's own window, and not in the page."""
        self.asked("Marionette:SetContext", {"value": "chrome"})
        try:
            how = {"script": script, "args": words, "sandbox": "system"}
            return self.asked("WebDriver:ExecuteScript", how)["value"]
        finally:
            self.asked("Marionette:SetContext", {"value": "content"})

    def close(self):
        if self.line:
            self.line.close()
        self.run.terminate()
        with contextlib.suppress(subprocess.TimeoutExpired):
            self.run.wait(timeout=20)
        self.run.kill()
        self.run.wait()
        shutil.rmtree(self.profile, ignore_errors=True)


class Firefox(webdriver.Remote):
    """Firefox with a page of this size."""

    needs = ["firefox-esr"]
    refusal = "about:neterror?e=nssFailure2"

    def __init__(self, width, height, is_phone, is_dark):
        # 0 is dark, 1 is light.
        scheme = {"layout.css.prefers-color-scheme.content-override": int(not is_dark)}
        self.firefox = Marionette(scheme)
        try:
            super().__init__(self.firefox, options=webdriver.FirefoxOptions())
            self.set_window_rect(0, 0, width, height)
            self.firefox.in_browser(NOTES)
            if is_phone:
                self.firefox.in_browser(NARROWS, width)
        except BaseException:
            self.firefox.close()
            raise

    def start_client(self):
        """There is nothing to start: Firefox runs."""

    def urls(self):
        """What its pages asked for since this was called last."""
        return self.firefox.in_browser(TAKES)

    def nameless(self):
        """The tags of what a screen reader has no name for."""
        shown = self.execute_script(SHOWN, CONTROLS)
        return [it.tag_name for it in shown if not it.accessible_name]

#!/usr/bin/env python3
"""Opens a page in Debian's chromium, takes pictures of it, and says what it does that it must not: page_look.py URL FOLDER NAME

A page is to ask for nothing but itself, to have no element `script`, and to bring no word onto the browser's console, neither as the page's
nor as the browser's own (a policy that was broken, a text that can't be read). It is looked at 1280 and 390 wide, light and dark, for a second each;
the pictures are NAME-wide-light.png, NAME-wide-dark.png, NAME-phone-light.png and NAME-phone-dark.png in the folder, and NAME-dom.html
is the page as the browser has it. The browser is spoken to by its DevTools protocol, over a pair of pipes."""
import base64
import json
import os
import select
import subprocess
import sys
import tempfile
import time

SIZES = {"wide": (1280, 1900), "phone": (390, 3600)}
LIMIT = 60.0


class Browser:
    """A browser without a window, which reads messages at descriptor 3 and writes them at 4, each with an octet 00 behind it."""

    def __init__(self, profile):
        told, self.input = os.pipe()
        self.output, tells = os.pipe()
        line = ["chromium", "--headless", "--no-sandbox", "--disable-gpu", "--hide-scrollbars", "--no-first-run", "--disable-background-networking",
                f"--user-data-dir={profile}", "--remote-debugging-pipe", "about:blank"]
        shell = ["sh", "-c", f'exec "$@" 3<&{told} 4>&{tells}', "sh", *line]
        self.process = subprocess.Popen(shell, pass_fds=(told, tells), stdout=subprocess.DEVNULL, stderr=subprocess.DEVNULL)
        os.close(told)
        os.close(tells)
        self.number, self.buffer, self.events, self.session = 0, b"", [], None

    def read(self, limit):
        """The next message within so many seconds, or None."""
        end = time.monotonic() + limit
        while b"\0" not in self.buffer:
            left = end - time.monotonic()
            if left <= 0 or not select.select([self.output], [], [], left)[0]:
                return None
            piece = os.read(self.output, 1 << 20)
            if not piece:
                raise SystemExit("the browser has ended")
            self.buffer += piece
        message, self.buffer = self.buffer.split(b"\0", 1)
        return json.loads(message)

    def call(self, method, **parameters):
        """Has the browser do it, keeps the events that come meanwhile, and answers its result."""
        self.number += 1
        message = {"id": self.number, "method": method, "params": parameters}
        if self.session:
            message["sessionId"] = self.session
        octets = json.dumps(message).encode() + b"\0"
        while octets:
            octets = octets[os.write(self.input, octets):]
        end = time.monotonic() + LIMIT
        while (answer := self.read(end - time.monotonic())) is not None:
            if answer.get("id") == self.number:
                if "error" in answer:
                    raise SystemExit(f"{method}: {answer['error']['message']}")
                return answer["result"]
            self.events.append(answer)
        raise SystemExit(f"{method}: no answer")

    def listen(self, seconds):
        end = time.monotonic() + seconds
        while (event := self.read(end - time.monotonic())) is not None:
            self.events.append(event)

    def await_event(self, method):
        end = time.monotonic() + LIMIT
        while not any(event.get("method") == method for event in self.events):
            if time.monotonic() > end:
                raise SystemExit(f"{method} doesn't come")
            self.listen(0.1)

    def close(self):
        self.process.kill()
        self.process.wait()


def faults(events, url):
    """What the page did that it must not."""
    wrong = []
    for event in events:
        method, it = event.get("method"), event.get("params", {})
        if method == "Network.requestWillBeSent" and it["request"]["url"].split("#")[0] != url:
            wrong.append(f"it asks for {it['request']['url'][:200]}")
        elif method == "Network.webSocketCreated":
            wrong.append(f"it asks for {it['url'][:200]}")
        elif method == "Network.loadingFailed":
            wrong.append(f"a request failed: {it['errorText']}")
        elif method == "Runtime.consoleAPICalled":
            wrong.append("on the console: " + " ".join(str(one.get("value")) for one in it["args"])[:200])
        elif method == "Runtime.exceptionThrown":
            wrong.append("on the console: " + it["exceptionDetails"]["text"][:200])
        elif method == "Log.entryAdded":
            wrong.append(f"on the console: {it['entry']['source']}: {it['entry']['text'][:200]}")
    return wrong


def look(browser, url, folder, name):
    browser.session = None
    target = browser.call("Target.createTarget", url="about:blank")["targetId"]
    browser.session = browser.call("Target.attachToTarget", targetId=target, flatten=True)["sessionId"]
    for domain in ("Page", "Network", "Runtime", "Log"):
        browser.call(f"{domain}.enable")
    browser.listen(0.5)
    browser.events.clear()
    browser.call("Page.navigate", url=url)
    browser.await_event("Page.loadEventFired")
    for size, (width, height) in SIZES.items():
        browser.call("Emulation.setDeviceMetricsOverride", width=width, height=height, deviceScaleFactor=1, mobile=size == "phone")
        for scheme in ("light", "dark"):
            browser.call("Emulation.setEmulatedMedia", features=[{"name": "prefers-color-scheme", "value": scheme}])
            browser.listen(1)
            picture = browser.call("Page.captureScreenshot", format="png")["data"]
            with open(f"{folder}/{name}-{size}-{scheme}.png", "wb") as file:
                file.write(base64.b64decode(picture))
    said = browser.call("Runtime.evaluate", expression="document.documentElement.outerHTML", returnByValue=True)["result"]["value"]
    with open(f"{folder}/{name}-dom.html", "w", encoding="utf-8") as file:
        file.write("<!DOCTYPE html>" + said)
    scripts = browser.call("Runtime.evaluate", expression="document.scripts.length", returnByValue=True)["result"]["value"]
    requests = sum(event.get("method") == "Network.requestWillBeSent" for event in browser.events)
    return requests, faults(browser.events, url) + ([f"{scripts} elements script"] if scripts else [])


if __name__ == "__main__":
    url, folder, name = sys.argv[1:]
    with tempfile.TemporaryDirectory(ignore_cleanup_errors=True) as profile:
        browser = Browser(profile)
        try:
            requests, wrong = look(browser, url, folder, name)
        finally:
            browser.close()
    for it in wrong:
        print(f"{name}: {it}")
    print(f"{name}: {requests} requests, {len(wrong)} faults")
    sys.exit(bool(wrong) or requests == 0)

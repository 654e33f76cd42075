"""A page in a headless Chromium, driven through the pipe of the DevTools protocol."""
import json
import os
import shutil
import subprocess
import tempfile
import time

NAMES = ("chromium", "chromium-browser", "google-chrome", "google-chrome-stable", "chrome")


def found():
    """The browser that is here, or None."""
    return next(filter(None, map(shutil.which, NAMES)), None)


class Page:
    """One page. Files that it downloads come into `downloads`."""

    def __init__(self, browser, address, size=(1100, 900)):
        self.folder = tempfile.mkdtemp()
        self.downloads = os.path.join(self.folder, "downloads")
        os.mkdir(self.downloads)
        theirs, self.out = os.pipe()
        self.into, to_us = os.pipe()
        # The browser reads from 3 and writes to 4. Ours may have these numbers: both are moved out of the way first.
        script = f"exec 208<&{theirs} 209>&{to_us} 3<&208 4>&209 208<&- 209>&-; exec \"$@\""
        words = [browser, "--headless", "--no-sandbox", "--disable-gpu", "--remote-debugging-pipe", "--hide-scrollbars", "--no-first-run",
                 f"--user-data-dir={self.folder}/profile", f"--window-size={size[0]},{size[1]}", "about:blank"]
        self.process = subprocess.Popen(["bash", "-c", script, "bash", *words], pass_fds=(theirs, to_us),
                                        stdin=subprocess.DEVNULL, stdout=subprocess.DEVNULL, stderr=subprocess.DEVNULL)
        os.close(theirs)
        os.close(to_us)
        self.number, self.rest, self.session, self.told = 0, b"", None, []
        target = self.ask("Target.createTarget", url="about:blank")["targetId"]
        self.session = self.ask("Target.attachToTarget", targetId=target, flatten=True)["sessionId"]
        for domain in ("Page", "Runtime", "Log", "DOM", "Network"):
            self.ask(domain + ".enable")
        self.ask("Emulation.setDeviceMetricsOverride", width=size[0], height=size[1], deviceScaleFactor=1, mobile=False)
        self.ask("Browser.setDownloadBehavior", behavior="allow", downloadPath=self.downloads)
        self.ask("Page.navigate", url=address)
        self.until("document.readyState === 'complete'")

    def __enter__(self):
        return self

    def __exit__(self, *_):
        self.process.terminate()
        self.process.wait(20)
        shutil.rmtree(self.folder, ignore_errors=True)

    def message(self):
        """The next message of the browser."""
        while b"\0" not in self.rest:
            more = os.read(self.into, 1 << 20)
            if not more:
                raise RuntimeError("the browser has ended")
            self.rest += more
        text, self.rest = self.rest.split(b"\0", 1)
        return json.loads(text)

    def ask(self, method, **words):
        """What the browser answers; what it tells before is kept."""
        self.number += 1
        asked = {"id": self.number, "method": method, "params": words, **({"sessionId": self.session} if self.session else {})}
        text = json.dumps(asked).encode() + b"\0"
        while text:
            text = text[os.write(self.out, text):]
        while True:
            answer = self.message()
            if answer.get("id") == self.number:
                if "error" in answer:
                    raise RuntimeError(f"{method}: {answer['error']}")
                return answer["result"]
            self.told.append(answer)

    def value(self, expression):
        """The value of an expression in the page; a promise is waited for."""
        answer = self.ask("Runtime.evaluate", expression=expression, returnByValue=True, awaitPromise=True)
        if "exceptionDetails" in answer:
            raise RuntimeError(f"{expression}: {answer['exceptionDetails']}")
        return answer["result"].get("value")

    def until(self, expression, seconds=30):
        """Waits until an expression is true."""
        end = time.time() + seconds
        while time.time() < end:
            if self.value(f"Boolean({expression})"):
                return
            time.sleep(0.02)
        raise RuntimeError(f"after {seconds} seconds not so: {expression}; the page says {self.value('document.body.innerText')!r:.600}")

    def middle(self, selector):
        """Scrolls to an element, and answers the middle of what is seen of it."""
        chosen = json.dumps(selector)
        return self.value(f"(() => {{ const it = document.querySelector({chosen}); it.scrollIntoView({{block: 'center'}}); "
                          "const box = it.getBoundingClientRect(); return {x: box.x + box.width / 2, y: box.y + box.height / 2}; })()")

    def click(self, selector):
        where = self.middle(selector)
        for kind in ("mousePressed", "mouseReleased"):
            self.ask("Input.dispatchMouseEvent", type=kind, button="left", clickCount=1, **where)

    def key(self, name, text=""):
        """Presses a key and lets it go."""
        self.ask("Input.dispatchKeyEvent", type="keyDown", key=name, code=name, text=text, **KEYS.get(name, {}))
        self.ask("Input.dispatchKeyEvent", type="keyUp", key=name, code=name, **KEYS.get(name, {}))

    def write(self, selector, text):
        """Puts a text into a field, key by key."""
        self.value(f"(() => {{ const it = document.querySelector({json.dumps(selector)}); it.value = ''; it.focus(); }})()")
        for letter in text:
            self.key(letter, letter)

    def drop(self, selector, paths):
        """Drops files onto an element."""
        where, files = self.middle(selector), {"items": [], "files": paths, "dragOperationsMask": 1}
        for kind in ("dragEnter", "dragOver", "drop"):
            self.ask("Input.dispatchDragEvent", type=kind, data=files, **where)

    def downloaded(self, selector, name, seconds=20):
        """The bytes of the file of this name, once the link is clicked and the file is whole."""
        path = os.path.join(self.downloads, name)
        self.click(selector)
        end = time.time() + seconds
        while time.time() < end:
            if os.path.exists(path) and not os.path.exists(path + ".crdownload"):
                with open(path, "rb") as file:
                    data = file.read()
                os.remove(path)
                return data
            time.sleep(0.02)
            self.value("1")
        raise RuntimeError(f"{name} is not downloaded: {os.listdir(self.downloads)}")

    def faults(self):
        """What the page told of errors."""
        told = [it["params"] for it in self.told if it.get("method") in ("Runtime.exceptionThrown", "Log.entryAdded")]
        return [it for it in told if "exceptionDetails" in it or it["entry"]["level"] == "error"]

    def requests(self):
        """The addresses that the page asked for."""
        return [it["params"]["request"]["url"] for it in self.told if it.get("method") == "Network.requestWillBeSent"]


# What a key needs besides its name.
KEYS = {"Tab": {"windowsVirtualKeyCode": 9}, "Enter": {"windowsVirtualKeyCode": 13, "unmodifiedText": "\r"}, " ": {"windowsVirtualKeyCode": 32},
        "ArrowRight": {"windowsVirtualKeyCode": 39}, "ArrowDown": {"windowsVirtualKeyCode": 40}, "Home": {"windowsVirtualKeyCode": 36},
        "End": {"windowsVirtualKeyCode": 35}}

#!/usr/bin/env python3
"""Opens pages in a headless Chromium and looks at what a person would see.

    checks/browser.py [--shots FOLDER] [PAGE..]

Without pages, those of examples/ are opened. Of each page, at 360, 760 and 1200 px, light and dark, and on paper of 760 and 1200 px:

- nothing is loaded but the page itself;
- the console says nothing;
- nothing is wider than the window, but what scrolls in a frame of its own;
- each text stands out from its ground by a contrast of 4.5 or more, large text by 3 or more.

With --shots, a picture of each is written into the folder, to be looked at. The exit status is 0 if all holds, 1 if
something doesn't, and 0 too if there is no Chromium, which it says.
"""

import argparse
import base64
import json
import os
import pathlib
import shutil
import subprocess
import sys
import tempfile

TOP = pathlib.Path(__file__).resolve().parent.parent
NAMES = ("chromium", "chromium-browser", "google-chrome")
LOOKS = [(width, scheme) for width in (360, 760, 1200) for scheme in ("light", "dark")] + [(760, "print"), (1200, "print")]

# What is wider than the window, and which texts stand out too little from their ground.
LOOK = """
(() => {
  const out = [];
  const wide = document.documentElement.scrollWidth;
  if (wide > window.innerWidth) out.push(`the page is ${wide} px wide`);
  const numbers = (c) => (c.match(/[\\d.]+/g) || []).map(Number);
  const light = ([r, g, b]) => {
    const f = (v) => { v /= 255; return v <= 0.03928 ? v / 12.92 : ((v + 0.055) / 1.055) ** 2.4; };
    return 0.2126 * f(r) + 0.7152 * f(g) + 0.0722 * f(b);
  };
  const over = (top, low) => { const a = top.length > 3 ? top[3] : 1; return [0, 1, 2].map((i) => top[i] * a + low[i] * (1 - a)); };
  const ground = (e) => {
    const layers = [];
    for (; e; e = e.parentElement) {
      const c = numbers(getComputedStyle(e).backgroundColor);
      layers.push(c);
      if (c.length === 3 || c[3] === 1) break;
    }
    let under = [255, 255, 255];
    while (layers.length) under = over(layers.pop(), under);
    return under;
  };
  const seen = new Set();
  const walk = document.createTreeWalker(document.body, NodeFilter.SHOW_TEXT);
  while (walk.nextNode()) {
    const node = walk.currentNode, e = node.parentElement;
    if (!node.data.trim() || e.namespaceURI !== "http://www.w3.org/1999/xhtml" || !e.getClientRects().length) continue;
    const style = getComputedStyle(e), under = ground(e), ink = over(numbers(style.color), under);
    const [a, b] = [light(ink), light(under)], ratio = (Math.max(a, b) + 0.05) / (Math.min(a, b) + 0.05);
    const size = parseFloat(style.fontSize), large = size >= 24 || (size >= 18.66 && Number(style.fontWeight) >= 700);
    if (ratio < (large ? 3 : 4.5)) {
      const what = `${e.tagName.toLowerCase()}.${e.className}: contrast ${ratio.toFixed(2)} ("${node.data.trim().slice(0, 24)}")`;
      if (!seen.has(what)) { seen.add(what); out.push(what); }
    }
  }
  return out;
})()
"""


class Browser:
    """A headless Chromium that is spoken to through a pipe."""

    def __init__(self, program, folder):
        ours_in, theirs_out = os.pipe()
        theirs_in, ours_out = os.pipe()

        def connect():
            # The program reads its commands from 3 and answers on 4.
            low, high = os.dup2(theirs_in, 100), os.dup2(theirs_out, 101)
            os.dup2(low, 3)
            os.dup2(high, 4)

        words = [program, "--headless=new", "--no-sandbox", "--disable-gpu", "--no-first-run", "--hide-scrollbars",
                 "--disable-background-networking", f"--user-data-dir={folder}", "--remote-debugging-pipe", "about:blank"]
        self.process = subprocess.Popen(words, preexec_fn=connect, close_fds=False, stdout=subprocess.DEVNULL, stderr=subprocess.DEVNULL)
        os.close(theirs_in)
        os.close(theirs_out)
        self.read, self.write = os.fdopen(ours_in, "rb", buffering=0), os.fdopen(ours_out, "wb", buffering=0)
        self.number, self.rest, self.events = 0, b"", []
        targets = self.ask("Target.getTargets")["targetInfos"]
        page = next(t["targetId"] for t in targets if t["type"] == "page")
        self.session = None
        self.session = self.ask("Target.attachToTarget", targetId=page, flatten=True)["sessionId"]
        for domain in ("Page", "Network", "Log", "Runtime"):
            self.ask(f"{domain}.enable")

    def message(self):
        while b"\0" not in self.rest:
            part = self.read.read(65536)
            if not part:
                raise SystemExit("the browser went away")
            self.rest += part
        first, self.rest = self.rest.split(b"\0", 1)
        return json.loads(first)

    def ask(self, method, **params):
        self.number += 1
        call = {"id": self.number, "method": method, "params": params}
        if getattr(self, "session", None):
            call["sessionId"] = self.session
        self.write.write(json.dumps(call).encode() + b"\0")
        while True:
            said = self.message()
            if said.get("id") == self.number:
                if "error" in said:
                    raise SystemExit(f"{method}: {said['error']}")
                return said["result"]
            self.events.append(said)

    def open(self, address):
        self.events = []
        self.ask("Page.navigate", url=address)
        while not any(e.get("method") == "Page.loadEventFired" for e in self.events):
            self.events.append(self.message())

    def close(self):
        self.process.terminate()
        self.process.wait()


def look_at(browser, page, width, scheme, shots):
    """What is wrong with a page at a width: `scheme` is light, dark or print."""
    media = "print" if scheme == "print" else "screen"
    browser.ask("Emulation.setDeviceMetricsOverride", width=width, height=900, deviceScaleFactor=1, mobile=False)
    features = [{"name": "prefers-color-scheme", "value": "dark" if scheme == "dark" else "light"}]
    browser.ask("Emulation.setEmulatedMedia", media=media, features=features)
    browser.open(page.as_uri())
    wrong = browser.ask("Runtime.evaluate", expression=LOOK, returnByValue=True)["result"].get("value")
    if wrong is None:
        wrong = ["the page could not be looked at"]
    for event in browser.events:
        method, params = event.get("method"), event.get("params", {})
        if method == "Network.requestWillBeSent" and params["request"]["url"] != page.as_uri():
            wrong.append(f"asks for {params['request']['url']}")
        elif method == "Log.entryAdded":
            wrong.append(f"the console says: {params['entry']['text']}")
        elif method in ("Runtime.consoleAPICalled", "Runtime.exceptionThrown"):
            wrong.append(f"a script speaks: {method}")
    if shots:
        shot = browser.ask("Page.captureScreenshot", format="png", captureBeyondViewport=True)
        (shots / f"{page.stem}-{width}-{scheme}.png").write_bytes(base64.b64decode(shot["data"]))
    return wrong


def main():
    words = argparse.ArgumentParser(description=__doc__, formatter_class=argparse.RawDescriptionHelpFormatter)
    words.add_argument("--shots", type=pathlib.Path, help="a folder for pictures")
    words.add_argument("pages", nargs="*", type=pathlib.Path, help="the pages; without any, those of examples/")
    words = words.parse_args()
    program = next((p for p in map(shutil.which, NAMES) if p), None)
    if program is None:
        print("no Chromium here: no page was looked at")
        return 0
    pages = words.pages or sorted((TOP / "examples").glob("*.html"))
    if not pages:
        print("no page to look at")
        return 1
    if words.shots:
        words.shots.mkdir(parents=True, exist_ok=True)
    failed = 0
    with tempfile.TemporaryDirectory() as folder:
        browser = Browser(program, folder)
        for page in pages:
            for width, scheme in LOOKS:
                wrong = look_at(browser, page.resolve(), width, scheme, words.shots)
                failed += len(wrong)
                for what in wrong:
                    print(f"{page.name}, {width} px, {scheme}: {what}")
        browser.close()
    print(f"{len(pages)} pages looked at, {failed} things wrong")
    return 1 if failed else 0


if __name__ == "__main__":
    sys.exit(main())

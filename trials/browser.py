"""What `trials/page.py` does in a browser: Debian's chromium, without a window, as a person and a scanner use it."""
import base64
import importlib.util
import os
import shutil
import signal
import sys
import time

DEBIAN = "/usr/bin/python3"                     # python3-selenium belongs to this one, whichever python3 comes first
if importlib.util.find_spec("selenium") is None:
    if os.path.exists(DEBIAN) and os.path.realpath(sys.executable) != os.path.realpath(DEBIAN):
        os.execv(DEBIAN, [DEBIAN, *sys.argv])
    print("page: there is no selenium; on Debian: apt-get install python3-selenium", file=sys.stderr)
    sys.exit(3)

from selenium import webdriver
from selenium.common.exceptions import StaleElementReferenceException, WebDriverException
from selenium.webdriver.chrome.service import Service
from selenium.webdriver.common.by import By
from selenium.webdriver.common.keys import Keys

import nginx

GS = "\x1d"
HAND, DESK = (360, 640, 2), (1280, 800, 1)
SHOTS = os.environ.get("SHOTS")
page = None
place = None                                    # the folder and the port, as `begin` was told


def begin(room, tls, chromedriver):
    """Starts the browser over the profile of this room, and logs in."""
    global page, place
    place = (room, tls)
    options = webdriver.ChromeOptions()
    for word in ("--headless=new", "--no-sandbox", "--disable-gpu", "--disable-dev-shm-usage", "--user-data-dir=%s/profile" % room, "--no-first-run",
                 "--hide-scrollbars", "--window-size=1280,800"):
        options.add_argument(word)
    options.accept_insecure_certs = True
    options.add_experimental_option("prefs", {"intl.accept_languages": "en-US,en"})
    options.set_capability("goog:loggingPrefs", {"browser": "ALL"})
    page = webdriver.Chrome(options=options, service=Service(chromedriver))
    log_in(nginx.USER)


def log_in(name):
    page.get("https://%s:%s@localhost:%d/page/" % (name, nginx.PASSWORD, place[1]))
    until_open()
    go("")


def end():
    if page:
        try:
            page.quit()
        except WebDriverException:
            pass


def kill():
    """Ends the browser and what it started by SIGKILL, as a battery does that is empty."""
    parents = {}
    for name in filter(str.isdigit, os.listdir("/proc")):
        try:
            with open("/proc/%s/stat" % name, encoding="latin-1") as file:
                parents.setdefault(int(file.read().rsplit(")", 1)[1].split()[1]), []).append(int(name))
        except OSError:
            pass
    mine = [page.service.process.pid]
    for it in mine:
        mine += parents.get(it, [])
    for it in mine[1:]:
        try:
            os.kill(it, signal.SIGKILL)
        except ProcessLookupError:
            pass
    page.service.stop()
    time.sleep(1)
    for it in ("SingletonLock", "SingletonSocket", "SingletonCookie"):
        try:
            os.unlink("%s/profile/%s" % (place[0], it))
        except OSError:
            pass


# ---- what is there

def cdp(name, **fields):
    return page.execute_cdp_cmd(name, fields)


def run(script):
    return page.execute_script(script)


def one(what):
    return page.find_element(By.CSS_SELECTOR, what)


def every(what):
    return page.find_elements(By.CSS_SELECTOR, what)


def text(what):
    return one(what).text


def is_told(what, expected, got):
    if expected != got:
        if page and SHOTS:
            page.save_screenshot(os.path.join(SHOTS, "fault.png"))
        sys.exit("page: %s: expected %r, got %r\n%s" % (what, expected, got, page and text("body")))


def until(what, holds, seconds=40):
    over = time.monotonic() + seconds
    while True:
        try:
            it = holds()
        except (StaleElementReferenceException, IndexError):
            it = None
        if it:
            return it
        if time.monotonic() > over:
            is_told(what, "in time", it)
        time.sleep(0.03)


def said(what):
    """The text of an element that something else may lie over."""
    return one(what).get_attribute("textContent")


def until_open():
    until("the page", lambda: text("#title") != "" and "…" not in text("#sent"))


def until_told(words, kind="done", seconds=40):
    until("the strip has " + words, lambda: words in text("#told") and every("#told ." + kind), seconds)


def until_answered(seconds=40):
    until("all is answered", lambda: text("#sent") == "All answered", seconds)


# ---- what a person and a scanner do

def go(where):
    page.get("about:blank")
    page.get("https://localhost:%d/page/#/%s" % (place[1], where))
    until_open()


def key(name, sign=None, code=None, number=0, modifiers=0):
    down = {"type": "keyDown" if sign else "rawKeyDown", "key": name, "modifiers": modifiers, "windowsVirtualKeyCode": number}
    down.update({"text": sign} if sign else {}, **({"code": code} if code else {}))
    cdp("Input.dispatchKeyEvent", **down)


SEPARATORS = {
    "Ctrl-]": lambda: key("]", None, "BracketRight", 221, 2),
    "byte": lambda: key(GS, GS),
    "insert": lambda: cdp("Input.insertText", text=GS),
    "|": lambda: key("|", "|"),
}


def enter():
    key("Enter", "\r", "Enter", 13)


def scan(symbol, separator="F8"):
    """As a scanner types: at once, and Enter."""
    time.sleep(0.25)
    if separator == "F8":
        page.switch_to.active_element.send_keys(symbol.replace(GS, Keys.F8) + Keys.ENTER)
        return
    for sign in symbol:
        if sign == GS:
            SEPARATORS[separator]()
        else:
            key(sign, sign)
    enter()


def by_hand(words, ends=True):
    time.sleep(0.25)
    for sign in words:
        key(sign, sign)
        time.sleep(0.05)
    if ends:
        time.sleep(0.22)
        enter()


def press(words, within="main"):
    time.sleep(0.3)
    found = [it for it in every(within + " button") if it.text == words and it.is_displayed()]
    is_told("one button " + words, 1, len(found))
    found[0].click()


def mean(words):
    """Presses a button that asks once more, and says yes."""
    press(words)
    press(words, "dialog")


def offline(is_off):
    cdp("Network.enable")
    cdp("Network.emulateNetworkConditions", offline=is_off, latency=0, downloadThroughput=-1, uploadThroughput=-1)


# ---- how it looks

def size(width, height, scale):
    cdp("Emulation.setDeviceMetricsOverride", width=width, height=height, deviceScaleFactor=scale, mobile=False)


SMALL = """return [...document.querySelectorAll("a, button, input, select")].filter(it => it.checkVisibility() && !it.closest("p, h2, h3, li, nav"))
    .filter(it => it.getBoundingClientRect().height < 46 && !it.closest("label")).map(it => it.outerHTML)"""

# Elements that are beside the screen, fields whose value is cut, and words of up to 22 characters that stand in two lines.
CRAMPED = """const found = [], shown = it => it.checkVisibility() && !it.closest("svg, noscript, option");
for (const it of [...document.querySelectorAll("body *")].filter(shown)) {
  const { left, right, width } = it.getBoundingClientRect();
  if (width && (left < -0.5 || right > innerWidth + 0.5)) found.push("beside: " + it.outerHTML.slice(0, 99));
  if (it.matches("input:not([type=checkbox], [type=file])") && it.value && it.scrollWidth > it.clientWidth + 1) found.push("cut: " + it.value);
}
const texts = document.createTreeWalker(document.body, NodeFilter.SHOW_TEXT);
for (let node; (node = texts.nextNode()); ) if (shown(node.parentElement)) {
  for (const { 0: word, index } of node.data.matchAll(/(?<!\\S)\\S{1,22}(?!\\S)/g)) {
    const range = document.createRange();
    range.setStart(node, index);
    range.setEnd(node, index + word.length);
    if (new Set([...range.getClientRects()].filter(it => it.width).map(it => Math.round(it.top))).size > 1) found.push("broken: " + word);
  }
}
return found"""
PLACES = "return Object.fromEntries([...document.querySelectorAll('button, a.button, input')].filter(it => it.checkVisibility())" \
    ".map((it, at) => [`${at} ${it.textContent || it.name}`, [it.getBoundingClientRect().left, it.getBoundingClientRect().top]]))"


def is_fit(name):
    """Nothing is beside the screen of a hand or of a desk; what a finger touches is large; what a reader of the screen comes to
    has a name. A picture of each, light and dark, where SHOTS names a folder."""
    for shape, device in ((HAND, "hand"), (DESK, "desk")):
        size(*shape)
        wide = run("return document.documentElement.scrollWidth")
        is_told("the width of %s on a screen of %d" % (name, shape[0]), True, wide <= shape[0])
        is_told("what is cramped in %s on a screen of %d" % (name, shape[0]), [], run(CRAMPED))
        for look in ("light", "dark") if SHOTS else ():
            cdp("Emulation.setEmulatedMedia", features=[{"name": "prefers-color-scheme", "value": look}])
            time.sleep(0.2)
            with open(os.path.join(SHOTS, "%s-%s-%s.png" % (name, device, look)), "wb") as file:
                file.write(base64.b64decode(cdp("Page.captureScreenshot")["data"]))
    cdp("Emulation.setEmulatedMedia", features=[])
    size(*HAND)
    is_told("what is small in " + name, [], run(SMALL))
    asked = ("textbox", "button", "link", "combobox", "checkbox", "image")
    for it in cdp("Accessibility.getFullAXTree")["nodes"]:
        if not it.get("ignored") and it["role"]["value"] in asked:
            is_told("a name of each %s in %s" % (it["role"]["value"], name), True, bool(it.get("name", {}).get("value")))


def is_printed(name, shown, hidden):
    """Printed are these, and those are not."""
    cdp("Emulation.setEmulatedMedia", media="print")
    is_told("what is printed of " + name, [], [it for it in shown if not one(it).is_displayed()])
    is_told("what is not printed of " + name, [], [it for it in hidden if any(each.is_displayed() for each in every(it))])
    cdp("Emulation.setEmulatedMedia", media="")
    if SHOTS:
        with open("%s/%s.pdf" % (SHOTS, name), "wb") as file:
            file.write(base64.b64decode(page.print_page()))


def console():
    """What the browser's console says since it was asked last, but for answers of the server and what is refused on purpose."""
    return [it["message"] for it in page.get_log("browser")
            if not any(word in it["message"] for word in ("the server responded", "ERR_", "requires 'Trusted"))]


def chromedriver():
    for name, package in (("chromium", "chromium"), ("chromedriver", "chromium-driver")):
        if shutil.which(name) is None:
            print("page: there is no %s; on Debian: apt-get install %s" % (name, package), file=sys.stderr)
            sys.exit(3)
    return shutil.which("chromedriver")


if __name__ == "__main__":                      # browser.py FOLDER PORT SCREEN WORDS: the screen shows the words
    folder, port, screen, words = sys.argv[1:]
    try:
        begin(folder, int(port), chromedriver())
        run("localStorage.setItem('lot-stock/sign', 'QA7'); localStorage.setItem('lot-stock/signed', Date.now())")
        go(screen)
        until(words, lambda: words in text("main"))
    finally:
        end()

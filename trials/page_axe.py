"""A step of `trials/page.py`: axe-core's rules over the screens, at both sizes, light and dark. Chromium brings axe-core within its DevTools;
where it does not, the step says so and is passed over."""
import re
import time
import urllib.request

import browser
from browser import go, is_told, run, text, until
from page_house import OAT, passed

BUNDLE = "devtools/third_party/lighthouse/lighthouse-dt-bundle.js"
RULES = ("wcag2a", "wcag2aa", "wcag21a", "wcag21aa", "wcag22aa", "best-practice")
LOOK = """const done = arguments[0]; axe.run(document, {runOnly: {type: 'tag', values: %r}, resultTypes: ['violations']})
    .then(it => done(it.violations.map(it => `${it.id}: ${it.nodes.map(it => it.target.join(' ')).slice(0, 3).join(', ')}`)), fault => done([String(fault)]))"""


def source():
    """The text of axe-core, or nothing."""
    address = browser.page.capabilities.get("goog:chromeOptions", {}).get("debuggerAddress")
    try:
        with urllib.request.urlopen("http://%s/%s" % (address, BUNDLE), timeout=30) as file:
            bundle = file.read().decode()
    except OSError:
        return None
    found = re.search(r"`(/\*! axe v[\d.]+(?:[^`\\]|\\.)*)`", bundle, re.S)
    return found and run("return String.raw`` + `%s`" % found[1])


def is_accessible():
    axe = source()
    if not axe:
        print("  -- this browser brings no axe-core: its rules are not tried", flush=True)
        return
    browser.page.set_script_timeout(300)
    faults, count = set(), 0
    for where in ("", "in", "pick", "pick/S-2", "moves", "counts", "lot/%s/L2" % OAT, "lot/%s/L3" % OAT, "order", "order/S-2", "new", "item/" + OAT, "items", "bins", "days", "bin/A-01",
                  "expiring/60", "labels", "sheets/A-01/A-02", "carry/A-01", "by file/items", "state", "outbox", "device"):
        go(where)
        time.sleep(0.3)
        until("it is read", lambda: "/" not in where or text("main") != "")
        run(axe)
        for shape in (browser.HAND, browser.DESK):
            browser.size(*shape)
            for look in ("light", "dark"):
                run("document.documentElement.dataset.look = '%s'" % look)
                count += 1
                faults |= {"%s on a screen of %d, %s: %s" % (where, shape[0], look, it) for it in browser.page.execute_async_script(LOOK % list(RULES))}
    browser.size(*browser.HAND)
    is_told("what axe-core finds", [], sorted(faults))
    passed("axe-core %s finds nothing on %d screens, at 360 and 1280 points, light and dark" % (run("return axe.version"), count // 4))

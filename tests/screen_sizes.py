"""Bytes that each page loads, what the key Tab comes by, and that nothing on a page moves while
packs come. A part of tests/screen.py."""

import time

from selenium.webdriver.common.action_chains import ActionChains
from selenium.webdriver.common.keys import Keys

from clients import need
from screen_pages import make_room, open_page, set_language

# Bytes that a page may load as it opens, and as the front sends them; and with what a person opens
# on it: the form of an act, the void of a pack.
PAGE_BYTES, SENT_BYTES = 100_000, 35_000
ALL_BYTES, ALL_SENT = 100_000, 35 * 1024


def shifts(browser, since):
    """How far parts of a page were moved by others since a moment, as the browser measures it."""
    return browser.driver.execute_async_script("""
        const [since, tell] = arguments;
        const found = [];
        new PerformanceObserver((list) => found.push(...list.getEntries()))
            .observe({ type: "layout-shift", buffered: true });
        setTimeout(() => tell(found.filter((one) => one.startTime > since)
            .map((one) => [one.value, ...one.sources.map(({ node }) =>
                `${node?.nodeName} ${node?.className ?? ""} ${node?.textContent?.slice(0, 40)}`)])),
            500)""", since)


def stays(browser, seconds, where):
    """While packs come nothing on the page is moved."""
    since = browser.run("return performance.now()")
    time.sleep(seconds)
    moved = shifts(browser, since)
    need(not moved, f"{where}: moved by other parts: {moved}")
    print(f"screen: {where}: layout shift 0 in {seconds} s", flush=True)


def check_stays(browser):
    set_language(browser, "en")
    for page, selector, size in (("board", "#board .strip", (1920, 1080)),
                                 ("lane/1", "#lane .st-signal", (1024, 768)),
                                 ("desk", "#desk .task", (1280, 800))):
        browser.view(*size)
        open_page(browser, page, selector)
        # what a page first shows may still grow: nets of the last minutes, a rate after 10 s
        time.sleep(14)
        stays(browser, 8, page)


def loaded(browser):
    """What the page has loaded so far: bytes, bytes as the front sent them, and what it asked
    elsewhere. Answers of the office and of the archive, and files of the book, are no part."""
    return browser.run("""
        const all = performance.getEntriesByType("resource")
            .concat(performance.getEntriesByType("navigation"));
        const asked = /\\/hall\\/|\\/archive\\/|\\/papers\\/|(list|lanes)\\.txt|settings\\.json/;
        const own = all.filter((one) => !asked.test(one.name));
        const sum = (key) => own.reduce((total, one) => total + one[key], 0);
        return [sum("decodedBodySize"), sum("encodedBodySize"),
            all.filter((one) => !one.name.startsWith(location.origin)).map((one) => one.name)]""")


def open_act(browser):
    browser.find("#open-void").click()
    browser.find("#act-void")


def void_pack(browser):
    browser.find(".st-void:not([disabled])").click()
    browser.find("dialog .picks input")
    browser.find("dialog .ends .second").click()


# Each page, what stands on it when it is there, and what of it loads more when a person opens it.
LOADED = [
    ("board", "#board .strip", None),
    ("lane/1", "#lane .st-signal", void_pack),
    ("batch/RICE-1201-A", "#batch svg.figure", None),
    ("desk/RICE-1130-D", "#desk .step.measure", open_act),
    ("measure/RICE-1130-D", "#measure #m-gross", None),
    ("picks/RICE-1130-D", "#picks table", None),
    ("sheet/RICE-1130-E", "#sheet .paper", None),
    ("search", "#search .notice", None),
]


def check_size(browser, language):
    """Each page loads itself alone, from here alone, and is small, also with what is opened on
    it."""
    set_language(browser, language)
    for page, selector, open_mode in LOADED:
        browser.driver.get("about:blank")
        open_page(browser, page, selector)
        size, sent, elsewhere = loaded(browser)
        need(10_000 < size <= PAGE_BYTES and sent <= SENT_BYTES and not elsewhere,
             f"the page {page} loads {size} bytes, {sent} as sent, of elsewhere {elsewhere}")
        more = ""
        if open_mode:
            open_mode(browser)
            all_size, all_sent, elsewhere = loaded(browser)
            need(all_size <= ALL_BYTES and all_sent <= ALL_SENT and not elsewhere,
                 f"{page} loads {all_size} with what is opened, {all_sent} as sent")
            more = f"; {all_size} with what is opened on it, {all_sent} as sent"
        print(f"screen: the page {page.split('/')[0]} ({language}) loads {size} bytes, {sent} as"
              f" sent{more}", flush=True)


def check_small(browser, page, selector):
    """A page of the archive, or one that has more with it, by itself."""
    browser.driver.get("about:blank")
    open_page(browser, page, selector)
    # what the archive adds comes a moment later
    time.sleep(1)
    size, sent, elsewhere = loaded(browser)
    need(10_000 < size <= ALL_BYTES and sent <= ALL_SENT and not elsewhere,
         f"the page {page} loads {size} bytes, {sent} as sent, of elsewhere {elsewhere}")
    print(f"screen: with an archive {page.split('/')[0]} loads {size} bytes, {sent} as sent",
          flush=True)


# A part that has the key's focus, by its id where it has one: a slider's words change as packs
# come.
NAMED = "const named = (one) => one.id || one.outerHTML.slice(0, 90);"


def check_keyboard(browser):
    """The key Tab comes by everything that can be used, on each page."""
    for page, selector in (("board", "#board .strip"), ("desk/RICE-1130-C", "#desk .step.draw"),
                           ("measure/RICE-1130-D", "#measure #m-gross"),
                           ("picks/RICE-1130-D", "#picks table"),
                           ("batch/RICE-1201-A", "#batch svg.figure"),
                           ("sheet/RICE-1130-E", "#sheet .paper"), ("lane/1", "#lane .st-signal")):
        open_page(browser, page, selector)
        browser.run("document.activeElement.blur()")
        visited = set()
        for _ in range(60):
            ActionChains(browser.driver).send_keys(Keys.TAB).perform()
            visited.add(browser.run(NAMED + "return named(document.activeElement)"))
        left = browser.run(NAMED + """return [...document.querySelectorAll(
            "a, input, select, button, summary")].filter((one) => one.checkVisibility()
            && !one.disabled && !one.classList.contains("skip")
            && !(one.type === "radio" && !one.checked)).map(named)""")
        need(set(left) <= visited, f"on {page} Tab doesn't come by {set(left) - visited}")
    print("screen: the key Tab comes by everything that can be used", flush=True)


def run_sizes(program, folder, pictures):
    room = make_room(program, folder, pictures)
    browser = room.browser("anna", size="1280,800")
    for language in ("en", "de"):
        check_size(browser, language)
    check_keyboard(browser)
    check_stays(browser)
    complaints = browser.complaints()
    room.end()
    need(not complaints, f"the browser complains: {complaints}")

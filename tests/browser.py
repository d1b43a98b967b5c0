"""Headless Chromium at the front, by WebDriver, as a clerk uses it: by clicks and by keys.

Each browser goes through a relay of its own, whose link can be cut between an act and its answer.
"""

import base64
import json
import os
import select
import socket
import subprocess
import threading
import time
from urllib.parse import quote

from selenium import webdriver
from selenium.common.exceptions import (SessionNotCreatedException,
                                        StaleElementReferenceException)
from selenium.webdriver.chrome.service import Service
from selenium.webdriver.common.by import By
from selenium.webdriver.common.keys import Keys

from clients import need
from front_room import NAME, wait_until

# Seconds that something is waited for: a machine may be busy with other things. How soon it comes is
# judged elsewhere.
PATIENCE = 120
# How often Chromium is begun until it answers.
TRIES = 4


class Relay(threading.Thread):
    """Hands bytes on between a browser and the front. While `slow` an answer is under way long."""

    UNDER_WAY = 0.5

    def __init__(self):
        super().__init__(daemon=True)
        self.listener = socket.create_server(("127.0.0.1", 0))
        self.port = self.listener.getsockname()[1]
        self.slow = False
        self.down = False
        self.links = []
        self.start()

    def run(self):
        while True:
            near, _ = self.listener.accept()
            try:
                if self.down:
                    raise ConnectionError
                far = socket.create_connection(("127.0.0.1", 443), timeout=5)
            except OSError:
                near.close()
                continue
            self.links.append((near, far))
            threading.Thread(target=self.hand_on, args=(near, far), daemon=True).start()

    def hand_on(self, near, far):
        try:
            while True:
                for end in select.select([near, far], [], [])[0]:
                    got = end.recv(65536)
                    if not got:
                        return
                    if end is far and self.slow:
                        time.sleep(self.UNDER_WAY)
                    (far if end is near else near).sendall(got)
        except (OSError, ValueError):
            pass
        finally:
            near.close()
            far.close()

    def cut(self):
        """Ends all links. What is under way never comes."""
        for link in self.links:
            for end in link:
                try:
                    end.shutdown(socket.SHUT_RDWR)
                except OSError:
                    pass
        self.links = []
        self.slow = False


def begin(options, environment):
    """Chromium, which the driver gives up after a minute; on a busy machine it is tried again."""
    for attempt in range(TRIES):
        try:
            service = Service("/usr/bin/chromedriver", env=environment)
            return webdriver.Chrome(service=service, options=options)
        except SessionNotCreatedException:
            if attempt == TRIES - 1:
                raise
    return None


class Browser:
    """A browser of a person, with what it keeps in a folder of its own."""

    def __init__(self, folder, person, password, language="en-US", size="1400,1000"):
        self.relay = Relay()
        options = webdriver.ChromeOptions()
        for word in ("--headless=new", "--no-sandbox", "--disable-gpu", "--disable-dev-shm-usage",
                     "--ignore-certificate-errors", "--hide-scrollbars", f"--lang={language}",
                     f"--accept-lang={language}", f"--window-size={size}",
                     "--disable-background-networking", "--no-first-run",
                     f"--user-data-dir={folder}/{person}-{self.relay.port}",
                     f"--host-resolver-rules=MAP {NAME}:443 127.0.0.1:{self.relay.port}"):
            options.add_argument(word)
        options.set_capability("goog:loggingPrefs", {"browser": "ALL"})
        environment = os.environ | {"LANGUAGE": language}
        self.driver = begin(options, environment)
        self.driver.get(f"https://{person}:{quote(password)}@{NAME}/icon.svg")
        self.open("board")

    def open(self, page):
        self.driver.get(f"https://{NAME}/#{page}")

    def reload(self):
        self.driver.refresh()

    def run(self, script, *words):
        return self.driver.execute_script(script, *words)

    def find(self, selector):
        """The first element that is shown under this selector. One that the page has drawn anew
        meanwhile is looked for again."""
        def shown():
            found = self.driver.find_elements(By.CSS_SELECTOR, selector)
            try:
                return next((one for one in found if one.is_displayed()), None)
            except StaleElementReferenceException:
                return None
        return wait_until(shown, f"{selector} on {self.driver.title}", PATIENCE)

    def text(self, selector):
        return self.run("return document.querySelector(arguments[0])?.textContent ?? ''", selector)

    def wait_text(self, selector, part, seconds=PATIENCE):
        """Waits until an element has a text, and says all of its text."""
        wait_until(lambda: part in self.text(selector),
                   lambda: f"{part!r} in {selector}, which has {self.text(selector)!r}", seconds)
        return self.text(selector)

    def choose_desk(self, desk):
        self.open("desk")
        choice = self.find("#my-desk")
        choice.send_keys(str(desk))
        need(choice.get_attribute("value") == str(desk), f"desk {desk} isn't chosen by its keys")

    def open_form(self, kind):
        """Opens the form of an act by the menu's search, where it isn't open; says its place."""
        form = f"#act-{kind}"
        self.find("#find-act")
        if not self.run("return document.querySelector(arguments[0])", form):
            self.fill("#find-act", kind)
            self.find("#find-act").send_keys(Keys.ENTER)
            self.fill("#find-act", "")
            self.find(form)
        return form

    def act(self, kind, twice=False, **values):
        """Fills the form of an act and enters it; says what is told."""
        form = self.open_form(kind)
        for field, value in values.items():
            self.fill(f"{form} [name={field}]", value)
        self.run("document.querySelector(arguments[0]).textContent = ''", f"{form} output")
        # in a choice Enter would open its list
        last = self.find(f"{form} input[name={[name for name in values if name != 'mode'][-1]}]")
        last.send_keys(Keys.ENTER)
        if twice:
            self.wait_text(f"{form} output", "again")
            last.send_keys(Keys.ENTER)
        return form

    def told(self, form, part=""):
        """What the form says, as soon as it is the outcome of its act."""
        wait_until(lambda: self.run(
            "const said = document.querySelector(arguments[0]);"
            "return /done|refused/.test(said.className) && said.textContent !== ''",
            f"{form} output"), f"an outcome of {form}", PATIENCE)
        said = self.text(f"{form} output")
        need(part in said, f"{form} says {said!r} for {part!r}")
        return said

    def fill(self, selector, value):
        field = self.find(selector)
        if field.get_attribute("type") == "date":
            year, month, day = value.split("-")
            field.send_keys(f"{month}{day}{year}")
            need(field.get_attribute("value") == value, f"{value} isn't typed as a day")
        elif field.tag_name == "select":
            field.send_keys(value)
        else:
            field.send_keys(Keys.CONTROL, "a")
            field.send_keys(Keys.DELETE)
            field.send_keys(value)

    def kept(self, desk):
        """What this browser was told as a desk, oldest first."""
        return json.loads(self.run(f"return localStorage['hall.told.{desk}'] ?? '[]'"))[::-1]

    def complaints(self):
        """What the browser holds against the page, apart from answers that didn't come."""
        expected = ("status of 4", "status of 5", "net::ERR", "chrome://", "AudioContext")
        return [entry["message"] for entry in self.driver.get_log("browser")
                if not any(part in entry["message"] for part in expected)]

    def view(self, width, height):
        """The page on a screen of this size, without a frame around it."""
        self.driver.execute_cdp_cmd("Emulation.setDeviceMetricsOverride", {
            "width": width, "height": height, "deviceScaleFactor": 1, "mobile": False})

    def picture(self, path):
        self.driver.save_screenshot(path)

    def picture_whole(self, path):
        """A picture of the page from its head to its foot."""
        shot = self.driver.execute_cdp_cmd("Page.captureScreenshot",
                                           {"captureBeyondViewport": True, "format": "png"})
        write(path, shot["data"])

    def paper(self, path):
        """The page as it is printed on A4, as PDF and as a picture; says of how many sheets."""
        printed = self.driver.execute_cdp_cmd("Page.printToPDF", {"preferCSSPageSize": True,
                                                                  "printBackground": True})
        write(f"{path}.pdf", printed["data"])
        said = subprocess.run(["pdfinfo", f"{path}.pdf"], capture_output=True, text=True,
                              check=True)
        subprocess.run(["pdftoppm", "-r", "80", "-png", "-singlefile", f"{path}.pdf", path],
                       check=True)
        pages = next(line for line in said.stdout.splitlines() if line.startswith("Pages:"))
        return int(pages.split()[1])

    def close(self):
        self.driver.quit()


def write(path, coded):
    with open(path, "wb") as file:
        file.write(base64.b64decode(coded))


def cut_between(browser, book, enter, down=False):
    """Enters an act whose answer is lost: the link is cut as soon as the book has its row, and may
    stay down."""
    before = os.stat(book).st_mtime_ns
    browser.relay.slow = True
    enter()
    wait_until(lambda: os.stat(book).st_mtime_ns > before, "the row of an act whose answer is lost")
    browser.relay.down = down
    browser.relay.cut()

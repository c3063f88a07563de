"""What `page.py` shares: a register with the desk's page before it, a proxy between them that loses answers, and a real
browser in which a person's clicks and typing are played.

The browser is Debian's `chromium` with `chromium-driver` and `python3-selenium`. Its clock and that of `serve.py` are
set by the tests, since the ceremonies of the examples were in 2025. The second in which buttons rest after an act lasts
a millisecond, but where a test is about it.
"""
import contextlib
import datetime
import os
import pathlib
import re
import shutil
import signal
import socket
import subprocess
import sys
import tempfile
import threading
import time

import kcr
from kcr import HERE, SECONDS, Wrong

PAGE = HERE.parent / "page"
WAIT = 180  # seconds that the page may take for anything: the machine of the gate may be slow and busy
LIFE = 6 * SECONDS  # no register lives longer
CLOCK = """
const real = Date.now.bind(Date), later = window.setTimeout.bind(window);
Date.now = () => { const at = sessionStorage.getItem("test-clock"); return at === null ? real() : Number(at); };
window.setTimeout = (act, pause, ...more) =>
    later(act, pause === 1000 && sessionStorage.getItem("test-rest") === null ? 1 : pause, ...more);
"""
SERVE = """
import email.utils, pathlib, sys
sys.dont_write_bytecode = True
sys.path.insert(0, sys.argv.pop(1))
clock = pathlib.Path(sys.argv.pop(1))
import serve
real = serve.Desk.date_time_string
def date(self, at=None):
    told = clock.read_text() if clock.is_file() else ""
    return email.utils.formatdate(float(told), usegmt=True) if told else real(self, at)
serve.Desk.date_time_string = date
serve.main()
"""
BUSY = "return document.getElementById('content').getAttribute('aria-busy') !== 'false'"


def contains(what, part, text):
    """Sees that a text has a part."""
    if part not in text:
        raise Wrong(f"{what}: no {part!r} in {text!r:.700}")


def has_browser(what):
    """Whether a browser is installed; where none is, this is left out."""
    if not kcr.is_here("chromium chromedriver", what):
        return False
    if not kcr.debian_module("selenium.webdriver"):
        kcr.leave_out("python3-selenium", what)
        return False
    return True


class Between:
    """A proxy between the page and the register. It cuts off the answers to the next `lose` commands; `give` is an
    answer in place of the register's; while `hold` is true, answers wait; while `deaf` is true, the page hears nothing
    of other desks; it answers the next `fewer` feeds as if the register had fewer commands than were asked after.
    `seen` has the commands that came."""

    def __init__(self, register):
        self.register, self.lose, self.give, self.hold, self.deaf = register, 0, None, False, False
        self.fewer, self.seen = 0, []
        self.listener = socket.create_server(("127.0.0.1", 0))
        self.port = self.listener.getsockname()[1]
        threading.Thread(target=self.serve, daemon=True).start()

    def serve(self):
        """Takes connections until the listener is shut."""
        with contextlib.suppress(OSError):
            while True:
                peer = self.listener.accept()[0]
                threading.Thread(target=self.one, args=(peer,), daemon=True).start()

    def one(self, peer):
        """Hands one request on, and its answer back, or not."""
        with contextlib.closing(peer), contextlib.suppress(OSError):
            request = whole_request(peer)
            posts = request.startswith(b"POST")
            if self.deaf and request.startswith(b"GET /commands/"):
                peer.sendall(kcr.answer(b"200 OK", b"").replace(b"application/json", b"text/plain; charset=utf-8"))
                return
            asked_after = re.match(rb"GET /commands/([0-9]+)", request)
            if self.fewer > 0 and asked_after and asked_after[1] != b"0":
                self.fewer -= 1
                peer.sendall(kcr.answer(b"404 Not Found", b'{"number":12,"refusal":"unknown","thing":"command %s"}'
                                        % asked_after[1]))
                return
            if posts:
                self.seen.append(request)
            if posts and self.give is not None:
                answer = self.give
            else:
                with kcr.connect(self.register) as asked:
                    asked.sendall(request)
                    asked.shutdown(socket.SHUT_WR)
                    answer = kcr.rest_of(asked)
                if not answer:
                    return  # the register was killed
            while posts and self.hold:
                time.sleep(0.01)
            if posts and self.lose > 0:
                self.lose -= 1
                return
            peer.sendall(answer)

    def close(self):
        """Takes no more connections."""
        self.hold = False
        with contextlib.suppress(OSError):
            self.listener.shutdown(socket.SHUT_RDWR)
        self.listener.close()


def whole_request(peer):
    """A request with its body."""
    got = b""
    while not (re.search(rb"\r\n\r\n", got) and len(kcr.messages(got)[0]) <= len(got)
               and len(got) >= wanted(got)):
        piece = peer.recv(65_536)
        if not piece:
            break
        got += piece
    return got


def wanted(got):
    """How long a request is whose head is there."""
    head = got.index(b"\r\n\r\n") + 4
    length = re.search(rb"(?i)content-length: ([0-9]+)", got[:head])
    return head + int(length[1] if length else 0)


class Served:
    """`page/serve.py` before a port, on a port that no page of this run had: a browser keeps by the port what it saw.
    `clock` is a file with the seconds that its clock shows."""

    had = set()  # the ports

    def __init__(self, register, clock=None, script=SERVE):
        words = [sys.executable, str(PAGE / "serve.py")] if clock is None else [
            sys.executable, "-c", script, str(PAGE), str(clock)]
        self.start([*words, "--port", "0", "--register", str(register)])
        while self.port in self.had:
            self.close()
            self.start(self.run.args)
        self.had.add(self.port)

    def start(self, words):
        """Starts it."""
        self.run = subprocess.Popen(words, stdout=subprocess.PIPE, text=True)
        self.url = self.run.stdout.readline().split()[-1]
        self.port = int(self.url.split(":")[2].strip("/"))

    def close(self):
        """Ends it."""
        self.run.kill()
        self.run.communicate(timeout=SECONDS)


class Desk:
    """A register, the page before it, and a window of the browser."""

    def __init__(self, program, browser, file=None, connections=100_000):
        self.browser, self.file = browser, file
        self.register = kcr.Server(program, connections, file, seconds=LIFE)
        self.between = Between(self.register.port)
        self.served = Served(self.between.port, browser.date)
        self.url = f"{self.served.url}page/"

    def __enter__(self):
        return self

    def kill(self):
        """Kills the register, as a power cut would."""
        self.register.run.kill()
        self.register.end()

    def start(self, program, connections=100_000):
        """Starts the register again, over its file."""
        self.register = kcr.Server(program, connections, self.file, seconds=LIFE)
        self.between.register = self.register.port

    def __exit__(self, *_):
        with contextlib.ExitStack() as stack:
            stack.callback(self.register.end)
            stack.callback(self.register.run.kill)
            stack.callback(self.between.close)
            stack.callback(self.served.close)
            self.browser.leave()

    def send(self, requests):
        """Sends requests past the page, as another desk would."""
        return kcr.exchange(self.register.port, [b"".join(requests)])

    def asks(self, path):
        """What the register answers to a question."""
        return kcr.exchange(self.register.port, [kcr.request(b"GET", path)]).partition(b"\r\n\r\n")

    def has(self, path):
        """Whether the register has this path."""
        return self.asks(path)[0].startswith(b"HTTP/1.1 200")

    def open(self, where=""):
        """Opens the page anew at an address."""
        self.browser.driver.get("about:blank")
        self.browser.driver.get(self.url + where)
        self.browser.ready()
        return self.browser


def children(parent):
    """The processes below one, the outermost first."""
    found = []
    for path in pathlib.Path("/proc").glob("[0-9]*/stat"):
        with contextlib.suppress(OSError, IndexError):
            if int(path.read_text().rpartition(")")[2].split()[1]) == parent:
                child = int(path.parent.name)
                found += [child, *children(child)]
    return found


class Browser:
    """A headless Chromium. Things of the page are named by their ids. `clicks` and `keys` count what a person does."""

    def __init__(self):
        self.folder = tempfile.TemporaryDirectory()
        self.date = pathlib.Path(self.folder.name) / "date"  # what the clock of serve.py shows
        self.clicks = self.keys = 0
        self.start()

    def start(self):
        """Starts it."""
        from selenium import webdriver
        from selenium.webdriver.chrome.service import Service
        options = webdriver.ChromeOptions()
        options.binary_location = shutil.which("chromium")
        for word in ("--headless=new", "--no-sandbox", "--disable-gpu", "--disable-dev-shm-usage", "--hide-scrollbars",
                     "--disable-background-networking", "--disable-component-update", "--no-first-run",
                     "--force-prefers-reduced-motion"):  # what fades in has no text for Selenium until it is seen
            options.add_argument(word)
        options.set_capability("goog:loggingPrefs", {"browser": "ALL"})
        options.add_argument(f"--user-data-dir={pathlib.Path(self.folder.name) / 'profile'}")
        self.driver = webdriver.Chrome(options=options, service=Service(shutil.which("chromedriver")))
        self.driver.execute_cdp_cmd("Page.addScriptToEvaluateOnNewDocument", {"source": CLOCK})
        self.size(1280, 900)

    def close(self):
        """Ends it, with its processes."""
        self.driver.quit()
        with contextlib.suppress(OSError):
            self.folder.cleanup()

    def kill(self):
        """Kills it with all its processes, and starts it again with the same profile."""
        parent = self.driver.service.process.pid
        for child in children(parent):
            with contextlib.suppress(ProcessLookupError):
                os.kill(child, signal.SIGKILL)
        with contextlib.suppress(Exception):
            self.driver.quit()
        for name in pathlib.Path(self.folder.name, "profile").glob("Singleton*"):
            name.unlink()
        self.start()

    def leave(self):
        """Leaves the page, so that it asks for nothing more."""
        self.driver.get("about:blank")

    def size(self, width, height, dark=False):
        """Sets the size of the window, and light or dark."""
        self.driver.execute_cdp_cmd("Emulation.setDeviceMetricsOverride",
                                    {"width": width, "height": height, "deviceScaleFactor": 1, "mobile": False})
        self.driver.execute_cdp_cmd("Emulation.setEmulatedMedia", {"features": [
            {"name": "prefers-color-scheme", "value": "dark" if dark else "light"}]})

    def run(self, script, *values):
        """What a script in the page returns."""
        return self.driver.execute_script(script, *values)

    def until(self, what, test):
        """Waits until a test holds."""
        end = time.monotonic() + WAIT
        while not test():
            if time.monotonic() > end:
                says = {name: self.text(name) for name in ("answer", "waiting", "trouble", "question") if self.shown(name)}
                raise Wrong(f"the page never had {what}; it says {says!r:.700}")
            time.sleep(0.01)

    def ready(self):
        """Waits until nothing is under way."""
        self.until("nothing under way", lambda: not self.run(BUSY))

    def again(self, act):
        """What an act gives; it begins anew where the page has put another thing in the place of one that it found."""
        from selenium.common.exceptions import StaleElementReferenceException
        end = time.monotonic() + WAIT
        while True:
            try:
                return act()
            except StaleElementReferenceException:
                if time.monotonic() > end:
                    raise

    def find(self, name):
        """The thing with this id."""
        return self.driver.find_element("id", name)

    def shown(self, name):
        """Whether there is a thing with this id that can be seen."""
        return self.again(lambda: any(found.is_displayed() for found in self.driver.find_elements("id", name)))

    def text(self, name):
        """The text of a thing, as it is seen; empty if it is not there."""
        return self.again(lambda: "".join(found.text for found in self.driver.find_elements("id", name)))

    def click(self, name):
        """Clicks on a thing, and waits for what comes of it."""
        self.again(lambda: self.click_on(name))
        self.settled()

    def click_on(self, name):
        """Brings a thing into sight and clicks on it."""
        found = self.find(name)
        self.run("arguments[0].scrollIntoView({block: 'center'})", found)
        self.until(f"{name} ready", lambda: found.get_attribute("data-resting") is None)
        self.clicks += 1
        found.click()

    def click_if(self, name):
        """Clicks on a thing if it is there; it may go while this is done."""
        from selenium.common.exceptions import WebDriverException
        with contextlib.suppress(WebDriverException):
            for found in self.driver.find_elements("id", name):
                found.click()

    def settled(self):
        """Waits until nothing is under way, or the page asks or waits for something."""
        self.until("an end", lambda: not self.run(BUSY) or self.shown("question") or self.shown("waiting"))

    def go(self, view):
        """Goes to a view by the navigation."""
        if self.again(lambda: self.find(f"nav-{view}").get_attribute("aria-current")) is None:
            self.dismiss()
            self.run("scrollTo(0, 0)")
            self.again(lambda: self.find(f"nav-{view}").click())
            self.clicks += 1
            self.ready()

    def dismiss(self):
        """Puts the last answer away."""
        if self.shown("dismiss"):
            self.again(lambda: self.find("dismiss").click())

    def type(self, name, text):
        """Types a text into a field, in place of what it has."""
        found = self.find(name)
        found.clear()
        self.keys += len(text)
        found.send_keys(text)

    def choose(self, name, value):
        """Chooses a value of a choice."""
        found = self.find(name)
        option = found.find_element("css selector", f'option[value="{value}"]')
        self.clicks += 1
        option.click()

    def enter(self, form, **values):
        """Fills fields of a form."""
        for name, value in values.items():
            field = self.find(f"{form}-{name}")
            if field.tag_name == "select":
                self.choose(f"{form}-{name}", value)
            elif field.get_attribute("type") == "checkbox":
                if field.is_selected() != value:
                    field.click()
            else:
                self.type(f"{form}-{name}", value)

    def fill(self, form, **values):
        """Fills fields of a form and sends it."""
        self.dismiss()
        self.enter(form, **values)
        self.click(f"{form}-send")

    def paste(self, name, text):
        """Pastes a text into a field."""
        self.run("const [field, text] = arguments; field.value = text; field.dispatchEvent(new Event('input'));",
                 self.find(name), text)
        self.clicks += 1

    def safe(self, safe, who):
        """Opens or shuts a safe by somebody."""
        self.dismiss()
        self.choose(f"safe-{safe}-by", who)
        self.click(f"safe-{safe}-send")

    def clock(self, moment, proxy=None):
        """Sets the clocks of the browser and of the proxy to a moment, or the proxy's to another; they stand there."""
        def seconds(text):
            told = datetime.datetime.strptime(text, "%Y-%m-%dT%H:%M:%SZ")
            return int(told.replace(tzinfo=datetime.timezone.utc).timestamp())
        self.run("sessionStorage.setItem('test-clock', arguments[0])", str(seconds(moment) * 1000))
        self.date.write_text(str(seconds(proxy or moment)))

    def moment(self, text):
        """Types the moment of what is entered over the one that is there."""
        from selenium.webdriver import Keys
        self.find("at").send_keys(Keys.CONTROL + "a" + Keys.NULL + text)
        self.run("document.activeElement.blur()")
        self.ready()

    def by_clock(self):
        """Has the moment run with the clock."""
        if self.shown("use-clock"):
            self.find("use-clock").click()

    def agree(self):
        """Says yes to what the page asks before it sends a command, and waits for what comes of it."""
        while self.shown("question"):
            self.again(lambda: self.find("question-yes").click())
            self.clicks += 1
            self.settled()

    def log(self):
        """What the browser's console has, but for answers of the register that are refusals."""
        lines = [line["message"] for line in self.driver.get_log("browser")]
        return [line for line in lines if "the server responded" not in line]

    def press_at(self, x, y):
        """Presses the pointer at a place, whatever is there."""
        for kind in ("mousePressed", "mouseReleased"):
            self.driver.execute_cdp_cmd("Input.dispatchMouseEvent", {"type": kind, "x": x, "y": y, "button": "left",
                                                                     "clickCount": 1})

    def press_key(self, key):
        """Presses a key once."""
        self.hold(key, 0)

    def hold(self, key, repeats):
        """Holds a key down while it repeats, as a keyboard does, and lets it go."""
        code = "Space" if key == " " else key
        told = {"key": key, "code": code, "windowsVirtualKeyCode": 32 if key == " " else 13,
                "text": " " if key == " " else "\r"}
        for number in range(repeats + 1):
            self.driver.execute_cdp_cmd("Input.dispatchKeyEvent", {"type": "keyDown", "autoRepeat": number > 0, **told})
            time.sleep(0.03)
        self.driver.execute_cdp_cmd("Input.dispatchKeyEvent", {"type": "keyUp", **{**told, "text": ""}})

    def press(self, *keys):
        """Presses keys, wherever the focus is."""
        from selenium.webdriver import ActionChains
        ActionChains(self.driver).send_keys(*keys).perform()

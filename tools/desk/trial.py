"""What the trials of the desk share: a front over a program, a browser, and ways to look and press."""
import hashlib
import json
import os
import pathlib
import re
import signal
import socket
import subprocess
import tempfile
import time
import urllib.request

from selenium import webdriver
from selenium.common.exceptions import StaleElementReferenceException
from selenium.webdriver.common.action_chains import ActionChains
from selenium.webdriver.common.by import By
from selenium.webdriver.chrome.service import Service

ROOT = pathlib.Path(__file__).resolve().parents[2]
CLINIC = ROOT / 'examples' / 'clinic'
PATIENT = int(os.environ.get('DESK_PATIENCE', 120))  # seconds that something may take which has to come


def line(**keys):
    """A line of a command."""
    return json.dumps(keys, ensure_ascii=False)


def clinic():
    """The edits of the example."""
    lines = (CLINIC / 'clinic.jsonl').read_text(encoding='utf-8').splitlines()
    return [each for each in lines if json.loads(each)['do'] != 'counts']


def free_port():
    """A port at which nobody listens."""
    with socket.socket() as found:
        found.bind(('127.0.0.1', 0))
        return found.getsockname()[1]


class Front:
    """A front over a folder of its own."""

    def __init__(self, program, front, folder, *options):
        self.words = [front, '--program', program, '--journal', folder, '--lame', '50ms', *options]
        self.port = free_port()
        self.process = None
        self.log = tempfile.TemporaryFile()
        self.start()

    @property
    def address(self):
        return f'http://127.0.0.1:{self.port}'

    def start(self):
        """Starts it, and waits until it answers."""
        words = [*self.words, '--listen', f'127.0.0.1:{self.port}']
        self.process = subprocess.Popen(words, stdout=self.log, stderr=self.log)
        for _ in until('the front answers'):
            if self.process.poll() is not None:
                self.log.seek(0)
                raise RuntimeError(self.log.read().decode()[-2000:])
            try:
                urllib.request.urlopen(f'{self.address}/readyz', timeout=10).close()
                return
            except OSError:
                pass

    def kill(self):
        """Ends it at once."""
        self.process.send_signal(signal.SIGKILL)
        self.process.wait()

    def end(self):
        if self.process.poll() is None:
            self.process.terminate()
            self.process.wait()
        self.log.close()

    def ask(self, path, body=None, token=None, **fields):
        """What a path answers, as bytes."""
        headers = {**fields, **({'Authorization': f'Bearer {token}'} if token else {})}
        data = None if body is None else body.encode()
        with urllib.request.urlopen(urllib.request.Request(self.address + path, data, headers),
                                    timeout=PATIENT) as told:
            return told.read()

    def send(self, *lines, token=None):
        """Sends lines, each of which has to be accepted."""
        told = self.ask('/lines?strict=1', ''.join(f'{each}\n' for each in lines), token).splitlines()
        assert all(b'"changes"' in each for each in told), told[:1]
        return json.loads(told[-1])


def until(what):
    """Goes on, a little later each time, until something came, or ends the trial."""
    ends = time.monotonic() + PATIENT
    while time.monotonic() < ends:
        yield
        time.sleep(0.03)
    raise AssertionError(f'it never came to this: {what}')


def started(width=1400, height=800):
    """A browser without a window."""
    options = webdriver.ChromeOptions()
    for word in ('--headless=new', '--no-sandbox', '--disable-dev-shm-usage', '--disable-gpu', '--hide-scrollbars',
                 '--lang=en-GB', f'--window-size={width},{height}'):
        options.add_argument(word)
    options.binary_location = '/usr/bin/chromium'
    options.set_capability('goog:loggingPrefs', {'browser': 'ALL'})
    browser = webdriver.Chrome(service=Service('/usr/bin/chromedriver'), options=options)
    browser.set_script_timeout(PATIENT)
    return browser


def fresh(browser):
    """Has one empty tab, of the first size and look, with a network as it is."""
    for tab in browser.window_handles[1:]:
        browser.switch_to.window(tab)
        browser.close()
    browser.switch_to.window(browser.window_handles[0])
    browser.get('about:blank')
    sized(browser, 1400, 800)
    looking(browser, 'light')
    browser.execute_cdp_cmd('Network.enable', {})
    browser.execute_cdp_cmd('Network.emulateNetworkConditions', {
        'offline': False, 'latency': 0, 'downloadThroughput': -1, 'uploadThroughput': -1})
    browser.get_log('browser')


def looking(browser, look):
    """Has the browser ask for a light or a dark page."""
    browser.execute_cdp_cmd('Emulation.setEmulatedMedia',
                            {'features': [{'name': 'prefers-color-scheme', 'value': look}]})


def sized(browser, width, height, zoom=1):
    """Gives the window a size, of which a page at a zoom sees as much less."""
    browser.execute_cdp_cmd('Emulation.setDeviceMetricsOverride', {
        'width': width // zoom, 'height': height // zoom, 'deviceScaleFactor': zoom, 'mobile': False})


class Trial:
    """The desk in a browser, and what was found wrong with it."""

    def __init__(self, browser, front, pictures=None):
        self.browser, self.front, self.pictures = browser, front, pictures
        self.faults = []

    def see(self, what, found, wanted):
        """Remembers where something isn't as it should be."""
        if found != wanted:
            self.faults.append(what)
            print(f'{what}: {found!r} where {wanted!r} should be')

    def open(self, place=''):
        """Opens a view by its address, anew."""
        self.browser.get('about:blank')
        self.browser.get(f'{self.front.address}/{place}')

    def go(self, place):
        """Goes to another view within the page."""
        self.browser.execute_script('location.hash = arguments[0]', place)

    def all(self, where):
        return self.browser.find_elements(By.CSS_SELECTOR, where)

    def text(self, where='main'):
        """What a reader reads there, each blank as one."""
        told = self.browser.execute_script(
            'return [...document.querySelectorAll(arguments[0])].map((each) => each.innerText).join(" ")', where)
        return ' '.join(told.split())

    def await_text(self, words, where='main'):
        """Waits until some words are there."""
        for _ in until(f'{words!r} in {where}: {self.text(where)!r}'):
            if words in self.text(where):
                return self.text(where)

    def await_gone(self, words, where='main'):
        for _ in until(f'no {words!r} in {where}'):
            if words not in self.text(where):
                return

    def click(self, words, where='button, a, summary'):
        """Presses what has these words."""
        for _ in until(f'{words!r} to press'):
            try:
                for each in self.all(where):
                    if words in (' '.join(each.text.split()), each.get_attribute('aria-label')) and each.is_displayed():
                        each.click()
                        return
            except StaleElementReferenceException:
                pass  # it was drawn anew meanwhile

    def press(self, *keys):
        for key in keys:
            ActionChains(self.browser).send_keys(key).perform()

    def choose(self, name, value):
        """Gives a field a value, as who types or chooses does."""
        self.browser.execute_script(
            '''const [name, value] = arguments, field = document.querySelector(`[name="${name}"]`);
            field.value = value;
            for (const kind of ['input', 'change']) field.dispatchEvent(new Event(kind,
                                                                                  { bubbles: true }));''', name, value)

    def letters(self):
        """The rows of letters that the table shows; none while one isn't there."""
        told = self.browser.execute_script('''const { grid } = window.desk ?? {};
            if (!grid || !grid.scroller.isConnected) return null;
            const { picture } = grid, rows = [];
            for (let i = 0; i < picture.rows; i += 1) {
              let row = '';
              for (let j = 0; j < picture.columns; j += 1) row += picture.letter(i, j) || '_';
              rows.push(row);
            }
            return rows;''')
        return None if told is None or any('_' in row for row in told) else told

    def await_letters(self, wanted=None):
        """The rows of letters, once all are there, or once they are so."""
        for _ in until(f'letters {wanted}: {self.letters()}'):
            told = self.letters()
            if told is not None and wanted in (None, told):
                return told

    def marked(self):
        """The words of the cell that has the mark of the keyboard."""
        return self.browser.execute_script(
            'return document.querySelector("[role=gridcell]").getAttribute("aria-label")')

    def picture(self, name):
        """Keeps the window as a picture."""
        if self.pictures:
            self.browser.get_screenshot_as_file(str(pathlib.Path(self.pictures) / f'{name}.png'))

    def messages(self):
        """What the browser complained of, but for answers that say that something isn't so."""
        quiet = re.compile(r'Failed to load resource|net::ERR')
        return [each['message'] for each in self.browser.get_log('browser') if not quiet.search(each['message'])]


def digest(content):
    """The SHA-256 of bytes."""
    return hashlib.sha256(content).hexdigest()

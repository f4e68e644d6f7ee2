"""The desk in a real browser, for the tests of its parts: what they share, and what runs them for tests/desk/browser.

tests/desk/browser_PART.py defines functions test_...(page), which run in their order, each on the page opened anew:

    def test_a_short_file_is_refused(page):
        page.click('#tab-check')                            # elements are named by css selectors
        page.drop('#check-drop', 'short.cbs', b'CB')        # a file dragged there; octets, or a path
        page.choose('#check-file', 'short.cbs', b'CB')      # a file chosen in an <input type="file">
        page.paste('#plan-rows', '1\\tadvised\\n')            # text, as from a spreadsheet
        page.fill('#plan-begin', '3')                       # what a field holds, typed anew
        page.press('#tab-check', 'ARROW_RIGHT', 'SHIFT+TAB')    # keys of selenium's Keys, or letters; None: on what has focus
        page.wait(lambda: 'Refused by 32' in page.text('#check-said'), 'the refusal')
        assert page.download('plan.cbp') == b'...'          # a file that the page saved, by its name
        page.size(360, 800); page.dark(); page.picture('check-short')   # target/desk/pictures/check-short-chromium.png
        page.fits('check')                                  # nothing is too wide, wide or narrow; with pictures, one of them dark

Besides: page.open('#...') opens it anew with that address, page.find and page.all give selenium's elements, page.value what a
field holds, page.run(script, ...) what JavaScript returns, page.address() the address behind the #, page.media('print') how it
looks on paper, page.pdf(name) the paper itself, page.browser is 'chromium' or 'firefox', and page.driver is selenium's.
A test fails by an exception, assert's or any other; then by any error on the console, and by any request but for the page itself.
"""
import base64
import importlib.util
import json
import os
import re
import shutil
import sys
import tempfile
import time
import traceback

from selenium import webdriver
from selenium.common.exceptions import WebDriverException
from selenium.webdriver.chrome.options import Options as ChromiumOptions
from selenium.webdriver.chrome.service import Service as ChromiumService
from selenium.webdriver.common.action_chains import ActionChains
from selenium.webdriver.common.by import By
from selenium.webdriver.common.keys import Keys
from selenium.webdriver.firefox.options import Options as FirefoxOptions
from selenium.webdriver.firefox.service import Service as FirefoxService

TOP = os.path.dirname(os.path.dirname(os.path.dirname(os.path.abspath(__file__))))
TESTS = os.path.dirname(os.path.abspath(__file__))
PAGE = 'file://' + os.path.join(TOP, 'target/desk.html')
PICTURES = os.path.join(TOP, 'target/desk/pictures')

DROP = """
const [element, input] = arguments;
const transfer = new DataTransfer();
for (const file of input.files) transfer.items.add(file);
input.remove();
for (const kind of ['dragenter', 'dragover', 'drop']) {
    element.dispatchEvent(new DragEvent(kind, { bubbles: true, cancelable: true, composed: true, dataTransfer: transfer }));
}
"""
PASTE = """
const [element, text] = arguments;
const transfer = new DataTransfer();
transfer.setData('text/plain', text);
element.focus();
const clipboard = { clipboardData: transfer, dataType: 'text/plain', data: text }; // Firefox takes the last two
const event = new ClipboardEvent('paste', { bubbles: true, cancelable: true, composed: true, ...clipboard });
if (element.dispatchEvent(event)) document.execCommand('insertText', false, text);
"""
INPUT = """
const input = document.createElement('input');
input.type = 'file';
input.multiple = true;
document.body.append(input);
return input;
"""


def chromium(folder):
    """Chromium with a profile and a folder for downloads of its own, and no way to anywhere."""
    options = ChromiumOptions()
    options.binary_location = shutil.which('chromium')
    for word in ['--headless=new', '--disable-gpu', '--disable-dev-shm-usage', '--no-first-run', '--lang=en-GB',
                 '--disable-background-networking', '--disable-component-update', '--disable-sync', '--window-size=1280,900',
                 '--host-resolver-rules=MAP * ~NOTFOUND', f'--user-data-dir={folder}/profile']:
        options.add_argument(word)
    if os.getuid() == 0:
        options.add_argument('--no-sandbox')
    options.add_experimental_option('prefs', {'download.default_directory': f'{folder}/downloads',
                                              'download.prompt_for_download': False, 'safebrowsing.enabled': False})
    options.set_capability('goog:loggingPrefs', {'browser': 'ALL', 'performance': 'ALL'})
    return webdriver.Chrome(service=ChromiumService(shutil.which('chromedriver')), options=options)


def firefox(folder):
    """The same of Firefox, which writes its console to a log."""
    options = FirefoxOptions()
    options.add_argument('-headless')
    for name, value in {'browser.download.folderList': 2, 'browser.download.dir': f'{folder}/downloads',
                        'browser.helperApps.neverAsk.saveToDisk': 'application/octet-stream',
                        'devtools.console.stdout.content': True, 'intl.accept_languages': 'en-GB',
                        'network.proxy.type': 1, 'network.proxy.http': '127.0.0.1', 'network.proxy.http_port': 1,
                        'network.proxy.ssl': '127.0.0.1', 'network.proxy.ssl_port': 1}.items():
        options.set_preference(name, value)
    service = FirefoxService(shutil.which('geckodriver'), log_path=f'{folder}/log')
    driver = webdriver.Firefox(service=service, options=options)
    driver.set_window_size(1280, 900)
    return driver


class Page:
    """The desk in a browser."""

    def __init__(self, browser):
        self.browser = browser
        self.folder = tempfile.mkdtemp(prefix='desk.')
        os.makedirs(f'{self.folder}/downloads')
        try:
            self.driver = chromium(self.folder) if browser == 'chromium' else firefox(self.folder)
        except BaseException:
            shutil.rmtree(self.folder, ignore_errors=True)
            raise
        self.seen = 0  # octets of Firefox's log

    def quit(self):
        """Ends the browser."""
        self.driver.quit()
        shutil.rmtree(self.folder, ignore_errors=True)

    def open(self, address=''):
        """Opens the page anew, and waits until its parts are started."""
        self.driver.get('about:blank')
        self.driver.get(PAGE + address)
        self.wait(lambda: self.all('main:not([aria-busy])'), 'the desk', 60)

    def find(self, css):
        """The one element of a selector, or the first."""
        return self.driver.find_element(By.CSS_SELECTOR, css) if isinstance(css, str) else css

    def all(self, css):
        """All elements of a selector."""
        return self.driver.find_elements(By.CSS_SELECTOR, css)

    def text(self, css):
        """The text of an element, as it is shown."""
        return self.find(css).text

    def value(self, css):
        """What a field holds."""
        return self.find(css).get_property('value')

    def address(self):
        """The page's address from the # on."""
        return self.run('return location.hash')

    def run(self, script, *words):
        """What a script returns; its arguments are in `arguments`."""
        return self.driver.execute_script(script, *words)

    def click(self, css):
        """Clicks on an element."""
        element = self.find(css)
        self.run('arguments[0].scrollIntoView({ block: "center" })', element)
        element.click()

    def fill(self, css, text):
        """Types into a field, in the place of what it holds."""
        element = self.find(css)
        element.send_keys(Keys.CONTROL, 'a')
        element.send_keys(Keys.DELETE)
        element.send_keys(text)

    def press(self, css, *keys):
        """Presses keys one after the other, on an element or on what has focus."""
        if css is not None:
            self.run('arguments[0].focus()', self.find(css))
        for key in keys:
            *held, last = key.split('+') if len(key) > 1 else [key]
            chain = ActionChains(self.driver)
            for name in held:
                chain.key_down(getattr(Keys, name))
            chain.send_keys(getattr(Keys, last, last))
            for name in held:
                chain.key_up(getattr(Keys, name))
            chain.perform()

    def path(self, name, octets):
        """A file of that name with some octets, or with those of another file."""
        folder = tempfile.mkdtemp(dir=self.folder)
        path = os.path.join(folder, name)
        if isinstance(octets, str):
            os.symlink(os.path.abspath(octets), path)
        else:
            with open(path, 'wb') as file:
                file.write(octets)
        return path

    def drop(self, css, name, octets):
        """Drops a file onto an element."""
        element = self.find(css)
        given = self.run(INPUT)
        given.send_keys(self.path(name, octets))
        self.run(DROP, element, given)

    def choose(self, css, name, octets):
        """Chooses a file in an input."""
        self.find(css).send_keys(self.path(name, octets))

    def paste(self, css, text):
        """Pastes text into an element; where the page doesn't take it itself, it is inserted."""
        self.run(PASTE, self.find(css), text)

    def wait(self, condition, what='what is waited for', seconds=30):
        """Waits until a function gives something, and gives that."""
        end = time.monotonic() + seconds
        while True:
            try:
                given = condition()
                if given:
                    return given
            except WebDriverException:
                if time.monotonic() > end:
                    raise
            if time.monotonic() > end:
                raise AssertionError(f'not within {seconds} s: {what}')
            time.sleep(0.05)

    def download(self, name):
        """The octets of a file that the page saves, which is then gone."""
        path = os.path.join(self.folder, 'downloads', name)

        def whole():
            there = os.listdir(f'{self.folder}/downloads')
            return name in there and not any(other.endswith(('.crdownload', '.part')) for other in there)
        self.wait(whole, f'the download of {name}')
        with open(path, 'rb') as file:
            octets = file.read()
        os.remove(path)
        return octets

    def size(self, width, height):
        """Sets the size of what is seen of the page."""
        if self.browser == 'chromium':
            self.driver.execute_cdp_cmd('Emulation.setDeviceMetricsOverride',
                                        {'width': width, 'height': height, 'deviceScaleFactor': 1, 'mobile': False})
        else:
            self.driver.set_window_size(width, height)

    def dark(self, dark=True):
        """Prefers dark colours, or light ones; Firefox keeps light ones."""
        self.media('', dark)

    def media(self, kind, dark=False):
        """Shows the page as on paper ('print') or as on a screen (''), in Chromium alone."""
        if self.browser == 'chromium':
            features = [{'name': 'prefers-color-scheme', 'value': 'dark' if dark else 'light'}]
            self.driver.execute_cdp_cmd('Emulation.setEmulatedMedia', {'media': kind, 'features': features})

    def picture(self, name, whole=True):
        """Takes a picture of the whole page, or of what is seen of it, and gives its path."""
        os.makedirs(PICTURES, exist_ok=True)
        path = os.path.join(PICTURES, f'{name}-{self.browser}.png')
        if not whole:
            self.driver.save_screenshot(path)
        elif self.browser == 'chromium':
            taken = self.driver.execute_cdp_cmd('Page.captureScreenshot', {'captureBeyondViewport': True})
            with open(path, 'wb') as file:
                file.write(base64.b64decode(taken['data']))
        else:
            self.driver.save_full_page_screenshot(path)
        return path

    def fits(self, part):
        """Holds that nothing is wider than what is seen of the page, at several widths, and takes a picture of each."""
        for name, width, height, dark in [('light', 1280, 900, False), ('dark', 1280, 900, True), ('double', 640, 450, False),
                                          ('narrow', 360, 740, False)]:
            self.size(width, height)
            self.dark(dark)
            self.picture(f'{part}-{name}')
            wide = self.run('return [document.documentElement.scrollWidth, document.documentElement.clientWidth]')
            assert wide[0] <= wide[1], f'{name}: {wide[0]} of {wide[1]} px'
        self.dark(False)
        self.size(1280, 900)

    def pdf(self, name):
        """Prints the page, and gives the path."""
        os.makedirs(PICTURES, exist_ok=True)
        path = os.path.join(PICTURES, f'{name}-{self.browser}.pdf')
        with open(path, 'wb') as file:
            file.write(base64.b64decode(self.driver.print_page()))
        return path

    def as_new(self):
        """Forgets what a test has set, and opens the page."""
        shutil.rmtree(f'{self.folder}/downloads')
        os.makedirs(f'{self.folder}/downloads')
        if self.browser == 'chromium':
            self.driver.execute_cdp_cmd('Emulation.clearDeviceMetricsOverride', {})
            self.driver.execute_cdp_cmd('Emulation.setEmulatedMedia', {'media': '', 'features': []})
        self.wrongs()
        self.open()

    def wrongs(self):
        """The errors on the console and the requests since this was asked last."""
        return self.chromium_wrongs() if self.browser == 'chromium' else self.firefox_wrongs()

    def chromium_wrongs(self):
        """The same in Chromium."""
        wrongs = [f'console: {entry["message"]}' for entry in self.driver.get_log('browser') if entry['level'] == 'SEVERE']
        for entry in self.driver.get_log('performance'):
            message = json.loads(entry['message'])['message']
            if message['method'] == 'Network.requestWillBeSent':
                url = message['params']['request']['url']
            elif message['method'] == 'Network.webSocketCreated':
                url = message['params']['url']
            else:
                continue
            if not url.startswith(('blob:', 'data:', 'about:')) and url.split('#')[0] != PAGE:
                wrongs.append(f'request: {url}')
        return wrongs

    def firefox_wrongs(self):
        """The same in Firefox, whose requests none can be told of: the page's policy and the proxy stand in their way."""
        with open(f'{self.folder}/log', encoding='utf-8', errors='replace') as file:
            file.seek(self.seen)
            lines = file.read()
            self.seen = file.tell()
        return [f'console: {line}' for line in lines.splitlines()
                if re.match(r'console\.error: ["(\[{]|JavaScript error: (file|blob):', line)]


def run_test(page, name, test):
    """What is wrong with a test, in lines; none where it passes."""
    try:
        page.as_new()
        test(page)
        time.sleep(0.05)  # what the page still has to say
        return page.wrongs()
    except Exception as error:  # whatever it is, the other tests are run
        wrongs = []
        try:
            page.picture(f'failed-{name}')
            wrongs = page.wrongs()
        except WebDriverException:
            pass
        frames = [frame for frame in traceback.extract_tb(error.__traceback__) if frame.filename.startswith(TESTS)]
        place = [frame for frame in frames if frame.filename != os.path.abspath(__file__)][-1:] or frames[-1:]
        where = f'{os.path.basename(place[0].filename)}:{place[0].lineno}'
        said = str(error).splitlines()[0] if str(error) else place[0].line
        return [f'{where}: {type(error).__name__}: {said}'] + wrongs


def tests_of(path):
    """The tests of a file, in their order."""
    spec = importlib.util.spec_from_file_location(os.path.basename(path)[:-3], path)
    module = importlib.util.module_from_spec(spec)
    spec.loader.exec_module(module)
    return [(name, test) for name, test in vars(module).items() if name.startswith('test_') and callable(test)]


def run_file(browser, path, only=''):
    """Runs the tests of a file in a browser of its own: what is wrong with each."""
    part = re.sub(r'^browser_|\.py$', '', os.path.basename(path))
    page = Page(browser)
    try:
        return {f'{part}: {name}': run_test(page, f'{part}-{name}', test) for name, test in tests_of(path) if only in name}
    finally:
        page.quit()


def tried(browser):
    """Runs the tests that have to fail: whether each does."""
    wrongs = run_file(browser, os.path.join(TESTS, 'fails.py'))
    passed = [name for name, wrong in wrongs.items() if not wrong]
    for name in passed:
        print(f'tests/desk: {browser}: {name}: it passes', file=sys.stderr)
    print(f'tests/desk: {len(wrongs)} tests that have to fail in {browser}, {len(wrongs) - len(passed)} do')
    return bool(wrongs) and not passed


def run_parts(browser, parts, chosen):
    """Runs the tests of the parts that are chosen, or of all: whether they pass."""
    wrongs = {}
    for part in chosen or parts:
        wrongs.update(run_file(browser, parts[part], chosen.get(part, '')))
    for name, its in wrongs.items():
        for wrong in its:
            print(f'tests/desk: {browser}: {name}: {wrong}', file=sys.stderr)
    failed = sum(bool(its) for its in wrongs.values())
    print(f'tests/desk: {len(wrongs)} tests of {len(chosen or parts)} parts in {browser}, {failed} fail')
    return bool(wrongs) and failed == 0


def main(words):
    """Runs the tests, or those that have to fail, in each browser."""
    sys.dont_write_bytecode = True
    browsers = ['chromium'] + ['firefox'] * (shutil.which('geckodriver') is not None)
    if words == ['--tried']:
        return 0 if all([tried(browser) for browser in browsers]) else 1
    names = sorted(name for name in os.listdir(TESTS) if re.fullmatch(r'browser_\w+\.py', name))
    parts = {name[len('browser_'):-3]: os.path.join(TESTS, name) for name in names}
    chosen = dict((word + ':').split(':')[:2] for word in words)
    unknown = [part for part in chosen if part not in parts]
    if unknown or not parts:
        sys.exit(f'tests/desk: there is no test of {" ".join(unknown) or "any part"}')
    return 0 if all([run_parts(browser, parts, chosen) for browser in browsers]) else 1


if __name__ == '__main__':
    sys.exit(main(sys.argv[1:]))

#!/usr/bin/python3
"""Tries the page that page.py makes, in headless Chromium: clicks, types and looks at what is shown.

    try_page.py PROGRAM [--pictures FOLDER]

PROGRAM is the review program; the tables come from it, over the lines of examples/clinic and larger ones made here.
With --pictures the windows are written into the folder as PNG files. The status is 0 where all is as it should be,
1 where something isn't, and 3 where Chromium, its driver, Selenium or jinja2 isn't there, or no browser starts.
"""
import argparse
import importlib.util
import json
import os
import pathlib
import shutil
import subprocess
import sys
import tempfile

try:
    from selenium import webdriver
    from selenium.common.exceptions import WebDriverException
    from selenium.webdriver.chrome.service import Service
    from selenium.webdriver.common.action_chains import ActionChains
    from selenium.webdriver.common.by import By
    from selenium.webdriver.common.keys import Keys
    from selenium.webdriver.support.ui import Select
except ImportError:
    webdriver = None

HERE = pathlib.Path(__file__).resolve().parent
CLINIC = HERE.parent / 'examples' / 'clinic'
HOSTILE = ['</script><img src=x onerror="document.title=1">', '"><svg onload=alert(1)>', '<!--', '{{ 7*7 }}',
           "'; alert(1); '", '__proto__', 'constructor', 'a\u202egnp.b', 'zero\u200bwidth', ' ', '\u2028', '&lt;b&gt;',
           'n' * 256, '\U0001f600']
ROLES = ['doctor', 'nurse', 'reception', 'pharmacist', 'trainee']
DEPARTMENTS = ['surgery', 'cardiology', 'pediatrics']
KINDS = ['record', 'record', 'cabinet', 'paper', 'other']


def line(**keys):
    """A line that is sent."""
    return json.dumps(keys, ensure_ascii=False)


def clinic():
    """The lines of the example."""
    return (CLINIC / 'clinic.jsonl').read_text(encoding='utf-8').splitlines()


def rules():
    """Those of its lines that add its policies, set the day and the root."""
    return [each for each in clinic() if json.loads(each)['do'] in ('policy.add', 'day.set', 'root.set')]


def set_row(category, entity, attribute, *values):
    """The line that gives an entity the values of an attribute of type string."""
    row = {'category': category, 'entity': entity, 'attribute': attribute, 'type': 'string'}
    return line(do='attr.set', **row, values=list(values))


def world(people, actions, resources):
    """The lines of a world of these names, with roles, departments and kinds by turns, under the example's policies."""
    lines = rules()
    for number, name in enumerate(people):
        lines += [set_row('AccessSubject', name, 'role', ROLES[number % 5]),
                  set_row('AccessSubject', name, 'department', DEPARTMENTS[number % 3])]
    for number, name in enumerate(resources):
        lines += [set_row('Resource', name, 'kind', KINDS[number % 5]),
                  set_row('Resource', name, 'department', DEPARTMENTS[number // 5 % 3])]
    names = [('person', people), ('action', actions), ('resource', resources)]
    return lines + [line(do=f'{sort}.add', name=name) for sort, each in names for name in each]


def started():
    """A browser, or none where it doesn't start, as on a machine that is too busy."""
    options = webdriver.ChromeOptions()
    words = ['--headless=new', '--disable-gpu', '--disable-dev-shm-usage', '--window-size=1400,900',
             '--force-device-scale-factor=1']
    for word in words + (['--no-sandbox'] if os.geteuid() == 0 else []):
        options.add_argument(word)
    options.set_capability('goog:loggingPrefs', {'browser': 'ALL'})
    for _ in range(3):
        try:
            return webdriver.Chrome(options=options, service=Service(shutil.which('chromedriver')))
        except WebDriverException as cause:
            print(f'the browser does not start: {cause.msg}')
    return None


class Trial:
    """A browser, the program, and what was found wrong so far."""

    def __init__(self, browser, program, folder, pictures):
        self.browser, self.program, self.folder = browser, program, pathlib.Path(folder)
        self.pictures, self.faults = pictures, []

    def replies(self, lines):
        """What the program answers to lines."""
        sent = ''.join(each + '\n' for each in lines).encode()
        return subprocess.run([self.program, 'serve'], input=sent, stdout=subprocess.PIPE, check=True).stdout

    def open(self, name, lines, *options):
        """Makes the page of the replies to lines, and opens it."""
        self.show(name, self.replies(lines), *options)

    def show(self, name, sent, *options):
        """Makes the page of these replies, or of those that the options name, and opens it."""
        path = self.folder / 'page.html'
        made = [str(HERE / 'page.py'), '--title', name, '--output', str(path), *options]
        subprocess.run(made, input=sent, check=True)
        self.browser.get(path.as_uri())
        self.settle()

    def file(self, name, lines):
        """The name of a file with the replies to lines."""
        path = self.folder / name
        path.write_bytes(self.replies(lines))
        return str(path)

    def settle(self):
        """Waits until what was asked for is drawn."""
        self.browser.execute_async_script(
            'requestAnimationFrame(() => requestAnimationFrame(() => setTimeout(arguments[0], 0)));')

    def picture(self, name):
        """Writes the window as it is, if pictures are wanted."""
        self.settle()
        if self.pictures:
            self.browser.save_screenshot(str(pathlib.Path(self.pictures) / f'{name}.png'))

    def see(self, what, found, wanted):
        """Notes whether something is as it should be."""
        if found != wanted:
            self.faults.append(what)
            print(f'{what}: found {found!r}, wanted {wanted!r}')

    def get(self, name):
        return self.browser.find_element(By.ID, name)

    def text(self, name):
        """What a reader sees of an element."""
        return self.get(name).text

    def place(self, row, column):
        """Where a cell stands, from the middle of the table's room."""
        shown, room = self.get('scroller'), self.get('scroller').rect
        left, top, size = (float(shown.get_attribute(f'data-{key}')) for key in ('left', 'top', 'size'))
        scrolled = [float(shown.get_property(key)) for key in ('scrollLeft', 'scrollTop')]
        across, down = left + (column + 0.5) * size - scrolled[0], top + (row + 0.5) * size - scrolled[1]
        return round(across - room['width'] / 2), round(down - room['height'] / 2)

    def click(self, row, column):
        """Clicks a cell."""
        self.hover(row, column)
        ActionChains(self.browser).click().perform()
        self.settle()

    def hover(self, row, column):
        """Brings the pointer over a cell."""
        x, y = self.place(row, column)
        ActionChains(self.browser).move_to_element_with_offset(self.get('scroller'), x, y).perform()
        self.settle()

    def press(self, *keys):
        """Presses keys, one after the other."""
        for key in keys:
            ActionChains(self.browser).send_keys(key).perform()
        self.settle()

    def press_with_control(self, key):
        """Presses a key while Control is down."""
        ActionChains(self.browser).key_down(Keys.CONTROL).send_keys(key).key_up(Keys.CONTROL).perform()
        self.settle()

    def tab(self, number):
        """Clicks the tab of an action."""
        self.browser.find_elements(By.CSS_SELECTOR, '[role=tab]')[number].click()
        self.settle()

    def clear(self):
        """Clears the filters."""
        self.get('clear').click()
        self.settle()

    def choose(self, name, words):
        """Chooses an option of a filter."""
        Select(self.get(name)).select_by_visible_text(words)
        self.settle()

    def shown(self):
        """How many rows and columns the table has under the filters."""
        return [int(self.get('scroller').get_attribute(f'data-{key}')) for key in ('rows', 'columns')]

    def tabs(self):
        return [tab.text for tab in self.browser.find_elements(By.CSS_SELECTOR, '[role=tab]')]

    def messages(self):
        """What the browser complained of."""
        return [each['message'] for each in self.browser.get_log('browser')]


def try_clinic(trial):
    """The example at its first day: tabs, clicks, notes, filters and keys."""
    trial.open('clinic', clinic() + [line(do='table')])
    trial.see('the tabs', trial.tabs(), ['read', 'write', 'discharge', 'prescribe', 'break-glass'])
    trial.see('rows and columns', trial.shown(), [8, 12])
    trial.picture('clinic')
    trial.browser.execute_script("document.body.style.filter = 'grayscale(1)'")
    trial.picture('clinic-grey')
    trial.browser.execute_script("document.body.style.filter = ''")
    trial.click(0, 0)
    trial.see('the cell at the side', trial.text('cell').splitlines()[:6],
              ['ada · read · record-moss', 'Permit', 'Status', 'ok', 'Decided by', 'care-team'])
    trial.hover(0, 11)
    trial.see('the note', trial.text('note'), 'ada · read · invoices\nDeny\ndecided by office: nobody-else')
    trial.tab(4)
    trial.click(2, 0)
    wanted = ['tell-the-privacy-officer', 'who', 'chen string', 'write-down-the-reason', '24 integer']
    trial.see('obligations and advice', [words for words in wanted if words not in trial.text('cell')], [])
    trial.picture('clinic-obligation')
    trial.choose('decision', 'Indeterminate{P}')
    trial.see('tabs under a decision', trial.tabs(),
              ['read (0)', 'write (0)', 'discharge (0)', 'prescribe (2)', 'break-glass (0)'])
    trial.see('no cell of this action', trial.shown(), [0, 0])
    trial.tab(3)
    trial.see('rows under a decision', trial.shown(), [1, 2])
    trial.hover(0, 0)
    trial.see('its status', trial.text('note').splitlines()[1], 'Indeterminate{P}, missing-attribute')
    trial.clear()
    trial.choose('rule', 'records: trainees-only-read')
    trial.see('cells of a rule', trial.text('matches'), '16 of 480 cells')
    trial.clear()
    trial.get('person').send_keys('A')
    trial.get('resource').send_keys('scan')
    trial.settle()
    trial.see('people and resources by a part of their names', trial.shown(), [4, 2])
    trial.clear()
    trial.see('all again', trial.text('matches'), '480 cells')


def try_keys(trial):
    """The same page by keys alone."""
    trial.open('clinic', clinic() + [line(do='table')])
    trial.tab(3)
    trial.press(Keys.HOME, Keys.ARROW_RIGHT)
    trial.see('an arrow in the tabs', trial.browser.switch_to.active_element.text, 'write')
    trial.press(Keys.TAB, Keys.TAB, Keys.TAB, Keys.TAB)
    trial.see('the table has the focus', trial.browser.switch_to.active_element.get_attribute('id'), 'scroller')
    trial.press(Keys.HOME, Keys.PAGE_UP, Keys.ARROW_DOWN, Keys.ARROW_RIGHT, Keys.ARROW_RIGHT)
    trial.see('the note of the marked cell', trial.text('note').splitlines()[0], 'bruno · write · record-patel')
    trial.see('what is spoken', trial.get('spoken').get_attribute('textContent'),
              'bruno · write · record-patel. Permit. decided by records: care-team')
    trial.press(Keys.ENTER)
    trial.see('the cell by Enter', trial.text('cell').splitlines()[0], 'bruno · write · record-patel')
    trial.press(Keys.ESCAPE)
    trial.see('no note', trial.get('note').is_displayed(), False)
    trial.press(Keys.END, Keys.PAGE_DOWN, Keys.ARROW_RIGHT)
    trial.see('the last cell', trial.text('note').splitlines()[0], 'hana · write · invoices')


def try_changes(trial):
    """What notices tell and what an older table shows, over an edit, a day, a name that goes and one that comes."""
    changes = (CLINIC / 'changes.jsonl').read_text(encoding='utf-8').splitlines()
    trial.open('The clinic', clinic() + changes)
    trial.see('the changed cells', trial.text('list').splitlines()[0], 'Changed cells: 12')
    trial.tab(1)
    trial.click(4, 4)
    trial.picture('changes')
    trial.get('changed').click()
    trial.see('tabs of what changed', trial.tabs(),
              ['read (5)', 'write (5)', 'discharge (0)', 'prescribe (2)', 'break-glass (0)'])
    trial.see('one row, five columns', trial.shown(), [1, 5])
    trial.browser.find_elements(By.CSS_SELECTOR, '#list li button')[0].click()
    trial.settle()
    told = trial.text('cell').splitlines()
    trial.see('a cell and what it was', [told[0], told[1], 'Before' in told, 'Permit' in told],
              ['bruno · prescribe · cabinet-ward', 'NotApplicable', True, True])
    older = trial.file('older.jsonl', clinic() + [line(do='table')])
    edits = [line(do='person.drop', name='gus'), line(do='person.add', name='ines')]
    edits += [line(do='counts'), line(do='table')]
    trial.open('older', clinic() + changes[:3] + edits, '--older', older)
    trial.see('changes against an older table', trial.text('list').splitlines()[0], 'Changed cells: 72')
    trial.see('no longer listed', trial.text('gone').splitlines()[0], 'No longer listed: 60')
    trial.choose('decision', 'NotApplicable')
    trial.get('person').send_keys('ines')
    trial.settle()
    trial.click(0, 0)
    trial.see('a new name', trial.text('cell').splitlines()[-1], 'Not listed: it had no answer.')


def try_full(trial):
    """A table of 65,536 cells: 256 people by 256 resources, and four actions of 64 resources."""
    names = [f'{sort}-{number:03}' for sort in ('person', 'thing') for number in range(256)]
    people, things = names[:256], names[256:]
    trial.open('full', world(people, ['read'], things) + [line(do='table')])
    trial.see('all cells', trial.text('matches'), '65536 cells')
    trial.see('rows and columns of the full table', trial.shown(), [256, 256])
    trial.picture('full')
    trial.get('whole').click()
    trial.picture('full-whole')
    trial.get('scroller').click()
    trial.press_with_control(Keys.END)
    trial.see('the last of all cells', trial.text('note').splitlines()[0], 'person-255 · read · thing-255')
    for _ in range(5):
        trial.get('larger').click()
    trial.picture('full-larger')
    trial.click(250, 250)
    trial.see('a cell far down', trial.text('cell').splitlines()[0], 'person-250 · read · thing-250')
    trial.choose('rule', 'records: care-team')
    trial.picture('full-rule')
    trial.see('rows of a rule', trial.shown()[0] < 256, True)
    took = trial.browser.execute_script('''const start = performance.now(); document.getElementById('clear').click();
        document.getElementById('filters').dispatchEvent(new Event('input')); return performance.now() - start;''')
    trial.see(f'a filter over all cells in less than five seconds ({took:.0f} ms)', took < 5000, True)
    trial.open('four', world(people, ['read', 'write', 'prescribe', 'break-glass'], things[:64]) + [line(do='table')])
    trial.see('cells of four actions', (trial.text('matches'), len(trial.tabs())), ('65536 cells', 4))


def block(trial, people, things, name):
    """The name of a file with the table and the counts of these people and resources under two actions."""
    return trial.file(name, world(people, ['read', 'write'], things) + [line(do='counts'), line(do='table')])


def try_joined(trial):
    """400 people and 180 resources in nine tables, three by three; and two tables that have no name in common."""
    names = [f'{sort}-{number:03}' for sort in ('person', 'thing') for number in range(400)]
    people = [names[:134], names[134:267], names[267:400]]
    things = [names[400:460], names[460:520], names[520:580]]
    files = [block(trial, rows, columns, f'{place}-{number}.jsonl')
             for place, rows in enumerate(people) for number, columns in enumerate(things)]
    trial.show('nine', b'', *files)
    trial.see('cells of nine tables', trial.text('matches'), '144000 cells')
    trial.see('rows and columns of nine tables', trial.shown(), [400, 180])
    heads = trial.browser.find_elements(By.CSS_SELECTOR, '#legend li > b')
    trial.see('the heads count all of them', sum(int(head.text) for head in heads[:6]), 144000)
    trial.see('no warning', trial.browser.find_elements(By.CSS_SELECTOR, '.warning[role=alert]'), [])
    trial.get('scroller').click()
    trial.press_with_control(Keys.END)
    trial.see('the last cell of nine tables', trial.text('note').splitlines()[0], 'person-399 · read · thing-179')
    trial.get('whole').click()
    trial.picture('nine')
    apart = [files[0], block(trial, people[1][:9], things[1][:7], 'apart.jsonl')]
    trial.show('apart', b'', *apart, '--older', files[0])
    trial.see('cells of two tables', (trial.text('matches'), trial.shown()), ('16206 cells', [143, 67]))
    trial.see('what the second brings is new', trial.text('list').splitlines()[0], 'Changed cells: 126')
    trial.get('person').send_keys('person-140')
    trial.settle()
    trial.see('the resources of one person', trial.shown(), [1, 7])
    twice = subprocess.run([str(HERE / 'page.py'), files[0], files[1], files[0]], capture_output=True, check=False)
    told = twice.stderr.decode()
    trial.see(f'a table twice ({told})', [twice.returncode, twice.stdout, told.count(' stands in ')], [1, b'', 1])


def try_hostile(trial):
    """Names that would be markup, script, or invisible."""
    trial.open('</title><script>alert(1)</script>', world(HOSTILE, HOSTILE, HOSTILE) + [line(do='table')])
    trial.see('the title', trial.browser.title, '</title><script>alert(1)</script>')
    trial.see('elements that nobody made', trial.browser.find_elements(By.CSS_SELECTOR, 'img, svg, iframe'), [])
    trial.see('a tab', trial.tabs()[0], '</script><img…nt.title=1">')
    trial.click(7, 8)
    trial.see('letters that can\'t be seen', trial.text('cell').splitlines()[0],
              f'a⟨202E⟩gnp.b · {HOSTILE[0]} · zero⟨200B⟩width')
    trial.see('a space', trial.tabs()[9], '⟨0020⟩')
    trial.picture('hostile')


def try_refused(trial):
    """Replies of which no page can be made."""
    cell = '{"person":"a","action":"b","resource":"c","decision":"Deny","status":"ok","why":[],"obligations":[],'
    cell += '"advice":[]}'
    rows = [('{"changes":0,"serial":1}', 'standard input: no reply has a table: send {"do":"table"}'),
            (f'{{"table":[{cell},{cell}]}}', 'standard input:1: the cell ["a", "b", "c"] stands twice'),
            ('{"table":[]}\n{', 'standard input:2: this is no JSON (Expecting property name enclosed in double quotes: '
             'line 1 column 2 (char 1))'),
            ('{"table":[{"person":"a"}]}', 'standard input:1: a cell or a notice has no person, action and resource'),
            ('{"table":[{"person":"a","action":"b","resource":"c"}]}', 'standard input:1: a cell has no decision')]
    for sent, words in rows:
        made = subprocess.run([str(HERE / 'page.py')], input=sent.encode(), capture_output=True, check=False)
        trial.see(f'what is made of {sent}', [made.returncode, made.stdout, made.stderr.decode()],
                  [1, b'', f'page.py: {words}\n'])


def attempted(attempt, program, pictures):
    """What an attempt finds wrong, in a browser of its own, made again where that breaks down; none if none starts."""
    for _ in range(2):
        browser = started()
        if browser is None:
            return None
        with tempfile.TemporaryDirectory() as folder:
            trial = Trial(browser, program, folder, pictures)
            try:
                attempt(trial)
                trial.see(f'messages of the browser in {attempt.__name__}', trial.messages(), [])
                return trial.faults
            except WebDriverException as cause:
                print(f'{attempt.__name__}: {cause.msg}')
            finally:
                browser.quit()
    return [f'{attempt.__name__} breaks down']


def main():
    parser = argparse.ArgumentParser(description='Tries the page that page.py makes, in headless Chromium.')
    parser.add_argument('program', metavar='PROGRAM', help='the review program')
    parser.add_argument('--pictures', metavar='FOLDER', help='where the windows are written as PNG files')
    options = parser.parse_args()
    needed = {'chromium': shutil.which('chromium'), 'chromedriver': shutil.which('chromedriver'),
              'python3-selenium': webdriver, 'python3-jinja2': importlib.util.find_spec('jinja2')}
    missing = [name for name, there in needed.items() if not there]
    if missing:
        print(f'tools/try_page.py was not run: there is no {", ".join(missing)}')
        return 3
    faults = []
    for attempt in (try_clinic, try_keys, try_changes, try_full, try_joined, try_hostile, try_refused):
        found = attempted(attempt, options.program, options.pictures)
        if found is None:
            print('tools/try_page.py was not run to its end: no browser starts')
            return 3
        faults += found
    print('the page is as it should be' if not faults else f'{len(faults)} faults of the page')
    return 1 if faults else 0


if __name__ == '__main__':
    sys.exit(main())

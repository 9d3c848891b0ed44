"""Trials of paper and files: what is printed is rows under a head, whose digest is that of what the front answered."""
import base64
import re
import shutil
import subprocess

from .trial import digest, line, until
from .views import begin


def printed(trial):
    """The open view as a PDF, whose text is given by pages; none where no program reads it."""
    trial.browser.execute_script('window.print = () => { window.printed = true; }')
    trial.click('Print')
    for _ in until('it is laid out'):
        if trial.browser.execute_script('return window.printed'):
            break
    pdf = base64.b64decode(trial.browser.execute_cdp_cmd('Page.printToPDF', {'preferCSSPageSize': True})['data'])
    if not shutil.which('pdftotext'):
        return None
    told = subprocess.run(['pdftotext', '-layout', '-', '-'], input=pdf, capture_output=True,
                          check=True).stdout.decode()
    return told.rstrip('\f').split('\f')


def try_print(trial):
    """A person on paper: head, rows, pages, and a digest that the answer of the front has."""
    begin(trial)
    trial.open('#person?person=hana')
    trial.await_text('What this person may')
    pages = printed(trial)
    laid = trial.browser.execute_script('return document.getElementById("paper").textContent')
    for words in ('What hana may', 'Serial69', 'by 127.0.0.1', 'doctors-in-need', 'record-moss'):
        trial.see(f'the paper says {words}', words in laid, True)
    found = re.search(r'(/attributes[^ ]*) SHA-256 ([0-9a-f]{64})', laid)
    trial.see('the digest is that of the answer', found and found[2], digest(trial.front.ask(found[1]))
              if found else '')
    if pages is None:
        print('try_print: there is no pdftotext, so no page was read')
        return
    trial.see('pages have their number', f'page 1 of {len(pages)}' in pages[0], True)
    trial.see('the screen is not on paper', 'Try an edit' in pages[0], False)
    trial.front.send(*[line(do='resource.add', name=f'room-{n:03}') for n in range(150)])
    trial.go('#table?action=read&has=N')
    trial.await_letters()
    pages = printed(trial)
    trial.see('several pages', len(pages) > 1 and f'page 2 of {len(pages)}' in pages[1], True)
    trial.see('the heads stand on each', all('Person' in page for page in pages[:-1]), True)


def try_csv(trial):
    """A file of comma-separated values: as many rows, quotes, and no formula."""
    begin(trial)
    trial.front.send(line(do='person.add', name='=1+2'), line(do='person.add', name='a,"b'),
                     *[line(do='attr.set', category='AccessSubject', entity=name, attribute='role', type='string',
                            values=['doctor'])
                       for name in ('=1+2', 'a,"b')])
    trial.open('#resource?resource=record-moss')
    trial.await_text('Who may, by the rule')
    trial.browser.execute_script('''window.saved = new Promise((resolve) => { const old = URL.createObjectURL;
        URL.createObjectURL = (file) => { resolve(file.text()); return old.call(URL, file); }; });''')
    trial.click('CSV')
    told = trial.browser.execute_async_script('window.saved.then(arguments[0])')
    rows = told.split('\r\n')
    trial.see('the head', rows[0], 'Rule,Actions,People,People,Cells')
    trial.see('a row', 'clinic 1 › records 1.0 › care-team,"read, write","ada, dina",2,4' in rows, True)
    trial.go('#person?person=%3D1%2B2')
    trial.await_text('What this person may')


TRIALS = [try_print, try_csv]

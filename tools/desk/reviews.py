"""Trials of reviews of access: a reviewer signs her list by keys, also faster than the network; a campaign's board."""
import json
import pathlib
import subprocess
import time

from selenium.webdriver.common.keys import Keys

from .access import contrasts, tree
from .trial import CLINIC, clinic, line, looking, sized, until

SCOPE = {'resources': {'names': ['record-*', 'scan-*', 'cabinet-*']}}
CAMPAIGN = {'name': '2026-q4', 'scope': SCOPE, 'reviewers': [{'person': 'manager'}, {'name': 'office'}]}
MANAGERS = {'dina': 'ada', 'hana': 'ada', 'emil': 'bruno'}


def known(folder):
    """The options of a front that knows an office and two reviewers by their tokens, which are their names."""
    key = pathlib.Path(folder) / 'head.key'
    subprocess.run(['openssl', 'genpkey', '-algorithm', 'ed25519', '-out', str(key)], check=True, capture_output=True)
    return ['--access', str(CLINIC / 'access'), '--sign-key', str(key), '--people-called', 'displayName']


def value(person, attribute, given):
    """The line that gives somebody a value."""
    return line(do='attr.set', category='AccessSubject', entity=person, attribute=attribute, type='string',
                values=[given])


def office(trial, path, body=None):
    """What the office is told."""
    told = trial.front.ask(path, None if body is None else json.dumps(body), 'office')
    return json.loads(told)


def begin(trial, **more):
    """The clinic with a campaign, whose reviewers are managers and the office."""
    trial.front.send(*clinic(), *[value(person, 'manager', of) for person, of in MANAGERS.items()],
                     value('hana', 'displayName', 'Hana Sato'), token='office')
    return office(trial, '/campaigns', {**CAMPAIGN, **more})


def come_in(trial, name, place=''):
    """Opens the desk as somebody."""
    trial.open(place)
    trial.await_text('Who asks?')
    trial.all('[name=token]')[0].send_keys(name, Keys.ENTER)


def rows(trial):
    """The rows of the list: whom it is of, by which rule, and what is so."""
    return trial.browser.execute_script('''return [...document.querySelectorAll('.item')].map((each) =>
        [each.querySelector('.who').textContent.split(' ')[0],
          ...['rule', 'word'].map((part) => each.querySelector(`.${part}`).textContent)].join(' '));''')


def marked(trial):
    """The place of the row that has the mark."""
    return trial.browser.execute_script('''return [...document.querySelectorAll('.item')]
        .findIndex((each) => each.getAttribute('aria-selected') === 'true');''')


def await_rows(trial, wanted):
    for _ in until(f'rows {wanted}: {rows(trial)}'):
        if rows(trial) == wanted:
            return


def await_rest(trial, words):
    """Waits until the side shows a row with what it rests on."""
    trial.await_text(words, '#panel h2')
    for _ in until(f'what {words} rests on'):
        if trial.all('#panel .foot'):
            return


def try_signing(trial):
    """A reviewer without any other right: her list by keys, why each stands, acts, what falls, what isn't taken."""
    begin(trial)
    come_in(trial, 'ada')
    trial.await_text('19 cells wait for you.')
    trial.see('views of a reviewer', [each.text for each in trial.all('#views a')], ['Reviews'])
    trial.click('Sign')
    open_ = ['dina care-team to do', 'hana care-team to do', 'hana certified-doctors to do',
             'hana doctors-in-need to do']
    await_rows(trial, open_)
    trial.await_text('Live · serial 74', '#live')
    await_rest(trial, 'dina by care-team')
    trial.see('what a person is called', 'hana Hana Sato' in trial.text('.items'), True)
    told = trial.text('#panel')
    for words in ('department', 'surgery', 'clinic 1 › records 1.0', 'record-moss', 'Keep Y', 'Revoke X'):
        trial.see(f'the side says {words}', words in told, True)
    trial.picture('signing-first')
    listed = {role: (name, more) for role, name, more in tree(trial) if role in ('listbox', 'option', 'ListBoxOption')}
    trial.see('what a screen reader is told', 'listbox' in listed and any('option' in each.lower() for each in listed),
              True)
    trial.press(Keys.ESCAPE, 'y')
    await_rest(trial, 'dina by care-team')
    trial.see('nothing is signed that isn’t shown', rows(trial), open_)
    trial.press('y')
    await_rows(trial, ['dina care-team kept', *open_[1:]])
    await_rest(trial, 'hana Hana Sato by care-team')
    trial.see('the mark went on', marked(trial), 1)
    trial.press('j')
    await_rest(trial, 'hana Hana Sato by certified-doctors')
    trial.press('x')
    trial.all('#panel [name=line]')[0].send_keys('a trainee prescribes nothing', Keys.ENTER)
    await_rows(trial, ['dina care-team kept', open_[1], 'hana certified-doctors to revoke', open_[3]])
    await_rest(trial, 'hana Hana Sato by doctors-in-need')
    trial.press('y')
    await_rest(trial, 'hana Hana Sato by care-team')
    trial.press('u')
    await_rows(trial, ['dina care-team kept', open_[1], 'hana certified-doctors to revoke', open_[3]])
    for _ in until('all acts are kept'):
        states = office(trial, '/campaigns/2026-q4')['states']
        if (states['kept'], states['revoke']) == (6, 2):
            break
    falls(trial)
    edges(trial)


def falls(trial):
    """An edit ends a sign-off, and another brings its answer back; of what is stale nothing is signed."""
    trial.front.send(value('dina', 'department', 'cardiology'), value('dina', 'department', 'surgery'), token='office')
    for _ in until('the fall is shown'):
        if rows(trial)[0] == 'dina care-team fallen':
            break
    trial.press('k', 'k', 'k', 'k')
    await_rest(trial, 'dina by care-team')
    told = trial.await_text('It fell:', '#panel')
    for words in ('Kept by ada', 'values of dina set by office', 'The answer is again the one that was signed.'):
        trial.see(f'the side says {words}', words in told, True)
    trial.picture('signing')
    sized(trial.browser, 1024, 768)
    trial.picture('signing-1024')
    sized(trial.browser, 1400, 800)
    trial.press('j')
    await_rest(trial, 'hana Hana Sato by care-team')
    trial.front.send(value('hana', 'department', 'pediatrics'), token='office')
    trial.press('y')
    trial.await_text('Not signed: hana by care-team: its answer isn’t the one that stood here.')
    states = office(trial, '/campaigns/2026-q4')['states']
    trial.see('nothing stale is signed', states['kept'], 0)
    await_rest(trial, 'hana Hana Sato by doctors-in-need')
    trial.press('n')
    trial.all('#panel [name=line]')[0].send_keys('bruno', Keys.ENTER)
    for _ in until('it is passed on'):
        theirs = {each['person'] for each in office(trial, '/campaigns/2026-q4/items?reviewer=bruno')['groups']}
        if theirs == {'hana', 'emil'}:
            break
    trial.see('what is drawn', 'hana doctors-in-need passed on' in rows(trial), True)


def edges(trial):
    """Contrast, light and dark, and a window of 400 %."""
    for look in ('light', 'dark'):
        looking(trial.browser, look)
        least, words = contrasts(trial)
        trial.see(f'contrast {least:.2f} of {words!r}, {look}', least >= 4.5, True)
    trial.picture('signing-dark')
    looking(trial.browser, 'light')
    sized(trial.browser, 1280, 1024, 4)
    wide = trial.browser.execute_script('return document.documentElement.scrollWidth - innerWidth')
    trial.see('what stands beside the window', wide <= 0, True)
    sized(trial.browser, 1400, 800)


def acts_of(trial, name):
    """How often each item was signed or taken back, by the records of the journal."""
    edits = office(trial, '/edits?since=0&kind=campaign.*&count=1000')['edits']
    return [(each['line']['do'], tuple(each['line'].get('items', []))) for each in edits if each['by'] == name]


def try_fast_signing(trial):
    """Keys faster than the network: each row is signed once, and none that wasn't shown."""
    begin(trial, reviewers=[{'name': 'ada'}], self=True)
    come_in(trial, 'ada', '#signing?campaign=2026-q4')
    for _ in until('rows'):
        if len(rows(trial)) > 12:
            break
    await_rest(trial, rows(trial)[0].split()[0])
    trial.browser.execute_cdp_cmd('Network.enable', {})
    slow = {'offline': False, 'latency': 400, 'downloadThroughput': -1, 'uploadThroughput': -1}
    trial.browser.execute_cdp_cmd('Network.emulateNetworkConditions', slow)
    trial.press(*'yyyyyyyyyyuy')
    for _ in until('nothing is on its way'):
        if not trial.all('.item.waits'):
            break
    time.sleep(1)
    drawn, kept, twice = [each.rsplit(' ', 1)[-1] for each in rows(trial)], set(), []
    for do, items in acts_of(trial, 'ada'):
        if do == 'campaign.keep' and items in kept:
            twice.append(items)
        (kept.add if do == 'campaign.keep' else kept.discard)(items)
    trial.see('signed twice', twice, [])
    trial.see('something was signed', len(kept) >= 1, True)
    trial.see('what is drawn is what is kept', drawn.count('kept'), len(kept))
    trial.front.kill()
    trial.await_text('The service is away since', '#live')
    trial.front.start()
    trial.await_text('Live · serial', '#live')


def try_campaign(trial):
    """A campaign's board: how far it is, what fell, tasks with what would take them away, evidence, its end."""
    begin(trial)
    ada = json.loads(trial.front.ask('/campaigns/2026-q4/items', None, 'ada'))
    for group in ada['groups']:
        does = 'revoke' if group['why'][0]['rule'] == 'certified-doctors' else 'keep'
        act = {'items': [each['item'] for each in group['items']], 'digest': group['digest'], 'serial': ada['serial']}
        trial.front.ask(f'/campaigns/2026-q4/{does}', json.dumps(
            {**act, 'why': 'a trainee prescribes nothing'} if does == 'revoke' else act), 'ada')
    trial.front.send(value('dina', 'department', 'cardiology'), value('dina', 'department', 'surgery'), token='office')
    come_in(trial, 'office', '#campaigns')
    told = trial.await_text('56 cells wait for you.')
    trial.see('the campaign is listed', '2026-q4' in told and 'Sign' in told, True)
    trial.picture('campaigns')
    trial.click('2026-q4')
    trial.await_text('What is to be revoked, and still there')
    told = trial.await_text('hana Hana Sato prescribe')
    for words in ('13 of 81 cells are signed (16 %): 11 kept, 2 to revoke, 0 revoked. 6 fell, 62 are to do.',
                  'values of dina set', 'certified-doctors', '“a trainee prescribes nothing”', 'bruno',
                  'record-*, scan-*'):
        trial.see(f'the board says {words}', words in told, True)
    trial.click('What would take it away?')
    told = trial.await_text('Without the value, so much of this task would be gone')
    trial.see(f'which value: {told}', 'role of hana: doctor and trainee 2 of 2 cells' in told, True)
    trial.picture('campaign')
    sized(trial.browser, 1024, 768)
    trial.picture('campaign-1024')
    sized(trial.browser, 1400, 800)
    evidence(trial)
    trial.go('#table?action=read&find=hana')
    for _ in until('the table has what people are called'):
        if trial.browser.execute_script('return window.desk?.grid?.picture.rowText(0)') == 'hana Hana Sato':
            break
    trial.go('#campaign?campaign=2026-q4')
    trial.await_text('End this campaign')
    trial.click('ada', 'main a')
    await_rows(trial, ['dina care-team fallen'])
    trial.await_text('ada reviews this.', '#panel')
    trial.go('#campaign?campaign=2026-q4')
    trial.await_text('End this campaign')
    trial.front.send(value('hana', 'role', 'trainee'), token='office')
    trial.await_text('0 to revoke, 2 revoked')
    trial.click('End this campaign')
    trial.click('End it now, for good')
    trial.await_text('Ended by office')
    office(trial, '/campaigns', {**CAMPAIGN, 'name': '2027-q1', 'after': '2026-q4'})
    trial.click('Leave')
    come_in(trial, 'ada', '#signing?campaign=2027-q1')
    await_rows(trial, ['dina care-team to do'])
    trial.await_text('Its sign-off in the campaign before fell.', '#panel')


def evidence(trial):
    """Evidence that is taken by the page is what the front verifies."""
    trial.browser.execute_script('''window.saved = new Promise((resolve) => { const old = URL.createObjectURL;
        URL.createObjectURL = (file) => { resolve(file.text()); return old.call(URL, file); }; });''')
    trial.click('Evidence, JSON lines')
    told = trial.browser.execute_async_script('window.saved.then(arguments[0])')
    folder = pathlib.Path(trial.front.words[trial.front.words.index('--sign-key') + 1]).parent
    (folder / 'evidence').write_text(told, encoding='utf-8')
    subprocess.run(['openssl', 'pkey', '-in', str(folder / 'head.key'), '-pubout', '-out', str(folder / 'head.pub')],
                   check=True, capture_output=True)
    said = subprocess.run([trial.front.words[0], 'verify', '--evidence', str(folder / 'evidence'), '--key',
                           str(folder / 'head.pub')], capture_output=True, check=False).stdout.decode()
    trial.see('what the front says of the evidence', said.startswith('the campaign 2026-q4 is as '), True)
    trial.browser.execute_script('window.print = () => { window.printed = true; }')
    trial.click('Print')
    for _ in until('it is laid out'):
        if trial.browser.execute_script('return window.printed'):
            break
    laid = trial.browser.execute_script('return document.getElementById("paper").textContent')
    for words in ('Evidence of 2026-q4', 'by office', '13 of 81 cells are signed', 'hana (Hana Sato)',
                  'a trainee prescribes nothing', '/campaigns/2026-q4/items'):
        trial.see(f'the paper says {words}', words in laid, True)


for each in (try_signing, try_fast_signing, try_campaign):
    each.options = known

TRIALS = [try_signing, try_fast_signing, try_campaign]

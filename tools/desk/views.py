"""Trials of the desk's views over the clinic: each is opened by its address, and answers."""
import json

from selenium.webdriver.common.keys import Keys

from .trial import CLINIC, clinic, line

WRITE = ['PPNNNNPNNNDD', 'NNPPNNNPNNDD', 'NNNNPPNNNNDD', 'PPNNNNPNNNDD', 'NNPPNNNPNNDD', 'NNNNNNNNNNPP', 'NNNNNNNNPPDD',
         'DDDDDDDDNNDD']


def begin(trial):
    """The clinic as it is served first."""
    trial.front.send(*clinic())


def try_table(trial):
    """The table: letters, margins, filters, axes, and an address that can be sent."""
    begin(trial)
    trial.open('#table?action=write')
    trial.see('the letters of an action', trial.await_letters(), WRITE)
    trial.await_text('Permit 18', '.legend')
    trial.see('decisions of what is shown', ' '.join(trial.text('.legend').split()),
              'P Permit 18 D Deny 22 · Not applicable 56 ? Indeterminate 0 with an obligation or advice')
    trial.see('the name of the page', trial.browser.title, 'Table – Review desk')
    trial.picture('table')
    trial.click('Swap axes')
    trial.see('the axes turned', trial.await_letters([''.join(row[i] for row in WRITE) for i in range(12)])[0],
              'PNNPNNND')
    trial.see('its address', 'turned=1' in trial.browser.current_url, True)
    trial.click('Swap axes')
    trial.browser.execute_script('document.getElementById("find").focus()')
    trial.press('m', 'o', 's', 's')
    trial.await_letters([row[0] + row[6] for row in WRITE])
    trial.see('found as it is typed, and typed on', trial.browser.execute_script('return document.activeElement.id'),
              'find')
    trial.see('margins of what is shown', '8 people by 2 resources' in trial.text('.keys'), True)
    trial.click('Clear')
    trial.choose('action', 'prescribe')
    trial.await_letters()
    trial.press(Keys.ESCAPE)
    trial.go('#table?action=prescribe&has=1')
    trial.see('who has no answer', trial.await_letters(['11']), ['11'])
    trial.go('#table?action=write&rule=%5B%22records%22%2C%22trainees-only-read%22%5D')
    trial.see('whom a rule decides', trial.await_letters(['DDDDDDDD']), ['DDDDDDDD'])


def try_cell(trial):
    """A cell: its decision, the rule in words, what it rests on, obligations, and why there is no answer."""
    begin(trial)
    trial.open('#table?action=write&person=hana&resource=record-moss')
    told = trial.await_text('What it rests on', '#panel')
    for words in ('hana may write on record-moss?', 'Deny', 'trainees-only-read', 'clinic 1 › records 1.0',
                  'This rule denies',
                  'resource’s kind is record', 'action is write or discharge', 'doctor and trainee', 'surgery'):
        trial.see(f'the cell says {words}', words in told, True)
    trial.picture('cell')
    trial.press(Keys.ESCAPE)
    trial.see('the panel closes', trial.all('#panel')[0].is_displayed(), False)
    trial.go('#table?action=break-glass&person=chen&resource=record-moss')
    told = trial.await_text('write-down-the-reason', '#panel')
    trial.see('an obligation and its assignments', 'tell-the-privacy-officer' in told and '24' in told, True)
    trial.go('#table?action=prescribe&person=chen&resource=cabinet-ward')
    told = trial.await_text('Why there is no answer', '#panel')
    trial.see('a cause in words', 'needs certified said by medical board, and there is no value.' in told, True)
    trial.picture('no-answer')


def try_pages(trial):
    """A person, a resource, a rule, a document."""
    begin(trial)
    trial.open('#person?person=hana')
    told = trial.await_text('What this person may')
    for words in ('May do', 'certified-doctors', 'cabinet-ward', 'medical board', 'everybody-reads-the-rota'):
        trial.see(f'the person has {words}', words in told, True)
    trial.picture('person')
    trial.go('#resource?resource=record-moss')
    told = trial.await_text('Who may, by the rule')
    for words in ('care-team', 'ada', 'surgery', 'doctors-in-need'):
        trial.see(f'the resource has {words}', words in told, True)
    trial.picture('resource')
    trial.go('#rule?policy=records&rule=care-team')
    told = trial.await_text('What it decided')
    for words in ('Decides 31 cells, of which 31 are Permit', 'person’s department shares a value',
                  'person’s role is doctor or nurse'):
        trial.see(f'the rule says {words}', words in told, True)
    trial.picture('rule')
    trial.go('#document?id=records')
    told = trial.await_text('trainees-only-read (Deny)')
    trial.see('how often a rule of the document decides', 'discharge (Permit) 8 cells' in told, True)
    trial.picture('document')
    trial.go('#document')
    trial.await_text('5 documents are stored; the root leads to 5 of them.')


def try_changes(trial):
    """What changed: edit by edit with who made it, all together, and as it was."""
    begin(trial)
    changes = [each for each in (CLINIC / 'changes.jsonl').read_text(encoding='utf-8').splitlines()
               if '"do":"mark"' not in each
               and '.set' in each]
    trial.front.send(*changes)
    trial.open('#changes?since=69')
    told = trial.await_text('emil: department is pediatrics')
    for words in ('2 edits: over them 8 Permits lost, 4 gained', '−6 lost', '+4 gained', 'The day is 2025-03-01',
                  'Lost: 6', '127.0.0.1'):
        trial.see(f'what changed says {words}', words in told, True)
    trial.picture('what-changed')
    trial.click('All together')
    trial.await_text('From one end to the other 8 Permits lost, 4 gained')
    trial.go('#changes?entity=emil')
    trial.await_text('emil: department is pediatrics')
    trial.go('#table?action=prescribe&at=69')
    trial.see('as it was', trial.await_letters()[1][8:10], 'PP')
    trial.see('that it is of then', 'As it was on 69' in trial.text(), True)
    trial.go('#table?action=prescribe')
    trial.await_gone('As it was')
    trial.see('as it is', trial.await_letters()[1][8:10], 'NN')


def try_findings(trial):
    """Who may both, causes, rules that never decide."""
    begin(trial)
    office = json.loads((CLINIC / 'policies' / 'office.json').read_text(encoding='utf-8'))
    office['Policy'] |= {'Version': '2', 'Rule': [*office['Policy']['Rule'], {'RuleId': 'never-so', 'Effect': 'Deny',
                                                                              'Target': {
        'AnyOf': [{'AllOf': [{'Match': [{
            'MatchId': 'urn:oasis:names:tc:xacml:1.0:function:string-equal', 'AttributeValue': {'Value': 'nobody'},
            'AttributeDesignator': {'Category': 'urn:oasis:names:tc:xacml:1.0:subject-category:access-subject',
                                    'AttributeId': 'role', 'DataType': 'string'}}]}]}]}}]}
    trial.front.send(line(do='policy.add', document=office))
    trial.open('#findings?what=idle')
    trial.await_text('never-so')
    trial.picture('rules-that-never-decide')
    trial.go('#findings?what=both&left=read&right=write')
    told = trial.await_text('may do both to the same resource')
    trial.see('how many may both', '7 people may do both' in told, True)
    trial.click('Save this pair')
    trial.await_text('Saved pairs')
    trial.picture('who-may-both')
    trial.go('#findings?what=causes')
    trial.await_text('chen')
    trial.picture('causes')


def try_what_if(trial):
    """An edit is tried, and made if nothing was edited since. A policy's faults are told at their lines."""
    begin(trial)
    trial.open('#table?action=prescribe&person=bruno&resource=cabinet-ward')
    trial.await_text('certified', '#panel')
    trial.browser.execute_script('''[...document.querySelectorAll('#panel .facts a')]
        .find((each) => each.href.includes('certified')).click()''')
    trial.await_text('New values')
    trial.choose('values', '')
    trial.click('Try it')
    told = trial.await_text('would be lost')
    trial.see('what would end', '2 Permits would be lost, 0 gained' in told and 'bruno' in told, True)
    trial.picture('what-if')
    trial.front.send(line(do='person.add', name='ivan'))
    trial.click('Make this edit')
    trial.await_text('Not made: somebody edited in between')
    trial.click('Try it')
    trial.await_gone('Not made')
    trial.await_text('would be lost')
    trial.click('Make this edit')
    told = trial.await_text('changed.')
    trial.see('it is made', 'bruno: certified is no value: serial 71' in told, True)
    trial.go('#try?what=policy')
    trial.await_text('Policy or policy set, in JSON')
    text = (CLINIC / 'policies' / 'records.json').read_text(encoding='utf-8')
    trial.choose('document', text.replace('"Effect": "Deny"', '"Effect": "Dny"', 1))
    trial.click('Try it')
    told = trial.await_text('It can’t be stored: 1 fault')
    place = next(number for number, each in enumerate(text.splitlines(), 1) if '"Effect": "Deny"' in each)
    trial.see('the fault at its line', f'line {place}' in told, True)
    trial.picture('a-policy-with-a-fault')
    trial.choose('document', (CLINIC / 'policies' / 'records-1.1.json').read_text(encoding='utf-8'))
    trial.choose('verb', 'policy.add')
    trial.click('Try it')
    trial.await_text('would be lost')


TRIALS = [try_table, try_cell, try_pages, try_changes, try_findings, try_what_if]

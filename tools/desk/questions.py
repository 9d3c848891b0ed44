"""An auditor's ten questions, each answered in the page in at most four acts, with a picture of the answer."""
import datetime
import json

from selenium.webdriver.common.keys import Keys

from .trial import CLINIC, clinic, line

YESTERDAY = str(datetime.date.today() - datetime.timedelta(days=1))
TOMORROW = str(datetime.date.today() + datetime.timedelta(days=1))
MOST = 4


class Acts:
    """Acts in the page, which are counted."""

    def __init__(self, trial, place='#table'):
        self.trial, self.count = trial, 0
        trial.open(place)
        trial.await_letters()

    def click(self, words, where='button, a, summary'):
        self.count += 1
        self.trial.click(words, where)

    def choose(self, name, value):
        self.count += 1
        for _ in range(200):
            if self.trial.all(f'[name="{name}"]'):
                break
            self.trial.browser.execute_async_script('setTimeout(arguments[0], 50)')
        self.trial.choose(name, value)

    def why(self, person, resource):
        """Marks a cell as a reader does by the arrows or the pointer, and asks why."""
        self.count += 1
        self.trial.browser.execute_script(
            '''const { grid } = window.desk, [names] = arguments, { rows, columns } = grid.picture;
            for (let i = 0; i < rows; i += 1) for (let j = 0; j < columns; j += 1) {
              if (grid.picture.names(i, j) === names) grid.go(i, j);
            }
            grid.cell.focus();''', f'{person}, prescribe, {resource}')
        self.trial.press(Keys.ENTER)

    def answered(self, question, words, where='main', picture=None):
        """Sees that the answer is there, and that it took few acts."""
        told = self.trial.await_text(words[0], where)
        self.trial.see(f'the answer to {question}', [each for each in words if each not in told], [])
        self.trial.see(f'acts for {question}: {self.count}', self.count <= MOST, True)
        if picture:
            self.trial.picture(picture)


def begin(trial):
    """The clinic, a month of edits in a minute: a policy, a day, a move; a rule that never decides."""
    office = json.loads((CLINIC / 'policies' / 'office.json').read_text(encoding='utf-8'))
    subject = 'urn:oasis:names:tc:xacml:1.0:subject-category:access-subject'
    office['Policy'] |= {'Version': '2', 'Rule': [*office['Policy']['Rule'], {'RuleId': 'auditors-read-invoices',
                                                                              'Effect': 'Permit', 'Target': {
        'AnyOf': [{'AllOf': [{'Match': [{
            'MatchId': 'urn:oasis:names:tc:xacml:1.0:function:string-equal', 'AttributeValue': {'Value': 'auditor'},
            'AttributeDesignator': {'Category': subject, 'AttributeId': 'role', 'DataType': 'string'}}]}]}]}}]}
    records = json.loads((CLINIC / 'policies' / 'records-1.1.json').read_text(encoding='utf-8'))
    trial.front.send(*clinic(), line(do='policy.add', document=office), line(do='policy.add', document=records),
                     line(do='attr.set', category='AccessSubject', entity='emil', attribute='department',
                          type='string', values=['pediatrics']))


def ask_of_cells(trial):
    """Who may, why, and what would end."""
    acts = Acts(trial)
    acts.choose('action', 'prescribe')
    trial.await_letters()
    acts.click('P Permit 6', '.kind')
    acts.answered('who may prescribe', ['people by 2 resources'], '.keys', '1-who-may')
    trial.see('who they are', trial.browser.execute_script('''const { picture } = window.desk.grid, all = [];
        for (let i = 0; i < picture.rows; i += 1) all.push(picture.rowName(i));
        return all;'''), ['ada', 'bruno', 'hana'])
    acts = Acts(trial, '#table?action=prescribe&has=P')
    acts.why('bruno', 'cabinet-ward')
    acts.answered('why may he', ['What it rests on', 'certified-doctors', 'medical board'], '#panel', '2-why')
    acts.count += 1
    trial.browser.execute_script(
        "[...document.querySelectorAll('#panel .facts a')].find((each) => each.href.includes('certified')).click()")
    trial.await_text('New values')
    acts.choose('values', '')
    acts.click('Try it')
    acts.answered('what would end', ['2 Permits would be lost', 'bruno'], 'main', '3-what-would-end')


def ask_of_edits(trial):
    """Who lost, what an edit of a policy changed, who edited what."""
    acts = Acts(trial)
    acts.click('What changed')
    acts.choose('since-day', YESTERDAY)
    acts.answered('who lost access', ['emil: department is pediatrics', '−6 lost'], 'main', '4-who-lost')
    acts = Acts(trial)
    acts.click('What changed')
    acts.choose('since-day', YESTERDAY)
    trial.await_text('emil: department')
    acts.choose('kind', 'policy.*')
    trial.await_gone('emil: department')
    acts.answered('what an edit of a policy changed', ['Policy added: records', 'lost'], 'main',
                  '7-an-edit-of-a-policy')
    acts = Acts(trial)
    acts.click('What changed')
    acts.choose('since-day', YESTERDAY)
    trial.await_text('emil: department')
    acts.choose('until-day', TOMORROW)
    acts.answered('who edited what', ['127.0.0.1', 'emil: department is pediatrics'], 'main', '9-who-edited')


def ask_of_findings(trial):
    """Rules that never decide, cells without an answer, who alone, who both."""
    acts = Acts(trial)
    acts.click('Findings')
    acts.click('Rules that never decide')
    acts.answered('which rules never decide', ['auditors-read-invoices'], 'main', '5-never-decides')
    acts = Acts(trial)
    acts.click('Findings')
    acts.click('No answer, and why')
    trial.await_text('chen')
    acts.answered('which cells are Indeterminate', ['chen'], 'main', '6-no-answer')
    acts = Acts(trial)
    acts.click('Findings')
    acts.choose('left', 'read')
    acts.choose('right', 'write')
    acts.click('Who may both?')
    acts.answered('who may both', ['may do both to the same resource', 'gus'], 'main', '10-who-may-both')
    if 'alone' not in json.loads(trial.front.ask('/whoami'))['commands']:
        print('who has something alone was not asked: this program has no such question')
        return
    acts = Acts(trial)
    acts.click('Findings')
    acts.click('Who alone')
    acts.answered('who has something alone', ['Permits that fewer than 2 of the same department have'], 'main',
                  '8-who-alone')


def try_questions(trial):
    """Ten questions of an auditor."""
    begin(trial)
    ask_of_cells(trial)
    ask_of_edits(trial)
    ask_of_findings(trial)


TRIALS = [try_questions]

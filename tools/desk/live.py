"""Trials of what is live: edits, a front that goes and comes back, tabs, fast keys, hostile names."""
import http.server
import json
import threading

from selenium.webdriver.common.keys import Keys

from .trial import line, until
from .views import WRITE, begin

HOSTILE = ['<img src=x onerror="document.title=1">', '<script>document.title=2</script>', 'a\u202egnp.b',
           'zero\u200bwidth',
           '"><svg/onload=alert(1)>', "'; DROP TABLE people", '{{7*7}}', ' ', '__proto__', '=2+5', '../whoami']
ROLE = {'do': 'attr.set', 'category': 'AccessSubject', 'entity': 'hana', 'attribute': 'role', 'type': 'string'}


def role(*values):
    """The line that gives hana roles."""
    return json.dumps({**ROLE, 'values': list(values)})


def try_live(trial):
    """An edit shows within a second in what is open, is marked until it is looked at, and moves no mark."""
    begin(trial)
    trial.open('#table?action=write')
    trial.await_letters(WRITE)
    trial.await_text('Live', '#live')
    trial.browser.execute_script('document.querySelector("[role=gridcell]").focus()')
    trial.press(Keys.ARROW_DOWN, Keys.ARROW_RIGHT)
    marked = trial.marked()
    trial.front.send(role('doctor'))
    after = [*WRITE[:7], 'PPNNNNPNNNDD']
    trial.await_letters(after)
    trial.see('the mark stays', trial.marked(), marked)
    trial.await_text('16 changed, unseen', '#live')
    trial.await_text('Permit 21', '.legend')
    took = trial.browser.execute_async_script('''const [line, done] = arguments, begun = performance.now();
        const seen = () => {
                            if (window.desk.grid.picture.letter(7,
                                                                0) === 'D') done(
                                                                    performance.now() - begun); else setTimeout(seen,
                                                                                                                5); };
        fetch('commands/attr.set', { method: 'POST', body: line }).then(seen);''', json.dumps(
            {key: value for key, value in json.loads(role('doctor', 'trainee')).items() if key != 'do'}))
    print(f'from sending an edit to its letter: {took:.0f} ms')  # a second, but for a machine that is busy with others
    trial.see(f'from sending an edit to its letter ({took:.0f} ms)', took < 10000, True)
    trial.picture('changed-unseen')
    trial.go('#table?action=write&person=hana&resource=record-moss')
    trial.await_text('Changed since this page was opened', '#panel')
    trial.go('#person?person=hana')
    trial.await_text('May do 14 things. Denied 19')
    trial.front.send(role('doctor'))
    trial.await_text('May do 20 things. Denied 3')
    trial.go('#changes')
    trial.await_text('hana: role is doctor')
    trial.front.send(line(do='person.add', name='ivan'))
    trial.await_text('Person added: ivan')


class Refusing(http.server.BaseHTTPRequestHandler):
    """A proxy whose front isn't there."""

    def do_GET(self):
        self.send_error(502)

    def log_message(self, *_):
        pass


def try_away(trial):
    """The front is killed, a proxy answers 502, the front comes back: the page says since when, and catches up."""
    begin(trial)
    trial.open('#table?action=write')
    trial.await_letters(WRITE)
    trial.await_text('Live', '#live')
    trial.front.kill()
    trial.await_text('The service is away since', '#live')
    told = trial.text('#live')
    trial.see('as of which it stood', told.endswith('This is how it stood at serial 69.'), True)
    trial.picture('away')
    proxy = http.server.ThreadingHTTPServer(('127.0.0.1', trial.front.port), Refusing)
    threading.Thread(target=proxy.serve_forever, daemon=True).start()
    trial.browser.execute_async_script('setTimeout(arguments[0], 2500)')
    trial.see('still away behind a proxy', 'away since' in trial.text('#live'), True)
    proxy.shutdown()
    proxy.server_close()
    trial.front.start()
    trial.front.send(role('doctor'))
    trial.await_letters([*WRITE[:7], 'PPNNNNPNNNDD'])
    trial.await_text('Live · serial 70', '#live')


def try_tabs(trial):
    """Eight tabs of one desk: a browser has six connections to a host, and all eight load and hear."""
    begin(trial)
    trial.open('#table?action=write')
    trial.await_letters(WRITE)
    tabs = [trial.browser.current_window_handle]
    for _ in range(7):
        trial.browser.switch_to.new_window('tab')
        trial.open('#table?action=write')
        trial.await_letters(WRITE)
        trial.await_text('Live', '#live')
        tabs.append(trial.browser.current_window_handle)
    trial.front.send(role('doctor'))
    for tab in tabs:
        trial.browser.switch_to.window(tab)
        trial.await_letters([*WRITE[:7], 'PPNNNNPNNNDD'])
    listening = trial.front.ask('/metrics').decode()
    listeners = [each for each in listening.splitlines() if 'listeners' in each and not each.startswith('#')]
    trial.see('one stream for all tabs', [each.split()[-1] for each in listeners][:1], ['1'])


def try_fast_keys(trial):
    """Keys faster than the network: at the side is the cell that has the mark, and one edit is made once."""
    begin(trial)
    trial.open('#table?action=write')
    trial.await_letters(WRITE)
    trial.browser.execute_cdp_cmd('Network.enable', {})
    slow = {'offline': False, 'latency': 400, 'downloadThroughput': -1, 'uploadThroughput': -1}
    trial.browser.execute_cdp_cmd('Network.emulateNetworkConditions', slow)
    trial.browser.execute_script('document.querySelector("[role=gridcell]").focus()')
    trial.press(Keys.ENTER, Keys.ARROW_DOWN, Keys.ENTER, Keys.ARROW_DOWN, Keys.ARROW_RIGHT, Keys.ENTER,
                Keys.ARROW_DOWN, Keys.ENTER)
    trial.await_text('dina may write on record-okoye?', '#panel')
    trial.browser.execute_async_script('setTimeout(arguments[0], 2000)')
    trial.see('what came late is dropped', 'dina may write on record-okoye?' in trial.text('#panel'), True)
    trial.see('it is the marked cell', trial.marked().split(':')[0], 'dina, write, record-okoye')
    trial.go('#try?list=people&entity=gus&attribute=department&type=string&values=%5B%22surgery%22%5D')
    trial.await_text('New values')
    trial.click('Try it')
    trial.await_text('would be lost')
    trial.browser.execute_script(
        '''const all = [...document.querySelectorAll('button')];
        const button = all.find((each) => each.textContent === 'Make this edit');
        for (let i = 0; i < 5; i += 1) button.click();''')
    trial.await_text('serial 70')
    trial.see('made once', json.loads(trial.front.ask('/state'))['state']['serial'], 70)


def try_hostile(trial):
    """Names and values that would be markup, script, a formula or invisible: each is a text, in each view."""
    begin(trial)
    for name in HOSTILE:
        trial.front.send(*[line(do=f'{sort}.add', name=name) for sort in ('person', 'action', 'resource')],
                         line(do='attr.set', category='AccessSubject', entity=name, attribute=name, type='string',
                              values=HOSTILE))
    trial.open()
    trial.await_letters()
    places = ['#table', '#changes?since=0', '#document', '#findings?what=idle',
              '#findings?what=both&left=read&right=write', '#try']
    for name in HOSTILE:
        told = trial.browser.execute_script(
            '''const [name] = arguments, words = (query) => new URLSearchParams(query).toString();
            return ['person', 'resource'].map((each) => `#${each}?${words({ [each]: name })}`).concat([
              `#table?${words({ action: name, person: name, resource: name })}`,
              `#try?${words({ list: 'people', entity: name, attribute: name,
                             values: JSON.stringify([name]) })}`]);''', name)
        places += told
    for place in places:
        trial.go(place)
        trial.browser.execute_async_script('setTimeout(arguments[0], 150)')
        trial.see(f'elements that nobody made at {place}',
                  len(trial.all('main img, main script, main iframe, svg, #panel img')), 0)
        trial.see(f'the title at {place}', trial.browser.title.endswith('Review desk'), True)
        trial.see(f'a fault at {place}', [each.text for each in trial.all('.fault[role]')], [])
    trial.go('#person?person=a%E2%80%AEgnp.b')
    trial.await_text('a⟨202E⟩gnp.b')


TRIALS = [try_live, try_away, try_tabs, try_fast_keys, try_hostile]

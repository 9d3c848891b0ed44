"""Trials of who may: coming in with a token, roles without a command, and what everybody can use."""
import hashlib
import json
import pathlib

from selenium.webdriver.common.keys import Keys

from .trial import clinic, looking, sized, until
from .views import WRITE, begin

TOKENS = {'ann': ['read', 'audit', 'edit'], 'rita': ['read'], 'olaf': ['operate'], 'gateway': ['ask']}
VIEWS = ['Table', 'Person', 'Resource', 'Documents', 'What changed', 'Findings', 'Try an edit']


def known(folder):
    """The options of a front that knows some by their tokens."""
    file = pathlib.Path(folder) / 'access'
    file.write_text(''.join(json.dumps({'name': name, 'roles': roles,
                                        'token_sha256': hashlib.sha256(name.encode() * 8).hexdigest()}) + '\n'
                            for name, roles in TOKENS.items()), encoding='utf-8')
    return ['--access', str(file)]


def token(name):
    """The token of somebody."""
    return name * 8


def come_in(trial, name):
    """Shows a token."""
    trial.await_text('Who asks?')
    trial.all('[name=token]')[0].send_keys(token(name), Keys.ENTER)


def views(trial):
    """The views that are linked."""
    return [each.text for each in trial.all('#views a')]


def try_coming_in(trial):
    """A wrong token, a right one; what each role has no command for isn't there, and 403 is told in words."""
    trial.front.send(*clinic(), token=token('ann'))
    trial.open('#table?action=write')
    trial.await_text('This service answers those whom it knows')
    trial.picture('coming-in')
    trial.all('[name=token]')[0].send_keys('wrong', Keys.ENTER)
    trial.await_text('The token isn’t known')
    come_in(trial, 'ann')
    trial.see('the letters', trial.await_letters(), WRITE)
    trial.await_text('Live', '#live')
    trial.see('all views', views(trial), VIEWS)
    trial.await_text('ann', '#who')
    trial.browser.refresh()
    trial.await_letters(WRITE)
    trial.browser.switch_to.new_window('tab')
    trial.open()
    trial.await_text('Who asks?')
    come_in(trial, 'rita')
    trial.await_letters()
    trial.see('the views of a reader', views(trial), ['Table', 'Person', 'Resource', 'Documents', 'Findings'])
    trial.await_text('You have no right to hear edits', '#live')
    trial.go('#table?action=prescribe&person=bruno&resource=cabinet-ward')
    trial.await_text('What it rests on', '#panel')
    trial.see('no button that would be refused', 'try another' in trial.text('#panel'), False)
    trial.go('#changes?since=0')
    trial.await_text('You may not see this: rita has no role with changes')
    trial.picture('not-allowed')
    trial.click('Leave')
    come_in(trial, 'olaf')
    trial.await_text('You may not see this')
    trial.see('the views of an operator', views(trial), [])


try_coming_in.options = known


def tree(trial):
    """Chromium's accessibility tree, as roles with names."""
    nodes = trial.browser.execute_cdp_cmd('Accessibility.getFullAXTree', {})['nodes']
    return [(node['role']['value'], node.get('name', {}).get('value', ''), {each['name']: each['value'].get('value')
             for each in node.get('properties', [])}) for node in nodes if not node.get('ignored')]


def try_keys(trial):
    """By keys alone: the table, the cell, back to the mark, the filters; and what a screen reader is told."""
    begin(trial)
    trial.open('#table?action=write')
    trial.await_letters(WRITE)
    for _ in until('the grid has the focus by Tab'):
        trial.press(Keys.TAB)
        if trial.browser.switch_to.active_element.get_attribute('role') == 'gridcell':
            break
    trial.press(Keys.ARROW_DOWN, Keys.ARROW_RIGHT, Keys.ARROW_RIGHT)
    trial.see('the marked cell', trial.marked(), 'bruno, write, record-patel: Permit')
    trial.see('what is spoken', trial.browser.execute_script('return document.getElementById("spoken").textContent'),
              'bruno, write, record-patel: Permit')
    told = tree(trial)
    roles = {role: (name, more) for role, name, more in told if role in ('grid', 'gridcell', 'columnheader',
                                                                         'rowheader', 'main', 'navigation')}
    trial.see('roles', sorted(roles), ['columnheader', 'grid', 'gridcell', 'main', 'navigation', 'rowheader'])
    trial.see('the cell in the tree', (roles['gridcell'][0], roles['gridcell'][1].get('focused')),
              ('bruno, write, record-patel: Permit', True))
    trial.see('its heads', (roles['rowheader'][0], roles['columnheader'][0]), ('bruno', 'record-patel'))
    trial.see('controls without a name', [role for role, name, _ in told
                                          if role in ('button', 'textbox', 'combobox', 'link', 'checkbox', 'searchbox',
                                                      'Date') and not name], [])
    trial.press(Keys.ENTER)
    trial.await_text('bruno may write on record-patel?', '#panel')
    trial.press(Keys.ESCAPE)
    trial.see('back at the mark', trial.browser.switch_to.active_element.get_attribute('role'), 'gridcell')
    trial.press(Keys.END, Keys.PAGE_DOWN)
    trial.see('the last cell', trial.marked(), 'hana, write, invoices: Deny')
    trial.press('/', 'r', 'o', 't', 'a')
    trial.await_letters([row[10] for row in WRITE])


def contrasts(trial):
    """The least contrast of the texts that are seen, and which text that is."""
    return trial.browser.execute_script('''
        const read = (color) => color.match(/[\\d.]+/g).map(Number), light = (c) => { const v = c / 255;
          return v <= 0.04045 ? v / 12.92 : ((v + 0.055) / 1.055) ** 2.4; };
        const shine = ([r, g, b]) => 0.2126 * light(r) + 0.7152 * light(g) + 0.0722 * light(b);
        const ground = (each) => { for (let at = each; at; at = at.parentElement) {
          const found = read(getComputedStyle(at).backgroundColor); if (found.length === 3 || found[
              3] > 0) return found; } return [255, 255, 255]; };
        const seen = [...document.querySelectorAll('body *')].filter(
            (each) => each.checkVisibility !== undefined && each.checkVisibility()
          && !each.closest('.unseen, #spoken, canvas, .focus') && [...each.childNodes].some(
              (node) => node.nodeType === 3 && node.data.trim()));
        return seen.map((each) => { const [a, b] = [shine(read(getComputedStyle(each).color)),
                                                    shine(ground(each))].sort((x, y) => y - x);
          return [(a + 0.05) / (b + 0.05), each.textContent.slice(0, 30)]; }).sort((x, y) => x[0] - y[0])[0];''')


def try_contrast(trial):
    """Contrast of each view's texts, light and dark."""
    begin(trial)
    trial.open()
    for look in ('light', 'dark'):
        looking(trial.browser, look)
        for place in ('#table?action=write&person=hana&resource=record-moss', '#person', '#changes?since=60',
                      '#findings?what=idle', '#try', '#document?id=records'):
            trial.go(place)
            trial.browser.execute_async_script('setTimeout(arguments[0], 400)')
            least, words = contrasts(trial)
            trial.see(f'contrast {least:.2f} of {words!r} at {place}, {look}', least >= 4.5, True)
        if look == 'dark':
            trial.go('#table?action=write&person=hana&resource=record-moss')
            trial.await_text('What it rests on', '#panel')
            trial.picture('dark')


def try_zoom(trial):
    """At 400 %: nothing is beside the window, and a view can be read and used."""
    begin(trial)
    sized(trial.browser, 1280, 1024, 4)
    trial.open()
    for place in ('#table?action=write', '#person', '#changes?since=60', '#findings?what=both&left=read&right=write',
                  '#try', '#document?id=records'):
        trial.go(place)
        trial.browser.execute_async_script('setTimeout(arguments[0], 400)')
        wide = trial.browser.execute_script('return document.documentElement.scrollWidth - innerWidth')
        trial.see(f'what stands beside the window at {place}', wide <= 0, True)
    trial.go('#table?action=write&person=hana&resource=record-moss')
    trial.await_text('hana may write on record-moss?', '#panel')
    trial.picture('zoomed')


TRIALS = [try_coming_in, try_keys, try_contrast, try_zoom]

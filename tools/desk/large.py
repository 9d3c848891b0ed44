"""A table of 3,000 people by 14 actions by 300 resources, whose letters are made up in the browser: what it costs the
page to show it and to scroll. Time is that of the page's own thread, since a busy machine's clock says little."""
import pathlib
import re

from .trial import until

# Answers to what the page asks of a front, made of the places of a cell alone.
MADE_UP = '''
const lists = { people: 3000, actions: 14, resources: 300 }, old = window.fetch;
const names = (list) => Array.from({ length: lists[list] }, (_, i) => `${list.slice(0, 2)}${100000 + i}`);
const run = (from, count) => Array.from({ length: count }, (_, i) => from + i);
const chosen = (given, list) => (given?.includes(',') ? given.split(',').map(Number)
  : run(...(given ?? `0:${lists[list]}`).split(':').map(Number)));
const letter = (p, r) => 'NNNNNNNNPNNDNNNpNN1N'[(p * 7 + r * 13 + ((p * r) % 11)) % 20];
const made = (path, query) => {
  const people = chosen(query.get('people'), 'people'), resources = chosen(query.get('resources'), 'resources');
  const row = (list) => list.map(() => [7, 5, 280, 8]);
  const commands = ['names', 'table', 'grid', 'totals', 'values', 'rules'];
  return { whoami: { name: 'ann', roles: [], commands },
    names: { names: path === 'names' ? names(query.get('list')) : [] },
    grid: { grid: people.map((p) => resources.map((r) => letter(p, r)).join('')), serial: 9 },
    totals: { serial: 9,
      totals: { people: row(people), actions: row(names('actions')), resources: row(resources) } },
    values: { values: [], serial: 9 }, rules: { rules: [], serial: 9 } }[path];
};
window.fetch = async (address, options) => {
  const url = new URL(address), told = made(url.pathname.slice(1), url.searchParams);
  return told ? new Response(JSON.stringify(told), { headers: { 'Review-Serial': '9' } }) : old(address, options);
};
'''

# A reviewer's list of 5,000 rows.
MADE_LIST = '''
const old = window.fetch, name = (n) => `u${100000 + n}`;
const group = (n) => ({ person: name(n), why: [{ path: [['Policy', 'grants', '1.0']], rule: `rule-${n % 7}` }],
  state: kept.has(3 * n) ? 'kept' : 'open', reviewer: 'ann', digest: String(n), items: [0, 1, 2].map((k) =>
    ({ item: 3 * n + k, action: 'read', resource: `r${k}`, decision: 'Permit' })) });
const kept = new Set();
const part = (from, count) => Array.from({ length: Math.min(count, 5000 - from) }, (_, i) => group(from + i));
const made = (path, query) => {
  const item = /items[/](\\d+)$/.exec(path);
  if (item) {
    return { campaign: 'x', group: group(Math.floor(item[1] / 3)), serial: 9,
      explain: { answer: { why: [] }, causes: [], facts: [] } };
  }
  const from = Number(query.get('from') ?? 0), count = Number(query.get('count') ?? 100);
  return { whoami: { name: 'ann', roles: ['review'], commands: ['campaign.show', 'campaign.items', 'campaign.keep'] },
    'campaigns/x': { campaign: { name: 'x', scope: {}, reviewers: [{ name: 'ann' }] }, serial: 1, up_to: 9,
      items: 15000, states: { open: 15000 }, reviewers: { ann: { open: 15000, fell: 0 } }, fell: [], more: false },
    'campaigns/x/items': { groups: part(from, count), more: from + count < 5000, serial: 9 },
    'campaigns/x/keep': { serial: 10 } }[path];
};
window.fetch = async (address, options) => {
  const url = new URL(address);
  if (options?.body) kept.add(JSON.parse(options.body).items[0]);
  const told = made(url.pathname.slice(1), url.searchParams);
  return told ? new Response(JSON.stringify(told), { headers: { 'Review-Serial': '9' } }) : old(address, options);
};
'''


def spent(trial):
    """How long the page's thread worked so far, in milliseconds, and how much memory its objects take, in MB."""
    metrics = trial.browser.execute_cdp_cmd('Performance.getMetrics', {})['metrics']
    told = {each['name']: each['value'] for each in metrics}
    return told['TaskDuration'] * 1000, told['JSHeapUsedSize'] / 1e6


def renderer(trial):
    """How much memory the largest renderer of the browser takes, in MB, as the system counts it; 0 where it doesn't."""
    parents, most = {}, 0
    for each in pathlib.Path('/proc').glob('[0-9]*'):
        try:
            parents[int(each.name)] = int((each / 'stat').read_text(encoding='utf-8').rsplit(')', 1)[1].split()[1])
        except OSError:
            pass  # it has ended
    for process in parents:
        above = process
        while above in parents and above != trial.browser.service.process.pid:
            above = parents[above]
        place = pathlib.Path(f'/proc/{process}')
        try:
            if above in parents and b'--type=renderer' in (place / 'cmdline').read_bytes():
                told = re.search(r'Pss: +(\d+) kB', (place / 'smaps_rollup').read_text(encoding='utf-8'))
                most = max(most, int(told[1]) / 1000 if told else 0)
        except OSError:
            pass
    return most


def try_large(trial):
    """What 12,600,000 cells cost the page: until the first letters, and for each screen of scrolling."""
    browser = trial.browser
    key = browser.execute_cdp_cmd('Page.addScriptToEvaluateOnNewDocument', {'source': MADE_UP})['identifier']
    browser.execute_cdp_cmd('Performance.enable', {'timeDomain': 'threadTicks'})
    trial.open('#table')
    for _ in until('first letters'):
        if browser.execute_script('return Boolean(window.desk?.grid?.picture.letter(0, 0))'):
            break
    first, _ = spent(trial)
    browser.execute_async_script('setTimeout(arguments[0], 1500)')
    begun, _ = spent(trial)
    frames = browser.execute_async_script('''const [done] = arguments, { scroller } = window.desk.grid; let frames = 0;
        const step = () => { frames += 1; scroller.scrollTop += scroller.clientHeight - 150;
          if (frames % 20 === 0) scroller.scrollLeft += 1200;
          if (frames < 60) requestAnimationFrame(step); else done(frames); };
        requestAnimationFrame(step);''')
    ended, memory = spent(trial)
    each, whole = (ended - begun) / frames, renderer(trial)
    paint = browser.execute_script('return performance.getEntriesByName("first-paint")[0]?.startTime ?? 0')
    print(f'3,000 by 14 by 300: {first:.0f} ms of the page\'s thread until the first letters, {each:.1f} ms a screen '
          f'of scrolling, {memory:.1f} MB of objects, {whole:.0f} MB of the renderer; first paint after {paint:.0f} ms '
          'by the clock')
    trial.see(f'until the first letters less than a second of the thread ({first:.0f} ms)', first < 1000, True)
    trial.see(f'a screen of scrolling at most 30 ms ({each:.1f} ms)', each <= 30, True)
    trial.see(f'objects of the page in less than 40 MB ({memory:.1f})', memory < 40, True)
    trial.see(f'the renderer in less than 150 MB ({whole:.0f})', whole < 150, True)
    for _ in until('the letters of the last screen'):
        if browser.execute_script('const { grid } = window.desk, { firstRow, firstColumn } = grid.sight(); '
                                  'return Boolean(grid.picture.letter(firstRow, firstColumn))'):
            break
    trial.picture('large')
    browser.execute_cdp_cmd('Page.removeScriptToEvaluateOnNewDocument', {'identifier': key})
    browser.execute_cdp_cmd('Performance.disable', {})


def try_large_list(trial):
    """What a list of 5,000 rows costs the page: until it is drawn, and for an act."""
    browser = trial.browser
    key = browser.execute_cdp_cmd('Page.addScriptToEvaluateOnNewDocument', {'source': MADE_LIST})['identifier']
    browser.execute_cdp_cmd('Performance.enable', {'timeDomain': 'threadTicks'})
    trial.open('#signing?campaign=x')
    for _ in until('the rows'):
        if browser.execute_script('return document.querySelectorAll(".item").length') == 5000:
            break
    trial.await_text('u100000 by rule-0', '#panel')
    begun, _ = spent(trial)
    browser.execute_async_script('''const [done] = arguments, box = document.querySelector('.items'); let left = 20;
        const step = () => { if (!document.querySelector('#panel .foot')) { setTimeout(step, 5); return; }
          if (left === 0) { done(); return; }
          left -= 1;
          box.dispatchEvent(new KeyboardEvent('keydown', { key: 'y', bubbles: true })); setTimeout(step, 5); };
        step();''')
    ended, memory = spent(trial)
    print(f'a list of 5,000 rows: {begun:.0f} ms of the page\'s thread until it is drawn, '
          f'{(ended - begun) / 20:.1f} ms an act, {memory:.1f} MB of objects')
    kept = browser.execute_script('return document.querySelectorAll(".item.kept").length')
    trial.see('rows that are kept', kept, 20)
    trial.see(f'until it is drawn less than two seconds of the thread ({begun:.0f} ms)', begun < 2000, True)
    trial.see(f'an act in at most 50 ms ({(ended - begun) / 20:.1f} ms)', (ended - begun) / 20 <= 50, True)
    browser.execute_cdp_cmd('Page.removeScriptToEvaluateOnNewDocument', {'identifier': key})
    browser.execute_cdp_cmd('Performance.disable', {})


TRIALS = [try_large, try_large_list]

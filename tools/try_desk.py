#!/usr/bin/python3
"""Tries the desk, the page that the front serves to browsers, in headless Chromium over a front and a program.

    try_desk.py [--pictures FOLDER] [--only WORD] [--at-once COUNT] PROGRAM [FRONT]

FRONT is front/out/review-front unless it is named. Each trial has a front of its own, and a browser that is as at
first; two are tried at once, unless it is said otherwise. The status is 0; 1 where something isn't as it should be,
which is told; 3 where what it needs isn't there.
"""
import argparse
import concurrent.futures
import importlib.util
import pathlib
import queue
import shutil
import sys
import tempfile
import time

try:
    from selenium.common.exceptions import WebDriverException
    from desk import access, large, live, paper, questions, reviews, trial as trials, views
except ImportError:
    WebDriverException = None

ROOT = pathlib.Path(__file__).resolve().parents[1]


def attempted(attempt, browser, options):
    """What an attempt finds wrong in a browser that is as at first, over a front of its own."""
    trials.fresh(browser)
    with tempfile.TemporaryDirectory() as folder:
        settings = getattr(attempt, 'options', lambda _: [])(folder)
        front = trials.Front(options.program, options.front, f'{folder}/journal', *settings)
        trial = trials.Trial(browser, front, options.pictures)
        try:
            attempt(trial)
            trial.see(f'messages of the browser in {attempt.__name__}', trial.messages(), [])
            return trial.faults
        except (AssertionError, WebDriverException) as cause:
            trial.picture(f'fault-{attempt.__name__}')
            return [*trial.faults, f'{attempt.__name__}: {getattr(cause, "msg", cause)}']
        finally:
            front.end()


def tried(waiting, options):
    """What the attempts that wait find wrong, one behind the other in a browser."""
    faults, browser = [], trials.started()
    try:
        while True:
            attempt, began = waiting.get_nowait(), time.monotonic()
            found = attempted(attempt, browser, options)
            faults += found
            print(f'{attempt.__name__}: {"as it should be" if not found else "; ".join(found)} '
                  f'({time.monotonic() - began:.1f} s)', flush=True)
    except queue.Empty:
        return faults
    finally:
        browser.quit()


def main():
    parser = argparse.ArgumentParser(description='Tries the desk in headless Chromium.')
    parser.add_argument('program', metavar='PROGRAM', help='the review program')
    parser.add_argument('front', metavar='FRONT', nargs='?', default=str(ROOT / 'front/out/review-front'))
    parser.add_argument('--pictures', metavar='FOLDER', help='where the windows are written as PNG files')
    parser.add_argument('--only', metavar='WORD', default='', help='the trials that have the word in their names')
    parser.add_argument('--at-once', metavar='COUNT', type=int, default=2, help='how many are tried at once (2)')
    options = parser.parse_args()
    needed = {'chromium': shutil.which('chromium'), 'chromedriver': shutil.which('chromedriver'),
              'python3-selenium': importlib.util.find_spec('selenium'),
              f'{options.front} (front/build.sh)': shutil.which(options.front)}
    missing = [name for name, there in needed.items() if not there]
    if missing:
        print(f'tools/try_desk.py was not run: there is no {", ".join(missing)}')
        return 3
    waiting = queue.SimpleQueue()
    for attempt in [*questions.TRIALS, *live.TRIALS, *reviews.TRIALS, *access.TRIALS, *large.TRIALS, *views.TRIALS,
                    *paper.TRIALS]:
        if options.only in attempt.__name__:
            waiting.put(attempt)
    count = max(1, min(options.at_once, waiting.qsize()))
    with concurrent.futures.ThreadPoolExecutor(count) as pool:
        faults = [fault for found in pool.map(tried, [waiting] * count, [options] * count) for fault in found]
    print('the desk is as it should be' if not faults else f'{len(faults)} faults of the desk')
    return 1 if faults else 0


if __name__ == '__main__':
    sys.exit(main())

#!/usr/bin/env python3
"""Makes and times the worst cases that are known, each at half its size and in full, and prints a table.

    bench/worst.py [CASE ..]          default: all of them; `stack` is one, `--list` tells the others
    bench/worst.py --quick [CASE ..]  at an eighth and a quarter of the sizes

    PROGRAM=crates/review/out/review  the program (the default, as `rt run` leaves it)
    TIMEOUT=60                        seconds after which a case is ended, and told as more than that

Seconds are of CPU, of the one line that is measured, or of the whole run of a command. `growth` is the time at the
larger size by that at the smaller, so 2.0 is the size itself and 4.0 its square. `stack` seeks the least `ulimit -s` at
which the deepest lines that are within the limits have their replies.
"""
import json, os, resource, signal, subprocess, sys, tempfile, threading
import worst_cases, worst_commands, worst_keys, worst_stack

HERE = os.path.dirname(os.path.abspath(__file__))
PROGRAM = os.environ.get('PROGRAM', os.path.join(HERE, '..', 'crates', 'review', 'out', 'review'))
TIMEOUT = float(os.environ.get('TIMEOUT', '60'))
# Address space of the cases that ask for more than a machine has.
BOUNDS = {'long-texts': 2 << 30}


def spent(process):
    """Seconds of CPU of a running process."""
    with open(f'/proc/{process.pid}/schedstat') as file:
        return int(file.read().split()[0]) / 1e9


def peak(process):
    """MiB that a running process has had at most. (What `wait4` tells begins with those of this driver.)"""
    with open(f'/proc/{process.pid}/status') as file:
        return next(int(found.split()[1]) / 1024 for found in file if found.startswith('VmHWM'))


def line_costs(name, share):
    """What the line or the lines of a case cost: their bytes, seconds and MiB, and the last reply in a few words."""
    before, measured = LINES[name](share)
    lines = [measured] if isinstance(measured, str) else measured
    bound = BOUNDS.get(name)
    limit = (lambda: resource.setrlimit(resource.RLIMIT_AS, (bound, bound))) if bound else None
    process = subprocess.Popen([PROGRAM, 'serve'], stdin=subprocess.PIPE, stdout=subprocess.PIPE, preexec_fn=limit)
    signal.signal(signal.SIGALRM, lambda *_: process.kill())
    try:
        for text in before:
            process.stdin.write(text.encode() + b'\n')
            process.stdin.flush()
            reply = process.stdout.readline()
            if b'refused' in reply:
                sys.exit(f'{name}: {text[:100]}: {reply!r}')
        start = spent(process)
        signal.setitimer(signal.ITIMER_REAL, TIMEOUT)
        for text in lines:
            process.stdin.write(text.encode() + b'\n')
            process.stdin.flush()
            reply = process.stdout.readline()
            if not reply:
                break
        signal.setitimer(signal.ITIMER_REAL, 0)
        seconds = spent(process) - start if reply else None
        memory = f'{peak(process):.0f}' if reply else ''
    finally:
        process.stdin.close()
        process.wait()
    size = max(map(len, [*lines, *before]))
    return size, seconds, memory, told(reply)


def check_costs(name, share):
    """What `review check` of a case's document costs, without MiB."""
    with tempfile.NamedTemporaryFile('w', suffix='.json') as file:
        json.dump(worst_cases.CHECKS[name](share), file, separators=(',', ':'))
        file.flush()
        process = subprocess.Popen([PROGRAM, 'check', file.name], stdout=subprocess.PIPE, stderr=subprocess.STDOUT)
        signal.signal(signal.SIGALRM, lambda *_: process.kill())
        signal.setitimer(signal.ITIMER_REAL, TIMEOUT)
        reply = process.stdout.read()
        signal.setitimer(signal.ITIMER_REAL, 0)
        _, status, usage = os.wait4(process.pid, 0)
        process.returncode = 0
        size = os.path.getsize(file.name)
    seconds = None if os.WIFSIGNALED(status) else usage.ru_utime + usage.ru_stime
    return size, seconds, '', told(reply)


def watched(process):
    """What a process writes, and the MiB that it has had at most, seen each hundredth of a second."""
    reader = threading.Thread(target=lambda: written.append(process.stdout.read()))
    written, most = [], 0
    reader.start()
    while reader.is_alive():
        try:
            most = max(most, peak(process))
        except StopIteration:
            pass
        reader.join(0.01)
    return written[0], most


def command_costs(name, share):
    """What a whole command costs, with the bytes of all its files."""
    files, words = worst_commands.COMMANDS[name](share)
    with tempfile.TemporaryDirectory() as folder:
        for file, text in files.items():
            with open(os.path.join(folder, file), 'w') as out:
                out.write(text)
        size = sum(os.path.getsize(os.path.join(folder, file)) for file in files)
        process = subprocess.Popen([os.path.abspath(PROGRAM), *words], cwd=folder,
                                   stdout=subprocess.PIPE, stderr=subprocess.STDOUT)
        signal.signal(signal.SIGALRM, lambda *_: process.kill())
        signal.setitimer(signal.ITIMER_REAL, TIMEOUT)
        reply, memory = watched(process)
        signal.setitimer(signal.ITIMER_REAL, 0)
        _, status, usage = os.wait4(process.pid, 0)
        process.returncode = 0
    seconds = None if os.WIFSIGNALED(status) else usage.ru_utime + usage.ru_stime
    return size, seconds, f'{memory:.0f}', told(reply)


def told(reply):
    """A reply in a few words."""
    start = reply.decode(errors='replace').split('\n')[0]
    return start if len(start) <= 44 else f'{start[:28]}.. {len(reply):,} bytes'


def shown(seconds):
    return f'> {TIMEOUT:.0f}' if seconds is None else f'{seconds:.3f}'


def measure(name, shares):
    """The row of a case."""
    costs = next(costs for costs, cases in KINDS if name in cases)
    smaller, larger = [costs(name, share) for share in shares]
    known = smaller[1] is not None and larger[1] is not None
    growth = f'{larger[1] / max(smaller[1], 1e-6):.1f}' if known else ''
    print(f'{name:18} {smaller[0]:10,} {shown(smaller[1]):>9} {larger[0]:10,} {shown(larger[1]):>9} {growth:>7}'
          f' {larger[2]:>8}  {larger[3]}', flush=True)


LINES = {**worst_cases.LINES, **worst_keys.KEYS}
KINDS = [(line_costs, LINES), (check_costs, worst_cases.CHECKS), (command_costs, worst_commands.COMMANDS)]


def main():
    given = [argument for argument in sys.argv[1:] if not argument.startswith('--')]
    cases = {name: case for _, kind in KINDS for name, case in kind.items()}
    if '--list' in sys.argv:
        for name, case in cases.items():
            print(f'{name:18} {" ".join(case.__doc__.split())}')
        return
    names = given or [*cases, 'stack']
    shares = (0.125, 0.25) if '--quick' in sys.argv else (0.5, 1)
    print(f'{"case":18} {"bytes":>10} {"seconds":>9} {"bytes":>10} {"seconds":>9} {"growth":>7} {"MiB":>8}  reply')
    for name in names:
        if name == 'stack':
            worst_stack.measure(PROGRAM)
        else:
            measure(name, shares)


if __name__ == '__main__':
    resource.setrlimit(resource.RLIMIT_CORE, (0, 0))
    main()

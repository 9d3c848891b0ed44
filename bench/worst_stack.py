"""How much stack the deepest lines take that are within the limits."""
import resource, subprocess
from worst_cases import one_cell, rule
from workloads import apply, line, policy, policy_set, value

# Levels of an expression, of sets in each other, and of references on a path.
LEVELS, HOPS = 16, 6


def deep_condition():
    """An expression of 16 levels."""
    condition = value(True)
    for _ in range(LEVELS - 1):
        condition = apply('not', condition)
    return condition


def deep_sets(id, child):
    """Sets in each other around a child, 16 levels in all."""
    for level in range(LEVELS - 2, -1, -1):
        child = policy_set(id if level == 0 else f'{id}-{level}', [child])
    return child


def lines():
    """Sets of 16 levels that lead to each other by six references, the last to a condition of 16 levels."""
    yield '[' * 127 + ']' * 127
    for hop in range(HOPS):
        yield line('policy.add', document=deep_sets(f's{hop}', {'PolicySetIdReference': {'Id': f's{hop + 1}'}}))
    yield line('policy.add', document=deep_sets(f's{HOPS}', policy('p', [rule(deep_condition())])))
    yield line('root.set', reference={'PolicySetIdReference': {'Id': 's0'}})
    yield from one_cell()
    yield line('table')
    yield line('ask', request={'Request': {}})
    yield line('dump')


def replies(program, kibibytes):
    """What the program writes with so much stack, or nothing if it doesn't come to its end."""
    limit = kibibytes << 10
    _, hard = resource.getrlimit(resource.RLIMIT_STACK)
    given = '\n'.join(lines()).encode() + b'\n'
    done = subprocess.run([program, 'serve'], input=given, stdout=subprocess.PIPE, stderr=subprocess.DEVNULL,
                          preexec_fn=lambda: resource.setrlimit(resource.RLIMIT_STACK, (limit, hard)))
    return done.stdout if done.returncode == 0 else None


def measure(program):
    """Prints the least stack, to 4 KiB, with which all replies come."""
    wanted = replies(program, 8192)
    refused = wanted.count(b'refused')
    too_little, enough = 16, 8192
    while enough - too_little > 4:
        middle = (too_little + enough) // 8 * 4
        if replies(program, middle) == wanted:
            enough = middle
        else:
            too_little = middle
    replied = wanted.count(b'\n')
    print(f'stack: {enough} KiB are enough for {replied} replies ({refused} refused), {too_little} KiB are not')

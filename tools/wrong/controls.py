"""Right bodies of another text, for wrong ones that have none yet: what stands there and what the edit makes of it, as
the two ways of a condition that is true. Where the prover answers by itself it proves such a body; where an answer is
written by hand for the text that stands there, it doesn't."""
import dataclasses
import re

TOKEN = re.compile(r"b?'[^'\\]'|\"(?:[^\"\\]|\\.)*\"|[A-Za-z_]\w*|\d\w*"
                   r'|::|->|=>|==|!=|<=|>=|&&|\|\||\.\.|[+*/%|&^-]=|\s+|.')
OPENS, CLOSES = '([{', ')]}'
# What stands in front of an expression that can be a condition's two ways, and behind it.
FORMS = [re.compile(r'^(\s*.*? => )(.*?)(,?)$'), re.compile(r'^(\s*let (?:mut )?\w+(?:: [\w<>]+)? = )(.*)(;)$'),
         re.compile(r'^(\s*(?:.*\b)?(?:if|match|while) )(?!let )(.*)( \{)$'), re.compile(r'^(\s*\w+: )(.*)(,)$')]
BEFORE = {',', '=', '=>', 'return', 'if', 'match', 'in', 'while', ';', '&&', '||', 'else'}
BEHIND = {',', ';', '?', '=>', '&&', '||'}


def of(edit):
    """The edits that are this one with a control, the nearer one first; none of an edit of several places."""
    if len(edit.pairs) != 1:
        return []
    pair = edit.pairs[0]
    return [dataclasses.replace(edit, is_sought=True, pairs=[dataclasses.replace(pair, right=text)])
            for text in texts(pair.old, pair.new)]


def texts(old, new):
    """Right lines in place of `old`, by what `new` makes of it."""
    one, other, start, end = apart(old, new)
    added = ''.join(other[start:len(other) - end]).strip()
    if not ''.join(one[start:len(one) - end]).strip() and added.endswith(';') and is_plain(added[:-1]):
        before = ''.join(one[:start])
        gap = ' ' if before.strip() and not before.endswith(' ') else ''
        return [f'{before}{gap}if false {{ {added} }} {"".join(one[start:]).lstrip()}']
    return list(dict.fromkeys(text for text in (near(one, other, start, end), wide(old, new)) if text))


def apart(old, new):
    """The words of both lines, and how many they share in front and behind."""
    one, other = TOKEN.findall(old), TOKEN.findall(new)
    shortest = min(len(one), len(other))
    start = next((at for at in range(shortest) if one[at] != other[at]), shortest)
    end = next((at for at in range(shortest - start) if one[-1 - at] != other[-1 - at]), shortest - start)
    return one, other, start, end


def near(one, other, start, end):
    """The line with a condition in place of the smallest expression that the edit changes."""
    first = begins_at(one, start)
    last = ends_at(one, len(one) - end)
    old, new = ''.join(one[first:last]), ''.join(other[first:len(other) - len(one) + last])
    if not is_plain(old) or not is_plain(new) or '=>' in one[last:] or re.match(r'\s*(_|\w+\s*:(?!:))', old):
        return None
    lead, tail = old[:len(old) - len(old.lstrip())], old[len(old.rstrip()):]
    made = ways(old, new)
    # (a whole line may go on in the next one)
    made = f'({made})' if not ''.join([*one[:first], *one[last:]]).strip() and made.endswith('}') else made
    return ''.join(one[:first]) + lead + made + tail + ''.join(one[last:])


def begins_at(words, at):
    """Where the expression begins that a word stands in."""
    depth = 0
    for before in range(at - 1, -1, -1):
        depth += words[before] in tuple(CLOSES)
        if depth == 0 and (words[before] in tuple(OPENS) or words[before] in BEFORE):
            return before + 1
        depth -= words[before] in tuple(OPENS)
    return 0


def ends_at(words, at):
    """Where it ends."""
    depth = 0
    for behind in range(at, len(words)):
        if depth == 0 and (words[behind] in tuple(CLOSES) or words[behind] in BEHIND or words[behind] == '{'):
            return behind
        depth += words[behind] in tuple(OPENS)
        depth -= words[behind] in tuple(CLOSES)
    return len(words)


def wide(old, new):
    """The line with a condition in place of all behind its `let`, `=>`, `if`, or of all of it."""
    for form in FORMS:
        if (one := form.match(old)) and is_plain(one[2]):
            other = form.match(new)
            same = other and is_plain(other[2]) and other[1] == one[1]
            return one[1] + ways(one[2], other[2] if same else one[2]) + one[3]
    text = old.strip()
    if re.match(r'let |if |while |for |match |[|}]|&&|\|\|', text) or text.endswith(',') or not is_balanced(text):
        return None
    indent = old[:len(old) - len(old.lstrip())]
    return f'{indent}if true {{ {text} }} else {{ {new.strip() if is_balanced(new) else text} }}'


def ways(old, new):
    """An expression that is the one and never the other; what both hand on to the caller stands behind it."""
    old, new = old.strip(), new.strip()
    if old.endswith('?') and new.endswith('?'):
        return f'(if true {{ {old[:-1]} }} else {{ {new[:-1]} }})?'
    return f'if true {{ {old} }} else {{ {new} }}'


def is_balanced(text):
    """Whether each bracket that a text opens it closes."""
    open_ones = []
    for word in TOKEN.findall(text):
        if word in tuple(OPENS):
            open_ones.append(word)
        elif word in tuple(CLOSES) and (not open_ones or OPENS.index(open_ones.pop()) != CLOSES.index(word)):
            return False
    return not open_ones


def is_plain(text):
    """Whether a text may be an expression: no statements, no arms, no list of several."""
    depth = 0
    for word in TOKEN.findall(text):
        depth += word in tuple(OPENS)
        depth -= word in tuple(CLOSES)
        if word in (';', '=>', 'let') or word == ',' and depth == 0:
            return False
    return bool(text.strip()) and is_balanced(text)


def write(edit):
    """Puts an edit's control behind its pair; its refusal tells something then, also where it was answered by hand."""
    path = edit.crate / 'wrong' / f'{edit.name}.edit'
    lines = path.read_text(encoding='utf-8').rstrip('\n').replace('by hand:', 'by:', 1).split('\n')
    at = next(at for at, line in enumerate(lines) if line.startswith('new:'))
    lines.insert(at + 1, f'control: {edit.pairs[0].right}')
    path.write_text('\n'.join(lines) + '\n', encoding='utf-8')

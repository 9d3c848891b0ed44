"""What programs say of themselves with --help, as manual pages and completions."""
import re
import subprocess


class Told:
    """A command, its own text, and the options and commands that it names."""

    def __init__(self, words, text):
        self.words, self.text = words, text
        self.options = list(dict.fromkeys(re.findall(r'(?m)^ +(?:-\w, )?(--?[a-z][\w-]+)', text)))
        self.commands = []

    @property
    def name(self):
        return '-'.join(self.words)

    @property
    def first(self):
        return self.text.strip().split('\n', 1)[0].rstrip('.')


def said(program, words):
    """What the program says with those words, wherever it says it, with its own name in place of its file's."""
    ran = subprocess.run([program, *words], capture_output=True, text=True, check=False)
    return ran.stdout or ran.stderr


def of_review(program):
    """The program and each of its commands."""
    whole = Told(['review'], said(program, ['--help']))
    listed = whole.text.split('Commands:', 1)[1].split('\n\n', 1)[0]
    whole.commands = [word for word in re.findall(r'(?m)^  (\w+) ', listed) if word != 'help']
    return [whole] + [Told(['review', word], said(program, [word, '--help'])) for word in whole.commands]


def of_front(program, name='review-front'):
    """The front, whose other commands its usage names."""
    whole = Told([name], said(program, ['--help']))
    whole.commands = re.findall(rf'(?m)^(?:Usage:)? +{name} ([a-z]\w*)', whole.text)
    whole.options = [option if option.startswith('--') else '-' + option for option in whole.options]
    return [whole]


def of_source(program):
    """What brings sources to the front, as the front tells its own."""
    return of_front(program, 'review-source')


def escaped(line):
    """A line that stands for itself in a manual page."""
    line = line.replace('\\', '\\e').replace('-', '\\-')
    return '\\&' + line if line[:1] in ".'" else line


def manual(told, version, date):
    """The manual page of a command."""
    body = '\n'.join(escaped(line) for line in told.text.rstrip().split('\n'))
    return (
        f'.TH {told.name.upper()} 1 "{date}" "review {version}" "User Commands"\n'
        f'.SH NAME\n{escaped(told.name)} \\- {escaped(told.first[:1].lower() + told.first[1:])}\n'
        f'.SH DESCRIPTION\n.nf\n{body}\n.fi\n'
        '.SH SEE ALSO\nThe pages in /usr/share/doc/review, of which README.md leads on.\n'
    )


def bash(commands):
    """The completion for bash: commands and options of a program, and else files."""
    whole, *below = commands
    cases = ''.join(f'        {it.words[1]}) words="{" ".join(it.options)}" ;;\n' for it in below)
    cases += f'        *) words="{" ".join(whole.commands + whole.options)}" ;;\n'
    function = '_' + whole.name.replace('-', '_')
    return (
        f'{function}() {{\n    local word="${{COMP_WORDS[COMP_CWORD]}}" words=\n    case "${{COMP_WORDS[1]}}" in\n'
        f'{cases}    esac\n    mapfile -t COMPREPLY < <(compgen -W "$words" -- "$word")\n}}\n'
        f'complete -o default -F {function} {whole.name}\n'
    )


def zsh(commands):
    """The same for zsh."""
    whole, *below = commands
    cases = ''.join(f'    {it.words[1]}) compadd -- {" ".join(it.options)} ;;\n' for it in below)
    cases += f'    *) compadd -- {" ".join(whole.commands + whole.options)} ;;\n'
    return f'#compdef {whole.name}\ncase "${{words[2]}}" in\n{cases}esac\n_files\n'

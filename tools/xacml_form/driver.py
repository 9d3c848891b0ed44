"""What the trials share: the program at hand, requests, and conditions in XML."""
import json
import subprocess

from . import names

XS = names.XML_SCHEMA
F1 = names.FUNCTION.format('1.0', '{}').format
SUBJECT = names.CATEGORIES['AccessSubject']


class Service:
    """A service that answers lines."""

    def __init__(self, program):
        self.process = subprocess.Popen([program, 'serve'], stdin=subprocess.PIPE, stdout=subprocess.PIPE)

    def answer(self, **line):
        """The reply to one line."""
        return self.answers([line])[0]

    def answers(self, lines):
        """The replies to some lines; few enough at once that no pipe is full."""
        found = []
        for start in range(0, len(lines), 50):
            part = lines[start : start + 50]
            self.process.stdin.write(b''.join(json.dumps(line, ensure_ascii=False).encode() + b'\n' for line in part))
            self.process.stdin.flush()
            found += [json.loads(self.process.stdout.readline()) for _ in part]
        return found

    def root(self, document):
        """Stores a document and makes it the root; the reply that refuses it, or None."""
        kind, body = next(iter(document.items()))
        for line in [
            {'do': 'policy.add', 'document': document},
            {
                'do': 'root.set',
                'reference': {f'{kind}IdReference': {'Id': body[f'{kind}Id'], 'Version': body['Version']}},
            },
        ]:
            reply = self.answer(**line)
            if 'refused' in reply:
                return reply
        return None

    def decisions(self, requests):
        """What is decided of requests, each a list of attributes: category, id, type and values."""
        replies = self.answers([{'do': 'ask', 'request': request_of(each)} for each in requests])
        return [reply['Response'][0]['Decision'] if 'Response' in reply else reply for reply in replies]

    def close(self):
        self.process.stdin.close()
        self.process.wait()


def request_of(attributes):
    """A request of attributes: category, id, type and values."""
    categories = {}
    for category, one, kind, values in attributes:
        categories.setdefault(category, []).append({'AttributeId': one, 'DataType': XS + kind, 'Value': values})
    return {
        'Request': {
            'Category': [{'CategoryId': category, 'Attribute': listed} for category, listed in categories.items()]
        }
        if categories
        else {}
    }


# ---- XML


def policy(condition, identifier='p', version='1'):
    """A policy in XML that permits where a condition is true."""
    return (
        f'<Policy xmlns="{names.NAMESPACE}" PolicyId="{identifier}" Version="{version}"'
        ' RuleCombiningAlgId="urn:oasis:names:tc:xacml:3.0:rule-combining-algorithm:deny-overrides">'
        f'<Target/><Rule RuleId="r" Effect="Permit"><Condition>{condition}</Condition></Rule></Policy>'
    ).encode()


def apply(function, *arguments):
    return f'<Apply FunctionId="{function}">{"".join(arguments)}</Apply>'


def function(name):
    return f'<Function FunctionId="{name}"/>'


def literal(kind, text):
    return f'<AttributeValue DataType="{XS}{kind}">{text}</AttributeValue>'


def bag(one, kind, must='false'):
    """The values of an attribute of the subject."""
    return (
        f'<AttributeDesignator Category="{SUBJECT}" AttributeId="{one}" DataType="{XS}{kind}" MustBePresent="{must}"/>'
    )


def single(one, kind):
    """The one value of an attribute of the subject; a fault where it has none, or more."""
    return apply(F1(f'{kind}-one-and-only'), bag(one, kind))

"""What isn't XACML 3.0 is told, each violation with its line, and nothing is converted; the table of the schema says of
valid files what xacml.rng says."""
from lxml import etree

from . import names, places, policies, requests, schema
from .driver import F1, SUBJECT, XS, bag, literal

POLICY = (
    f'<Policy xmlns="{names.NAMESPACE}" PolicyId="p" Version="1"'
    ' RuleCombiningAlgId="urn:oasis:names:tc:xacml:3.0:rule-combining-algorithm:deny-overrides">'
)
TRUE, FALSE = literal('boolean', 'true'), literal('boolean', 'false')
BAG = bag('x', 'string')
VALUE = literal('string', 'a')
MATCH = f'<Match MatchId="{F1("string-equal")}">{VALUE}{BAG}</Match>'
GIVEN = '<ObligationExpressions><ObligationExpression ObligationId="o" FulfillOn="Permit"/></ObligationExpressions>'


def rule(inside, attributes='RuleId="r" Effect="Permit"'):
    """A policy whose third line is what stands in its rule."""
    return f'{POLICY}<Target/>\n<Rule {attributes}>\n{inside}</Rule></Policy>'


def target(inside):
    """A policy whose second line is what stands in its target."""
    return f'{POLICY}<Target>\n{inside}</Target></Policy>'


# Of each file what is told: of each line that, its beginning.
TOLD = [
    (
        rule(f'<Condition FunctionId="{F1("not")}">{TRUE}</Condition>'),
        [
            '1: as a file of XACML 1.x whose namespace was changed (Condition at 3:1): give it back the namespace',
            '3: the attribute FunctionId of Condition: Condition has no attributes',
        ],
    ),
    (
        rule(f'<Condition>{FALSE}</Condition>\n<Condition>{TRUE}</Condition>'),
        ['4: one more Condition in Rule: one stands there, and that is Condition in line 3'],
    ),
    (
        rule(f'<Condition>{TRUE}\n{FALSE}</Condition>'),
        ['4: one more AttributeValue in Condition: one stands there, and that is AttributeValue in line 3'],
    ),
    (rule('<Condition/>'), ['3: Condition without an expression: the schema asks for it']),
    (
        f'{POLICY}<Target/>\n{GIVEN}\n{GIVEN}</Policy>',
        ['3: one more ObligationExpressions in Policy: one stands there, and that is ObligationExpressions in line 2'],
    ),
    (
        f'{POLICY}<Target/>\n<Target><AnyOf><AllOf>{MATCH}</AllOf></AnyOf></Target></Policy>',
        ['2: one more Target in Policy: one stands there, and that is Target in line 1'],
    ),
    (rule('<Target/>\n<Target/>'), ['4: one more Target in Rule: one stands there, and that is Target in line 3']),
    (
        target(f'<AnyOf><AllOf><Match MatchId="{F1("string-equal")}">{VALUE}\n{VALUE}{BAG}</Match></AllOf></AnyOf>'),
        ['3: one more AttributeValue in Match: one stands there, and that is AttributeValue in line 2'],
    ),
    (
        target(f'<AnyOf><AllOf><Match MatchId="{F1("string-equal")}">{VALUE}{BAG}\n{BAG}</Match></AllOf></AnyOf>'),
        ['3: one more AttributeDesignator in Match: one stands there, and that is AttributeDesignator in line 2'],
    ),
    (
        target(f'<AnyOf><AllOf><Match MatchId="{F1("string-equal")}">{BAG}\n{VALUE}</Match></AllOf></AnyOf>'),
        ['3: AttributeValue behind AttributeDesignator in Match: the order is AttributeValue, AttributeDesignator | '],
    ),
    (target('<AnyOf/>'), ['2: AnyOf without AllOf: the schema asks for it']),
    (target('<AnyOf><AllOf/></AnyOf>'), ['2: AllOf without Match: the schema asks for it']),
    (
        rule(f'<Condition><VariableReference VariableId="v">\n{TRUE}</VariableReference></Condition>'),
        ['4: AttributeValue in VariableReference: what stands there: nothing'],
    ),
    (
        rule(f'<Condition>{BAG.removesuffix("/>")}>\n{VALUE}</AttributeDesignator></Condition>'),
        ['4: AttributeValue in AttributeDesignator: what stands there: nothing'],
    ),
    (
        rule(f'<Description x="1">a</Description><Target y="2"/>\n<Condition z="3">{TRUE}</Condition>'),
        [
            '3: the attribute x of Description: Description has no attributes',
            '3: the attribute y of Target: Target has no attributes',
            '4: the attribute z of Condition: Condition has no attributes',
        ],
    ),
    (
        target(f'<AnyOf x="1">\n<AllOf xmlns:q="urn:q" q:y="2">{MATCH}</AllOf></AnyOf>'),
        ['2: the attribute x of AnyOf: AnyOf has no', '3: the attribute {urn:q}y of AllOf: AllOf has no attributes'],
    ),
    (
        rule('<Description xml:lang="en">a</Description>'),
        ['3: the attribute xml:lang of Description: Description has no attributes'],
    ),
    (
        rule(f'<Condition xmlns:i="http://www.w3.org/2001/XMLSchema-instance" i:type="x">{TRUE}</Condition>'),
        ['3: the attribute xsi:type of Condition: Condition has no attributes'],
    ),
    (rule('', 'RuleId="r"\n Effect="permit"'), ['3: Effect="permit" of Rule: Permit or Deny stands there']),
    (rule('', 'Effect="Deny" RulId="r"'), ['2: Rule without RuleId', '2: the attribute RulId of Rule: Rule has']),
    (f'{POLICY}<Rule RuleId="r" Effect="Deny"/></Policy>', ['1: Policy without Target: the schema asks for it']),
    (POLICY.replace('"1"', '"1.x"') + '<Target/></Policy>', ['1: Version="1.x" of Policy: numbers with dots between']),
    (
        rule(f'<Condition>{BAG.replace("false", "no")}</Condition>'),
        ['3: MustBePresent="no" of AttributeDesignator: true or false stands there'],
    ),
    (rule(f'one<Condition>{TRUE}</Condition>\ntwo'), ['2: the text "one" in Rule: only', '3: the text "two" in Rule']),
    (
        rule(f'<Condition><Function FunctionId="{F1("not")}">a</Function></Condition>'),
        ['3: the text "a" in Function: nothing stands there'],
    ),
    (
        rule(f'<Condition>{TRUE}</Condition>\n<Target/>'),
        ['4: Target behind Condition in Rule: the order is Description, Target, Condition, ObligationExpressions, '],
    ),
    (rule('<Description>a<Target/></Description>'), ['3: Target in Description: only a text stands there']),
    (rule('<Target xmlns=""/>'), ['3: Target of the namespace (none) in Rule: it belongs to no XACML 3.0']),
    (
        rule('<Subjects/>\n<Condition><Apply FunctionId="f"><SubjectAttributeDesignator/></Apply></Condition>'),
        [
            '1: as a file of XACML 2.0 whose namespace was changed (',
            '3: Subjects in Rule: what stands there: Description, Target, Condition, ',
            '4: SubjectAttributeDesignator in Apply: what stands there: Description, expressions',
        ],
    ),
    (
        '<Policy xmlns="urn:oasis:names:tc:xacml:2.0:policy:schema:os"/>',
        ['1: Policy of XACML 2.0 at the root: bring it to 3.0 first, whose namespace is urn:'],
    ),
]
REQUEST = f'<Request xmlns="{names.NAMESPACE}" ReturnPolicyIdList="false" CombinedDecision="false">'
ATTRIBUTE = f'<Attribute AttributeId="x" IncludeInResult="false">{VALUE}</Attribute>'
TOLD_OF_REQUESTS = [
    (f'{REQUEST}</Request>', ['1: Request without Attributes: the schema asks for it']),
    (
        f'{REQUEST}\n<Attributes Category="{SUBJECT}">{ATTRIBUTE.replace("IncludeIn", "In")}</Attributes></Request>',
        ['2: Attribute without IncludeIn', '2: the attribute InResult of Attribute: Attribute has AttributeId, '],
    ),
    (
        f'{REQUEST}\n<Attributes Category="{SUBJECT}">{ATTRIBUTE}\n<Content><a/></Content></Attributes></Request>',
        ['3: Content behind Attribute in Attributes: the order is Content, Attribute'],
    ),
    (
        f'{REQUEST}\n<Subject>{ATTRIBUTE}</Subject></Request>',
        ['1: as a file of XACML 2.0 whose', '1: Request without Attributes', '2: Subject in Request: what stands'],
    ),
]

PARAMETER = f'<CombinerParameter ParameterName="n">{VALUE}</CombinerParameter>'
SELECTOR = f'<AttributeSelector Category="{SUBJECT}" Path="//a" DataType="{XS}boolean" MustBePresent="false"/>'

# What the schema has and the form here hasn't is told as such, and is no violation.
ALLOWED = [
    f'{POLICY}<PolicyIssuer>{ATTRIBUTE}</PolicyIssuer><Target/></Policy>',
    POLICY.replace(' Version', ' MaxDelegationDepth="1" Version') + '<Target/></Policy>',
    f'{POLICY}<Target/><RuleCombinerParameters RuleIdRef="r">{PARAMETER}</RuleCombinerParameters></Policy>',
    rule(f'<Condition>{SELECTOR}</Condition>'),
    rule(f'<Condition><AttributeValue DataType="{XS}boolean" other="x">true</AttributeValue></Condition>'),
    rule(f'<Condition><AttributeValue DataType="{XS}string"><b/></AttributeValue></Condition>'),
]


def told_of(text, reader):
    """What is made of a file, and what is told of it."""
    root, where = places.read(text.encode())
    told = places.Told('f')
    made = reader(told, where, root)
    return made, told


def of_policy(told, where, root):
    return policies.Policies(told, where).document(root)


def of_request(told, where, root):
    return requests.Requests(told, where).request(root)


def violations(wrong):
    """Each file of the list is told as it says, whole, and nothing is made of it."""
    for listed, reader in [(TOLD, of_policy), (TOLD_OF_REQUESTS, of_request)]:
        for text, expected in listed:
            made, told = told_of(text, reader)
            lines = [line.split(':', 3) for line in told.lines()]
            found = [f'{line}:{rest.removeprefix(f" {places.INVALID}:")}' for _, line, _, rest in lines]
            if made is not None or len(found) != len(expected) or not all(map(str.startswith, found, expected)):
                wrong.append(f'{text}: {found}, and not {expected}')
    for text in ALLOWED:
        _, told = told_of(text, of_policy)
        if told.holds(places.INVALID) or not told.stops():
            wrong.append(f'{text}: {told.lines()}')
    spaced, told = told_of(rule('').replace('"p"', '" p  q "'), of_policy)
    if spaced['Policy']['PolicyId'] != 'p q' or not told.holds(places.REWRITTEN):
        wrong.append(f'white space in an id: {spaced} {told.lines()}')
    return len(TOLD) + len(TOLD_OF_REQUESTS) + len(ALLOWED) + 1


# ---- beside xacml.rng


class Beside:
    """The two grammars: what the tool writes is a part of what the schema has."""

    def __init__(self, file):
        self.validator = etree.RelaxNG(file=str(file))
        grammar = etree.parse(str(file)).getroot()
        self.defined = {each.get('name'): each for each in grammar.iterfind('{*}define')}
        self.attributes, self.children = {}, {}
        for element in grammar.iter('{*}element'):
            for kind, names_of in (('attribute', self.attributes), ('element', self.children)):
                names_of.setdefault(element.get('name'), set()).update(self.parts(element, kind))

    def parts(self, pattern, kind):
        """The names of the attributes or of the elements that a pattern of xacml.rng has, not of what stands in
        those."""
        for part in pattern:
            name = etree.QName(part).localname
            if name == kind:
                yield part.get('name')
            elif name == 'ref':
                yield from self.parts(self.defined[part.get('name')], kind)
            elif name not in ('attribute', 'element'):
                yield from self.parts(part, kind)

    def names(self, wrong):
        """Each element and attribute that xacml.rng has of policies and requests is one of the table."""
        for name, attributes in self.attributes.items():
            kind, children = schema.ELEMENTS.get(name), self.children[name]
            if kind is not None and not (attributes <= set(kind.attributes) and children <= set(kind.place_of)):
                wrong.append(f'xacml.rng has of {name} {attributes} and {children}')
        return len(self.attributes)

    def is_within(self, root):
        """Whether a file has no element and no attribute where xacml.rng has none."""
        elements = [(etree.QName(each).localname, each) for each in root.iter() if isinstance(each.tag, str)]
        return all(
            set(each.attrib) <= self.attributes.get(name, set())
            and all(etree.QName(child).localname in self.children.get(name, ()) for child in each.iterchildren('{*}*'))
            for name, each in elements
        )

    def agree(self, root, is_told):
        """Whether the two say the same of a file: what xacml.rng passes isn't told, and what isn't told it passes if it
        has its names alone."""
        passes = self.validator.validate(root)
        return not is_told if passes else is_told or not self.is_within(root)


def run(file):
    """How many files were told, and what was wrong."""
    wrong = []
    return violations(wrong) + Beside(file).names(wrong), wrong

"""Documents in the form in which the service writes them, so that they can be compared."""
from . import names


def normal(json):
    """A document as the service writes it: types in full, MustBePresent always, booleans and integers as JSON, no empty
    lists."""
    if isinstance(json, list):
        return [normal(each) for each in json]
    if not isinstance(json, dict):
        return json
    if set(json) <= {'DataType', 'Value'} and 'Value' in json:
        return full_literal(json)
    made = {key: normal(value) for key, value in json.items()}
    if 'DataType' in made:
        made['DataType'] = full_type(made['DataType'])
        made.setdefault('MustBePresent', False)
    if 'Target' in made and not made['Target'].get('AnyOf'):
        del made['Target']
    return {key: value for key, value in made.items() if value != []}


def full_type(name):
    return names.XML_SCHEMA + name if name in names.TYPES else name


def full_literal(json):
    value = json['Value']
    kind = 'boolean' if isinstance(value, bool) else 'integer' if isinstance(value, int) else 'string'
    uri = full_type(json.get('DataType', kind))
    if isinstance(value, str) and uri == names.XML_SCHEMA + 'boolean':
        value = value in ('true', '1')
    elif isinstance(value, str) and uri == names.XML_SCHEMA + 'integer':
        value = int(value)
    return {'DataType': uri, 'Value': value}

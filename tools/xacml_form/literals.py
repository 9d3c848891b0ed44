"""Literals: from the text of an AttributeValue to its value in JSON, and back."""
import datetime
import re

from . import names
from .told import BY_HAND, IMPOSSIBLE, REWRITTEN

XS = names.XML_SCHEMA
# What becomes of a value, where that is known: it is compared, or given back in obligations, advice or a response.
COMPARED, GIVEN = 'compared', 'given'
SPACE = ' \t\r\n'
DATE = re.compile(r'(-?\d{4,})-(\d\d)-(\d\d)(Z|[+-]\d\d:\d\d)?', re.ASCII)
TIME = re.compile(r'(\d\d):(\d\d):(\d\d)(\.\d+)?(Z|[+-]\d\d:\d\d)?', re.ASCII)
MOMENT = re.compile(r'(-?\d{4,}-\d\d-\d\d)T(\d\d:\d\d:\d\d)(\.\d+)?(Z|[+-]\d\d:\d\d)?', re.ASCII)
# A fraction of a second that is zero, behind the second.
ZEROS = re.compile(r'(:\d\d)\.0+(?=Z|[+-]\d\d:\d\d|$)', re.ASCII)
DURATION = re.compile(r'-?P(\d{1,9}Y)?(\d{1,9}M)?', re.ASCII)
INTEGER = re.compile(r'[+-]?\d+', re.ASCII)
NO_OFFSETS = 'by hand: there are no time zones here; say the time in one zone, the same in which attributes are stored'
NO_FRACTIONS = 'by hand: times are whole seconds here'
TYPES_BY_WORD = {
    names.last_word(uri): uri
    for uri in (*names.MISSING_TYPES, names.XPATH_TYPE, *names.HERE_TYPES)
    if uri != names.OLD_DAYS
}


def data_type(uri, place, told):
    """The full name of a data type that is here, or the given one; what isn't here is told."""
    if uri in names.OLD_TYPES:
        told.tell(REWRITTEN, place, f'the data type {uri}', 'the same type is ' + names.OLD_TYPES[uri])
        return names.OLD_TYPES[uri]
    if uri == names.XPATH_TYPE:
        told.tell(IMPOSSIBLE, place, f'the data type {uri}', 'there is no XPath; store what it finds as an attribute')
    elif uri in names.MISSING_TYPES:
        told.tell(BY_HAND, place, f'the data type {uri}', names.MISSING_TYPES[uri])
    elif uri not in names.HERE_TYPES:
        mistaken = names.meant(uri, TYPES_BY_WORD)
        weight = IMPOSSIBLE if mistaken is None else BY_HAND
        how = mistaken or 'no type of the standard; docs/POLICIES.md lists those that are here'
        told.tell(weight, place, f'the data type {uri}', how.removeprefix('by hand: '))
    return uri


def value(uri, text, place, told, use=None):
    """The value in JSON that a text of a type is: a boolean, a whole number, or else the text, trimmed unless it is a
    string. What can't be read here is told."""
    kind = names.HERE_TYPES.get(uri)
    if kind == 'string' or kind is None:
        return text
    text = text.strip(SPACE)
    if kind in ('time', 'dateTime'):
        whole = ZEROS.sub(r'\1', text)
        if whole != text:
            told.tell(REWRITTEN, place, f'the {kind} {text[:60]}', 'a fraction of zero is no part of a time: cut')
        text = whole
    if kind in ('date', 'time', 'dateTime'):
        if use != GIVEN:
            told.times.append((place, text))
        elif text.endswith('Z'):
            told.tell(REWRITTEN, place, f'the {kind} {text[:60]}', 'a Z means nothing here: it is given back without')
    why = why_not(kind, text)
    if kind == 'dateTime' and why == NO_OFFSETS and use == COMPARED:
        moment = in_utc(text)
        if moment is not None:
            told.tell(
                REWRITTEN,
                place,
                f'the dateTime {text}',
                f'the same moment is {moment}; attributes that it is compared with have to be stored in UTC too',
            )
            return moment
    if why is not None:
        weight, how = (BY_HAND, why) if why.startswith('by hand: ') else (IMPOSSIBLE, why)
        told.tell(weight, place, f'the {kind} {text[:60] or "(nothing)"}', how.removeprefix('by hand: '))
        return text
    if kind == 'boolean':
        return text in ('true', '1')
    return int(text) if kind == 'integer' else text


def why_not(kind, text):
    """Why a text is no value of a type here; None where it is one."""
    return _READERS.get(kind, lambda _: None)(text)


def text_of(uri, json_value):
    """The text of a value in JSON, as it stands in an AttributeValue."""
    if isinstance(json_value, bool):
        return 'true' if json_value else 'false'
    return str(json_value)


def in_utc(text):
    """A dateTime with an offset as the same moment with Z; None where it has a fraction or leaves the years 1 to
    9999."""
    found = MOMENT.fullmatch(text)
    if not found or found[3] or not re.fullmatch(r'[+-](0\d|1[0-4]):[0-5]\d', found[4] or ''):
        return None
    sign = -1 if found[4][0] == '-' else 1
    offset = sign * datetime.timedelta(hours=int(found[4][1:3]), minutes=int(found[4][4:]))
    try:
        moment = datetime.datetime.strptime(f'{found[1]}T{found[2]}', '%Y-%m-%dT%H:%M:%S') - offset
    except (ValueError, OverflowError):
        return None
    return f'{moment.year:04}-{moment:%m-%dT%H:%M:%S}Z'


# ---- whether a text is read here; None, or why not


def _boolean(text):
    return None if text in ('true', 'false', '1', '0') else 'no boolean: true, false, 1 or 0'


def _integer(text):
    if not INTEGER.fullmatch(text):
        return 'no integer'
    return None if -(2**63) <= int(text) < 2**63 else 'by hand: integers lie within signed 64 bits here'


def _date(text):
    found = DATE.fullmatch(text)
    if not found:
        return 'no date: YYYY-MM-DD'
    if found[4] not in (None, 'Z'):
        return NO_OFFSETS
    return _day(found[1], found[2], found[3])


def _day(year, month, day):
    if year.startswith('-') or len(year) > 4 or year == '0000':
        return 'by hand: years are 1 to 9999 here'
    try:
        datetime.date(int(year), int(month), int(day))
    except ValueError:
        return 'no day of the calendar'
    return None


def _time(text):
    found = TIME.fullmatch(text)
    if not found:
        return 'no time: hh:mm:ss'
    if found[1] == '24':
        return 'by hand: 24:00:00 is 00:00:00 of the next day'
    if int(found[1]) > 23 or int(found[2]) > 59 or int(found[3]) > 59:
        return 'no time of day'
    if found[4]:
        return NO_FRACTIONS
    return None if found[5] in (None, 'Z') else NO_OFFSETS


def _moment(text):
    found = MOMENT.fullmatch(text)
    if not found:
        return 'no dateTime: YYYY-MM-DDThh:mm:ss'
    return _date(found[1]) or _time(found[2] + (found[3] or '') + (found[4] or ''))


def _duration(text):
    if DURATION.fullmatch(text) and text.rpartition('P')[2]:
        return None
    return 'by hand: a yearMonthDuration is PnY, PnM or PnYnM here, n of 1 to 9 digits'


_READERS = {
    'boolean': _boolean,
    'integer': _integer,
    'date': _date,
    'time': _time,
    'dateTime': _moment,
    'yearMonthDuration': _duration,
}

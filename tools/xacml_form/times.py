"""Dates and times in policies: whether they have an offset, a Z or neither, since one moment has to be sent for all
of them."""
import collections
import re

from .places import TIMES, WARNING

OFFSET, UTC, NEITHER = 'with an offset', 'with Z', 'with neither an offset nor Z'
SEND = {
    OFFSET: 'send the moment in UTC',
    UTC: 'send the moment in UTC',
    NEITHER: 'send the local moment, without Z',
}
MIXED = 'no moment is right for both: say all of them in UTC with Z, or all in local time without'


def zone_of(text):
    """Of which kind a date or a time is."""
    if text.endswith('Z'):
        return UTC
    return OFFSET if re.search(r'[+-]\d\d:\d\d$', text) else NEITHER


def tell(brought):
    """Tells of each file of which kind its times are; where those of one or more files want two moments, a warning
    says where each of them stands."""
    listed = collections.defaultdict(list)
    for each in brought:
        for place, text in each.told.times:
            zone = zone_of(text)
            each.told.tell(TIMES, place, zone, SEND[zone])
            listed[zone].append((each, place))
    if NEITHER in listed and len(listed) > 1:
        where = [
            f'{zone} at ' + ', '.join(f'{each.file}:{line}:{column}' for each, (line, column) in found)
            for zone, found in listed.items()
        ]
        first, place = next(iter(listed.values()))[0]
        first.told.tell(WARNING, place, f'times {"; ".join(where)}', MIXED)

"""Which records of an order have a row of their own in a picture of a report, or of a page, and which are folded.

A record is of interest where it is the halt or the resume, the faulty one, the cause, or what this is set against; where it is about
the page of the faulty record, or the page that was named, but before that one of the page's reads and writes only those that are told of; of a report
without a page, where it receives another; and where such a record receives it. With them stand the neighbours of the faulty
record. Of too many, the first eight and the last eight have rows, and forty on each side of the faulty one, or of the end of
an order that stops, or of the resume; and in any case the cause, and the record that it is set against. A single record between
two that have rows has one too, and so has one at an end.
"""
AT_ENDS, BESIDE = 8, 40


def word_of(records, name):
    return records.logs[name[0]][name[1]].split(" ")[0]


def middle_of(told, records, order):
    """Around which place of an order most is shown."""
    if told.fault in order:
        return order.index(told.fault)
    if len(order) < sum(map(len, records.logs.values())):
        return len(order)
    return next((n for n, name in enumerate(order) if word_of(records, name) == "resume"), 0)


def concerns(told, records, page, middle, place, name):
    """Whether the record at a place of the order concerns what the picture is about."""
    if word_of(records, name) in ("halt", "resume") or name in (told.fault, told.cause, told.against):
        return True
    if page is None:
        return records.named(*name) is not None
    if records.page(*name) != page:
        return False
    return place > middle or word_of(records, name) not in ("r", "w") or told.names(name)


def kept_places(told, records, order):
    """The places of the order that have a row, but for single records between them."""
    page, middle = told.fault and records.page(*told.fault) if told.topic is None else told.topic, middle_of(told, records, order)
    interest = {name for place, name in enumerate(order) if concerns(told, records, page, middle, place, name)}
    interest |= {records.named(*name) for name in interest} - {None}
    wanted = {place for place, name in enumerate(order) if name in interest}
    if told.fault is not None:
        wanted |= {max(0, middle - 1), middle + 1} & set(range(len(order)))
    wanted = sorted(wanted)
    rank = sum(place < middle for place in wanted)
    kept = {*wanted[:AT_ENDS], *wanted[max(0, len(wanted) - AT_ENDS):], *wanted[max(0, rank - BESIDE):rank + BESIDE + 1]}
    return kept | {order.index(name) for name in (told.cause, told.against) if name in order}


def own_rows(told, records, order):
    """The records of the order that have a row of their own, in its sequence."""
    kept, last = kept_places(told, records, order), len(order) - 1
    def is_single(place):
        return (place == 0 or place - 1 in kept) and (place == last or place + 1 in kept)
    return [name for place, name in enumerate(order) if place in kept or is_single(place)]

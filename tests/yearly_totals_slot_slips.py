"""Wrong readings of request l of document 02 about the test of a slot, refusal 32."""
from yearly_totals import MOST, YEARS, Slot, goes_with, read_slot, slot_of
from yearly_totals_cases import SUMS


def counted(slot, _, before):
    return slot.months == before


def limited(slot, *_):
    return max(slot[2:]) <= MOST


def dated(slot, k, _):
    return slot.months == 0 or slot.year == k + 1


def zero(slot, *_):
    return slot.months > 0 or slot == Slot()


def tested(**others):
    """Other tests in the place of the four, each from the slot, its place, and the months before in its year."""
    tests = {"counted": counted, "limited": limited, "dated": dated, "zero": zero} | others

    def wrong(totals, period):
        k, before = slot_of(period)
        return all(test(read_slot(totals, k), k, before) for test in tests.values())

    return {"goes_with": wrong}


def months(test):
    """Another test of the months, from these and those before in the year."""
    return tested(counted=lambda slot, _, before: test(slot.months, before))


def sums(most):
    """Another limit of the sums."""
    return tested(limited=lambda slot, *_: max(slot[2:]) <= most)


def without_sum(field):
    return tested(limited=lambda slot, *_: limited(slot._replace(**{field: 0})))


def years(test):
    """Another test of the year with months above 0, from it and the slot's place."""
    return tested(dated=lambda slot, k, _: slot.months == 0 or test(slot.year, k))


def no_months(test):
    """Another test of a slot with 0 months, from it and its place."""
    return tested(zero=lambda slot, k, _: slot.months > 0 or test(slot, k))


def looked_at(test):
    """Other slots tested too, from each, its place and that of the record's slot."""

    def wrong(totals, period):
        k, _ = slot_of(period)
        return goes_with(totals, period) and all(test(read_slot(totals, each), each, k) for each in range(YEARS))

    return {"goes_with": wrong}


def anything(*_):
    return True


MONTHS = {
    "months not tested": months(anything),
    "months as n % 12": months(lambda counted, before: counted == (before + 1) % 12),
    "months with the record's own": months(lambda counted, before: counted == before + 1),
    "more months taken": months(lambda counted, before: counted >= before),
    "fewer months taken": months(lambda counted, before: counted <= before),
    "months in 8 bits": months(lambda counted, before: counted % 256 == before),
    "months in 31 bits": months(lambda counted, before: counted % 2**31 == before),
    "the remainder of the months": months(lambda counted, before: counted % 12 == before),
    "a month that is counted already taken": months(lambda counted, before: counted in (before, before + 1)),
    "a full slot taken at the start of a year": months(lambda counted, before: counted in (before, before or 12)),
}
LIMITS = {
    "sums not tested": tested(limited=anything),
    "sums over 2^63 refused": sums(2**63 - 1),
    "sums of 2^63 taken and no more": sums(2**63),
    "sums of 10^19 refused": sums(MOST - 1),
    "sums of 10^19 + 1 taken": sums(MOST + 1),
    "sums up to 10^18": sums(10**18),
    **{f"{field} not tested": without_sum(field) for field in SUMS},
    "the three sums together": tested(limited=lambda slot, *_: sum(slot[2:]) <= MOST),
    "each sum too large": tested(limited=lambda slot, *_: min(slot[2:]) <= MOST),
}
YEARS_TESTED = {
    "years not tested": years(anything),
    "years from 0 on": years(lambda year, k: year == k),
    "years in 8 bits": years(lambda year, k: year % 256 == k + 1),
    "years in 31 bits": years(lambda year, k: year % 2**31 == k + 1),
    "a year of 0 taken": years(lambda year, k: year in (0, k + 1)),
    "years up to the slot's": years(lambda year, k: year <= k + 1),
    "years from the slot's on": years(lambda year, k: year > k),
    "any year from 1 to 100": years(lambda year, k: 1 <= year <= YEARS),
}
ZEROS = {
    "any bytes with 0 months": no_months(anything),
    "the slot's year needed with 0 months": no_months(lambda slot, k: slot.year == k + 1),
    "the slot's year taken with 0 months": no_months(lambda slot, k: slot in (Slot(), Slot(k + 1))),
    "any year taken with 0 months": no_months(lambda slot, k: slot._replace(year=0) == Slot()),
    "any sums taken with 0 months": no_months(lambda slot, k: slot.year == 0),
    **{
        f"any {field} taken with 0 months": no_months(lambda slot, k, f=field: slot._replace(**{f: 0}) == Slot())
        for field in SUMS
    },
    "the lowest bytes alone tested with 0 months": no_months(lambda slot, k: not any(each % 256 for each in slot)),
    "the highest bits not tested with 0 months": no_months(lambda slot, k: not any(each % 2**31 for each in slot)),
}
OTHERS = {
    "slots below with twelve months": looked_at(lambda slot, each, k: each >= k or slot.months == 12),
    "slots below with their years": looked_at(lambda slot, each, k: each >= k or slot.year in (0, each + 1)),
    "the slot below with months": looked_at(lambda slot, each, k: each != k - 1 or slot.months > 0),
    "the slot below not in use": looked_at(lambda slot, each, k: each != k - 1 or slot.months in (0, 12)),
    "slots above all zero": looked_at(lambda slot, each, k: each <= k or slot == Slot()),
    "the slot above all zero": looked_at(lambda slot, each, k: each != k + 1 or slot == Slot()),
    "no sum too large anywhere": looked_at(lambda slot, each, k: limited(slot)),
    "no more than 12 months anywhere": looked_at(lambda slot, each, k: slot.months <= 12),
}

READINGS = MONTHS | LIMITS | YEARS_TESTED | ZEROS | OTHERS

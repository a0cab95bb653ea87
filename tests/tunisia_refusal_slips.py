"""Wrong readings of request i of document 02 about which stretches are refused, and what is answered then."""
from reference import BYTES, RECORDS
from tunisia import MOST_GRAMS, Answer, reduction, refusal_of_stretch, years_of


# What is a stretch


def of_stretch(wrong):
    """Another refusal of a stretch; years that are not there add nothing."""

    def answer(file, first, last, electricity, fuel):
        figures, stopped = years_of(file)
        refusal = wrong(len(figures), first, last, electricity, fuel)
        if refusal:
            return Answer(refusal, 0, 0, 0, 0, len(figures), stopped)
        re, re_bound, pj, pj_bound = (sum(column) for column in zip((0,) * 4, *figures[max(first - 1, 0) : last]))
        less = re - pj - sum(electricity) - sum(fuel)
        return Answer(0, re, pj, less, re_bound + pj_bound, len(figures), stopped)

    return {"reduction": answer}


def is_within(accepted, first, last):
    return 1 <= first <= last <= accepted


def are_counted(need, e, f):
    return e == f == need


def are_limited(electricity, fuel):
    return all(grams <= MOST_GRAMS for grams in electricity + fuel)


def if_not(within=is_within, counted=are_counted, limited=are_limited, order=(0, 1, 2)):
    """The tests of a stretch, some of them others: its years, its numbers of entries, its grams."""

    def wrong(accepted, first, last, e, f):
        tests = (
            (24, lambda: within(accepted, first, last)),
            (24, lambda: counted(last - first + 1, len(e), len(f))),
            (25, lambda: limited(e, f)),
        )
        return next((number for number, passes in (tests[at] for at in order) if not passes()), 0)

    return of_stretch(wrong)


def in_bits(bits):
    """Years taken modulo a power of two."""

    def wrong(accepted, first, last, e, f):
        return refusal_of_stretch(accepted, first % 2**bits, last % 2**bits, e, f)

    return of_stretch(wrong)


def last_in_bits(bits):
    return of_stretch(lambda accepted, first, last, e, f: refusal_of_stretch(accepted, first, last % 2**bits, e, f))


WITHIN = {
    "an empty stretch taken": if_not(lambda n, first, last: 1 <= first <= last + 1 and last <= n),
    "an empty stretch of no years taken": if_not(lambda n, a, b: is_within(n, a, b) or (n, a, b) == (0, 1, 0)),
    "last before first taken": if_not(lambda n, a, b: 1 <= a and b <= n, lambda need, e, f: e == f == max(need, 0)),
    "last and first exchanged": if_not(lambda n, a, b: 1 <= min(a, b) and max(a, b) <= n, lambda need, e, f: e == f),
    "one year past the accepted taken": if_not(lambda n, first, last: 1 <= first <= last <= n + 1),
    "years past the accepted taken": if_not(lambda n, first, last: 1 <= first <= min(last, n) and first <= last),
    "any later stretch taken": if_not(lambda n, first, last: 1 <= first <= last),
    "any of 1200 years taken": if_not(lambda n, first, last: 1 <= first <= last <= RECORDS),
    "last = years refused": if_not(lambda n, first, last: 1 <= first <= last < n),
    "first = last refused": if_not(lambda n, first, last: 1 <= first < last <= n),
    "first = 1 refused": if_not(lambda n, first, last: 1 < first <= last <= n),
    "first = 0 taken": if_not(lambda n, first, last: first <= last <= n),
    "years from 0 on": of_stretch(lambda n, first, last, e, f: refusal_of_stretch(n, first + 1, last + 1, e, f)),
    "all years alone": if_not(lambda n, first, last: (first, last) == (1, n) and n > 0),
    **{f"years in {bits} bits": in_bits(bits) for bits in (8, 16, 32, 63)},
    **{f"the last year in {bits} bits": last_in_bits(bits) for bits in (8, 16, 32, 63)},
    "wrapped": if_not(lambda n, first, last: last <= n, lambda need, e, f: e == f == need % 2**64),
}
COUNTED = {
    "numbers of entries not tested": if_not(counted=lambda need, e, f: True),
    "more entries taken": if_not(counted=lambda need, e, f: min(e, f) >= need),
    "fewer entries taken": if_not(counted=lambda need, e, f: max(e, f) <= need),
    "electricity alone tested": if_not(counted=lambda need, e, f: e == need),
    "fuel alone tested": if_not(counted=lambda need, e, f: f == need),
    "either tested": if_not(counted=lambda need, e, f: need in (e, f)),
    "more electricity taken": if_not(counted=lambda need, e, f: e >= need == f),
    "more fuel taken": if_not(counted=lambda need, e, f: f >= need == e),
    "one electricity more taken": if_not(counted=lambda need, e, f: e in (need, need + 1) and f == need),
    "one electricity less taken": if_not(counted=lambda need, e, f: e in (need, need - 1) and f == need),
    "one fuel more taken": if_not(counted=lambda need, e, f: f in (need, need + 1) and e == need),
    "one fuel less taken": if_not(counted=lambda need, e, f: f in (need, need - 1) and e == need),
    "no electricity taken": if_not(counted=lambda need, e, f: e in (0, need) and f == need),
    "no fuel taken": if_not(counted=lambda need, e, f: f in (0, need) and e == need),
    "nothing entered taken": if_not(counted=lambda need, e, f: e == f and e in (0, need)),
    "as many of each": if_not(counted=lambda need, e, f: e == f),
    "both together": if_not(counted=lambda need, e, f: e + f == 2 * need),
    "one entry less": if_not(counted=lambda need, e, f: e == f == need - 1),
    "one entry more": if_not(counted=lambda need, e, f: e == f == need + 1),
    "one for each accepted year": of_stretch(
        lambda n, first, last, e, f: refusal_of_stretch(n, first, last, *[e[: last - first + 1]] * 2)
        if len(e) == len(f) == n
        else 24
    ),
}


# Grams, and what a refused stretch answers


def within_limit(limited):
    return if_not(limited=limited)


def beside(change):
    """Another answer of a refused stretch, from the right one and what is asked."""

    def wrong(*asked):
        answer = reduction(*asked)
        return change(answer, *asked) if answer.refusal else answer

    return {"reduction": wrong}


def all_answers(change):
    """Another answer of every stretch."""
    return {"reduction": lambda *asked: change(reduction(*asked), *asked)}


def with_figures(answer, file, first, last, electricity, fuel):
    """The figures of the years that there are."""
    grams = (0,) * (min(last, answer.years) - first + 1) if 1 <= first <= min(last, answer.years) else ()
    figures = reduction(file, first, min(last, answer.years), grams, grams)
    return figures._replace(refusal=answer.refusal)


LIMITED = {
    "25 before 24": if_not(order=(2, 0, 1)),
    "25 before the numbers of entries": if_not(order=(0, 2, 1)),
    "grams not tested": within_limit(lambda e, f: True),
    "electricity alone limited": within_limit(lambda e, f: max(e) <= MOST_GRAMS),
    "fuel alone limited": within_limit(lambda e, f: max(f) <= MOST_GRAMS),
    "first entries alone limited": within_limit(lambda e, f: max(e[0], f[0]) <= MOST_GRAMS),
    "last entries alone limited": within_limit(lambda e, f: max(e[-1], f[-1]) <= MOST_GRAMS),
    "all but first entries limited": within_limit(lambda e, f: max((*e[1:], *f[1:]), default=0) <= MOST_GRAMS),
    "all but last entries limited": within_limit(lambda e, f: max((*e[:-1], *f[:-1]), default=0) <= MOST_GRAMS),
    "first and last entries limited": within_limit(lambda e, f: max(e[0], e[-1], f[0], f[-1]) <= MOST_GRAMS),
    "25 from the limit on": within_limit(lambda e, f: max(e + f) < MOST_GRAMS),
    "25 from two above": within_limit(lambda e, f: max(e + f) <= MOST_GRAMS + 1),
    "the sum limited": within_limit(lambda e, f: sum(e + f) <= MOST_GRAMS),
    "each kind's sum limited": within_limit(lambda e, f: max(sum(e), sum(f)) <= MOST_GRAMS),
    "each year's sum limited": within_limit(lambda e, f: max(map(sum, zip(e, f))) <= MOST_GRAMS),
    "every entry has to be over": within_limit(lambda e, f: min(e + f) <= MOST_GRAMS),
    "grams in 63 bits": within_limit(lambda e, f: all(grams % 2**63 <= MOST_GRAMS for grams in e + f)),
    "grams in 32 bits": within_limit(lambda e, f: all(grams % 2**32 <= MOST_GRAMS for grams in e + f)),
    "2^50": within_limit(lambda e, f: max(e + f) <= 2**50),
    "24 for 25": beside(lambda answer, *asked: answer._replace(refusal=24)),
    "25 for 24": beside(lambda answer, *asked: answer._replace(refusal=25)),
}
ANSWERED = {
    "a refused record refuses the stretch": all_answers(
        lambda answer, *asked: Answer(answer.refusal or 24, 0, 0, 0, 0, *answer[5:]) if answer.stopped else answer
    ),
    "a refused record's number for 24": beside(lambda answer, *asked: answer._replace(refusal=answer.stopped or 24)),
    "no years with a refusal": beside(lambda answer, *asked: answer._replace(years=0)),
    "no record's refusal with a refusal": beside(lambda answer, *asked: answer._replace(stopped=0)),
    "no record's refusal with 24": beside(lambda a, *asked: a._replace(stopped=0) if a.refusal == 24 else a),
    "no record's refusal with 25": beside(lambda a, *asked: a._replace(stopped=0) if a.refusal == 25 else a),
    "no record's refusal without one of the stretch": all_answers(
        lambda answer, *asked: answer if answer.refusal else answer._replace(stopped=0)
    ),
    "figures with a refusal": beside(with_figures),
    "a bound of 7 with a refusal": beside(lambda answer, *asked: answer._replace(bound=7)),
    "one year more": all_answers(lambda answer, *asked: answer._replace(years=answer.years + 1)),
    "one year less": all_answers(lambda answer, *asked: answer._replace(years=max(answer.years - 1, 0))),
    "the years of the stretch": all_answers(lambda a, file, first, last, *grams: a._replace(years=last - first + 1)),
    "the last year of the stretch": all_answers(lambda a, *asked: a._replace(years=a.years if a.refusal else asked[2])),
    "all whole records": all_answers(lambda answer, file, *asked: answer._replace(years=len(file) // BYTES)),
    "the place of the refused record": all_answers(
        lambda answer, *asked: answer._replace(stopped=answer.years + 1 if answer.stopped else 0)
    ),
}

READINGS = WITHIN | COUNTED | LIMITED | ANSWERED

"""Wrong readings of request l of document 02 about runs."""
from reference import BYTES, MONTHS, RECORDS, Run, read_record, run, sound, work_of
from yearly_totals import EMPTY, Months, goes_with, run_months


def answered(change):
    """Another answer to a file, from the right one and what is asked."""
    return {"run_months": lambda *asked: change(run_months(*asked), *asked)}


def nothing_done(number, ledger, totals, output):
    return Months(Run(ledger, 0, number, 0, output), totals)


# No bytes


def without_bytes(number, test):
    """An empty file with this refusal, or with 0, where a test of ledger and totals holds."""

    def change(answer, ledger, totals, data, output):
        return answer if data or not test(ledger, totals) else nothing_done(number, ledger, totals, output)

    return answered(change)


def as_long(totals):
    return len(totals) == len(EMPTY)


EMPTY_FILES = {
    "an empty file with other totals taken": without_bytes(0, lambda ledger, totals: True),
    "an empty file without totals taken": without_bytes(0, lambda ledger, totals: not totals),
    "an empty file with longer totals taken": without_bytes(0, lambda ledger, totals: len(totals) > len(EMPTY)),
    "other totals for a fresh ledger taken": without_bytes(0, lambda ledger, totals: ledger.n == 0),
    "other totals for a ledger in use taken": without_bytes(0, lambda ledger, totals: ledger.n > 0),
    "other totals for an unsound ledger refused with 3": without_bytes(3, lambda ledger, totals: not sound(ledger)),
    "an empty file refused with 1": without_bytes(1, lambda ledger, totals: as_long(totals)),
    "an empty file with other totals refused with 1": without_bytes(1, lambda ledger, totals: not as_long(totals)),
    "3 for an empty file": without_bytes(3, lambda ledger, totals: as_long(totals) and not sound(ledger)),
    "4 for an empty file": without_bytes(4, lambda ledger, totals: as_long(totals) and ledger.n == RECORDS),
    "32 for an empty file": without_bytes(
        32, lambda ledger, totals: as_long(totals) and sound(ledger) and not goes_with(totals, ledger.n % RECORDS + 1)
    ),
}


# What a run answers


def in_run(**parts):
    """Parts of the answer changed, each from the answer and what is asked."""
    return answered(
        lambda answer, *asked: answer._replace(
            run=answer.run._replace(**{part: value(answer, *asked) for part, value in parts.items()})
        )
    )


def where_stopped(change):
    """Another answer where a record is refused."""
    return answered(lambda answer, *asked: change(answer, *asked) if answer.run.refusal else answer)


def refused_too(answer, ledger, totals, data, output):
    """The work with that of a record refused with 27 or 32."""
    last = data[BYTES * answer.run.accepted :][:BYTES]
    return answer.run.work + (work_of(answer.run.ledger, read_record(last)) if answer.run.refusal in (27, 32) else 0)


ANSWERED = {
    "totals of the start": answered(lambda answer, ledger, totals, *_: answer._replace(totals=totals)),
    "totals of the start after a refusal": where_stopped(
        lambda answer, ledger, totals, *_: answer._replace(totals=totals)
    ),
    "no totals after a refusal": where_stopped(lambda answer, *_: answer._replace(totals=EMPTY)),
    "nothing accepted after a refusal": where_stopped(
        lambda answer, ledger, totals, data, output: nothing_done(answer.run.refusal, ledger, totals, output)
    ),
    "a refused record accepted": in_run(accepted=lambda answer, *_: answer.run.accepted + (answer.run.refusal > 0)),
    "a record refused with 32 accepted": in_run(
        accepted=lambda answer, *_: answer.run.accepted + (answer.run.refusal == 32)
    ),
    "the work of a refused record too": in_run(work=refused_too),
    "no work": in_run(work=lambda *_: 0),
    "the accepted count as the work": in_run(work=lambda answer, *_: answer.run.accepted),
    "the ledger of the start": in_run(ledger=lambda answer, ledger, *_: ledger),
    "the output of the start": in_run(output=lambda answer, *asked: asked[-1]),
    "no refusal": in_run(refusal=lambda *_: 0),
}


# How records come to it


def over(part):
    """The answer for another file."""
    return {"run_months": lambda ledger, totals, data, output: run_months(ledger, totals, part(data), output)}


def past(number, plainly):
    """The records after one that is refused with this number, which is passed over, or taken without totals."""

    def change(answer, ledger, totals, data, output):
        if answer.run.refusal != number or not data:
            return answer
        place = BYTES * answer.run.accepted
        offered, rest, room = data[place : place + BYTES], data[place + BYTES :], answer.run.output[place:]
        plain = run(answer.run.ledger, offered if plainly else b"", room)
        later, after = run_months(plain.ledger, answer.totals, rest, plain.output[BYTES * plain.accepted :])
        return Months(later._replace(accepted=answer.run.accepted + plain.accepted + later.accepted), after)

    return answered(change)


def plain_first(answer, ledger, totals, data, output):
    """A plain run where the totals have another length."""
    return Months(run(ledger, data, output)._replace(refusal=28), totals) if answer.run.refusal == 28 else answer


RECORDS_TAKEN = {
    "yearly records passed over": past(27, False),
    "yearly records taken without totals": past(27, True),
    "months refused with 32 passed over": past(32, False),
    "months refused with 32 taken without totals": past(32, True),
    "a plain run with other totals": answered(plain_first),
    "bytes left over ignored": over(lambda data: data[: len(data) // BYTES * BYTES]),
    "one record alone": over(lambda data: data[:BYTES]),
    "one year alone": over(lambda data: data[: MONTHS * BYTES]),
    "up to 1199 records": over(lambda data: data[: BYTES * (RECORDS - 1)]),
}

READINGS = EMPTY_FILES | ANSWERED | RECORDS_TAKEN

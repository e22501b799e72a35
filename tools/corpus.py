#!/usr/bin/env python3
"""corpus.py VECTORS: write the corpus of the program cases, crates/cases/data/, and its expected output, crates/cases/stdout.

VECTORS has one JSON object a line: "act", its input and the expected answer. Vectors of an act that has no coder below are left out. So
is one that does not fit the format, and what is more than the files of an act hold, and both are said. Every readable input among them is
also written as a text, and that text read again; what each judge leaves in the buffer is weighed, and the deficiency of its input asked
for; and the steps between the models of each chain, and before and behind them, are compared with their trails.

Format. A file holds vectors of one act, one after the other, and nothing else; it has at most 65,536 bytes, so an act has
files NAMEa, NAMEb, .., at most 26; start has one, start, and the edge cases of an act have one, NAME_edges, and for judge, weigh and
walk under assumptions a second one, NAME_assumed. Numbers are little-endian. A vector is

    2 bytes   its number: the line of VECTORS, from 1, or from 60,000 for a vector of this script
    2 bytes   the length of its input
    2 bytes   the length of its assumptions, which judge, weigh, walk, chain, wait, listing, list, page and formulas may have
    2 bytes   the length of the bytes that it expects, which read_text, write_text, list, page and printed have, and wait as budgets
    ..        its input
    ..        its assumptions, two bytes each: the variable, then 1 for true or 0 for false
    ..        the bytes that it expects
    6 bytes   the expected answer; start, wait and printed have none
    ..        its own fields, by act

An answer:

    1 byte    what it says: 0 no, 1 yes (check), 2 refused, 3 accepted (judge), 4 model, 5 spent, 6 ended (walk),
              7 not compared, 8 models (formulas), 10 written (read_text, write_text), 11 filled (page), 12 counted (weigh,
              deficiency)
    1 byte    the refusal's number, else 0
    2 bytes   the refusal's place, the number of models (formulas), that of the bytes written (read_text, write_text) or that of the
              filled lines (page), else 0
    1 byte    n, the number of variables, if accepted, that of the variables counted, if counted, else 0
    1 byte    m, the number of clauses, if accepted, that of the marked ones (weigh) or of those left over (deficiency), if counted,
              else 0

Own fields of check, 8 bytes: the assignment.

Own fields of judge, 98 bytes. The lent buffer is the first bytes of an array of 256 bytes:

    1 byte    the length of the buffer
    1 byte    the fill: what every byte of the array is before the call
    96 bytes  the first 96 bytes of the array after the call; each later byte must be the fill

Own fields of weigh, 98 bytes. The lent buffer is the first bytes of an array of 256 bytes:

    1 byte    the length of the buffer
    1 byte    the fill: what every byte of the array from byte 96 on is
    96 bytes  the first 96 bytes of the array

Each vector of judge is one of weigh too, on the buffer that judge leaves. At refusal 10 with the place k the marks weigh k clauses and
k - 1 variables; any other refusal is that of judge; and of an accepted formula the clauses are counted whose byte is not 0, and the
variables that they name, those that are assumed not.

Deficiency, in VECTORS shortfall, has no own fields. Each vector of judge is one of deficiency too: refused by the same number and place if
that is one of reading's, else with the clauses that a largest matching of the input, found here, leaves over; none if another refusal hides
that it is unreadable.

Own fields of read_text and write_text, 3 bytes. They expect the bytes that are to be written:

    2 bytes   the length of the lent buffer
    1 byte    the fill: what every byte of the buffer is before the call; each byte behind those written must be the fill after it

A checkpoint, 50 bytes: its mode, its length and 48 bytes of its trail.

Formulas have no own fields: each input of VECTORS under each list of assumptions once, with the number of the first vector that has
both. The answer says 7, not compared, if the input is refused under the list (also as unmatched) or has more than 12 variables, else 8,
with the number of models that agree with the list, and have no variable true that is neither named nor assumed, as place.

Printed has no own fields. It expects the text. Its input is at most 16,384 bytes, since the program list_models reads no more.

Own field of start, 50 bytes: the expected checkpoint. Its input is empty.

Own fields of walk, 121 bytes:

    8 bytes   the expected model, else 0
    4 bytes   the expected number of steps
    4 bytes   the expected number of expansions
    50 bytes  the checkpoint that the call must return
    1 byte    which checkpoint the call gets: 0 the one that follows, 1 the start checkpoint, 2 the one that the call of the
              vector before it returned, which stands in the same file
    50 bytes  the checkpoint that the call gets if that byte is 0, else zeros
    4 bytes   the budget

A chain of VECTORS is a list of calls on one input under one list of assumptions, which may be empty: here a vector of walk for each
call, with the number of the chain; the first gets the start checkpoint and each other what the call before it returned. Where a chain
goes on in a further file, the first call there gets the checkpoint that the call before it must return.

A chain is a vector of wait too. The bytes that it expects are the budgets of its calls, 4 bytes each. Its own field, 4 bytes: how many
waits are over, one for each model and one for the end. The calls are made again, and the steps are summed over the calls between two
models: to the first model they must be as many as its trail has literals, from one to the next twice those that its trail has behind the
longest beginning that the two share, and from the last one to the end as many as its trail has.

A listing of VECTORS is a whole walk. Here it is a vector of listing for each of its calls, on an ample budget, and one of list.

Own fields of listing, 17 bytes:

    8 bytes   the expected model, else 0
    4 bytes   the expected number of steps
    4 bytes   the expected number of expansions
    1 byte    which checkpoint the call gets: 1 the start checkpoint, 2 the one that the call of the vector before it returned

Own fields of list, 119 bytes. It expects the models, 8 bytes each. The answer is the last call's. The lent slice is the first places of
an array of 256:

    117 bytes as of walk, without the budget; the steps and the expansions are 0
    1 byte    the room of the slice
    1 byte    the fill: what every place of the array is before the call; each place behind the models must be the fill after it

Own fields of page, 108 bytes. It expects the filled lines, each with its line feed:

    50 bytes  the checkpoint that must come back
    51 bytes  which checkpoint the call gets, and that checkpoint, as of walk
    4 bytes   the first serial
    2 bytes   the length of the lent page
    1 byte    the fill: what every byte of the page is before the call. After one that is not refused, lines of 59 blanks and a line feed
              stand behind the filled ones, up to byte 3,000; each other byte must be the fill

A further act is a coder in ACTS, and in the program a case of `Act`, its file names and a reader of its own fields.
"""
import itertools
import json
import pathlib
import string
import sys

import walk_picture

LIMIT = 65536  # bytes of a file: what the program reads at once
LINES = 59999  # of VECTORS: the greater numbers are for the edge cases
LETTERS = string.ascii_lowercase  # the ends of the names of an act's files
CASES = pathlib.Path(__file__).resolve().parent.parent / 'crates' / 'cases'

NO, YES, REFUSED, ACCEPTED, MODEL, SPENT, ENDED, NOT_COMPARED, LISTED = range(9)
CONVERTED, FILLED, COUNTED = 10, 11, 12
SAYS = {'no': NO, 'yes': YES, 'refused': REFUSED, 'set-up': MODEL, 'spent': SPENT, 'ended': ENDED}
READ = 16384  # bytes of standard input that the printing program reads
WRITTEN = 96  # bytes of the array that judge may write, and weigh reads
UNREADABLE_NUMBERS = range(2, 10)  # of the refusals of reading
UNMATCHED_NUMBER = 10  # of the refusal at which judge leaves marks
PAGE_LINES, LINE_SIZE = 50, 60  # of a page
START, LAST = 1, 2  # the checkpoint that a walk call gets, if it is not given


class DoesNotFit(Exception):
    """A vector that the format has no room for."""


def little(x, size):
    if x >> 8 * size:
        raise DoesNotFit(f'{x:,} takes more than {size} bytes')
    return x.to_bytes(size, 'little')


def coded(number, given, answer, fields, expected=b''):
    """A vector; what is given is the input, or a pair of it and the bytes of the assumptions."""
    given, assumed = given if isinstance(given, tuple) else (given, b'')
    parts = given, assumed, expected
    vector = little(number, 2) + b''.join(little(len(part), 2) for part in parts) + b''.join(parts) + answer + fields
    if LIMIT < len(vector):
        raise DoesNotFit(f'it has {len(vector):,} bytes, more than a file')
    return vector


def answer_of(says, refusal=0, place=0, n=0, m=0):
    return little(says, 1) + little(refusal, 1) + little(place, 2) + little(n, 1) + little(m, 1)


def buffer_fields(length, fill, written):
    """The fields of judge and weigh; `written` is the first bytes of the buffer, for judge those after the call, up to the last that may
    not be the fill."""
    assert len(written) <= min(length, WRITTEN)
    return little(length, 1) + little(fill, 1) + written + bytes([fill]) * (WRITTEN - len(written))


def checkpoint_fields(returned, origin):
    """The checkpoint that must come back, and the one that the call gets: `origin` is START, LAST or the bytes of a checkpoint."""
    flag, given = (0, origin) if isinstance(origin, bytes) else (origin, bytes(50))
    assert len(returned) == len(given) == 50
    return returned + little(flag, 1) + given


def walk_fields(model, steps, expansions, returned, origin, budget):
    """The fields of walk."""
    return little(model, 8) + little(steps, 4) + little(expansions, 4) + checkpoint_fields(returned, origin) + little(budget, 4)


def list_fields(model, returned, origin, room, fill):
    """The fields of list."""
    return walk_fields(model, 0, 0, returned, origin, 0)[:-4] + little(room, 1) + little(fill, 1)


def paged(number, given, refusal, lines, returned, origin, serial, length, fill):
    """The vector of a page, either refused or with these lines."""
    assert all(len(line) == LINE_SIZE for line in lines) and not (refusal and lines)
    answer = answer_of(REFUSED, *refusal) if refusal else answer_of(FILLED, place=len(lines))
    fields = checkpoint_fields(returned, origin) + little(serial, 4) + little(length, 2) + little(fill, 1)
    return coded(number, given, answer, fields, ''.join(lines).encode('ascii'))


def assumed_input(v):
    """The input, with the bytes of its assumptions; the older vectors have none."""
    return bytes.fromhex(v['sheet']), bytes(b for pair in v.get('fixings', []) for b in pair)


# The coder of an act gives groups of vectors, each of which stands in one file.
def check_vector(number, v):
    answer = answer_of(SAYS[v['answer']], *(v['refusal'] or ()))
    return [[coded(number, bytes.fromhex(v['sheet']), answer, little(int(v['setup'], 16), 8))]]


def judge_vector(number, v):
    length, fill, after = v['slate_len'], v['slate_fill'], bytes.fromhex(v['slate'])
    assert len(after) == length and all(b == fill for b in after[WRITTEN:])
    says, refusal = (REFUSED, v['refusal']) if v['refusal'] else (ACCEPTED, (0, 0))
    answer = answer_of(says, *refusal, v['n'], v['m'])
    return [[coded(number, assumed_input(v), answer, buffer_fields(length, fill, after[:WRITTEN]))]]


def weigh_vector(number, v):
    """From a vector of judge: the buffer that it leaves is weighed."""
    (given, assumed), after = assumed_input(v), bytes.fromhex(v['slate'])
    refusal, place = v['refusal'] or (0, 0)
    if refusal == UNMATCHED_NUMBER:
        answer = answer_of(COUNTED, n=place - 1, m=place)
    elif refusal:
        answer = answer_of(REFUSED, refusal, place)
    else:
        clauses, variables = weighed(given, assumed, after)
        answer = answer_of(COUNTED, n=variables, m=clauses)
    return [[coded(number, (given, assumed), answer, buffer_fields(v['slate_len'], v['slate_fill'], after[:WRITTEN]))]]


def measured(number, given, refusal, left_over):
    """The vector of a deficiency, so many clauses left over; none if it is refused."""
    says, refusal = (REFUSED, refusal) if refusal else (COUNTED, (0, 0))
    return coded(number, given, answer_of(says, *refusal, m=left_over), b'')


def deficiency_vector(number, v):
    return [[measured(number, bytes.fromhex(v['sheet']), v['refusal'], v['shortfall'])]]


def deficiency_judged(number, v):
    """From a vector of judge: the refusals of reading are the same, and of a readable input the clauses left over are counted."""
    given = bytes.fromhex(v['sheet'])
    if v['refusal'] and v['refusal'][0] in UNREADABLE_NUMBERS:
        return [[measured(number, given, v['refusal'], 0)]]
    formula = read(given)
    return [[measured(number, given, None, deficiency(formula[1]))]] if formula else []


def converted(number, given, length, fill, refusal, output):
    """The vector of a conversion: of what is given, with a lent buffer, either refused or into the bytes of `output`."""
    answer = answer_of(REFUSED, *refusal) if refusal else answer_of(CONVERTED, place=len(output))
    return coded(number, given, answer, little(length, 2) + little(fill, 1), output)


def convert_vector(number, given, v):
    output = bytes.fromhex(v['output'])
    assert len(output) == v['written'] and not (v['refusal'] and output)
    return [[converted(number, given, v['buffer_len'], v['buffer_fill'], v['refusal'], output)]]


def read_vector(number, v):
    return convert_vector(number, bytes.fromhex(v['text']), v)


def write_vector(number, v):
    return convert_vector(number, bytes.fromhex(v['sheet']), v)


def start_vector(number, v):
    return [[coded(number, b'', b'', bytes.fromhex(v['marker']))]]


def walk_vector(number, v):
    answer = answer_of(SAYS[v['answer']], *(v['refusal'] or ()))
    fields = walk_fields(int(v['setup'], 16), v['moves'], v['reaches'], bytes.fromhex(v['marker_out']),
                         bytes.fromhex(v['marker']), v['budget'])
    return [[coded(number, assumed_input(v), answer, fields)]]


def chain_vector(number, v):
    given, first, groups = assumed_input(v), START, [[]]
    for budget, answer, model, returned, steps, expansions in v['calls']:
        def call(origin):
            fields = walk_fields(int(model, 16), steps, expansions, bytes.fromhex(returned), origin, budget)
            return coded(number, given, answer_of(SAYS[answer]), fields)
        if LIMIT < sum(map(len, groups[-1])) + len(call(first)):
            groups.append([])
        groups[-1].append(call(LAST if groups[-1] else first))
        first = bytes.fromhex(returned)
    return groups


def waiting(number, given, budgets, over):
    """The vector of the waits of a chain, whose calls have these budgets and close this many."""
    return coded(number, given, b'', little(over, 4), b''.join(little(budget, 4) for budget in budgets))


def wait_vector(number, v):
    """From a chain: its waits."""
    budgets, answers = [budget for budget, *_ in v['calls']], [answer for _, answer, *_ in v['calls']]
    return [[waiting(number, assumed_input(v), budgets, answers.count('set-up') + ('ended' in answers))]]


def listing_vector(number, v):
    """A vector for each call. No checkpoint is known, so all stand in one file."""
    calls = [(MODEL, int(model, 16), *counts) for model, *counts in v['setups']] + [(ENDED, 0, *v['end'])]
    origins = [START] + [LAST] * (len(calls) - 1)
    group = [coded(number, assumed_input(v), answer_of(says), little(model, 8) + little(steps, 4) + little(expansions, 4) + little(origin, 1))
             for (says, model, steps, expansions), origin in zip(calls, origins)]
    if LIMIT < sum(map(len, group)):
        raise DoesNotFit('its calls are more than a file holds')
    return [group]


def list_vector(number, v):
    """The whole listing at once, in a slice that has a place too many."""
    models = b''.join(little(int(model, 16), 8) for model, *_ in v['setups'])
    fields = list_fields(0, bytes([4]) + bytes(49), START, len(v['setups']) + 1, 0xa5)
    return [[coded(number, assumed_input(v), answer_of(ENDED), fields, models)]]


def page_vector(number, v):
    assert len(v['page']) == v['lines']
    lines, returned, origin = [line + '\n' for line in v['page']], bytes.fromhex(v['marker_out']), bytes.fromhex(v['marker'])
    return [[paged(number, assumed_input(v), v['refusal'], lines, returned, origin, v['serial'], v['page_len'], v['page_fill'])]]


def printed_text(number, given, text):
    """The vector of a print, from as many of the bytes as the program reads."""
    given = given[:READ]
    return coded(number, given, b'', b'', text.encode('ascii'))


def printed_vector(number, v):
    return [[printed_text(number, bytes.fromhex(v['stdin']), v['stdout'])]]


ACTS = {'check': check_vector, 'judge': judge_vector, 'weigh': weigh_vector, 'deficiency': deficiency_vector, 'read_text': read_vector,
        'write_text': write_vector, 'start': start_vector, 'walk': walk_vector, 'chain': chain_vector, 'wait': wait_vector,
        'listing': listing_vector, 'list': list_vector, 'page': page_vector, 'printed': printed_vector}
NAMES = {'shortfall': 'deficiency'}  # of acts of VECTORS that have another name here
UNITS = {'chain': 'calls', 'wait': 'chains', 'listing': 'calls'}  # what is counted, if not vectors


def read(given):
    """The number of variables and the clauses, each a list of (variable, value); None if the input is refused. A literal that
    comes again in its clause counts once."""
    if len(given) < 2 or given[0] != 1 or not 1 <= given[1] <= 48:
        return None
    n, clauses, clause, at = given[1], [], {}, 2
    while at < len(given):
        kind = given[at]
        if kind in (2, 3):
            if at + 1 == len(given) or not 1 <= given[at + 1] <= n:
                return None
            if clause.setdefault(given[at + 1], kind == 2) != (kind == 2):
                return None
            at += 2
        elif kind == 4:
            clauses.append(list(clause.items()))
            clause = {}
            at += 1
            if len(clauses) > 96:
                return None
        else:
            return (n, clauses) if kind == 5 and not clause and at + 1 == len(given) else None
    return None


def deficiency(clauses):
    """How many clauses get no variable of their own where as many as can be get one."""
    owner = {}

    def place(c, seen):
        for v, _ in clauses[c]:
            if v not in seen:
                seen.add(v)
                if v not in owner or place(owner[v], seen):
                    owner[v] = c
                    return True
        return False

    return sum(not place(c, set()) for c in range(len(clauses)))


def left(clauses):
    """What stripping leaves: while variables are named with one sign only, the clauses that name them are dropped."""
    while True:
        literals = {literal for c in clauses for literal in c}
        pure = {v for v, x in literals if (v, not x) not in literals}
        if not pure:
            return clauses
        clauses = [c for c in clauses if all(v not in pure for v, _ in c)]


def values_of(n, assumed):
    """The assumed values by variable, from the bytes; None if an assumption is bad."""
    values = {}
    for v, x in zip(assumed[::2], assumed[1::2]):
        if not 1 <= v <= n or v in values:
            return None
        values[v] = x != 0
    return values


def weighed(given, assumed, buffer):
    """How many clauses of a readable input the buffer marks, and how many variables, the assumed ones not counted, these name."""
    n, clauses = read(given)
    marked = [c for c, mark in zip(clauses, buffer) if mark]
    return len(marked), len({v for c in marked for v, _ in c} - values_of(n, assumed).keys())


def remaining(clauses, values):
    """What is left of the clauses under the values: those that no value satisfies, without the literals that are false."""
    return [[(v, x) for v, x in c if v not in values] for c in clauses if all(values.get(v) != x for v, x in c)]


def models(n, clauses, values):
    """How many assignments have the values, satisfy each clause, and have no variable true that is neither named nor assumed, by trial of
    all."""
    named = {v for c in clauses for v, _ in c}
    values = {v: False for v in range(1, n + 1) if v not in named} | values
    pairs = [(sum(1 << (v - 1) for v, x in c if x), sum(1 << (v - 1) for v, x in c if not x)) for c in clauses]
    pairs += [(1 << (v - 1), 0) if x else (0, 1 << (v - 1)) for v, x in values.items()]
    return sum(all(a & yes or ~a & no for yes, no in pairs) for a in range(1 << n))


def formula_answer(given, assumed):
    formula = read(given)
    if formula is None or 12 < formula[0]:
        return answer_of(NOT_COMPARED)
    values = values_of(formula[0], assumed)
    if values is None or deficiency(left(remaining(formula[1], values))):
        return answer_of(NOT_COMPARED)
    return answer_of(LISTED, place=models(*formula, values))


def formula_vector(number, given):
    return [[coded(number, given, formula_answer(*given), b'')]]


# Edge cases. The expected answers are written here by hand, from docs/SPECIFICATION.md; whole pages are those of walk_picture.py.
EXAMPLE = '01 02 02 01 02 02 04 03 01 03 02 04 05'
EMPTY = ' 04'          # an empty clause
TRUE = ' 02 01 04'     # the clause of variable 1 as true
ALL = ''.join(' 02 %02x' % v for v in range(1, 49))  # literals of all of 48 variables
WIDE = ALL + ' 04'  # the clause that names all of 48 variables
FULLEST = '01 30' + 96 * WIDE + ' 05'  # 9,315 bytes, the most without repeats
MOST_TRUE = '01 01' + 96 * TRUE + ' 05'  # 96 clauses over one variable
AGAIN = '01 02 02 01 02 02 02 01 04 03 01 03 01 03 02 03 02 03 01 04 05'  # the example with literals that come again
# formulas whose clauses name all of their variables
EITHER = '01 02 02 01 02 02 04 05'  # the clause (1, 2)
ANY_OF_THREE = '01 03 02 01 02 02 02 03 04 05'  # the clause (1, 2, 3)
ANY_OF_ALL = '01 30' + WIDE + ' 05'
# formulas whose clauses do not
TWO_UNNAMED = '01 02 05'
ALL_UNNAMED = '01 30 05'
ONE_OF_TWO = '01 02 02 01 04 05'  # the clause (1), and variable 2
TWO_OF_THREE = '01 03 02 01 02 02 04 05'  # the clause (1, 2), and variable 3
TWO_OF_FOUR = '01 04 02 01 03 03 04 05'  # the clause (1, not 3), and variables 2 and 4
LAST_NAMED = '01 30 02 30 04 05'  # the clause (48), and 47 variables

# check: input, assignment, what the answer says, and the refusal's number and place
CHECK_EDGES = [
    # the specification's example: clauses (1, 2) and (not 1, not 2)
    (EXAMPLE, 0b00, NO, 0, 0),
    (EXAMPLE, 0b01, YES, 0, 0),
    (EXAMPLE, 0b10, YES, 0, 0),
    (EXAMPLE, 0b11, NO, 0, 0),
    # cut before each of its bytes; the first has no bytes
    ('', 0, REFUSED, 2, 0),
    ('01', 0, REFUSED, 2, 1),
    ('01 02', 0, REFUSED, 2, 2),
    ('01 02 02', 0, REFUSED, 2, 3),
    ('01 02 02 01', 0, REFUSED, 2, 4),
    ('01 02 02 01 02', 0, REFUSED, 2, 5),
    ('01 02 02 01 02 02', 0, REFUSED, 2, 6),
    ('01 02 02 01 02 02 04', 0, REFUSED, 2, 7),
    ('01 02 02 01 02 02 04 03', 0, REFUSED, 2, 8),
    ('01 02 02 01 02 02 04 03 01', 0, REFUSED, 2, 9),
    ('01 02 02 01 02 02 04 03 01 03', 0, REFUSED, 2, 10),
    ('01 02 02 01 02 02 04 03 01 03 02', 0, REFUSED, 2, 11),
    ('01 02 02 01 02 02 04 03 01 03 02 04', 0, REFUSED, 2, 12),
    # the number of variables
    ('01 01 05', 0, YES, 0, 0),
    ('01 30 05', 0, YES, 0, 0),
    ('01 00 05', 0, REFUSED, 5, 0),
    ('01 31 05', 0, REFUSED, 5, 0),
    ('01 ff 05', 0, REFUSED, 5, 0),
    # unknown kinds, first and later
    ('00', 0, REFUSED, 3, 0),
    ('06', 0, REFUSED, 3, 0),
    ('ff', 0, REFUSED, 3, 0),
    ('01 01 00', 0, REFUSED, 3, 2),
    ('01 01 06', 0, REFUSED, 3, 2),
    ('01 01 ff', 0, REFUSED, 3, 2),
    ('01 01 02 01 06', 0, REFUSED, 3, 4),
    # misplaced kinds: not the first, first, and the end within a clause
    ('01 01 01', 0, REFUSED, 4, 2),
    ('01 01 01 01', 0, REFUSED, 4, 2),
    ('01 02 02 01 01', 0, REFUSED, 4, 4),
    ('02', 0, REFUSED, 4, 0),
    ('03', 0, REFUSED, 4, 0),
    ('04', 0, REFUSED, 4, 0),
    ('05', 0, REFUSED, 4, 0),
    ('01 01 02 01 05', 0, REFUSED, 4, 4),
    ('01 01 02 01 04 03 01 05', 0, REFUSED, 4, 7),
    # variables that are not there
    ('01 01 02 00', 0, REFUSED, 6, 2),
    ('01 01 03 00', 0, REFUSED, 6, 2),
    ('01 01 02 02', 0, REFUSED, 6, 2),
    ('01 01 03 02', 0, REFUSED, 6, 2),
    ('01 30 02 31', 0, REFUSED, 6, 2),
    ('01 30 02 ff', 0, REFUSED, 6, 2),
    (LAST_NAMED, 1 << 47, YES, 0, 0),
    (LAST_NAMED, (1 << 47) - 1, NO, 0, 0),
    # literals that come again in their clause count once, however often they come
    ('01 02 02 01 02 01 04 05', 0b00, NO, 0, 0),
    ('01 02 02 01 02 01 04 05', 0b01, YES, 0, 0),
    ('01 02 03 01 03 01 04 05', 0b10, YES, 0, 0),
    ('01 02 03 01 03 01 04 05', 0b01, NO, 0, 0),
    ('01 02 02 01 03 02 02 01 04 05', 0b10, NO, 0, 0),
    ('01 02 02 01 03 02 02 01 04 05', 0b11, YES, 0, 0),
    ('01 02' + 50 * ' 03 02' + ' 04 05', 0b01, YES, 0, 0),
    ('01 02' + 50 * ' 03 02' + ' 04 05', 0b10, NO, 0, 0),
    ('01 30' + 2 * ALL + ' 04 05', 0, NO, 0, 0),
    ('01 30' + 2 * ALL + ' 04 05', 1 << 47, YES, 0, 0),
    (AGAIN, 0b00, NO, 0, 0),
    (AGAIN, 0b01, YES, 0, 0),
    (AGAIN, 0b10, YES, 0, 0),
    (AGAIN, 0b11, NO, 0, 0),
    # among such: a number that no variable has, a misplaced record, an input that stops, and a stray variable
    ('01 02 02 01 02 01 02 00', 0, REFUSED, 6, 6),
    ('01 02 03 02 03 02 03 03', 0, REFUSED, 6, 6),
    ('01 02 02 03 02 03 04 05', 0, REFUSED, 6, 2),
    ('01 02 02 01 02 01 05', 0, REFUSED, 4, 6),
    ('01 02 02 01 02 01 01', 0, REFUSED, 4, 6),
    ('01 02 03 01 03', 0, REFUSED, 2, 5),
    ('01 02 03 01 03 01', 0, REFUSED, 2, 6),
    ('01 02 02 01 02 01 04 05', 1 << 2, REFUSED, 12, 0),
    # variables named both ways in one clause, at once and after repeats, and in two clauses
    ('01 02 02 01 03 01 04 05', 0, REFUSED, 7, 4),
    ('01 02 03 01 02 01 04 05', 0, REFUSED, 7, 4),
    ('01 02 02 01 02 02 03 01', 0, REFUSED, 7, 6),
    ('01 02 02 01 02 01 03 01 04 05', 0, REFUSED, 7, 6),
    ('01 02 03 02 02 01 03 02 02 02 02 02', 0, REFUSED, 7, 8),
    ('01 02' + 50 * ' 03 02' + ' 02 02 04 05', 0, REFUSED, 7, 102),
    ('01 30' + 2 * ALL + ' 03 30 04 05', 0, REFUSED, 7, 194),
    ('01 01 02 01 04 02 01 04 05', 1, YES, 0, 0),
    ('01 01 02 01 04 03 01 04 05', 0, NO, 0, 0),
    ('01 01 02 01 04 03 01 04 05', 1, NO, 0, 0),
    # an empty clause is read, and no assignment satisfies it
    ('01 01 04 05', 0, NO, 0, 0),
    ('01 01 04 05', 1, NO, 0, 0),
    # 96 clauses, 97, and what comes before the 97th end
    ('01 01' + 96 * EMPTY + ' 05', 0, NO, 0, 0),
    (MOST_TRUE, 0, NO, 0, 0),
    (MOST_TRUE, 1, YES, 0, 0),
    ('01 01' + 97 * EMPTY + ' 05', 0, REFUSED, 8, 98),
    ('01 01' + 97 * TRUE + ' 05', 1, REFUSED, 8, 292),
    ('01 01' + 96 * TRUE + EMPTY, 1, REFUSED, 8, 290),
    ('01 01' + 96 * EMPTY + ' 02 01 05', 0, REFUSED, 4, 100),
    ('01 01' + 96 * EMPTY + ' 02 01 03 01 04 05', 0, REFUSED, 7, 100),
    ('01 01' + 96 * EMPTY + ' 02 02 04 05', 0, REFUSED, 6, 98),
    ('01 01' + 96 * EMPTY + ' 02 01 02 01 04 05', 0, REFUSED, 8, 102),
    ('01 01' + 96 * EMPTY + ' 02 01 02 01 03 01 04 05', 0, REFUSED, 7, 102),
    ('01 01' + 96 * EMPTY + ' 02 01 02 01 02 02 04 05', 0, REFUSED, 6, 102),
    ('01 01' + 96 * EMPTY + ' 02 01 02 01 05', 0, REFUSED, 4, 102),
    ('01 01' + 96 * EMPTY + ' 02', 0, REFUSED, 2, 99),
    ('01 01' + 96 * EMPTY, 0, REFUSED, 2, 98),
    # the fullest input, and a byte after the end
    (FULLEST, 0, NO, 0, 0),
    (FULLEST, 1, YES, 0, 0),
    (FULLEST, 1 << 47, YES, 0, 0),
    (FULLEST, (1 << 48) - 1, YES, 0, 0),
    (FULLEST + ' 05', 1, REFUSED, 9, 9315),
    ('01 01 05 00', 0, REFUSED, 9, 3),
    ('01 01 05 05', 0, REFUSED, 9, 3),
    # variables that no clause names, which are true in no model of the walk
    (TWO_UNNAMED, 0b00, YES, 0, 0),
    (TWO_UNNAMED, 0b11, YES, 0, 0),
    (TWO_OF_FOUR, 0b1000, YES, 0, 0),
    (TWO_OF_FOUR, 0b1111, YES, 0, 0),
    (TWO_OF_FOUR, 0b1110, NO, 0, 0),
    (LAST_NAMED, (1 << 48) - 1, YES, 0, 0),
    # stray variables, after all of reading
    ('01 01 05', 1, YES, 0, 0),
    ('01 01 05', 1 << 1, REFUSED, 12, 0),
    ('01 01 05', 1 << 63, REFUSED, 12, 0),
    ('01 2f 05', 1 << 46, YES, 0, 0),
    ('01 2f 05', 1 << 47, REFUSED, 12, 0),
    ('01 30 05', 1 << 47, YES, 0, 0),
    ('01 30 05', 1 << 48, REFUSED, 12, 0),
    ('01 30 05', 1 << 63, REFUSED, 12, 0),
    ('01 30 05', (1 << 64) - 1, REFUSED, 12, 0),
    ('01 01 04 05', 1 << 63, REFUSED, 12, 0),
    ('01 01 05 00', 1 << 63, REFUSED, 9, 3),
    (FULLEST, 1 << 48, REFUSED, 12, 0),
]

# judge: input, length of the buffer, fill, what the answer says, the refusal's number and place, n, m, and the first bytes of
# the buffer after the call; all other bytes keep the fill
UNMATCHED = '01 01 02 01 04 03 01 04 05'  # S5.7: clauses (1) and (not 1)
UNREADABLE = '01 02 06'
REMATCHED = '01 02 02 01 02 02 04 02 01 04 05'  # clauses (1, 2) and (1): the first gives variable 1 to the second
MANY = '01 02' + 8191 * ' 02 01' + ' 04 05'  # the clause (1) in 16,386 bytes, more than the printing program reads
LINKS = '01 30' + ''.join(' 02 %02x 02 %02x 04' % (v, v + 1) for v in range(1, 48))  # clauses (1, 2), (2, 3) .. (47, 48)
SIGNED = '01 30' + ''.join(' 02 %02x 03 %02x 04' % (v, v + 1) for v in range(1, 48))  # clauses (1, not 2), (2, not 3) .. (47, not 48)
NARROW = ''.join(' 03 %02x' % v for v in range(1, 49)) + ' 04'  # the clause that names all of 48 variables as false
# S18: formulas that are not matched whole; all but MARKED strip down to what is matched
TWICE = '01 01 02 01 04 02 01 04 05'  # the clause (1) twice
PARTLY = '01 03 02 01 04 02 01 04 02 02 02 03 04 03 02 03 03 04 05'  # clauses (1), (1), (2, 3), (not 2, not 3): 1 drops two
MARKED = '01 03 02 02 04 02 02 04 02 01 04 03 01 04 05'  # clauses (2), (2), (1), (not 1): 2 drops two, and the others are marked
THREE_OF_FIVE = '01 03 02 01 02 02 04 03 02 02 03 04 02 02 03 03 04 03 02 03 03 04 02 03 04 05'  # with 1 false the first three are marked
LOWER = '01 02 02 01 04 02 01 04 02 01 02 02 04 03 02 04 05'  # clauses (1), (1), (1, 2), (not 2): 1 is noted first
HIGHER = '01 02 02 02 04 02 02 04 02 01 02 02 04 03 01 04 05'  # clauses (2), (2), (1, 2), (not 1): 2 is


def in_order(first, last):
    """The bytes from one to the other, upward or downward."""
    step = 1 if first <= last else -1
    return ' '.join('%02x' % v for v in range(first, last + step, step))


# each refusal of reading, and where it stands
UNREAD = [
    ('', 2, 0),
    ('01', 2, 1),
    ('01 02', 2, 2),
    ('01 01 00', 3, 2),
    ('01 01 02 01 05', 4, 4),
    ('01 31 05', 5, 0),
    ('01 01 02 02', 6, 2),
    ('01 02 02 01 03 01 04 05', 7, 4),
    ('01 02 02 01 02 01 03 01 04 05', 7, 6),
    ('01 01' + 97 * EMPTY + ' 05', 8, 98),
    ('01 01 05 00', 9, 3),
]

# lists of assumptions with a bad one, and its index
ALL_TRUE = ' '.join('%02x 01' % v for v in range(1, 49))
ALL_FALSE = ' '.join('%02x 00' % v for v in range(1, 49))
TWO_WIDE = '01 30' + 2 * WIDE + ' 05'
BAD = [
    ((EXAMPLE, '00 01'), 0),
    ((EXAMPLE, '00 00'), 0),
    ((EXAMPLE, '03 01'), 0),
    ((EXAMPLE, 'ff 00'), 0),
    ((ALL_UNNAMED, '31 01'), 0),
    ((EXAMPLE, '01 01 00 00'), 1),
    ((EXAMPLE, '01 01 03 01'), 1),
    ((EXAMPLE, '01 01 01 01'), 1),
    ((EXAMPLE, '01 01 01 00'), 1),
    ((EXAMPLE, '01 00 01 00'), 1),
    ((EXAMPLE, '01 00 01 01'), 1),
    ((EXAMPLE, '00 01 03 01'), 0),
    ((EXAMPLE, '02 00 03 01 00 01'), 1),
    ((EXAMPLE, '01 01 02 00 02 00'), 2),
    # of 49 one is always bad, at last the 49th
    ((ALL_UNNAMED, ALL_TRUE + ' 01 01'), 48),
    ((ALL_UNNAMED, ALL_FALSE + ' 30 01'), 48),
    ((ALL_UNNAMED, ALL_TRUE + ' 31 01'), 48),
    ((ALL_UNNAMED, '01 00 ' + ALL_TRUE), 1),
]

JUDGE_EDGES = [
    # each length of the buffer: a short one is refused before anything is read, and keeps its bytes
    (EXAMPLE, 0, 0xa5, REFUSED, 1, 0, 0, 0, ''),
    (EXAMPLE, 1, 0xa5, REFUSED, 1, 0, 0, 0, ''),
    (EXAMPLE, 95, 0xa5, REFUSED, 1, 0, 0, 0, ''),
    (EXAMPLE, 96, 0xa5, ACCEPTED, 0, 0, 2, 2, '01 02'),
    (EXAMPLE, 97, 0xa5, ACCEPTED, 0, 0, 2, 2, '01 02'),
    (EXAMPLE, 200, 0xa5, ACCEPTED, 0, 0, 2, 2, '01 02'),
    (EXAMPLE, 255, 0xa5, ACCEPTED, 0, 0, 2, 2, '01 02'),
    (UNMATCHED, 0, 0xa5, REFUSED, 1, 0, 0, 0, ''),
    (UNMATCHED, 1, 0xa5, REFUSED, 1, 0, 0, 0, ''),
    (UNMATCHED, 95, 0xa5, REFUSED, 1, 0, 0, 0, ''),
    (UNMATCHED, 96, 0xa5, REFUSED, 10, 2, 0, 0, '01 01'),
    (UNMATCHED, 97, 0xa5, REFUSED, 10, 2, 0, 0, '01 01'),
    (UNMATCHED, 200, 0xa5, REFUSED, 10, 2, 0, 0, '01 01'),
    (UNREADABLE, 0, 0xa5, REFUSED, 1, 0, 0, 0, ''),
    (UNREADABLE, 1, 0xa5, REFUSED, 1, 0, 0, 0, ''),
    (UNREADABLE, 95, 0xa5, REFUSED, 1, 0, 0, 0, ''),
    (UNREADABLE, 96, 0xa5, REFUSED, 3, 2, 0, 0, ''),
    (UNREADABLE, 97, 0xa5, REFUSED, 3, 2, 0, 0, ''),
    (UNREADABLE, 200, 0xa5, REFUSED, 3, 2, 0, 0, ''),
    ('', 0, 0, REFUSED, 1, 0, 0, 0, ''),
    ('', 96, 0, REFUSED, 2, 0, 0, 0, ''),
    # no clauses: nothing is written
    ('01 01 05', 96, 0xff, ACCEPTED, 0, 0, 1, 0, ''),
    ('01 30 05', 96, 0xff, ACCEPTED, 0, 0, 48, 0, ''),
    # empty clauses: the first is the violator, alone or after a matched clause
    ('01 01 04 05', 96, 0xff, REFUSED, 10, 1, 0, 0, '01'),
    ('01 01 02 01 04 04 05', 96, 0xff, REFUSED, 10, 1, 0, 0, '00 01'),
    ('01 01 04 02 01 04 05', 96, 0xff, REFUSED, 10, 1, 0, 0, '01 00'),
    # re-matching: a clause of two, and a path that ends at variable 48
    (REMATCHED, 96, 0, ACCEPTED, 0, 0, 2, 2, '02 01'),
    (LINKS + ' 05', 96, 0, ACCEPTED, 0, 0, 48, 47, in_order(1, 47)),
    (LINKS + ' 02 01 04 05', 96, 0, ACCEPTED, 0, 0, 48, 48, in_order(2, 48) + ' 01'),
    # a path that finds no free end: all is dropped, each clause by the lowest variable that it names; nothing is; all but the last two
    (LINKS + ' 02 01 04 02 01 04 05', 96, 0, ACCEPTED, 0, 0, 48, 49, in_order(0x81, 0xaf) + ' 81 81'),
    (LINKS + ' 02 01 04 02 30 04 05', 96, 0, ACCEPTED, 0, 0, 48, 49, in_order(0x81, 0xaf) + ' 81 b0'),
    (SIGNED + ' 03 01 04 02 30 04 05', 96, 0, REFUSED, 10, 49, 0, 0, 49 * '01 '),
    (SIGNED + ' 02 01 04 03 01 04 05', 96, 0, REFUSED, 10, 2, 0, 0, 47 * '00 ' + '01 01'),
    # the violator leaves out a clause that the failed search does not reach, and those after it
    ('01 02 02 01 04 02 02 04 03 02 04 05', 96, 0xff, REFUSED, 10, 2, 0, 0, '00 01 01'),
    ('01 02 02 01 04 03 01 04 04 02 02 04 05', 96, 0xff, REFUSED, 10, 2, 0, 0, '01 01 00 00'),
    # as many clauses as variables, one more, and 96, which no 48 variables match: every byte of a buffer of 96 is written. Those of one
    # sign are all dropped, of both signs none
    ('01 30' + 48 * WIDE + ' 05', 96, 0xff, ACCEPTED, 0, 0, 48, 48, in_order(1, 48)),
    ('01 30' + 48 * WIDE + NARROW + ' 05', 96, 0xff, REFUSED, 10, 49, 0, 0, 49 * '01 '),
    ('01 30' + 48 * (WIDE + NARROW) + ' 05', 96, 0xff, REFUSED, 10, 49, 0, 0, 49 * '01 ' + 47 * '00 '),
    (FULLEST, 200, 0xff, ACCEPTED, 0, 0, 48, 96, 96 * '81 '),
    ('01 01' + 96 * EMPTY + ' 05', 97, 0xff, REFUSED, 10, 1, 0, 0, '01' + 95 * ' 00'),
    (MOST_TRUE, 96, 0xff, ACCEPTED, 0, 0, 1, 96, 96 * '81 '),
    ('01 01' + 95 * TRUE + ' 03 01 04 05', 97, 0xff, REFUSED, 10, 2, 0, 0, '01 01' + 94 * ' 00'),
    # all clauses dropped, some, and all but a violator
    (TWICE, 96, 0xa5, ACCEPTED, 0, 0, 1, 2, '81 81'),
    (PARTLY, 96, 0xa5, ACCEPTED, 0, 0, 3, 4, '81 81 02 03'),
    (MARKED, 96, 0xa5, REFUSED, 10, 2, 0, 0, '00 00 01 01'),
    # a clause that names two noted variables: the one noted first drops it, be it the lower or the higher
    (LOWER, 96, 0xa5, ACCEPTED, 0, 0, 2, 4, '81 81 81 82'),
    (HIGHER, 96, 0xa5, ACCEPTED, 0, 0, 2, 4, '82 82 82 81'),
    # matched whole: no clause is dropped, although stripping would drop them all
    ('01 03 02 01 02 02 04 02 01 02 03 04 02 02 02 03 04 05', 96, 0xa5, ACCEPTED, 0, 0, 3, 3, '01 03 02'),
    # literals that come again: as without them
    (AGAIN, 96, 0xa5, ACCEPTED, 0, 0, 2, 2, '01 02'),
    ('01 02 02 01 02 02 02 01 04 02 01 02 01 04 05', 96, 0, ACCEPTED, 0, 0, 2, 2, '02 01'),
    ('01 01 02 01 02 01 04 03 01 03 01 04 05', 96, 0xa5, REFUSED, 10, 2, 0, 0, '01 01'),
    ('01 30' + 2 * ALL + ' 04 05', 96, 0xff, ACCEPTED, 0, 0, 48, 1, '01'),
    (MANY, 96, 0xff, ACCEPTED, 0, 0, 2, 1, '01'),
    # each refusal of reading, with the buffer as it was
    *((given, 96, 0x01, REFUSED, number, place, 0, 0, '') for given, number, place in UNREAD),
    (FULLEST + ' 05', 96, 0x01, REFUSED, 9, 9315, 0, 0, ''),
]

JUDGE_ASSUMED = [
    # the refusals of reading come before a bad assumption
    *(((given, '00 01'), 96, 0x01, REFUSED, number, place, 0, 0, '') for given, number, place in UNREAD),
    # bad assumptions: variable 0, above n, assumed before with the same value and with the other; the first one counts
    *((given, 96, 0xa5, REFUSED, 16, place, 0, 0, '') for given, place in BAD),
    # behind the buffer's length, and before an unmatched formula, also one that only the assumptions make so
    ((EXAMPLE, '00 01'), 95, 0xa5, REFUSED, 1, 0, 0, 0, ''),
    ((UNMATCHED, '02 01'), 96, 0xa5, REFUSED, 16, 0, 0, 0, ''),
    ((EXAMPLE, '01 01 02 01 01 01'), 96, 0xa5, REFUSED, 16, 2, 0, 0, ''),
    # one variable of the example assumed: the clause that it satisfies has 0, and the other one literal
    ((EXAMPLE, '01 01'), 96, 0xa5, ACCEPTED, 0, 0, 2, 2, '00 02'),
    ((EXAMPLE, '01 00'), 96, 0xa5, ACCEPTED, 0, 0, 2, 2, '02 00'),
    ((EXAMPLE, '02 01'), 96, 0xa5, ACCEPTED, 0, 0, 2, 2, '00 01'),
    ((EXAMPLE, '02 00'), 200, 0xa5, ACCEPTED, 0, 0, 2, 2, '01 00'),
    # both: nothing is left, or a clause is empty; in either order
    ((EXAMPLE, '01 01 02 00'), 96, 0xa5, ACCEPTED, 0, 0, 2, 2, '00 00'),
    ((EXAMPLE, '02 00 01 01'), 96, 0xa5, ACCEPTED, 0, 0, 2, 2, '00 00'),
    ((EXAMPLE, '01 01 02 01'), 96, 0xa5, REFUSED, 10, 1, 0, 0, '00 01'),
    ((EXAMPLE, '02 00 01 00'), 96, 0xa5, REFUSED, 10, 1, 0, 0, '01 00'),
    ((UNMATCHED, '01 01'), 96, 0xa5, REFUSED, 10, 1, 0, 0, '00 01'),
    ((UNMATCHED, '01 00'), 96, 0xa5, REFUSED, 10, 1, 0, 0, '01 00'),
    # not matched whole but for the assumption, and a re-matching in what remains
    (('01 02 02 01 04 02 01 04 02 02 04 05', '01 01'), 96, 0xff, ACCEPTED, 0, 0, 2, 3, '00 00 02'),
    ((MOST_TRUE, '01 01'), 96, 0xff, ACCEPTED, 0, 0, 1, 96, 96 * '00 '),
    (('01 03 02 01 02 02 02 03 04 02 01 04 05', '03 00'), 96, 0, ACCEPTED, 0, 0, 3, 2, '02 01'),
    # the path over 48 variables in what remains: its end satisfied; its end lost, and all is dropped; lost, and nothing is
    ((LINKS + ' 02 01 04 05', '30 01'), 96, 0xff, ACCEPTED, 0, 0, 48, 48, in_order(2, 47) + ' 00 01'),
    ((LINKS + ' 02 01 04 05', '30 00'), 96, 0xff, ACCEPTED, 0, 0, 48, 48, in_order(0x81, 0xaf) + ' 81'),
    ((SIGNED + ' 03 01 04 05', '30 01'), 96, 0xff, REFUSED, 10, 48, 0, 0, 48 * '01 '),
    # some clauses satisfied, some dropped, some left: what remains is stripped
    ((TWICE, '01 01'), 96, 0xff, ACCEPTED, 0, 0, 1, 2, '00 00'),
    ((TWICE, '01 00'), 96, 0xff, REFUSED, 10, 1, 0, 0, '01 00'),
    ((PARTLY, '01 01'), 96, 0xff, ACCEPTED, 0, 0, 3, 4, '00 00 02 03'),
    ((PARTLY, '01 00'), 96, 0xff, REFUSED, 10, 1, 0, 0, '01 00 00 00'),
    ((PARTLY, '02 01'), 96, 0xff, ACCEPTED, 0, 0, 3, 4, '81 81 00 83'),
    ((PARTLY, '03 01 02 00'), 96, 0xff, ACCEPTED, 0, 0, 3, 4, '81 81 00 00'),
    ((MARKED, '03 01'), 96, 0xff, REFUSED, 10, 2, 0, 0, '00 00 01 01'),
    ((MARKED, '02 01'), 96, 0xff, REFUSED, 10, 2, 0, 0, '00 00 01 01'),
    ((MARKED, '01 01'), 96, 0xff, REFUSED, 10, 1, 0, 0, '00 00 00 01'),
    # the only literal of the only clause is false; and of five clauses the first three are marked, the first of which names 1 beside 2
    ((ONE_OF_TWO, '01 00'), 96, 0xff, REFUSED, 10, 1, 0, 0, '01'),
    ((THREE_OF_FIVE, '01 00'), 96, 0xff, REFUSED, 10, 3, 0, 0, '01 01 01 00 00'),
    # the violator leaves out a clause that is satisfied, between those that it has
    (('01 03 02 01 04 02 02 04 03 01 04 05', '02 01'), 96, 0xff, REFUSED, 10, 2, 0, 0, '01 00 01'),
    # all of 48 variables assumed
    ((ALL_UNNAMED, ALL_TRUE), 96, 0xff, ACCEPTED, 0, 0, 48, 0, ''),
    ((TWO_WIDE, ALL_TRUE), 96, 0xff, ACCEPTED, 0, 0, 48, 2, '00 00'),
    ((TWO_WIDE, ALL_FALSE), 96, 0xff, REFUSED, 10, 1, 0, 0, '01 00'),
    ((TWO_WIDE, ALL_FALSE[:-2] + '01'), 96, 0xff, ACCEPTED, 0, 0, 48, 2, '00 00'),
    # all but one, and 96 empty clauses
    ((TWO_WIDE, ALL_FALSE[:-6]), 96, 0xff, ACCEPTED, 0, 0, 48, 2, 'b0 b0'),
    (('01 30' + WIDE + ' 03 30 04 05', ALL_FALSE[:-6]), 96, 0xff, REFUSED, 10, 2, 0, 0, '01 01'),
    (('01 02' + 96 * ' 02 01 02 02 04' + ' 05', '01 00 02 00'), 96, 0xff, REFUSED, 10, 1, 0, 0, '01' + 95 * ' 00'),
]


# weigh: input, length of the buffer, fill, what the answer says, the refusal's number and place, the variables and the clauses that are
# counted, and the first bytes of the buffer; all other bytes are the fill
SINGLES = '01 30' + ''.join(' 03 %02x 04' % v for v in range(1, 49)) + ' 05'  # clauses (not 1) .. (not 48)
MARKS = ['01', '02', '07', '30', '7f', '80', '81', 'b0', 'fe', 'ff']  # bytes that are not 0
LENGTHS = [96, 97, 200, 255]  # of buffers that are not short
SHORT = [0, 1, 95]  # of buffers that are


def judged(cases):
    """Cases of weigh from those of judge: what it leaves at 10 with the place k weighs k clauses and k - 1 variables."""
    return [(given, length, fill, COUNTED, 0, 0, place - 1, place, written)
            for given, length, fill, _, number, place, _, _, written in cases if number == UNMATCHED_NUMBER]


WEIGH_EDGES = [
    # each length of the buffer: a short one is refused before anything is read
    *((EXAMPLE, length, 0x01, REFUSED, 1, 0, 0, 0, '') for length in SHORT),
    *((UNREADABLE, length, 0x01, REFUSED, 1, 0, 0, 0, '') for length in SHORT),
    *((EXAMPLE, length, 0x01, COUNTED, 0, 0, 2, 2, '01 01') for length in LENGTHS),
    *((EXAMPLE, length, 0x01, COUNTED, 0, 0, 0, 0, '00 00') for length in LENGTHS),
    # the marks that judge leaves: the clauses name one variable fewer than they are; what stands behind them is not counted
    *judged(JUDGE_EDGES),
    # what it leaves where it accepts: each byte is a mark, also one of 128 plus the variable
    (REMATCHED, 96, 0, COUNTED, 0, 0, 2, 2, '02 01'),
    (TWICE, 96, 0, COUNTED, 0, 0, 1, 2, '81 81'),
    (PARTLY, 96, 0, COUNTED, 0, 0, 3, 4, '81 81 02 03'),
    # marks that it never leaves: any byte but 0, alone and in turn, and none at all
    *((ONE_OF_TWO, 96, 0, COUNTED, 0, 0, 1, 1, mark) for mark in MARKS),
    (ONE_OF_TWO, 96, 0xff, COUNTED, 0, 0, 0, 0, '00'),
    (MARKED, 96, 0, COUNTED, 0, 0, 2, 3, '07 00 80 ff'),
    (MARKED, 96, 0, COUNTED, 0, 0, 1, 2, '01 01 00 00'),
    (MARKED, 96, 0, COUNTED, 0, 0, 2, 4, '01 01 01 01'),
    (MARKED, 96, 0xff, COUNTED, 0, 0, 0, 0, '00 00 00 00'),
    (EXAMPLE, 96, 0, COUNTED, 0, 0, 2, 1, '01 00'),
    (EXAMPLE, 96, 0, COUNTED, 0, 0, 2, 1, '00 01'),
    (THREE_OF_FIVE, 96, 0, COUNTED, 0, 0, 3, 3, '01 01 01 00 00'),
    (THREE_OF_FIVE, 96, 0, COUNTED, 0, 0, 2, 2, '00 01 00 01 00'),
    (THREE_OF_FIVE, 96, 0, COUNTED, 0, 0, 3, 5, '01 01 01 01 01'),
    # no clauses: no byte is a mark
    ('01 01 05', 96, 0xff, COUNTED, 0, 0, 0, 0, ''),
    ('01 30 05', 255, 0xff, COUNTED, 0, 0, 0, 0, ''),
    # 96 clauses: all of them, the last, and none, with bytes behind byte 96 that are not 0
    (MOST_TRUE, 96, 0, COUNTED, 0, 0, 1, 96, 96 * '01 '),
    (MOST_TRUE, 255, 0x01, COUNTED, 0, 0, 1, 96, 96 * 'ff '),
    (MOST_TRUE, 97, 0xff, COUNTED, 0, 0, 1, 1, 95 * '00 ' + '01'),
    (MOST_TRUE, 97, 0xff, COUNTED, 0, 0, 0, 0, 96 * '00 '),
    ('01 01' + 96 * EMPTY + ' 05', 96, 0, COUNTED, 0, 0, 0, 96, 96 * '01 '),
    (FULLEST, 96, 0, COUNTED, 0, 0, 48, 96, 96 * 'ff '),
    # 48 variables: all of them, and the first and the last alone; as true and as false they count once
    (SINGLES, 96, 0, COUNTED, 0, 0, 48, 48, 48 * '01 '),
    (SINGLES, 96, 0, COUNTED, 0, 0, 1, 1, '01'),
    (SINGLES, 96, 0, COUNTED, 0, 0, 1, 1, 47 * '00 ' + '01'),
    (SINGLES, 96, 0, COUNTED, 0, 0, 24, 24, 24 * '00 01 '),
    (LINKS + ' 05', 96, 0, COUNTED, 0, 0, 48, 47, 47 * '01 '),
    (LINKS + ' 05', 96, 0, COUNTED, 0, 0, 4, 2, '01' + 45 * ' 00' + ' 01'),
    ('01 30' + WIDE + NARROW + ' 05', 96, 0, COUNTED, 0, 0, 48, 2, '01 01'),
    # literals that come again: as without them
    (AGAIN, 96, 0, COUNTED, 0, 0, 2, 2, '01 01'),
    (MANY, 96, 0, COUNTED, 0, 0, 1, 1, '01'),
    # each refusal of reading
    *((given, 96, 0x01, REFUSED, number, place, 0, 0, '') for given, number, place in UNREAD),
    (FULLEST + ' 05', 96, 0x01, REFUSED, 9, 9315, 0, 0, ''),
]

WEIGH_ASSUMED = [
    # the buffer's length comes first, and the refusals of reading before a bad assumption; the same for two, which are lent
    *(((given, assumed), 95, 0x01, REFUSED, 1, 0, 0, 0, '') for given in (EXAMPLE, UNREADABLE) for assumed in ('00 01', '01 01 02 01')),
    *(((given, '00 01'), 96, 0x01, REFUSED, number, place, 0, 0, '') for given, number, place in UNREAD),
    *(((given, '01 01 01 01'), 96, 0x01, REFUSED, number, place, 0, 0, '') for given, number, place in UNREAD),
    # bad assumptions: variable 0, above n, assumed before with the same value and with the other; the first one counts
    *((given, 96, 0xff, REFUSED, 16, place, 0, 0, '') for given, place in BAD),
    # the marks that judge leaves: the clauses name, the assumed variables not counted, one variable fewer than they are
    *judged(JUDGE_ASSUMED),
    # the value does not matter, and neither whether it satisfies a marked clause
    *(((ONE_OF_TWO, assumed), 96, 0, COUNTED, 0, 0, count, 1, '01') for assumed, count in (('01 01', 0), ('02 00', 1), ('02 01', 1))),
    *(((EXAMPLE, assumed), 96, 0, COUNTED, 0, 0, 1, 2, '01 01') for assumed in ('01 00', '01 01', '02 00', '02 01')),
    ((EXAMPLE, '01 01'), 96, 0, COUNTED, 0, 0, 1, 1, '01 00'),
    ((EXAMPLE, '01 01'), 96, 0xff, COUNTED, 0, 0, 0, 0, '00 00'),
    # one mark fewer, all marked, and what judge leaves where it accepts
    ((THREE_OF_FIVE, '01 00'), 96, 0, COUNTED, 0, 0, 2, 2, '00 01 01 00 00'),
    ((THREE_OF_FIVE, '01 00'), 96, 0, COUNTED, 0, 0, 2, 5, '01 01 01 01 01'),
    ((THREE_OF_FIVE, '03 01'), 96, 0, COUNTED, 0, 0, 2, 5, '07 80 81 fe ff'),
    ((PARTLY, '02 01'), 96, 0, COUNTED, 0, 0, 2, 3, '81 81 00 83'),
    # two, which are lent as a list: at each length of the buffer, in either order, with marks of judge and with others
    *(((EXAMPLE, '01 01 02 01'), length, 0xff, COUNTED, 0, 0, 0, 1, '00 01') for length in LENGTHS),
    *(((THREE_OF_FIVE, assumed), 96, 0xff, COUNTED, 0, 0, 1, 5, '01 02 03 04 05') for assumed in ('01 00 03 01', '03 01 01 00')),
    ((THREE_OF_FIVE, '01 00 02 00'), 96, 0xff, COUNTED, 0, 0, 0, 1, '01 00 00 00 00'),
    ((PARTLY, '03 01 02 00'), 96, 0, COUNTED, 0, 0, 1, 4, '01 01 01 01'),
    ((MARKED, '02 00 03 01'), 96, 0xff, COUNTED, 0, 0, 0, 1, '01 00 00 00'),
    ((LINKS + ' 05', '01 01 30 00'), 96, 0, COUNTED, 0, 0, 46, 47, 47 * '01 '),
    ((MOST_TRUE, '01 01 01 00'), 96, 0, REFUSED, 16, 1, 0, 0, ''),
    # three
    ((THREE_OF_FIVE, '03 01 01 00 02 01'), 96, 0, COUNTED, 0, 0, 0, 5, '01 01 01 01 01'),
    # all of 48 variables assumed, all but one, and one
    ((SINGLES, ALL_TRUE), 96, 0, COUNTED, 0, 0, 0, 48, 48 * '01 '),
    ((TWO_WIDE, ALL_FALSE[:-6]), 96, 0xff, COUNTED, 0, 0, 1, 2, '01 01'),
    ((SINGLES, ALL_TRUE[6:]), 96, 0, COUNTED, 0, 0, 1, 48, 48 * 'ff '),
    ((SINGLES, '30 01'), 96, 0, COUNTED, 0, 0, 47, 48, 48 * '01 '),
    ((ALL_UNNAMED, ALL_TRUE), 96, 0xff, COUNTED, 0, 0, 0, 0, ''),
    ((FULLEST, ALL_TRUE), 255, 0xff, COUNTED, 0, 0, 0, 96, ''),
    ((FULLEST, '01 00 30 00'), 96, 0, COUNTED, 0, 0, 46, 96, 96 * '01 '),
]


# deficiency: input, and the deficiency or the refusal's number and place
DEFICIENCY_EDGES = [
    # no clauses, and matched whole, some of them over a path that ends at variable 48
    *((given, 0) for given in ('01 01 05', '01 30 05', EXAMPLE, AGAIN, REMATCHED, ONE_OF_TWO, SINGLES, '01 30' + 48 * WIDE + ' 05',
                               LINKS + ' 05', LINKS + ' 02 01 04 05', SIGNED + ' 03 01 04 05')),
    # one clause is left over: where stripping would drop some, and where judge marks some
    *((given, 1) for given in (UNMATCHED, TWICE, PARTLY, LINKS + ' 02 01 04 02 01 04 05', LINKS + ' 02 01 04 02 30 04 05',
                               SIGNED + ' 03 01 04 02 30 04 05', SIGNED + ' 02 01 04 03 01 04 05', '01 30' + 48 * WIDE + NARROW + ' 05')),
    *((given, 2) for given in (MARKED, THREE_OF_FIVE, LOWER, HIGHER)),
    # empty clauses: before matched ones, between them and behind them
    *((given, 1) for given in ('01 01 04 05', '01 01 04 02 01 04 05', '01 01 02 01 04 04 05', '01 02 02 01 04 04 03 02 04 05')),
    ('01 02 04 02 01 04 04 03 02 04 04 05', 3),
    # what comes behind a clause that is left over is matched: a free variable, and a path, a short one and one that ends at variable 48
    ('01 02 02 01 04 02 01 04 02 02 04 05', 1),
    ('01 02 02 01 04 02 01 04 02 01 02 02 04 05', 1),
    ('01 03 02 01 04 02 01 04 02 02 02 03 04 02 02 04 05', 1),
    ('01 30' + EMPTY + LINKS[5:] + ' 02 01 04 05', 1),
    ('01 30 02 30 04 02 30 04' + SINGLES[5:], 2),
    ('01 30' + 48 * EMPTY + SINGLES[5:], 48),
    # a set of clauses over one variable fewer, beside variables that nothing names
    ('01 30 02 01 02 02 04 03 01 03 02 04 02 01 03 02 04 05', 1),
    ('01 30 02 2f 02 30 04 03 2f 03 30 04 02 2f 03 30 04 05', 1),
    # a clause again and again: each beyond the variables that it names is left over
    *(('01 01' + k * TRUE + ' 05', k - 1) for k in (1, 3, 48, 49, 95)),
    *(('01 02' + k * ' 03 01 02 02 04' + ' 05', k - 2) for k in (2, 3, 4, 96)),
    *(('01 01' + k * EMPTY + ' 05', k) for k in (2, 95)),
    # 96 clauses: empty, all the same, those of one variable each twice, with one sign and with both, and those that name all variables
    ('01 01' + 96 * EMPTY + ' 05', 96),
    (MOST_TRUE, 95),
    (SINGLES[:-3] + SINGLES[5:], 48),
    ('01 30' + ''.join(' 02 %02x 04 03 %02x 04' % (v, v) for v in range(1, 49)) + ' 05', 48),
    (FULLEST, 48),
    ('01 30' + 48 * (WIDE + NARROW) + ' 05', 48),
    # literals that come again: as without them
    ('01 02 02 01 02 01 04 02 01 02 01 04 05', 1),
    ('01 01 02 01 02 01 04 03 01 03 01 04 05', 1),
    ('01 30' + 2 * ALL + ' 04 05', 0),
    # each refusal of reading, also behind clauses that are left over
    *((given, (number, place)) for given, number, place in UNREAD),
    (UNREADABLE, (3, 2)),
    ('01 01 04 04 06', (3, 4)),
    ('01 01' + 96 * EMPTY, (2, 98)),
    ('01 01' + 96 * EMPTY + ' 02 01 05', (4, 100)),
    ('01 01' + 96 * EMPTY + ' 02 02 04 05', (6, 98)),
    ('01 01' + 96 * EMPTY + ' 02 01 03 01 04 05', (7, 100)),
    ('01 01' + 97 * TRUE + ' 05', (8, 292)),
    ('01 01' + 96 * EMPTY + ' 05 05', (9, 99)),
    (FULLEST + ' 05', (9, 9315)),
]


# walk: input, the checkpoint that the call gets, budget, what the answer says, the refusal's number and place, the model, the
# checkpoint returned, steps, expansions
def checkpoint(mode, length, trail='', past=''):
    """The trail's bytes, zeros, and the last bytes, all of 48."""
    first, last = bytes.fromhex(trail), bytes.fromhex(past)
    return bytes([mode, length]) + first + bytes(48 - len(first) - len(last)) + last


def refused(given, number, place, formulas_budgets):
    """Refusals of one checkpoint: it comes back, with zeros."""
    for formula, budget in formulas_budgets:
        yield formula, given, budget, REFUSED, number, place, 0, given, 0, 0


def foreign(given, *formulas):
    return refused(given, 11, 0, [(f, 5) for f in formulas])


CLOSED_TRUE = '01 01 03 01 04 05'  # the clause (not 1): variable 1 has no model as true
PURE_LAST = '01 02 02 01 02 02 04 02 01 03 02 04 05'  # S6.4: clauses (1, 2) and (1, not 2); 2 is assigned before 1
# S6.3: formulas of which stripping leaves clauses. Their variables are tried by how many of these name them, most first
SECOND = '01 03 03 01 03 02 04 02 02 03 03 04 02 01 03 02 02 03 04 05'  # clauses (not 1, not 2), (2, not 3), (1, not 2, 3): all name 2
# (not 1, not 2, 3), (1, not 2, not 3), (2): all name 2, which can't be false
FAILING = '01 03 03 01 03 02 02 03 04 02 01 03 02 03 03 04 02 02 04 05'
TIED = '01 03 02 01 02 02 03 03 04 03 01 03 02 02 03 04 02 02 02 03 04 05'  # (1, 2, not 3), (not 1, not 2, 3), (2, 3): all name 2 and 3
# those of SECOND, (3, 4), (not 3, 4): most name 3, but 4 drops the last two
DROPPING = '01 04' + SECOND[5:-3] + ' 02 03 02 04 04 03 03 02 04 04 05'
# (1, 2, 3), (1, not 2, 3), (not 1, not 2, not 3, 4), (not 3, not 4): most name 3, as many have 1 as true, as many 2 as false
BOTH_SIGNS = '01 04 02 01 02 02 02 03 04 02 01 03 02 02 03 04 03 01 03 02 03 03 02 04 04 03 03 03 04 04 05'
# (2, 3, 4) twice, (not 2, not 3, 1), (not 1, not 4): three name each of 2, 3 and 4, since equal ones count each; and the same with 5 in
# the first
EQUAL = '01 04 02 02 02 03 02 04 04 02 02 02 03 02 04 04 03 02 03 03 02 01 04 03 01 03 04 04 05'
BECOME_EQUAL = '01 05 02 02 02 03 02 04 02 05 04 02 02 02 03 02 04 04 03 02 03 03 02 01 04 03 01 03 04 04 05'
# (1), (not 1, 4, 3), (not 1, not 4, not 2), (not 4, not 3, 2): three name 1, which can't be false, and three name 4; of the clauses that 1
# as false would leave, as many name 2 as name 4
COUNTED_ONCE = '01 04 02 01 04 03 01 02 04 02 03 04 03 01 03 04 03 02 04 03 04 03 03 02 02 04 05'
# (not 1, 2, not 4), (not 2, 3), (3, 4), (1, 2, not 3, not 4): three name each of 2, 3 and 4; where 2 is false, three name 4 and two name 3
COUNTED_ANEW = '01 04 03 01 02 02 03 04 04 03 02 02 03 04 02 03 02 04 04 02 01 02 02 03 03 03 04 04 05'
WIDE_FIRST = in_order(48, 2) + ' 81'  # the trail of the first model where all clauses are that of 48 variables
WIDE_48 = 'b0 ' + in_order(1, 47)  # and, with one clause, of the first in which 48 is true
MOST = (1 << 32) - 1
FIRST = checkpoint(0, 0)
OVER = checkpoint(4, 0)
STRANGE = checkpoint(200, 77, 'ff 00 80 07', '2a')

WALK_EDGES = [
    # no such mode, no such length
    *foreign(STRANGE, EXAMPLE, CLOSED_TRUE, ANY_OF_ALL, ALL_UNNAMED),
    *foreign(checkpoint(5, 0), EXAMPLE),
    *foreign(checkpoint(255, 0), EXAMPLE),
    *foreign(checkpoint(1, 49, WIDE_FIRST), ANY_OF_ALL),
    *foreign(checkpoint(1, 255, WIDE_FIRST), ANY_OF_ALL),
    # start and end with a length or with a byte past it
    *foreign(checkpoint(0, 1, '01'), EXAMPLE),
    *foreign(checkpoint(0, 1), EXAMPLE),
    *foreign(checkpoint(0, 0, '01'), EXAMPLE),
    *foreign(checkpoint(0, 0, '', '01'), EXAMPLE),
    *foreign(checkpoint(4, 1, '01'), EXAMPLE),
    *foreign(checkpoint(4, 2, '81 02'), EXAMPLE),
    *foreign(checkpoint(4, 0, '01'), EXAMPLE),
    *foreign(checkpoint(4, 0, '', '80'), EXAMPLE),
    # nothing assigned, where something is to be: never just assigned, and never with true just undone
    *foreign(checkpoint(1, 0), EXAMPLE, CLOSED_TRUE, EITHER, ONE_OF_TWO, TWO_OF_FOUR, LAST_NAMED),
    *foreign(checkpoint(3, 0), EXAMPLE, CLOSED_TRUE, EITHER, ONE_OF_TWO),
    # false undone at the root: had only where true is open too
    *foreign(checkpoint(2, 0), CLOSED_TRUE),
    (EXAMPLE, checkpoint(2, 0), 0, SPENT, 0, 0, 0, checkpoint(2, 0), 0, 0),
    (EXAMPLE, checkpoint(2, 0), 1, SPENT, 0, 0, 0, checkpoint(1, 1, '81'), 1, 0),
    (EXAMPLE, checkpoint(2, 0), 2, MODEL, 0, 0, 0b01, checkpoint(1, 2, '81 02'), 2, 0),
    # a byte past the length; a byte that names no variable
    *foreign(checkpoint(1, 1, '01 82'), EXAMPLE),
    *foreign(checkpoint(1, 1, '01', '01'), EXAMPLE),
    *foreign(checkpoint(2, 0, '01'), EXAMPLE),
    *foreign(checkpoint(1, 1, '80'), EXAMPLE),
    *foreign(checkpoint(1, 1, '00'), EXAMPLE),
    *foreign(checkpoint(1, 1, '03'), EXAMPLE),
    *foreign(checkpoint(1, 1, 'ff'), EXAMPLE),
    *foreign(checkpoint(1, 2, '01 80'), EXAMPLE),
    # a trail of other choices
    *foreign(checkpoint(1, 1, '02'), EXAMPLE),
    *foreign(checkpoint(1, 1, '82'), EXAMPLE),
    *foreign(checkpoint(1, 1, '01'), PURE_LAST, EITHER),
    *foreign(checkpoint(1, 1, '81'), EITHER),
    *foreign(checkpoint(1, 2, '82 01'), EXAMPLE),
    *foreign(checkpoint(1, 2, '01 01'), EXAMPLE),
    *foreign(checkpoint(1, 2, '01 81'), EXAMPLE),
    *foreign(checkpoint(1, 2, '82 82'), EITHER),
    *foreign(checkpoint(1, 2, '82 02'), EITHER),
    # closed values
    *foreign(checkpoint(1, 2, '01 02'), EXAMPLE),
    *foreign(checkpoint(1, 2, '81 82'), EXAMPLE),
    *foreign(checkpoint(1, 2, '02 01'), PURE_LAST, EITHER),
    *foreign(checkpoint(1, 1, '81'), CLOSED_TRUE),
    *foreign(checkpoint(2, 1, '01'), EXAMPLE),
    *foreign(checkpoint(3, 1, '81'), EXAMPLE),
    # false undone where true is closed, and true undone where false is
    (EXAMPLE, checkpoint(2, 1, '81'), 0, SPENT, 0, 0, 0, checkpoint(2, 1, '81'), 0, 0),
    (EXAMPLE, checkpoint(2, 1, '81'), 1, ENDED, 0, 0, 0, OVER, 1, 0),
    (EXAMPLE, checkpoint(3, 1, '01'), 0, SPENT, 0, 0, 0, checkpoint(3, 1, '01'), 0, 0),
    (EXAMPLE, checkpoint(3, 1, '01'), 1, SPENT, 0, 0, 0, checkpoint(2, 0), 1, 0),
    (EXAMPLE, checkpoint(3, 1, '01'), 3, MODEL, 0, 0, 0b01, checkpoint(1, 2, '81 02'), 3, 0),
    # nothing is undone at a full trail, and none is longer
    *foreign(checkpoint(2, 2, '01 82'), EXAMPLE),
    *foreign(checkpoint(3, 2, '01 82'), EXAMPLE),
    *foreign(checkpoint(2, 1, '01'), CLOSED_TRUE),
    *foreign(checkpoint(1, 3, '01 82 01'), EXAMPLE),
    *foreign(checkpoint(2, 48, WIDE_48), ANY_OF_ALL),
    *foreign(checkpoint(3, 48, WIDE_48), ANY_OF_ALL),
    # a full trail: the model was handed out
    (EXAMPLE, checkpoint(1, 2, '01 82'), 0, SPENT, 0, 0, 0, checkpoint(1, 2, '01 82'), 0, 0),
    (EXAMPLE, checkpoint(1, 2, '01 82'), 1, SPENT, 0, 0, 0, checkpoint(3, 1, '01'), 1, 0),
    (EXAMPLE, checkpoint(1, 2, '01 82'), 2, SPENT, 0, 0, 0, checkpoint(2, 0), 2, 0),
    (EXAMPLE, checkpoint(1, 2, '01 82'), 3, SPENT, 0, 0, 0, checkpoint(1, 1, '81'), 3, 0),
    (EXAMPLE, checkpoint(1, 2, '01 82'), 4, MODEL, 0, 0, 0b01, checkpoint(1, 2, '81 02'), 4, 0),
    (EXAMPLE, checkpoint(1, 2, '81 02'), 1, SPENT, 0, 0, 0, checkpoint(2, 1, '81'), 1, 0),
    (EXAMPLE, checkpoint(1, 2, '81 02'), 2, ENDED, 0, 0, 0, OVER, 2, 0),
    (CLOSED_TRUE, checkpoint(1, 1, '01'), 0, SPENT, 0, 0, 0, checkpoint(1, 1, '01'), 0, 0),
    (CLOSED_TRUE, checkpoint(1, 1, '01'), 1, ENDED, 0, 0, 0, OVER, 1, 0),
    # refusals of the input come before those of the checkpoint, and before an end
    *refused(STRANGE, 10, 2, [(UNMATCHED, 0), (UNMATCHED, MOST)]),
    *refused(OVER, 10, 2, [(UNMATCHED, 0), (UNMATCHED, MOST)]),
    *refused(FIRST, 10, 1, [('01 01 04 05', MOST)]),
    *refused(STRANGE, 3, 2, [(UNREADABLE, MOST)]),
    *refused(OVER, 3, 2, [(UNREADABLE, 0), (UNREADABLE, MOST)]),
    *refused(OVER, 2, 0, [('', 0)]),
    *refused(OVER, 9, 3, [('01 01 05 00', 0)]),
    *refused(STRANGE, 7, 6, [('01 02 02 01 02 01 03 01 04 05', MOST)]),
    # budgets, from the start and from the end
    (EXAMPLE, START, 0, SPENT, 0, 0, 0, FIRST, 0, 0),
    (EXAMPLE, FIRST, 0, SPENT, 0, 0, 0, FIRST, 0, 0),
    (EXAMPLE, FIRST, 1, SPENT, 0, 0, 0, checkpoint(1, 1, '01'), 1, 2),
    (EXAMPLE, FIRST, 2, MODEL, 0, 0, 0b10, checkpoint(1, 2, '01 82'), 2, 2),
    (EXAMPLE, FIRST, MOST, MODEL, 0, 0, 0b10, checkpoint(1, 2, '01 82'), 2, 2),
    (EXAMPLE, checkpoint(1, 1, '01'), 1, MODEL, 0, 0, 0b10, checkpoint(1, 2, '01 82'), 1, 0),
    (EXAMPLE, OVER, 0, ENDED, 0, 0, 0, OVER, 0, 0),
    (EXAMPLE, OVER, MOST, ENDED, 0, 0, 0, OVER, 0, 0),
    (CLOSED_TRUE, FIRST, MOST, MODEL, 0, 0, 0, checkpoint(1, 1, '01'), 1, 0),
    # 48 variables
    (ANY_OF_ALL, FIRST, 47, SPENT, 0, 0, 0, checkpoint(1, 47, in_order(48, 2)), 47, 0),
    (ANY_OF_ALL, FIRST, 48, MODEL, 0, 0, 0b01, checkpoint(1, 48, WIDE_FIRST), 48, 0),
    (ANY_OF_ALL, LAST, 1, SPENT, 0, 0, 0, checkpoint(3, 47, in_order(48, 2)), 1, 0),
    (ANY_OF_ALL, LAST, MOST, MODEL, 0, 0, 0b10, checkpoint(1, 48, in_order(48, 3) + ' 82 01'), 3, 0),
    (ANY_OF_ALL, LAST, 1, SPENT, 0, 0, 0, checkpoint(2, 47, in_order(48, 3) + ' 82'), 1, 0),
    (ANY_OF_ALL, LAST, MOST, MODEL, 0, 0, 0b11, checkpoint(1, 48, in_order(48, 3) + ' 82 81'), 1, 0),
    (ANY_OF_ALL, LAST, 3, SPENT, 0, 0, 0, checkpoint(2, 45, in_order(48, 4)), 3, 0),
    (ANY_OF_ALL, checkpoint(1, 48, WIDE_48), 2, MODEL, 0, 0, 0b11 << 46, checkpoint(1, 48, WIDE_48[:-2] + 'af'), 2, 0),
    (ANY_OF_ALL, checkpoint(1, 48, 'b0 ' + in_order(0x81, 0xaf)), MOST, ENDED, 0, 0, 0, OVER, 48, 0),
    # whole walks; the last checkpoint goes with the formula that it is for
    (PURE_LAST, START, MOST, MODEL, 0, 0, 0b01, checkpoint(1, 2, '02 81'), 2, 0),
    (PURE_LAST, LAST, MOST, MODEL, 0, 0, 0b11, checkpoint(1, 2, '82 81'), 4, 0),
    (PURE_LAST, LAST, MOST, ENDED, 0, 0, 0, OVER, 2, 0),
    (PURE_LAST, LAST, MOST, ENDED, 0, 0, 0, OVER, 0, 0),
    (EITHER, START, MOST, MODEL, 0, 0, 0b01, checkpoint(1, 2, '02 81'), 2, 0),
    (EITHER, LAST, 0, SPENT, 0, 0, 0, checkpoint(1, 2, '02 81'), 0, 0),
    (EITHER, LAST, 1, SPENT, 0, 0, 0, checkpoint(3, 1, '02'), 1, 0),
    (EITHER, LAST, 3, MODEL, 0, 0, 0b10, checkpoint(1, 2, '82 01'), 3, 0),
    (EITHER, LAST, MOST, MODEL, 0, 0, 0b11, checkpoint(1, 2, '82 81'), 2, 0),
    (EITHER, LAST, 1, SPENT, 0, 0, 0, checkpoint(3, 1, '82'), 1, 0),
    (EITHER, LAST, 1, ENDED, 0, 0, 0, OVER, 1, 0),
    # variables that no clause names are not assigned
    (TWO_OF_FOUR, START, 1, SPENT, 0, 0, 0, checkpoint(1, 1, '03'), 1, 0),
    (TWO_OF_FOUR, LAST, 1, MODEL, 0, 0, 0b0000, checkpoint(1, 2, '03 01'), 1, 0),
    (TWO_OF_FOUR, LAST, 1, SPENT, 0, 0, 0, checkpoint(2, 1, '03'), 1, 0),
    (TWO_OF_FOUR, LAST, 96, MODEL, 0, 0, 0b0001, checkpoint(1, 2, '03 81'), 1, 0),
    (TWO_OF_FOUR, LAST, 3, SPENT, 0, 0, 0, checkpoint(1, 1, '83'), 3, 0),
    (TWO_OF_FOUR, LAST, MOST, MODEL, 0, 0, 0b0101, checkpoint(1, 2, '83 81'), 1, 0),
    (TWO_OF_FOUR, LAST, 2, ENDED, 0, 0, 0, OVER, 2, 0),
    (TWO_OF_THREE, START, 2, MODEL, 0, 0, 0b001, checkpoint(1, 2, '02 81'), 2, 0),
    (TWO_OF_THREE, LAST, 4, MODEL, 0, 0, 0b010, checkpoint(1, 2, '82 01'), 4, 0),
    (TWO_OF_THREE, LAST, 2, MODEL, 0, 0, 0b011, checkpoint(1, 2, '82 81'), 2, 0),
    (TWO_OF_THREE, LAST, 2, ENDED, 0, 0, 0, OVER, 2, 0),
    (LAST_NAMED, START, 0, SPENT, 0, 0, 0, FIRST, 0, 0),
    (LAST_NAMED, LAST, 1, MODEL, 0, 0, 1 << 47, checkpoint(1, 1, 'b0'), 1, 0),
    (LAST_NAMED, LAST, MOST, ENDED, 0, 0, 0, OVER, 1, 0),
    # none is named: the model on any budget, then the end
    *(e for given, budgets in ((TWO_UNNAMED, (0, 1, 96)), (ALL_UNNAMED, (0, MOST))) for budget in budgets for e in [
        (given, START, budget, MODEL, 0, 0, 0, checkpoint(1, 0), 0, 0),
        (given, LAST, budget, ENDED, 0, 0, 0, OVER, 0, 0),
        (given, LAST, budget, ENDED, 0, 0, 0, OVER, 0, 0),
    ]),
    (TWO_UNNAMED, FIRST, 5, MODEL, 0, 0, 0, checkpoint(1, 0), 0, 0),
    (TWO_UNNAMED, checkpoint(1, 0), 5, ENDED, 0, 0, 0, OVER, 0, 0),
    # such a walk has three checkpoints
    *foreign(checkpoint(2, 0), TWO_UNNAMED, ALL_UNNAMED),
    *foreign(checkpoint(3, 0), TWO_UNNAMED, ALL_UNNAMED),
    *foreign(checkpoint(1, 0, '01'), TWO_UNNAMED),
    *foreign(checkpoint(1, 0, '', '01'), TWO_UNNAMED),
    *foreign(checkpoint(0, 1, '01'), TWO_UNNAMED),
    *foreign(checkpoint(4, 1, '81'), TWO_UNNAMED),
    # trails in which a variable stands that no clause names: alone, before the named ones and behind them
    *(e for trail in ('01', '81', '02') for e in foreign(checkpoint(1, 1, trail), TWO_UNNAMED)),
    *foreign(checkpoint(1, 2, '01 02'), TWO_UNNAMED),
    *foreign(checkpoint(1, 2, '81 82'), TWO_UNNAMED),
    *foreign(checkpoint(2, 1, '01'), TWO_UNNAMED),
    *foreign(checkpoint(3, 1, '81'), TWO_UNNAMED),
    *foreign(checkpoint(1, 1, '01'), ALL_UNNAMED, LAST_NAMED),
    *foreign(checkpoint(1, 48, in_order(1, 48)), ALL_UNNAMED),
    *foreign(checkpoint(1, 2, 'b0 01'), LAST_NAMED),
    *foreign(checkpoint(1, 1, '02'), ONE_OF_TWO, TWO_OF_FOUR),
    *foreign(checkpoint(1, 2, '02 81'), ONE_OF_TWO),
    *foreign(checkpoint(1, 2, '81 02'), ONE_OF_TWO),
    *foreign(checkpoint(1, 2, '81 82'), ONE_OF_TWO),
    *foreign(checkpoint(1, 2, '03 02'), TWO_OF_FOUR),
    *foreign(checkpoint(1, 3, '03 01 02'), TWO_OF_FOUR),
    *foreign(checkpoint(1, 3, '83 81 84'), TWO_OF_FOUR),
    *foreign(checkpoint(1, 4, '03 81 82 04'), TWO_OF_FOUR),
    # nothing is undone at a trail of all that are named, whose model was handed out
    *foreign(checkpoint(2, 1, '81'), ONE_OF_TWO),
    *foreign(checkpoint(3, 1, '81'), ONE_OF_TWO),
    *foreign(checkpoint(2, 2, '03 01'), TWO_OF_FOUR),
    *foreign(checkpoint(3, 2, '83 81'), TWO_OF_FOUR),
    (ONE_OF_TWO, checkpoint(1, 1, '81'), 0, SPENT, 0, 0, 0, checkpoint(1, 1, '81'), 0, 0),
    (ONE_OF_TWO, checkpoint(1, 1, '81'), 1, ENDED, 0, 0, 0, OVER, 1, 0),
    # the example with literals that come again walks as without them, and so does a clause in very many records
    (AGAIN, START, 0, SPENT, 0, 0, 0, FIRST, 0, 0),
    (AGAIN, LAST, 1, SPENT, 0, 0, 0, checkpoint(1, 1, '01'), 1, 2),
    (AGAIN, LAST, 1, MODEL, 0, 0, 0b10, checkpoint(1, 2, '01 82'), 1, 0),
    (AGAIN, LAST, 2, SPENT, 0, 0, 0, checkpoint(2, 0), 2, 0),
    (AGAIN, LAST, MOST, MODEL, 0, 0, 0b01, checkpoint(1, 2, '81 02'), 2, 0),
    (AGAIN, LAST, 1, SPENT, 0, 0, 0, checkpoint(2, 1, '81'), 1, 0),
    (AGAIN, LAST, MOST, ENDED, 0, 0, 0, OVER, 1, 0),
    *foreign(checkpoint(1, 1, '02'), AGAIN),
    (MANY, START, MOST, MODEL, 0, 0, 0b01, checkpoint(1, 1, '81'), 1, 0),
    # formulas that strip down: to nothing, to something, and to what is not matched
    *(e for given in (TWICE, MOST_TRUE) for e in [
        (given, START, 0, SPENT, 0, 0, 0, FIRST, 0, 0),
        (given, LAST, MOST, MODEL, 0, 0, 0b1, checkpoint(1, 1, '81'), 1, 0),
        (given, LAST, MOST, ENDED, 0, 0, 0, OVER, 1, 0),
        *foreign(checkpoint(1, 1, '01'), given),
        *foreign(checkpoint(2, 0), given),
    ]),
    (PARTLY, START, MOST, MODEL, 0, 0, 0b101, checkpoint(1, 3, '02 83 81'), 3, 2),
    (PARTLY, LAST, MOST, MODEL, 0, 0, 0b011, checkpoint(1, 3, '82 03 81'), 6, 0),
    (PARTLY, LAST, MOST, ENDED, 0, 0, 0, OVER, 3, 0),
    *foreign(checkpoint(1, 1, '81'), PARTLY),
    *refused(STRANGE, 10, 2, [(MARKED, MOST)]),
    # what stripping leaves: the busiest variable is tried first
    (SECOND, START, 1, SPENT, 0, 0, 0, checkpoint(1, 1, '02'), 1, 3),
    (SECOND, LAST, 2, MODEL, 0, 0, 0b000, checkpoint(1, 3, '02 03 01'), 2, 0),
    (SECOND, LAST, 1, SPENT, 0, 0, 0, checkpoint(2, 2, '02 03'), 1, 0),
    (SECOND, LAST, 1, MODEL, 0, 0, 0b001, checkpoint(1, 3, '02 03 81'), 1, 0),
    (SECOND, LAST, MOST, MODEL, 0, 0, 0b110, checkpoint(1, 3, '82 01 83'), 6, 0),
    (SECOND, LAST, MOST, ENDED, 0, 0, 0, OVER, 3, 0),
    # one that fails, and then the lower one of two that as many name; two that are busiest
    (FAILING, START, 1, SPENT, 0, 0, 0, checkpoint(1, 1, '01'), 1, 7),
    (FAILING, LAST, 2, MODEL, 0, 0, 0b010, checkpoint(1, 3, '01 82 03'), 2, 0),
    *(e for trail in ('02', '82', '03') for e in foreign(checkpoint(1, 1, trail), FAILING)),
    (TIED, START, 1, SPENT, 0, 0, 0, checkpoint(1, 1, '02'), 1, 3),
    *(e for trail in ('01', '03') for e in foreign(checkpoint(1, 1, trail), TIED)),
    # only left clauses count, each as often as it is there and with both signs, once at each node
    (DROPPING, START, 1, SPENT, 0, 0, 0, checkpoint(1, 1, '02'), 1, 3),
    *(e for trail in ('01', '03') for e in foreign(checkpoint(1, 1, trail), DROPPING)),
    (BOTH_SIGNS, START, 1, SPENT, 0, 0, 0, checkpoint(1, 1, '03'), 1, 4),
    (EQUAL, START, 1, SPENT, 0, 0, 0, checkpoint(1, 1, '02'), 1, 5),
    *foreign(checkpoint(1, 1, '01'), BOTH_SIGNS, EQUAL),
    (BECOME_EQUAL, START, 1, SPENT, 0, 0, 0, checkpoint(1, 1, '01'), 1, 4),
    (COUNTED_ONCE, START, 1, SPENT, 0, 0, 0, checkpoint(1, 1, '04'), 1, 6),
    *foreign(checkpoint(1, 1, '02'), BOTH_SIGNS, COUNTED_ONCE),
    (COUNTED_ANEW, START, 1, SPENT, 0, 0, 0, checkpoint(1, 1, '02'), 1, 5),
    (COUNTED_ANEW, LAST, 1, SPENT, 0, 0, 0, checkpoint(1, 2, '02 04'), 1, 3),
    *(e for trail in ('02 01', '02 03') for e in foreign(checkpoint(1, 2, trail), COUNTED_ANEW)),
    # checkpoints of the walk that once took the lowest variable: foreign, or taken as those of this one, which makes something else of
    # some; where the same variable is taken, all are
    *(e for mode, trail in ((1, '01'), (1, '01 02'), (1, '01 02 03'), (2, '01'), (3, '01 82'), (1, '81'), (1, '81 02 03'), (2, '81 02'))
      for e in foreign(checkpoint(mode, len(bytes.fromhex(trail)), trail), SECOND)),
    (SECOND, checkpoint(2, 0), 1, SPENT, 0, 0, 0, checkpoint(1, 1, '82'), 1, 0),
    (SECOND, checkpoint(2, 0), MOST, MODEL, 0, 0, 0b110, checkpoint(1, 3, '82 01 83'), 3, 0),
    (SECOND, OVER, MOST, ENDED, 0, 0, 0, OVER, 0, 0),
    (FAILING, checkpoint(1, 3, '01 82 03'), MOST, MODEL, 0, 0, 0b111, checkpoint(1, 3, '81 82 83'), 6, 0),
    # the fullest input: all but 1 are false in the first model, and 1 is assigned last
    (FULLEST, START, MOST, MODEL, 0, 0, 1, checkpoint(1, 48, WIDE_FIRST), 48, 0),
]

# under assumptions
WALK_ASSUMED = [
    # bad assumptions: behind the refusals of reading, before those of the matching and of the checkpoint
    *(e for given, number, place in UNREAD for e in refused(STRANGE, number, place, [((given, '00 01'), MOST)])),
    *(e for given, place in BAD for e in refused(FIRST, 16, place, [(given, 5)])),
    *refused(STRANGE, 16, 1, [((EXAMPLE, '02 01 02 01'), 0), ((UNMATCHED, '01 01 02 00'), MOST)]),
    *refused(OVER, 16, 0, [((EXAMPLE, '00 01'), 0), ((EXAMPLE, '03 00'), MOST)]),
    # unmatched under the assumptions: behind them, before the checkpoint
    *refused(STRANGE, 10, 1, [((EXAMPLE, '01 01 02 01'), 0), ((EXAMPLE, '02 00 01 00'), MOST), ((UNMATCHED, '01 01'), 1)]),
    *refused(OVER, 10, 1, [((TWICE, '01 00'), 5), ((PARTLY, '01 00'), 5), ((MARKED, '01 01'), 5)]),
    # one variable of the example assumed: the other one has one value
    ((EXAMPLE, '01 01'), START, 0, SPENT, 0, 0, 0, FIRST, 0, 0),
    ((EXAMPLE, '01 01'), LAST, 1, MODEL, 0, 0, 0b01, checkpoint(1, 1, '02'), 1, 0),
    ((EXAMPLE, '01 01'), LAST, 0, SPENT, 0, 0, 0, checkpoint(1, 1, '02'), 0, 0),
    ((EXAMPLE, '01 01'), LAST, 1, ENDED, 0, 0, 0, OVER, 1, 0),
    ((EXAMPLE, '01 01'), LAST, 0, ENDED, 0, 0, 0, OVER, 0, 0),
    ((EXAMPLE, '01 00'), START, MOST, MODEL, 0, 0, 0b10, checkpoint(1, 1, '82'), 1, 0),
    ((EXAMPLE, '01 00'), LAST, MOST, ENDED, 0, 0, 0, OVER, 1, 0),
    ((EXAMPLE, '02 01'), START, MOST, MODEL, 0, 0, 0b10, checkpoint(1, 1, '01'), 1, 0),
    ((EXAMPLE, '02 01'), LAST, MOST, ENDED, 0, 0, 0, OVER, 1, 0),
    # a checkpoint with an assumed variable, whichever value it has
    *foreign(checkpoint(1, 1, '81'), (EXAMPLE, '01 01'), (EXAMPLE, '01 00'), (EITHER, '01 01')),
    *foreign(checkpoint(1, 1, '01'), (EXAMPLE, '01 01'), (EXAMPLE, '01 00'), (EITHER, '01 00')),
    *foreign(checkpoint(1, 2, '81 02'), (EXAMPLE, '01 01'), (EITHER, '01 01'), (EITHER, '02 00')),
    *foreign(checkpoint(1, 2, '02 81'), (EXAMPLE, '01 01'), (EITHER, '01 01')),
    *foreign(checkpoint(2, 1, '81'), (EXAMPLE, '01 01')),
    # nothing is undone at a trail of all named variables that are not assumed
    *foreign(checkpoint(2, 1, '02'), (EXAMPLE, '01 01'), (EITHER, '01 01'), (TWO_OF_THREE, '01 01')),
    *foreign(checkpoint(3, 1, '82'), (EITHER, '01 01'), (TWO_OF_THREE, '01 01')),
    # a checkpoint made under another list: foreign, or one that this walk has too
    *foreign(checkpoint(1, 1, '81'), (EXAMPLE, '02 01')),
    *foreign(checkpoint(1, 1, '01'), (EXAMPLE, '02 00')),
    *foreign(checkpoint(1, 2, '01 82'), (EXAMPLE, '02 01')),
    *foreign(checkpoint(1, 1, '02'), ANY_OF_THREE, (ANY_OF_THREE, '02 01'), (EITHER, '01 00')),
    ((ANY_OF_THREE, '03 01 02 00'), START, MOST, MODEL, 0, 0, 0b100, checkpoint(1, 1, '01'), 1, 0),
    ((ANY_OF_THREE, '03 01 02 01'), LAST, MOST, MODEL, 0, 0, 0b111, checkpoint(1, 1, '81'), 2, 0),
    ((ANY_OF_THREE, '03 01'), LAST, MOST, MODEL, 0, 0, 0b101, checkpoint(1, 2, '81 02'), 1, 0),
    ((EITHER, '01 01'), START, MOST, MODEL, 0, 0, 0b01, checkpoint(1, 1, '02'), 1, 0),
    (EITHER, LAST, MOST, MODEL, 0, 0, 0b01, checkpoint(1, 2, '02 81'), 1, 0),
    # whole walks, the same ones under a list in another order
    ((ANY_OF_THREE, '01 01 03 00'), START, MOST, MODEL, 0, 0, 0b001, checkpoint(1, 1, '02'), 1, 0),
    ((ANY_OF_THREE, '01 01 03 00'), LAST, 1, SPENT, 0, 0, 0, checkpoint(2, 0), 1, 0),
    ((ANY_OF_THREE, '01 01 03 00'), LAST, 1, MODEL, 0, 0, 0b011, checkpoint(1, 1, '82'), 1, 0),
    ((ANY_OF_THREE, '01 01 03 00'), LAST, 96, ENDED, 0, 0, 0, OVER, 1, 0),
    ((ANY_OF_THREE, '03 00 01 01'), START, MOST, MODEL, 0, 0, 0b001, checkpoint(1, 1, '02'), 1, 0),
    ((ANY_OF_THREE, '01 01 03 00'), LAST, 1, SPENT, 0, 0, 0, checkpoint(2, 0), 1, 0),
    ((ANY_OF_THREE, '03 00 01 01'), LAST, 1, MODEL, 0, 0, 0b011, checkpoint(1, 1, '82'), 1, 0),
    ((ANY_OF_THREE, '01 01 03 00'), LAST, 96, ENDED, 0, 0, 0, OVER, 1, 0),
    ((ANY_OF_THREE, '02 01'), START, MOST, MODEL, 0, 0, 0b010, checkpoint(1, 2, '01 03'), 2, 0),
    ((ANY_OF_THREE, '02 01'), LAST, MOST, MODEL, 0, 0, 0b110, checkpoint(1, 2, '01 83'), 2, 0),
    ((ANY_OF_THREE, '02 01'), LAST, MOST, MODEL, 0, 0, 0b011, checkpoint(1, 2, '81 03'), 4, 0),
    ((ANY_OF_THREE, '02 01'), LAST, MOST, MODEL, 0, 0, 0b111, checkpoint(1, 2, '81 83'), 2, 0),
    ((ANY_OF_THREE, '02 01'), LAST, MOST, ENDED, 0, 0, 0, OVER, 2, 0),
    # a formula that strips down to nothing under the assumption
    ((PARTLY, '02 01'), START, MOST, MODEL, 0, 0, 0b011, checkpoint(1, 2, '03 81'), 2, 0),
    ((PARTLY, '02 01'), LAST, MOST, ENDED, 0, 0, 0, OVER, 2, 0),
    # what an assumption satisfies is not counted, and clauses that it makes equal are counted each
    ((DROPPING, '04 01'), START, 1, SPENT, 0, 0, 0, checkpoint(1, 1, '02'), 1, 3),
    ((DROPPING, '04 01'), LAST, MOST, MODEL, 0, 0, 0b1000, checkpoint(1, 3, '02 03 01'), 2, 0),
    *foreign(checkpoint(1, 1, '03'), (DROPPING, '04 01')),
    ((BECOME_EQUAL, '05 00'), START, 1, SPENT, 0, 0, 0, checkpoint(1, 1, '02'), 1, 5),
    ((BECOME_EQUAL, '05 01'), START, 1, SPENT, 0, 0, 0, checkpoint(1, 1, '01'), 1, 4),
    *foreign(checkpoint(1, 1, '01'), (BECOME_EQUAL, '05 00')),
    *foreign(checkpoint(1, 1, '02'), (BECOME_EQUAL, '05 01')),
    ((SECOND, '01 00'), START, MOST, MODEL, 0, 0, 0b000, checkpoint(1, 2, '02 03'), 2, 2),
    ((SECOND, '01 00'), LAST, MOST, MODEL, 0, 0, 0b110, checkpoint(1, 2, '82 83'), 4, 0),
    ((SECOND, '01 00'), LAST, MOST, ENDED, 0, 0, 0, OVER, 2, 0),
    # nothing is left to assign: the model on any budget, then the end
    *(e for budget in (0, 96) for e in [
        ((TWO_UNNAMED, '01 01 02 00'), START, budget, MODEL, 0, 0, 0b01, checkpoint(1, 0), 0, 0),
        ((TWO_UNNAMED, '02 00 01 01'), LAST, budget, ENDED, 0, 0, 0, OVER, 0, 0),
        ((TWO_UNNAMED, '01 01 02 00'), LAST, budget, ENDED, 0, 0, 0, OVER, 0, 0),
        ((EXAMPLE, '02 01 01 00'), START, budget, MODEL, 0, 0, 0b10, checkpoint(1, 0), 0, 0),
        ((EXAMPLE, '01 00 02 01'), LAST, budget, ENDED, 0, 0, 0, OVER, 0, 0),
        ((EXAMPLE, '02 01 01 00'), LAST, budget, ENDED, 0, 0, 0, OVER, 0, 0),
        ((ALL_UNNAMED, ALL_TRUE), START, budget, MODEL, 0, 0, (1 << 48) - 1, checkpoint(1, 0), 0, 0),
        ((ALL_UNNAMED, ALL_TRUE), LAST, budget, ENDED, 0, 0, 0, OVER, 0, 0),
        ((ALL_UNNAMED, ALL_FALSE), LAST, budget, ENDED, 0, 0, 0, OVER, 0, 0),
        ((ALL_UNNAMED, ALL_FALSE), FIRST, budget, MODEL, 0, 0, 0, checkpoint(1, 0), 0, 0),
        ((TWO_UNNAMED, '01 01 02 00'), checkpoint(1, 0), budget, ENDED, 0, 0, 0, OVER, 0, 0),
    ]),
    ((TWO_WIDE, ALL_TRUE), START, MOST, MODEL, 0, 0, (1 << 48) - 1, checkpoint(1, 0), 0, 0),
    # such a walk has three checkpoints
    *foreign(checkpoint(2, 0), (TWO_UNNAMED, '01 01 02 00')),
    *foreign(checkpoint(3, 0), (TWO_UNNAMED, '01 01 02 00')),
    *foreign(checkpoint(1, 1, '01'), (TWO_UNNAMED, '01 00 02 00')),
    *foreign(checkpoint(1, 0, '01'), (TWO_UNNAMED, '01 00 02 00')),
    *foreign(checkpoint(1, 0, '', '01'), (TWO_UNNAMED, '01 00 02 00')),
    *foreign(checkpoint(4, 1, '01'), (TWO_UNNAMED, '01 00 02 00')),
    # where something is left, mode 1 has a length
    *foreign(checkpoint(1, 0), (EXAMPLE, '01 01'), (EITHER, '02 00'), (ANY_OF_ALL, ALL_TRUE[:-6])),
    *foreign(checkpoint(1, 0), (TWO_OF_THREE, '01 01'), (TWO_OF_THREE, '03 01'), (TWO_OF_THREE, '01 01 03 00')),
    # a clause that an assumption satisfies: the other variable that it names is assigned, with both values
    ((TWO_OF_THREE, '01 01'), START, 0, SPENT, 0, 0, 0, FIRST, 0, 0),
    ((TWO_OF_THREE, '01 01'), LAST, 1, MODEL, 0, 0, 0b001, checkpoint(1, 1, '02'), 1, 0),
    ((TWO_OF_THREE, '01 01'), LAST, 1, SPENT, 0, 0, 0, checkpoint(2, 0), 1, 0),
    ((TWO_OF_THREE, '01 01'), LAST, 1, MODEL, 0, 0, 0b011, checkpoint(1, 1, '82'), 1, 0),
    ((TWO_OF_THREE, '01 01'), LAST, 1, ENDED, 0, 0, 0, OVER, 1, 0),
    ((TWO_OF_THREE, '01 00'), START, MOST, MODEL, 0, 0, 0b010, checkpoint(1, 1, '82'), 1, 0),
    ((TWO_OF_THREE, '01 00'), LAST, MOST, ENDED, 0, 0, 0, OVER, 1, 0),
    ((TWO_OF_FOUR, '03 00'), START, 1, MODEL, 0, 0, 0b0000, checkpoint(1, 1, '01'), 1, 0),
    ((TWO_OF_FOUR, '03 00'), LAST, 2, MODEL, 0, 0, 0b0001, checkpoint(1, 1, '81'), 2, 0),
    # an assumed variable that no clause names has its value, and changes nothing else: each call is under another list
    ((TWO_OF_THREE, '03 00'), START, MOST, MODEL, 0, 0, 0b001, checkpoint(1, 2, '02 81'), 2, 0),
    ((TWO_OF_THREE, '03 01'), LAST, MOST, MODEL, 0, 0, 0b110, checkpoint(1, 2, '82 01'), 4, 0),
    (TWO_OF_THREE, LAST, MOST, MODEL, 0, 0, 0b011, checkpoint(1, 2, '82 81'), 2, 0),
    ((TWO_OF_THREE, '03 01'), LAST, 2, ENDED, 0, 0, 0, OVER, 2, 0),
    ((TWO_OF_FOUR, '04 01 02 01'), START, MOST, MODEL, 0, 0, 0b1010, checkpoint(1, 2, '03 01'), 2, 0),
    ((TWO_OF_FOUR, '04 01 02 00'), LAST, MOST, MODEL, 0, 0, 0b1001, checkpoint(1, 2, '03 81'), 2, 0),
    ((TWO_OF_FOUR, '02 01'), LAST, MOST, MODEL, 0, 0, 0b0111, checkpoint(1, 2, '83 81'), 4, 0),
    ((TWO_UNNAMED, '01 01'), START, 0, MODEL, 0, 0, 0b01, checkpoint(1, 0), 0, 0),
    ((TWO_UNNAMED, '01 00'), START, 1, MODEL, 0, 0, 0b00, checkpoint(1, 0), 0, 0),
    ((TWO_UNNAMED, '02 01'), START, 96, MODEL, 0, 0, 0b10, checkpoint(1, 0), 0, 0),
    ((TWO_UNNAMED, '02 01'), LAST, 0, ENDED, 0, 0, 0, OVER, 0, 0),
    ((ALL_UNNAMED, '30 01'), START, 0, MODEL, 0, 0, 1 << 47, checkpoint(1, 0), 0, 0),
    # all that are named assumed: the same as where all are
    ((TWO_OF_THREE, '01 01 02 00'), START, 0, MODEL, 0, 0, 0b001, checkpoint(1, 0), 0, 0),
    ((TWO_OF_THREE, '02 00 01 01'), LAST, 0, ENDED, 0, 0, 0, OVER, 0, 0),
    ((TWO_OF_THREE, '03 01 02 01 01 00'), START, 96, MODEL, 0, 0, 0b110, checkpoint(1, 0), 0, 0),
    ((TWO_OF_THREE, '02 01 01 00'), LAST, 96, ENDED, 0, 0, 0, OVER, 0, 0),
    ((ONE_OF_TWO, '01 01'), START, 0, MODEL, 0, 0, 0b01, checkpoint(1, 0), 0, 0),
    ((LAST_NAMED, '30 01'), START, MOST, MODEL, 0, 0, 1 << 47, checkpoint(1, 0), 0, 0),
    *foreign(checkpoint(2, 0), (TWO_OF_THREE, '01 01 02 00'), (TWO_UNNAMED, '01 01')),
    *foreign(checkpoint(3, 0), (TWO_OF_THREE, '01 01 02 00'), (TWO_UNNAMED, '01 01')),
    *refused(OVER, 10, 1, [((TWO_OF_THREE, '02 00 01 00'), 0), ((ONE_OF_TWO, '01 00'), 5), ((LAST_NAMED, '01 01 30 00'), 5)]),
    # a variable in the trail that is neither named nor assumed, and one that is assumed and not named
    *foreign(checkpoint(1, 1, '03'), (TWO_OF_THREE, '01 01'), (TWO_OF_THREE, '01 01 02 00'), (TWO_OF_THREE, '03 00')),
    *foreign(checkpoint(1, 2, '02 03'), (TWO_OF_THREE, '01 01')),
    *foreign(checkpoint(1, 2, '82 83'), (TWO_OF_THREE, '01 01')),
    *foreign(checkpoint(1, 3, '02 81 83'), (TWO_OF_THREE, '03 01')),
    *foreign(checkpoint(1, 1, '82'), (TWO_UNNAMED, '01 01'), (TWO_UNNAMED, '02 01')),
]

# wait: input, the budgets of the calls, and how many waits are over
THREE_PAIRS = '01 03 02 01 02 02 04 02 01 02 03 04 02 02 02 03 04 05'  # clauses (1, 2), (1, 3) and (2, 3): 3 is assigned first
# S21: inputs, and the steps to each model and from the last one to the end, by hand
WAITS = [
    (THREE_PAIRS, [3, 6, 4, 2, 3]),  # trails -3 2 1, 3 -2 1, 3 2 -1, 3 2 1
    (PURE_LAST, [2, 4, 2]),
    (EXAMPLE, [2, 4, 2]),
    (AGAIN, [2, 4, 2]),
    ((EXAMPLE, '01 01'), [1, 1]),
    ((EXAMPLE, '02 01'), [1, 1]),
    # nothing is left to assign: a model and the end, of no step
    ((EXAMPLE, '01 00 02 01'), [0, 0]),
    ((EXAMPLE, '02 00 01 01'), [0, 0]),
    ((ALL_UNNAMED, ALL_TRUE), [0, 0]),
    (TWO_UNNAMED, [0, 0]),
    (ALL_UNNAMED, [0, 0]),
    ((TWO_UNNAMED, '01 01'), [0, 0]),
    ((TWO_OF_THREE, '01 01 02 00'), [0, 0]),
    (CLOSED_TRUE, [1, 1]),
    (EITHER, [2, 4, 2, 2]),
    ((ANY_OF_THREE, '02 01'), [2, 2, 4, 2, 2]),
    ((ANY_OF_THREE, '03 00 01 01'), [1, 2, 1]),
    # variables that no clause names, or that are assumed, take no step
    (ONE_OF_TWO, [1, 1]),
    (TWO_OF_FOUR, [2, 2, 4, 2]),
    ((TWO_OF_THREE, '01 01'), [1, 2, 1]),
    ((TWO_OF_THREE, '03 01'), [2, 4, 2, 2]),
    # formulas that strip down
    (TWICE, [1, 1]),
    (MOST_TRUE, [1, 1]),
    (PARTLY, [3, 6, 3]),
    ((PARTLY, '02 01'), [2, 2]),
    # the busiest variable first: trails -2 -3 -1, -2 -3 1, 2 -1 3; of the next -1 2 -3 and 1 2 3; then -2 3 1, 2 -3 -1, 2 3 -1, 2 3 1
    (SECOND, [3, 2, 6, 3]),
    (FAILING, [3, 6, 3]),
    (TIED, [3, 6, 4, 2, 3]),
    ]
BUDGETS = [
    [], [0], 3 * [0], 24 * [1], 12 * [2], 3 * [95], 3 * [96], 3 * [97], 8 * [96], [MOST, 0, MOST, 0, 0, MOST], [2, 0, 7, 1], [96, 1, 0, 95],
    [1, 0, 1, 1, 2, 0, 4, 3, 2, 1, 0, 6, 5, 0, 97, 0],
]
# The clause of 48 variables: once the highest true one is k, those below it count, so that before the i-th model the last literals
# change up to the lowest bit of i.
COUNTING = [48, *(2 * (i & -i).bit_length() for i in range(2, 1001))]


def closed(waits, budgets):
    """How many waits are over: a call makes its steps up to the next model or the end, or as many as its budget."""
    left = list(waits)
    for budget in budgets:
        if left and left[0] <= budget:
            left.pop(0)
        elif left:
            left[0] -= budget
    return len(waits) - len(left)


WAIT_EDGES = [
    *((given, budgets, closed(waits, budgets)) for given, waits in WAITS for budgets in BUDGETS),
    *((ANY_OF_ALL, budgets, closed(COUNTING, budgets)) for budgets in [
        *BUDGETS, [47, 0, 1, 1, 1], [48, 1, 1, 95, 3], 40 * [96], 48 * [95], 64 * [2], 100 * [1], 60 * [0, 3, 1, 12], 300 * [96],
    ]),
]

# list: input, the checkpoint that it gets, the room, what the last answer says, the refusal's number and place, the checkpoint returned,
# and the models
LIST_EDGES = [
    (EXAMPLE, START, 0, SPENT, 0, 0, FIRST, []),
    (EXAMPLE, START, 1, MODEL, 0, 0, checkpoint(1, 2, '01 82'), [0b10]),
    (EXAMPLE, LAST, 0, SPENT, 0, 0, checkpoint(1, 2, '01 82'), []),
    (EXAMPLE, LAST, 1, MODEL, 0, 0, checkpoint(1, 2, '81 02'), [0b01]),
    (EXAMPLE, LAST, 1, ENDED, 0, 0, OVER, []),
    (EXAMPLE, LAST, 0, ENDED, 0, 0, OVER, []),
    (EXAMPLE, START, 2, MODEL, 0, 0, checkpoint(1, 2, '81 02'), [0b10, 0b01]),
    (EXAMPLE, START, 3, ENDED, 0, 0, OVER, [0b10, 0b01]),
    (EXAMPLE, START, 255, ENDED, 0, 0, OVER, [0b10, 0b01]),
    (EXAMPLE, checkpoint(2, 0), 255, ENDED, 0, 0, OVER, [0b01]),
    # refusals, with room and without
    *((given, origin, room, REFUSED, number, place, origin, []) for room in (0, 2) for given, origin, number, place in [
        (UNREADABLE, OVER, 3, 2),
        (UNMATCHED, STRANGE, 10, 2),
        (MARKED, STRANGE, 10, 2),
        (EXAMPLE, STRANGE, 11, 0),
        ((UNREADABLE, '00 01'), STRANGE, 3, 2),
        ((UNMATCHED, '02 00'), STRANGE, 16, 0),
        ((EXAMPLE, '01 01 01 01'), OVER, 16, 1),
        ((EXAMPLE, '01 01 02 01'), OVER, 10, 1),
        ((EXAMPLE, '01 01'), checkpoint(1, 1, '81'), 11, 0),
        ((EXAMPLE, '01 01'), checkpoint(1, 0), 11, 0),
        (EITHER, checkpoint(1, 0), 11, 0),
        (TWO_UNNAMED, checkpoint(2, 0), 11, 0),
        (TWO_UNNAMED, checkpoint(1, 1, '01'), 11, 0),
        (TWO_OF_FOUR, checkpoint(1, 3, '03 01 02'), 11, 0),
        (SECOND, checkpoint(1, 3, '01 02 03'), 11, 0),
    ]),
    (EITHER, START, 4, ENDED, 0, 0, OVER, [0b01, 0b10, 0b11]),
    (MANY, START, 2, ENDED, 0, 0, OVER, [0b01]),
    # under assumptions, in either order
    ((EXAMPLE, '01 01'), START, 2, ENDED, 0, 0, OVER, [0b01]),
    ((EXAMPLE, '01 00'), START, 1, MODEL, 0, 0, checkpoint(1, 1, '82'), [0b10]),
    ((EITHER, '01 01'), START, 3, ENDED, 0, 0, OVER, [0b01, 0b11]),
    ((ANY_OF_THREE, '01 01 03 00'), START, 2, MODEL, 0, 0, checkpoint(1, 1, '82'), [0b001, 0b011]),
    ((ANY_OF_THREE, '03 00 01 01'), START, 2, MODEL, 0, 0, checkpoint(1, 1, '82'), [0b001, 0b011]),
    ((ANY_OF_THREE, '02 01'), START, 255, ENDED, 0, 0, OVER, [0b010, 0b110, 0b011, 0b111]),
    # variables that no clause names are false, unless they are assumed
    (TWO_OF_FOUR, START, 255, ENDED, 0, 0, OVER, [0b0000, 0b0001, 0b0101]),
    (TWO_OF_FOUR, START, 2, MODEL, 0, 0, checkpoint(1, 2, '03 81'), [0b0000, 0b0001]),
    ((TWO_OF_THREE, '01 01'), START, 3, ENDED, 0, 0, OVER, [0b001, 0b011]),
    ((TWO_OF_THREE, '03 01'), START, 4, ENDED, 0, 0, OVER, [0b101, 0b110, 0b111]),
    ((TWO_OF_THREE, '03 00'), START, 4, ENDED, 0, 0, OVER, [0b001, 0b010, 0b011]),
    # formulas that strip down
    (TWICE, START, 1, MODEL, 0, 0, checkpoint(1, 1, '81'), [0b1]),
    (MOST_TRUE, START, 255, ENDED, 0, 0, OVER, [0b1]),
    (PARTLY, START, 3, ENDED, 0, 0, OVER, [0b101, 0b011]),
    ((PARTLY, '02 01'), START, 2, ENDED, 0, 0, OVER, [0b011]),
    # the busiest variable first, and from a checkpoint that the walk once had, too
    (SECOND, START, 4, ENDED, 0, 0, OVER, [0b000, 0b001, 0b110]),
    (SECOND, checkpoint(2, 0), 4, ENDED, 0, 0, OVER, [0b110]),
    (TIED, START, 3, MODEL, 0, 0, checkpoint(1, 3, '82 83 01'), [0b101, 0b010, 0b110]),
    # nothing is to be assigned: without room the model is not lost
    (TWO_UNNAMED, START, 0, SPENT, 0, 0, FIRST, []),
    (TWO_UNNAMED, LAST, 1, MODEL, 0, 0, checkpoint(1, 0), [0b00]),
    (TWO_UNNAMED, LAST, 0, ENDED, 0, 0, OVER, []),
    (TWO_UNNAMED, LAST, 1, ENDED, 0, 0, OVER, []),
    (TWO_UNNAMED, START, 2, ENDED, 0, 0, OVER, [0b00]),
    (TWO_UNNAMED, checkpoint(1, 0), 2, ENDED, 0, 0, OVER, []),
    (ALL_UNNAMED, START, 0, SPENT, 0, 0, FIRST, []),
    (ALL_UNNAMED, START, 255, ENDED, 0, 0, OVER, [0]),
    ((TWO_UNNAMED, '02 01'), START, 0, SPENT, 0, 0, FIRST, []),
    ((TWO_UNNAMED, '02 01'), LAST, 1, MODEL, 0, 0, checkpoint(1, 0), [0b10]),
    ((TWO_OF_THREE, '02 00 01 01'), START, 0, SPENT, 0, 0, FIRST, []),
    ((TWO_OF_THREE, '02 00 01 01'), LAST, 2, ENDED, 0, 0, OVER, [0b001]),
    ((TWO_UNNAMED, '01 01 02 00'), START, 0, SPENT, 0, 0, FIRST, []),
    ((TWO_UNNAMED, '01 01 02 00'), LAST, 1, MODEL, 0, 0, checkpoint(1, 0), [0b01]),
    ((TWO_UNNAMED, '01 01 02 00'), LAST, 0, ENDED, 0, 0, OVER, []),
    ((TWO_UNNAMED, '02 00 01 01'), START, 2, ENDED, 0, 0, OVER, [0b01]),
    ((TWO_UNNAMED, '02 00 01 01'), checkpoint(1, 0), 2, ENDED, 0, 0, OVER, []),
    ((TWO_UNNAMED, '02 00 01 01'), OVER, 0, ENDED, 0, 0, OVER, []),
    ((ALL_UNNAMED, ALL_TRUE), START, 0, SPENT, 0, 0, FIRST, []),
    ((ALL_UNNAMED, ALL_TRUE), START, 255, ENDED, 0, 0, OVER, [(1 << 48) - 1]),
]


def page_line(serial, columns, steps):
    return '%6d %-48s %3d\n' % (serial, columns, steps)


def page_lines(serial, *columns_steps):
    """The lines of a page, from its first serial."""
    return [page_line(serial + i, *line) for i, line in enumerate(columns_steps)]


def pages_from_start(given, *serials):
    """Pages one after the other, each from what the last one returned, with these first serials: the lines, and the checkpoint. The walk is
    that of walk_picture.py, which follows the specification."""
    n, clauses = read(bytes.fromhex(given))
    calls = walk_picture.calls([[v if x else -v for v, x in c] for c in clauses], itertools.repeat(walk_picture.AMPLE))
    for serial in serials:
        behind, found = None, []
        for _, (answer, steps, _, behind) in zip(range(PAGE_LINES), calls):
            if answer[0] == 'model':
                found.append((walk_picture.columns(n, answer[1]), steps))
        yield serial, page_lines(serial, *found), walk_picture.checkpoint_bytes(behind)


def pages_listed(given, *serials):
    """The cases of such pages."""
    for i, (serial, lines, returned) in enumerate(pages_from_start(given, *serials)):
        yield given, LAST if i else START, serial, 3005, lines, returned


def page_refused(given, origin, serial, length, *refusal):
    return given, origin, serial, length, refusal, origin


ANY_OF_SIX = '01 06 02 01 02 02 02 03 02 04 02 05 02 06 04 05'  # the clause (1, 2, 3, 4, 5, 6): 63 models
# clauses (1, 2, 3), (not 1, 2, 3, 4) and (not 1, not 2, 4, 5, 6), which 8, 4 and 2 of 64 assignments make false, none two: 50 models
FIFTY = '01 06 02 01 02 02 02 03 04 03 01 02 02 02 03 02 04 04 03 01 03 02 02 04 02 05 02 06 04 05'
# page: input, the checkpoint that the call gets, the first serial, the length of the page, the refusal's number and place or the filled
# lines, and the checkpoint that comes back
PAGE_EDGES = [
    # page after page, the last one behind the end: more models than a page has lines, just as many, and fewer
    *pages_listed(ANY_OF_SIX, 1, 51, 101),
    *pages_listed(FIFTY, 1, 51),
    *pages_listed(FIFTY, 999950, 1),
    *pages_listed(EXAMPLE, 1, 999950),
    # one variable, and 48
    *pages_listed(CLOSED_TRUE, 7, 57),
    *pages_listed(ANY_OF_ALL, 999, 1049),
    # from the checkpoints of spent calls: their steps do not count
    (EXAMPLE, checkpoint(1, 1, '01'), 1, 3005, page_lines(1, ('01', 1), ('10', 4)), OVER),
    (EXAMPLE, checkpoint(3, 1, '01'), 1, 3005, page_lines(1, ('10', 3)), OVER),
    (EXAMPLE, checkpoint(2, 0), 1, 3005, page_lines(1, ('10', 2)), OVER),
    (EXAMPLE, checkpoint(2, 1, '81'), 1, 3005, [], OVER),
    # from a model's, and from the end
    (EXAMPLE, checkpoint(1, 2, '01 82'), 1, 3005, page_lines(1, ('10', 4)), OVER),
    (EXAMPLE, checkpoint(1, 2, '81 02'), 1, 3005, [], OVER),
    (EXAMPLE, OVER, 1, 3005, [], OVER),
    # under assumptions, in either order: an assumed variable shows its value
    ((EXAMPLE, '01 01'), START, 1, 3005, page_lines(1, ('10', 1)), OVER),
    ((ANY_OF_THREE, '01 01 03 00'), START, 1, 3005, page_lines(1, ('100', 1), ('110', 2)), OVER),
    ((ANY_OF_THREE, '03 00 01 01'), START, 1, 3005, page_lines(1, ('100', 1), ('110', 2)), OVER),
    ((ANY_OF_THREE, '02 01'), START, 1, 3005, page_lines(1, ('010', 2), ('011', 2), ('110', 4), ('111', 2)), OVER),
    ((PARTLY, '02 01'), START, 1, 3005, page_lines(1, ('110', 2)), OVER),
    # a variable that no clause names shows a dash, and its value if it is assumed
    (TWO_OF_FOUR, START, 1, 3005, page_lines(1, ('0-0-', 2), ('1-0-', 2), ('1-1-', 4)), OVER),
    (TWO_OF_FOUR, checkpoint(2, 1, '03'), 1, 3005, page_lines(1, ('1-0-', 1), ('1-1-', 4)), OVER),
    ((TWO_OF_FOUR, '02 01'), START, 1, 3005, page_lines(1, ('010-', 2), ('110-', 2), ('111-', 4)), OVER),
    ((TWO_OF_FOUR, '04 00'), START, 1, 3005, page_lines(1, ('0-00', 2), ('1-00', 2), ('1-10', 4)), OVER),
    (TWO_OF_THREE, START, 1, 3005, page_lines(1, ('10-', 2), ('01-', 4), ('11-', 2)), OVER),
    ((TWO_OF_THREE, '01 01'), START, 1, 3005, page_lines(1, ('10-', 1), ('11-', 2)), OVER),
    ((TWO_OF_THREE, '01 00'), START, 1, 3005, page_lines(1, ('01-', 1)), OVER),
    ((TWO_OF_THREE, '03 01'), START, 1, 3005, page_lines(1, ('101', 2), ('011', 4), ('111', 2)), OVER),
    ((TWO_OF_THREE, '03 00'), START, 1, 3005, page_lines(1, ('100', 2), ('010', 4), ('110', 2)), OVER),
    ((TWO_OF_THREE, '03 01 01 01'), START, 1, 3005, page_lines(1, ('101', 1), ('111', 2)), OVER),
    (LAST_NAMED, START, 1, 3005, page_lines(1, (47 * '-' + '1', 1)), OVER),
    ((LAST_NAMED, '2f 01'), START, 1, 3005, page_lines(1, (46 * '-' + '11', 1)), OVER),
    # the busiest variable first, and from a checkpoint that the walk once had, too
    (SECOND, START, 1, 3005, page_lines(1, ('000', 3), ('100', 2), ('011', 6)), OVER),
    (SECOND, checkpoint(2, 0), 1, 3005, page_lines(1, ('011', 3)), OVER),
    # nothing is to be assigned: one line, of no step
    (TWO_UNNAMED, START, 1, 3005, page_lines(1, ('--', 0)), OVER),
    (TWO_UNNAMED, LAST, 51, 3005, [], OVER),
    (TWO_UNNAMED, checkpoint(1, 0), 1, 3005, [], OVER),
    (ALL_UNNAMED, START, 999950, 3000, page_lines(999950, (48 * '-', 0)), OVER),
    ((TWO_UNNAMED, '01 01'), START, 1, 3005, page_lines(1, ('1-', 0)), OVER),
    ((TWO_UNNAMED, '02 00'), START, 1, 3005, page_lines(1, ('-0', 0)), OVER),
    ((TWO_OF_THREE, '01 01 02 00'), START, 1, 3005, page_lines(1, ('10-', 0)), OVER),
    ((TWO_OF_THREE, '03 01 01 01 02 00'), START, 1, 3005, page_lines(1, ('101', 0)), OVER),
    (('01 01 05', '01 01'), START, 7, 3005, page_lines(7, ('1', 0)), OVER),
    ((EXAMPLE, '02 01 01 00'), START, 999950, 3005, page_lines(999950, ('01', 0)), OVER),
    ((EXAMPLE, '02 01 01 00'), checkpoint(1, 0), 1, 3005, [], OVER),
    ((ALL_UNNAMED, ALL_TRUE), START, 1, 3005, page_lines(1, (48 * '1', 0)), OVER),
    # the lengths of the page: a short one is refused before anything else
    *(page_refused(EXAMPLE, FIRST, 1, length, 17, 0) for length in (0, 1, 60, 2940, 2999)),
    *((EXAMPLE, FIRST, 1, length, page_lines(1, ('01', 2), ('10', 4)), OVER) for length in (3000, 3001, 65535)),
    *(page_refused((given, '00 01'), STRANGE, 0, 2999, 17, 0) for given in (UNREADABLE, UNMATCHED, EXAMPLE)),
    # the first serial, refused before anything is read
    *(page_refused(EXAMPLE, FIRST, serial, 3005, 18, 0) for serial in (0, 999951, 999999, 1000000, MOST)),
    *((EXAMPLE, FIRST, serial, 3005, page_lines(serial, ('01', 2), ('10', 4)), OVER) for serial in (9, 99, 99999, 999949, 999950)),
    *(page_refused((given, '00 01'), STRANGE, serial, 3005, 18, 0) for given in (UNREADABLE, UNMATCHED, EXAMPLE) for serial in (0, 999951)),
    # then what walk refuses, in its order
    *(page_refused((given, '00 01'), STRANGE, 1, 3005, number, place) for given, number, place in UNREAD),
    *(page_refused(given, STRANGE, 1, 3005, 16, place) for given, place in BAD),
    page_refused((UNMATCHED, '02 01'), STRANGE, 1, 3005, 16, 0),
    page_refused(UNMATCHED, STRANGE, 1, 3005, 10, 2),
    page_refused((EXAMPLE, '01 01 02 01'), OVER, 1, 3005, 10, 1),
    page_refused(EXAMPLE, STRANGE, 1, 3005, 11, 0),
    page_refused((EXAMPLE, '01 01'), checkpoint(1, 1, '81'), 1, 3005, 11, 0),
    page_refused((TWO_UNNAMED, '01 01 02 00'), checkpoint(2, 0), 1, 3005, 11, 0),
    page_refused(TWO_UNNAMED, checkpoint(2, 0), 1, 3005, 11, 0),
    page_refused(TWO_UNNAMED, checkpoint(1, 1, '01'), 1, 3005, 11, 0),
    page_refused((TWO_OF_THREE, '01 01'), checkpoint(1, 2, '02 03'), 1, 3005, 11, 0),
    page_refused(EITHER, checkpoint(1, 0), 1, 3005, 11, 0),
    page_refused(SECOND, checkpoint(1, 3, '01 02 03'), 1, 3005, 11, 0),
]

# formulas: some of few variables, each under every list of assumptions, in order, none bad
FORMULA_EDGES = [(given, ' '.join('%02x %02x' % (v, x) for v, x in enumerate(values, 1) if x < 2))
                 for given in [EXAMPLE, PURE_LAST, UNMATCHED, REMATCHED, ANY_OF_THREE, TWICE, MOST_TRUE, PARTLY, MARKED, LOWER, HIGHER,
                               TWO_UNNAMED, ONE_OF_TWO, TWO_OF_THREE, TWO_OF_FOUR, SECOND, FAILING, TIED,
                               '01 04 02 01 03 02 04 02 02 03 03 04 02 03 03 01 02 04 04 05',
                               '01 04 02 01 02 02 04 03 01 02 03 04 03 02 03 03 04 02 04 03 01 04 05',
                               '01 03 02 01 04 03 01 02 02 04 02 02 04 03 03 04 05']
                 for values in itertools.product(range(3), repeat=bytes.fromhex(given)[1])]

# printed: what is printed from, and the text
WHOLE = '01 02' + 8190 * ' 02 01' + ' 04 05'  # the clause (1) in 16,384 bytes, as many as the printing program reads
PRINTED_EDGES = [
    (WHOLE, 'switches 2 rules 1\n1- 1 0\nend 1 0\n'),
    # cut before the clause's end
    (MANY, 'refused 2 16384\n'),
    # formulas that strip down
    (TWICE, 'switches 1 rules 2\n1 1 0\nend 1 0\n'),
    (MOST_TRUE, 'switches 1 rules 96\n1 1 0\nend 1 0\n'),
    (PARTLY, 'switches 3 rules 4\n101 3 2\n110 6 0\nend 3 0\n'),
    (MARKED, 'refused 10 2\n'),
    # the busiest variable first
    (SECOND, 'switches 3 rules 3\n000 3 3\n100 2 0\n011 6 0\nend 3 0\n'),
    (FAILING, 'switches 3 rules 3\n010 3 7\n111 6 0\nend 3 0\n'),
    (TIED, 'switches 3 rules 3\n101 3 3\n010 6 0\n011 4 0\n111 2 0\nend 3 0\n'),
    (DROPPING, 'switches 4 rules 5\n0001 4 3\n1001 2 0\n0111 8 0\nend 4 0\n'),
    (BOTH_SIGNS, 'switches 4 rules 4\n1000 4 4\n1001 2 0\n1100 6 0\n1101 2 0\n0010 8 0\n1010 2 0\n0110 6 0\nend 4 0\n'),
    (EQUAL, 'switches 4 rules 4\n0010 4 5\n1010 2 0\n0001 6 0\n0011 2 0\n0100 8 0\n1100 2 0\n1110 4 0\n0101 6 0\nend 4 0\n'),
    (COUNTED_ONCE, 'switches 4 rules 4\n1010 4 6\n1110 2 0\n1001 8 0\nend 4 0\n'),
    (COUNTED_ANEW, 'switches 4 rules 4\n0010 4 8\n1010 2 0\n0001 6 0\n0110 8 0\n1110 2 0\n0111 6 0\n1111 2 0\nend 4 0\n'),
    # dashes for variables that no clause names; the first line counts them
    (EITHER, 'switches 2 rules 1\n10 2 0\n01 4 0\n11 2 0\nend 2 0\n'),
    (TWO_OF_THREE, 'switches 3 rules 1\n10- 2 0\n01- 4 0\n11- 2 0\nend 2 0\n'),
    (TWO_OF_FOUR, 'switches 4 rules 1\n0-0- 2 0\n1-0- 2 0\n1-1- 4 0\nend 2 0\n'),
    (LAST_NAMED, 'switches 48 rules 1\n' + 47 * '-' + '1 1 0\nend 1 0\n'),
    (TWO_UNNAMED, 'switches 2 rules 0\n-- 0 0\nend 0 0\n'),
    (ALL_UNNAMED, 'switches 48 rules 0\n' + 48 * '-' + ' 0 0\nend 0 0\n'),
]


# read_text: the text; the encoded formula, or the refusal's number and place; and, where they matter, the length of the buffer and
# the fill
SMALL = b'p cnf 2 2\n1 2 0\n-1 -2 0\n'  # the specification's example
NUMBER = b'18446744073709551617'  # 2 to the 64, and 1
LONGEST = b'p cnf 48 96\n' + 96 * (b''.join(b'-%d ' % v for v in range(1, 49)) + b'0\n')  # 17,772 bytes, the most that are written
LONGEST_INPUT = '01 30' + 96 * (''.join(' 03 %02x' % v for v in range(1, 49)) + ' 04') + ' 05'
READ_TEXT_EDGES = [
    (SMALL, EXAMPLE),
    # the lengths of the buffer: a short one is refused before anything is read
    (SMALL, (1, 0), 0, 0xa5),
    (SMALL, (1, 0), 1, 0xa5),
    (SMALL, (1, 0), 9314, 0xa5),
    (SMALL, EXAMPLE, 9315, 0),
    (SMALL, EXAMPLE, 9316, 0xff),
    (SMALL, EXAMPLE, 65535, 0xa5),
    (b'', (1, 0), 9314, 0),
    (b'', (13, 0), 9315, 0),
    (b'p cnf 1 1\nx\n', (1, 0), 9314, 0xa5),
    # the longest text and the most bytes, and a long number
    (LONGEST, LONGEST_INPUT),
    (b'p cnf 1 1\n' + 5000 * b'0' + b'1 0\n', '01 01 02 01 04 05'),
    # what parts words: a carriage return before the line feed, tabs, more than one, none at the end; clauses in one line, and one in many
    (b'p cnf 2 2\r\n1 2 0\r\n-1 -2 0\r\n', EXAMPLE),
    (b'p cnf 2 2\n1 2 0\n-1 -2 0', EXAMPLE),
    (b'p\tcnf\r2 \t2 \n\n1\t2\r0  -1\n\n \n-2\n0\n\n', EXAMPLE),
    # what does not: form feed, vertical tab, zero, and bytes that are not ASCII
    (b'p cnf 1 1\n1\x0c0\n', (14, 10)),
    (b'p cnf 1 1\n1 \x0c0\n', (14, 12)),
    (b'p cnf 1 1\n1\x0b0\n', (14, 10)),
    (b'p cnf 1 1\n1\x000\n', (14, 10)),
    (b'p cnf 1 1\n1\xa00\n', (14, 10)),
    (b'p cnf 1 0\x0c\n', (13, 0)),
    (b'\xef\xbb\xbfp cnf 1 0\n', (13, 0)),
    # comments: before the p line, within a clause, behind the last, without a blank, and with what would else be words
    (b'c\ncnf\nc p cnf 3 3\np cnf 2 2\n1\nc 0\n2 0\nc\tp\n-1 -2 0\nc 1', EXAMPLE),
    (b'p cnf 1 1\n1\nc 0\n', (2, 16)),
    # blanks before p, and before c, where there is no comment
    (b' \t\rp cnf 1 0\n', '01 01 05'),
    (b' c\np cnf 1 0\n', (13, 0)),
    (b'p cnf 1 0\n c\n', (14, 11)),
    (b'p cnf 1 1\n1 c\n0\n', (14, 12)),
    # carriage returns end no line: all of it is a comment
    (b'c\rp cnf 1 0\r', (13, 12)),
    # no p line
    (b'\n', (13, 0)),
    (b'\np cnf 1 0\n', (13, 0)),
    (b'c', (13, 1)),
    (b'c\n', (13, 2)),
    (b'c\n\np cnf 1 0\n', (13, 2)),
    (b'1 0\n', (13, 0)),
    # other words in it, fewer and more
    (b'p cnf 1\n0\n', (13, 0)),
    (b'p cnf 1 0 0\n', (13, 0)),
    (b'p\ncnf 1 0\n', (13, 0)),
    (b'pcnf 1 0 0\n', (13, 0)),
    (b'P cnf 1 0\n', (13, 0)),
    (b'p CNF 1 0\n', (13, 0)),
    (b'p cn 1 0\n', (13, 0)),
    (b'p cnff 1 0\n', (13, 0)),
    (b'c\nc\np cnf one 0\n', (13, 4)),
    (b'p cnf -1 0\n', (13, 0)),
    (b'p cnf 1 -0\n', (13, 0)),
    (b'p cnf +1 0\n', (13, 0)),
    (b'p cnf 1x 0\n', (13, 0)),
    # a second one is words
    (b'p cnf 1 0\np cnf 1 0\n', (14, 10)),
    # the number of variables
    (b'p cnf 48 0\n', '01 30 05'),
    (b'p cnf 0 0\n', (5, 6)),
    (b'p cnf 49 0\n', (5, 6)),
    (b'c\n p  cnf  00 1\n', (5, 11)),
    (b'p cnf 49 1\nx\n', (5, 6)),
    # a number above 2 to the 64 as each number, and that number as a word
    (b'p cnf ' + NUMBER + b' 0\n', (5, 6)),
    (b'p cnf 1 ' + NUMBER + b'\n1 0\n', (15, 8)),
    (b'p cnf 1 1\n' + NUMBER + b' 0\n', (6, 10)),
    (b'p cnf 1 1\n-' + NUMBER + b' 0\n', (6, 10)),
    (b'p cnf 1 1\n1 18446744073709551616\n', (6, 12)),
    (b'p cnf 1 18446744073709551616\n', (15, 8)),
    # numbers around 1,000 as each number, whose last digits would do
    (b'p cnf 999 0\n', (5, 6)),
    (b'p cnf 1000 0\n', (5, 6)),
    (b'p cnf 1001 0\n', (5, 6)),
    (b'p cnf 1048 0\n', (5, 6)),
    (b'p cnf 48 1\n999 0\n', (6, 11)),
    (b'p cnf 48 1\n1000 0\n', (6, 11)),
    (b'p cnf 48 1\n-1001 0\n', (6, 11)),
    (b'p cnf 48 1\n1048 0\n', (6, 11)),
    (b'p cnf 1 1000\n', (15, 8)),
    (b'p cnf 1 1001\n1 0\n', (15, 8)),
    # zeros before a number, and as one
    (b'p cnf 0007 0001\n-007 0001 0000\n', '01 07 03 07 02 01 04 05'),
    (b'p cnf 1 1\n00\n', '01 01 04 05'),
    (b'p cnf 1 000\n', '01 01 05'),
    (b'p cnf 1 1\n-0\n', (14, 10)),
    (b'p cnf 1 1\n1 -00\n', (14, 12)),
    # words that are no numbers
    (b'p cnf 1 1\n-\n', (14, 10)),
    (b'p cnf 1 1\n--1 0\n', (14, 10)),
    (b'p cnf 1 1\n+1 0\n', (14, 10)),
    (b'p cnf 1 1\n1-1 0\n', (14, 10)),
    (b'p cnf 1 1\n1 0x\n', (14, 12)),
    (b'p cnf 1 1\n1 %\n0\n', (14, 12)),
    # variables that are not there
    (b'p cnf 2 1\n3 0\n', (6, 10)),
    (b'p cnf 2 1\n2 -3 0\n', (6, 12)),
    # literals that come again, and variables named both ways in one clause and in two
    (b'p cnf 2 1\n2 1 2 2 1 0\n', '01 02 02 02 02 01 04 05'),
    (b'p cnf 2 1\n-1 -1 0\n', '01 02 03 01 04 05'),
    (b'p cnf 2 1\n1 -1 0\n', (7, 12)),
    (b'p cnf 2 1\n-1 2 -1 1 0\n', (7, 18)),
    (b'p cnf 1 2\n1 0 -1 0\n', '01 01 02 01 04 03 01 04 05'),
    # cut within a clause, which comes before the number of clauses
    (b'p cnf 1 1\n1', (2, 11)),
    (b'p cnf 1 1\n1\n', (2, 12)),
    (b'p cnf 1 0\n1 0 1\n', (2, 16)),
    # another number of clauses
    (b'p cnf 1 1\n', (15, 8)),
    (b'p cnf 1 0\n0\n', (15, 8)),
    (b'p cnf 1 2\n1 0\n', (15, 8)),
    (b'c\np cnf 12 2 \n0\n', (15, 11)),
    # 96 clauses, 97, and what comes before the 97th end
    (b'p cnf 1 96\n' + 96 * b'0\n', '01 01' + 96 * EMPTY + ' 05'),
    (b'p cnf 1 96\n' + 96 * b'1 0\n', MOST_TRUE),
    (b'p cnf 1 97\n' + 97 * b'0\n', (8, 203)),
    (b'p cnf 1 96\n' + 97 * b'1 0\n', (8, 397)),
    (b'p cnf 1 96\n' + 96 * b'0\n' + b'2 0\n', (6, 203)),
    (b'p cnf 1 96\n' + 96 * b'0\n' + b'1 -1 0\n', (7, 205)),
    (b'p cnf 1 96\n' + 96 * b'0\n' + b'1 x\n', (14, 205)),
    (b'p cnf 1 96\n' + 96 * b'0\n' + b'1', (2, 204)),
    (b'p cnf 1 97\n' + 96 * b'0\n', (15, 8)),
]

# write_text: the input; the text, or the refusal's number and place; and, where they matter, the length of the buffer and the fill
WRITE_TEXT_EDGES = [
    # the lengths of the buffer: one below 18,636 is refused before anything is read, also if the text would fit
    (EXAMPLE, (1, 0), 0, 0xa5),
    (EXAMPLE, (1, 0), 17772, 0xa5),
    (EXAMPLE, (1, 0), 18635, 0xa5),
    (EXAMPLE, SMALL, 18636, 0),
    (EXAMPLE, SMALL, 18637, 0xff),
    (EXAMPLE, SMALL, 65535, 0xa5),
    ('', (1, 0), 18635, 0),
    ('', (2, 0), 18636, 0),
    (LONGEST_INPUT, LONGEST),
    # numbers of one digit and of two
    ('01 30 03 09 02 0a 03 30 04 05', b'p cnf 48 1\n-9 10 -48 0\n'),
    ('01 09 04 05', b'p cnf 9 1\n0\n'),
    # literals that come again stand at their first place
    (AGAIN, SMALL),
    ('01 03 02 03 03 01 02 03 02 02 03 01 04 05', b'p cnf 3 1\n3 -1 2 0\n'),
    # each refusal of reading
    ('01 02 02', (2, 3)),
    ('01 01 06', (3, 2)),
    ('02', (4, 0)),
    ('01 01 02 01 05', (4, 4)),
    ('01 00 05', (5, 0)),
    ('01 31 05', (5, 0)),
    ('01 01 02 02', (6, 2)),
    ('01 02 02 01 03 01 04 05', (7, 4)),
    ('01 01' + 97 * EMPTY + ' 05', (8, 98)),
    ('01 01 05 00', (9, 3)),
]


def text_of(n, clauses):
    lines = [''.join('%d ' % (v if x else -v) for v, x in c) + '0\n' for c in clauses]
    return ('p cnf %d %d\n' % (n, len(clauses)) + ''.join(lines)).encode()


def encoded(n, clauses):
    return bytes([1, n, *(b for c in clauses for b in [*(b for v, x in c for b in (2 if x else 3, v)), 4]), 5]).hex()


# each readable input of check written, and its text read again
for given in dict.fromkeys(given for given, *_ in CHECK_EDGES):
    formula = read(bytes.fromhex(given))
    if formula:
        WRITE_TEXT_EDGES.append((given, text_of(*formula)))
        READ_TEXT_EDGES.append((text_of(*formula), encoded(*formula)))


def bytes_of(given):
    """Bytes, which stand here as they are or in hexadecimal; or an input and its assumptions."""
    if isinstance(given, tuple):
        return tuple(map(bytes_of, given))
    return given if isinstance(given, bytes) else bytes.fromhex(given)


# The coder of an edge case gives its vector, from its number, its input and what follows that.
def check_edge(number, given, assignment, *answer):
    return coded(number, given, answer_of(*answer), little(assignment, 8))


def buffer_edge(number, given, length, fill, *answer_written):
    *answer, written = answer_written
    return coded(number, given, answer_of(*answer), buffer_fields(length, fill, bytes.fromhex(written)))


def deficiency_edge(number, given, expected):
    refusal, left_over = (expected, 0) if isinstance(expected, tuple) else (None, expected)
    return measured(number, given, refusal, left_over)


def walk_edge(number, given, origin, budget, says, refusal, place, model, returned, *counts):
    return coded(number, given, answer_of(says, refusal, place), walk_fields(model, *counts, returned, origin, budget))


def list_edge(number, given, origin, room, says, refusal, place, returned, models):
    model = models[-1] if says == MODEL else 0
    answer, fields = answer_of(says, refusal, place), list_fields(model, returned, origin, room, 0xa5)
    return coded(number, given, answer, fields, b''.join(little(m, 8) for m in models))


def page_edge(number, given, origin, serial, length, expected, returned):
    refusal, lines = (expected, []) if isinstance(expected, tuple) else (None, expected)
    return paged(number, given, refusal, lines, returned, origin, serial, length, 0xa5)


def formula_edge(number, given, assumed):
    return formula_vector(number, (given, bytes.fromhex(assumed)))[0][0]


def convert_edge(number, given, expected, length, fill):
    refusal, output = (expected, b'') if isinstance(expected, tuple) else (None, bytes_of(expected))
    return converted(number, given, length, fill, refusal, output)


def read_edge(number, given, expected, length=9315, fill=0xa5):
    return convert_edge(number, given, expected, length, fill)


def write_edge(number, given, expected, length=18636, fill=0xa5):
    return convert_edge(number, given, expected, length, fill)


# the files of an act's cases: each has a name, the number of its first case, its cases and their coder
EDGES = {'check': [('check_edges', 60000, CHECK_EDGES, check_edge)],
         'judge': [('judge_edges', 61000, JUDGE_EDGES, buffer_edge), ('judge_assumed', 61500, JUDGE_ASSUMED, buffer_edge)],
         'weigh': [('weigh_edges', 61200, WEIGH_EDGES, buffer_edge), ('weigh_assumed', 61700, WEIGH_ASSUMED, buffer_edge)],
         'deficiency': [('deficiency_edges', 61800, DEFICIENCY_EDGES, deficiency_edge)],
         'walk': [('walk_edges', 62000, WALK_EDGES, walk_edge), ('walk_assumed', 62300, WALK_ASSUMED, walk_edge)],
         'wait': [('wait_edges', 62600, WAIT_EDGES, waiting)],
         'list': [('list_edges', 63100, LIST_EDGES, list_edge)],
         'page': [('page_edges', 63800, PAGE_EDGES, page_edge)],
         'printed': [('printed_edges', 63000, PRINTED_EDGES, printed_text)],
         'formulas': [('formulas_edges', 63200, FORMULA_EDGES, formula_edge)],
         'read_text': [('read_text_edges', 64000, READ_TEXT_EDGES, read_edge)],
         'write_text': [('write_text_edges', 65000, WRITE_TEXT_EDGES, write_edge)]}


def edge_vectors(first, cases, coder):
    return [coder(number, bytes_of(given), *case) for number, (given, *case) in enumerate(cases, first)]


def files_of(name, names, groups):
    """The groups joined into as few files as the limit allows, in order, each whole in a file, by the files' names; and how many vectors
    these have. What the last file has no room for is left out."""
    files, had = [b''], 0
    for group in groups:
        if LIMIT < len(files[-1]) + sum(map(len, group)):
            if len(files) == len(names):
                print(f'{name}: {sum(map(len, groups)) - had} vectors are left out: they take more than {len(names)} files')
                break
            files.append(b'')
        files[-1] += b''.join(group)
        had += len(group)
    return dict(zip(names, files)), had


def written_again(number, given):
    """A readable input is written."""
    formula = read(given)
    return [[converted(number, given, 18636, 0xa5, None, text_of(*formula))]] if formula else []


def read_again(number, given):
    """And its text is read."""
    formula = read(given)
    return [[converted(number, text_of(*formula), 9315, 0xa5, None, bytes.fromhex(encoded(*formula)))]] if formula else []


def groups_of(lines):
    """By act, and for formulas, the groups of vectors that stand together."""
    groups = {act: [] for act in [*ACTS, 'formulas']}
    inputs, lists = set(), set()

    def add(name, coder, number, given):
        try:
            groups[name] += coder(number, given)
        except DoesNotFit as why:
            print(f'{name}: vector {number} is left out: {why}')

    for number, line in enumerate(lines, 1):
        if LINES < number:
            print(f'the vectors behind line {LINES:,} are left out')
            break
        v = json.loads(line)
        act = NAMES.get(v['act'], v['act'])
        if act in ACTS:
            add(act, ACTS[act], number, v)
        if act == 'judge':
            add('weigh', weigh_vector, number, v)
            add('deficiency', deficiency_judged, number, v)
        if act == 'chain':
            add('wait', wait_vector, number, v)
        if act == 'listing':
            add('list', list_vector, number, v)
        if 'sheet' in v or 'stdin' in v:
            given, assumed = assumed_input(v) if 'sheet' in v else (bytes.fromhex(v['stdin'])[:READ], b'')
            if (given, assumed) not in lists:
                lists.add((given, assumed))
                add('formulas', formula_vector, number, (given, assumed))
            if given not in inputs:
                inputs.add(given)
                add('write_text', written_again, number, given)
                add('read_text', read_again, number, given)
    return groups


def main():
    with open(sys.argv[1], encoding='utf-8') as lines:
        groups = groups_of(lines)
    # what is written: a name, the names of its files, its groups of vectors, and what they are
    sets = []
    for act, found in groups.items():
        names = [act] if act == 'start' else [act + letter for letter in LETTERS]
        sets.append((act, names, found, UNITS.get(act, 'vectors')))
        for name, *edges in EDGES.get(act, []):
            vectors = edge_vectors(*edges)
            if LIMIT < sum(map(len, vectors)):
                sys.exit(f'{name}: the edge cases take more than a file')
            sets.append((name, [name], [[v] for v in vectors], 'vectors'))
    files, report = {}, ''
    for name, names, found, unit in sets:
        written, had = files_of(name, names, found)
        files |= written
        report += f'{name}: {had} {unit}, 0 differences\n'
    data = CASES / 'data'
    data.mkdir(parents=True, exist_ok=True)
    for old in data.iterdir():
        old.unlink()
    for name, content in sorted(files.items()):
        (data / name).write_bytes(content)
        print(f'{name}: {len(content)} bytes')
    (CASES / 'stdout').write_text(report)


if __name__ == '__main__':
    main()

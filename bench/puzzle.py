"""A puzzle solver for `matching`: grids of 12 by 12 cells, in which each row, column and box of 3 by 4 cells holds each of
the values 1 to 12 once (1 to 9 and a to c in the grids below). An element says that a cell may hold a value. 104 rules,
each for one way to see that a cell can't, remove one such element at a time. They stand in stages, the simple ones first.
The rules of both languages come from one list, condition by condition. A grid has one solution, so it does not matter in
which order the rules of a stage fire."""

import itertools

UNITS = ['row', 'column', 'box']
PAIRS = list(itertools.combinations(UNITS, 2))
ENDS = list(itertools.product(UNITS, UNITS))
SIZE, HEIGHT, WIDTH = 12, 3, 4

# The singles alone solve it.
EASY = """
...2....8.4.
.4....37b...
5...894.6..2
671.9c..28a4
...c..a8....
.a.41.76.b5.
....c76....5
9...3a.2.16.
1...45..3.8a
3278.6.c....
c156....7...
.9...823..1.
"""

# It needs each stage but the last one.
HARD = """
2..9......ca
3.6....25...
.7.8..a.4..1
79..5...31.c
1c36...7b..8
a........7..
....ba..193.
.61....8...5
c5..3....8..
..87.c.6...3
.bc.1.......
4...7....6..
"""


def may(**tests):
    """A condition on a value that a cell may hold."""
    return '', tests


def never(**tests):
    """A negated condition."""
    return '-', tests


def out(**tests):
    """A condition on the element that the rule removes."""
    return 'out', tests


def both(*places):
    """The tests of the places. Two in one attribute have to hold both."""
    tests = {}
    for unit, test in places:
        tests[unit] = f'{tests[unit]} {test}' if unit in tests else test
    return tests


def singles():
    """A cell with one value left, and a value with one cell left in a unit."""
    for unit in UNITS:
        yield [may(cell='<a>', value='<v>', **{unit: '<u>'}), never(cell='<a>', value='<> <v>'),
               out(cell='<> <a>', value='<v>', **{unit: '<u>'})]
        yield [may(cell='<a>', value='<v>', **{unit: '<u>'}), never(cell='<> <a>', value='<v>', **{unit: '<u>'}),
               out(cell='<a>', value='<> <v>')]


def locked():
    """A value of one unit that lies within another one."""
    for one, other in [('box', 'row'), ('box', 'column'), ('row', 'box'), ('column', 'box')]:
        yield [may(value='<v>', **{one: '<u>', other: '<w>'}), never(value='<v>', **{one: '<u>', other: '<> <w>'}),
               out(value='<v>', **{one: '<> <u>', other: '<w>'})]


def pairs():
    """Two cells of a unit with the same two values left, and two values with the same two cells of a unit left."""
    for unit, value in itertools.product(UNITS, ['<v>', '<w>']):
        here = {unit: '<u>'}
        yield [may(cell='<a>', value='<v>', **here), may(cell='<a>', value='<w> > <v>'),
               never(cell='<a>', value='<> <v> <> <w>'),
               may(cell='<b> > <a>', value='<v>', **here), may(cell='<b>', value='<w>'),
               never(cell='<b>', value='<> <v> <> <w>'),
               out(cell='<> <a> <> <b>', value=value, **here)]
    for unit, cell in itertools.product(UNITS, ['<a>', '<b>']):
        here = {unit: '<u>'}
        yield [may(cell='<a>', value='<v>', **here), may(cell='<b> > <a>', value='<v>', **here),
               never(cell='<> <a> <> <b>', value='<v>', **here),
               may(cell='<a>', value='<w> > <v>'), may(cell='<b>', value='<w>'),
               never(cell='<> <a> <> <b>', value='<w>', **here),
               out(cell=cell, value='<> <v> <> <w>')]


def triples():
    """Three values in three cells, one of which has two of them; and three values that lie in three cells."""
    for unit, value in itertools.product(UNITS, ['<v>', '<w>', '<x>']):
        here, others = {unit: '<u>'}, '<> <v> <> <w> <> <x>'
        yield [may(cell='<a>', value='<v>', **here), may(cell='<a>', value='<w> > <v>'),
               never(cell='<a>', value='<> <v> <> <w>'),
               may(cell='<b> <> <a>', value='<x> <> <v> <> <w>', **here), never(cell='<b>', value=others),
               may(cell='<c> <> <a> > <b>', value='<x>', **here), never(cell='<c>', value=others),
               out(cell='<> <a> <> <b> <> <c>', value=value, **here)]
    for unit, cell in itertools.product(UNITS, ['<a>', '<b>', '<c>']):
        here, others = {unit: '<u>'}, '<> <a> <> <b> <> <c>'
        yield [may(cell='<a>', value='<v>', **here), may(cell='<b> > <a>', value='<v>', **here),
               never(cell='<> <a> <> <b>', value='<v>', **here),
               may(cell='<c> <> <a> <> <b>', value='<w> <> <v>', **here), never(cell=others, value='<w>', **here),
               may(cell='<c>', value='<x> <> <v> > <w>', **here), never(cell=others, value='<x>', **here),
               out(cell=cell, value='<> <v> <> <w> <> <x>')]


def wings():
    """A value that lies in the same two columns of two rows, and the other way round; and in three."""
    for one, other in [('row', 'column'), ('column', 'row')]:
        for line in ['<c>', '<d>']:
            yield [may(value='<v>', **{one: '<r>', other: '<c>'}), may(value='<v>', **{one: '<r>', other: '<d> > <c>'}),
                   never(value='<v>', **{one: '<r>', other: '<> <c> <> <d>'}),
                   may(value='<v>', **{one: '<s> > <r>', other: '<c>'}), may(value='<v>', **{one: '<s>', other: '<d>'}),
                   never(value='<v>', **{one: '<s>', other: '<> <c> <> <d>'}),
                   out(value='<v>', **{one: '<> <r> <> <s>', other: line})]
        for line in ['<c>', '<d>', '<e>']:
            others = '<> <c> <> <d> <> <e>'
            yield [may(value='<v>', **{one: '<r>', other: '<c>'}), may(value='<v>', **{one: '<r>', other: '<d> > <c>'}),
                   never(value='<v>', **{one: '<r>', other: '<> <c> <> <d>'}),
                   may(value='<v>', **{one: '<s> <> <r>', other: '<e> <> <c> <> <d>'}),
                   never(value='<v>', **{one: '<s>', other: others}),
                   may(value='<v>', **{one: '<t> <> <r> > <s>', other: '<e>'}),
                   never(value='<v>', **{one: '<t>', other: others}),
                   out(value='<v>', **{one: '<> <r> <> <s> <> <t>', other: line})]


def bent():
    """A cell of two values, and two cells that share one of them each with it, and a third value with each other."""
    for (first, second), (third, fourth) in itertools.product(PAIRS, ENDS):
        one, other = ('<g>' if third == first else '<i>'), ('<h>' if fourth == second else '<j>')
        yield [may(cell='<a>', value='<v>', **{first: '<g>', second: '<h>'}), may(cell='<a>', value='<w> <> <v>'),
               never(cell='<a>', value='<> <v> <> <w>'),
               may(cell='<b> <> <a>', value='<v>', **{first: '<g>', third: one}),
               may(cell='<b>', value='<x> <> <v> <> <w>'), never(cell='<b>', value='<> <v> <> <x>'),
               may(cell='<c> <> <a> <> <b>', value='<w>', **{second: '<h>', fourth: other}),
               may(cell='<c>', value='<x>'), never(cell='<c>', value='<> <w> <> <x>'),
               out(cell='<> <a> <> <b> <> <c>', value='<x>', **both((third, one), (fourth, other)))]


def chains():
    """A value that has two cells left in a unit and two in another one, where one cell of each can't hold it together."""
    links = [('row', 'column', 'row'), ('column', 'row', 'column'), ('row', 'box', 'column')]
    for (first, middle, last), (third, fourth) in itertools.product(links, ENDS):
        one, other = ('<g>' if third == first else '<i>'), ('<k>' if fourth == last else '<j>')
        yield [may(cell='<a>', value='<v>', **{first: '<g>', third: one}),
               may(cell='<b> <> <a>', value='<v>', **{first: '<g>', middle: '<h>'}),
               never(cell='<> <a> <> <b>', value='<v>', **{first: '<g>'}),
               may(cell='<c> <> <a> <> <b>', value='<v>', **{middle: '<h>', last: '<k>'}),
               may(cell='<d> <> <a> <> <b> <> <c>', value='<v>', **{last: '<k>', fourth: other}),
               never(cell='<> <c> <> <d>', value='<v>', **{last: '<k>'}),
               out(cell='<> <a> <> <b> <> <c> <> <d>', value='<v>', **both((third, one), (fourth, other)))]


STAGES = [singles, locked, pairs, wings, triples, bent, chains]


def ops_condition(sign, tests):
    terms = ' '.join(f'^{name} ' + ('{ ' + test + ' }' if ' ' in test else test) for name, test in tests.items())
    pattern = f'(candidate {terms})'
    return '{ <out> ' + pattern + ' }' if sign == 'out' else f'{sign} {pattern}'


def clips_condition(sign, tests):
    terms = ' '.join(f'({name} {clips_test(test.split())})' for name, test in tests.items())
    pattern = f'(candidate {terms})'
    return {'': pattern, '-': f'(not {pattern})', 'out': f'?out <- {pattern}'}[sign]


def clips_test(words):
    """`<w> <> <v> > <u>` is ?w&~?v&:(> ?w ?u)."""
    names = [f'?{word[1:-1]}' for word in words]
    done, place = [], 0
    while place < len(words):
        sign = words[place] if words[place] in ('<>', '>') else ''
        place += bool(sign)
        done.append({'': names[place], '<>': f'~{names[place]}', '>': f':(> {names[0]} {names[place]})'}[sign])
        place += 1
    return '&'.join(done)


def rules():
    """Both texts of each rule. After a find in a later stage the first one begins again."""
    for stage, technique in enumerate(STAGES, 1):
        again = ['(modify <stage> ^now 1)', '(modify ?stage (now 1))'] if stage > 1 else ['', '']
        for number, conditions in enumerate(technique(), 1):
            name = f'{technique.__name__}-{number}'
            yield (f'(p {name} {{ <stage> (stage ^now {stage}) }}\n    '
                   + '\n    '.join(ops_condition(*one) for one in conditions) + f'\n  --> (remove <out>) {again[0]})\n',
                   f'(defrule {name} ?stage <- (stage (now {stage}))\n    '
                   + '\n    '.join(clips_condition(*one) for one in conditions) + f'\n  => (retract ?out) {again[1]})\n')


def cells(text):
    """The attributes of each value that a cell of the grid may hold. A dot stands for an empty cell."""
    for cell, mark in enumerate(''.join(text.split())):
        row, column = divmod(cell, SIZE)
        box = row // HEIGHT * (SIZE // WIDTH) + column // WIDTH
        for value in range(1, SIZE + 1) if mark == '.' else [int(mark, SIZE + 1)]:
            yield dict(cell=cell, row=row, column=column, box=box, value=value)


def programs(text):
    """The programs for OPS5 and for CLIPS. Both print each cell with its value."""
    last = len(STAGES) + 1
    ops = '(literalize candidate cell row column box value)\n(literalize stage now)\n(literalize cursor cell)\n'
    clips = '(deftemplate candidate (slot cell) (slot row) (slot column) (slot box) (slot value))\n'
    clips += '(deftemplate stage (slot now))\n(deftemplate cursor (slot cell))\n'
    for one, other in rules():
        ops, clips = ops + one, clips + other
    ops += f'(p next {{ <stage> (stage ^now {{ <n> < {last} }}) }} --> (modify <stage> ^now (compute <n> + 1)))\n'
    ops += f'(p show (stage ^now {last}) {{ <k> (cursor ^cell <a>) }} (candidate ^cell <a> ^value <v>)\n'
    ops += '  --> (write <a> <v> (crlf)) (modify <k> ^cell (compute <a> + 1)))\n'
    clips += f'(defrule next (declare (salience -1)) ?stage <- (stage (now ?n&:(< ?n {last})))\n'
    clips += '  => (modify ?stage (now (+ ?n 1))))\n'
    clips += f'(defrule show (stage (now {last})) ?k <- (cursor (cell ?a)) (candidate (cell ?a) (value ?v))\n'
    clips += '  => (printout t ?a " " ?v crlf) (modify ?k (cell (+ ?a 1))))\n'
    for one in cells(text):
        ops += '(make candidate ' + ' '.join(f'^{name} {value}' for name, value in one.items()) + ')\n'
    ops += '(make cursor ^cell 0)\n(make stage ^now 1)\n'
    clips += '(deffacts first ' + '\n'.join('(candidate ' + ' '.join(f'({name} {value})' for name, value in one.items()) + ')'
                                           for one in cells(text)) + '\n(cursor (cell 0)) (stage (now 1)))\n'
    return ops, clips

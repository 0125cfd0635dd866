#!/usr/bin/env python3
"""Turns cases.txt into `stdin`, the lines that the program reads, and `stdout`, the expected output.

The expected values are those of the text. Run it in this folder after a change of the text.
"""
import re

# The cells in the library's order, and how many hexadecimal digits are printed of each.
NAMED = [('ACC', 8), ('P', 8), ('T', 4), ('PC', 4), ('PFC', 4)] + [('AR%d' % at, 4) for at in range(8)]
NAMED += [('ARP', 1), ('ARB', 1), ('DP', 3), ('PM', 1), ('OV', 1), ('OVM', 1), ('SXM', 1), ('C', 1), ('CNF', 1), ('MID', 1), ('RPTC', 2)]
NAMED += [('S%d' % at, 4) for at in range(8)] + [('ICUR', 3), ('OCUR', 3)]
# The places that a case may name: the number that the program knows each by, and those digits.
CELLS = {name: (0x4000 + at, digits) for at, (name, digits) in enumerate(NAMED)}
CELLS.update({'ANS': (0x5000, 2), 'STEPS': (0x6000, 4), 'XR': (0x7000, 4), 'XW': (0x8000, 4)})
BANKS = {'M': (0x0000, 0xFFF), 'R': (0x1000, 0xFFF), 'I': (0x2000, 3), 'O': (0x3000, 3)}


def places(name):
    """The places of a name: a cell, a word as M501, or a run of words as M300-37F."""
    if name in CELLS:
        return [(name,) + CELLS[name]]
    found = re.fullmatch('([MRIO])([0-9A-F]+)(?:-([0-9A-F]+))?', name)
    if not found:
        raise SystemExit('no such place: ' + name)
    bank, last = BANKS[found[1]]
    low, high = int(found[2], 16), int(found[3] or found[2], 16)
    if not low <= high <= last:
        raise SystemExit('no such place: ' + name)
    return [('%s%X' % (found[1], at), bank + at, 4) for at in range(low, high + 1)]


def pairs(text):
    words = text.split()
    if len(words) % 2:
        raise SystemExit('a place without its value: ' + text)
    return [(place, int(value, 16)) for name, value in zip(words[::2], words[1::2]) for place in places(name)]


def act(kind, place=0, value=0, label=''):
    line = '%s %04X %08X %-15s\n' % (kind, place, value, label)
    if len(line) != 32:
        raise SystemExit('too long: ' + line)
    return line


def case(line):
    """The lines that the program reads for one case, and the line that it is to print."""
    name, page, program, cells = [part.strip() for part in line.split('|')]
    before, after = [pairs(part) for part in cells.split('->')]
    words = program.split()
    steps = int(words.pop()[1:], 16) if words and words[-1][0] == 'x' else None
    counted = any(place[0] in ('XR', 'XW') for place, _ in after)
    if steps is None and any(place[0] == 'STEPS' for place, _ in after):
        raise SystemExit('only a run counts its steps: ' + line)
    start = dict((place[0], value) for place, value in before).get('PC', 0)
    asked = [act('N', label=name)]
    asked += [act('S', 0x1000 + start + at, int(word, 16)) for at, word in enumerate(words)]
    asked += [act('S', place[1], value) for place, value in before]
    asked += [act('W', value=1 if steps is None else steps) if counted else act('T') if steps is None else act('R', value=steps)]
    if not any(place[0] == 'ANS' for place, _ in after):
        after.insert(0, (places('ANS')[0], 0))
    printed = '%-15s' % name
    for (label, place, digits), value in after:
        asked.append(act('P', place, digits, '%7s' % (label + '=')))
        printed += '%7s%0*x' % (label + '=', digits, value)
    return ''.join(asked) + act('E'), printed + '\n'


if __name__ == '__main__':
    lines = [line for line in open('cases.txt') if line.strip() and line[0] != '#']
    cases = [case(line) for line in lines]
    if len(cases) > 600:
        raise SystemExit('the program runs 600 cases at most')
    open('stdin', 'w').write(''.join(asked for asked, _ in cases))
    open('stdout', 'w').write(''.join(printed for _, printed in cases))

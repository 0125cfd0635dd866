#!/usr/bin/env python3
"""Says which of the guide's flag rules the cases of cases.txt do not show both ways.

A page that names C or OV as affected must have a case that leaves the flag 1 and one that leaves it 0; a page that
names OVM, SXM or OV as affecting it must have a case that starts with the flag 1 and one with 0. Prints what is
missing, and how many cases each page has; exits 1 where something is missing.
"""
import re
import sys

# "Affects" and "affected by" of the pages of section 4.3, of the instructions of the base.
SUMS = ('ABS ADD ADDH ADDK ADDS APAC LTA LTD LTS MAC MACD MPYA MPYS NEG SPAC SQRA SQRS SUB SUBC SUBH SUBK SUBS').split()
LEAVES = {'C': SUMS + ['SFL', 'SFR'], 'OV': SUMS + ['BV', 'BNV']}
TAKES = {'OVM': [page for page in SUMS if page != 'SUBC'], 'SXM': ['ADD', 'LAC', 'SFR', 'SUB', 'SUBC'], 'OV': ['BV', 'BNV']}
# What a page cannot leave (rulings R19 and R23): ABS leaves C 0, and BV and BNV leave OV 0.
NEVER = {('ABS', 'C', 1), ('BV', 'OV', 1), ('BNV', 'OV', 1)}
RESET = {'OV': 0, 'OVM': 0, 'SXM': 1, 'C': 1}
PAGES = ('ADD SUB LAC ADDH ADDS SUBH SUBS SUBC ZALH ZALS AND OR XOR SACL SACH LT LTA LTP LTD LTS MPY MPYA MPYS MPYK SQRA '
         'SQRS MAC MACD PAC APAC SPAC SPL SPH SPM LAR SAR LARK MAR ADRK SBRK LDP LDPK LACK ADDK SUBK CMPL NEG ABS SFL SFR '
         'B BANZ BZ BNZ BGZ BGEZ BLZ BLEZ BV BNV CALL RET PUSH POP SOVM ROVM SSXM RSXM CNFD CNFP RPT RPTK DMOV IN OUT').split()


def flags(text):
    words = text.split()
    return {name: int(value, 16) for name, value in zip(words[::2], words[1::2]) if name in RESET}


def seen():
    """Of each page: how many cases it has, and each flag before and after in one of them."""
    count, before_of, after_of = dict.fromkeys(PAGES, 0), set(), set()
    for line in open('cases.txt'):
        if not line.strip() or line[0] == '#':
            continue
        name, _, _, cells = [part.strip() for part in line.split('|')]
        page = re.match('[A-Z]*', name)[0]
        if page not in count:
            continue
        before, after = [flags(part) for part in cells.split('->')]
        count[page] += 1
        before_of |= {(page, flag, before.get(flag, value)) for flag, value in RESET.items()}
        after_of |= {(page, flag, value) for flag, value in after.items()}
    return count, before_of, after_of


if __name__ == '__main__':
    count, before_of, after_of = seen()
    wanted = [(page, flag, value) for flag, pages in LEAVES.items() for page in pages for value in (0, 1)]
    missing = ['%s that leaves %s %d' % one for one in wanted if one not in after_of and one not in NEVER]
    wanted = [(page, flag, value) for flag, pages in TAKES.items() for page in pages for value in (0, 1)]
    missing += ['%s from %s %d' % one for one in wanted if one not in before_of]
    missing += ['a second case of %s' % page for page in PAGES if count[page] < 2]
    print('\n'.join(missing) or '%d pages, %d cases: each flag rule both ways' % (len(count), sum(count.values())))
    sys.exit(bool(missing))

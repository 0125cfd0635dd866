#!/usr/bin/env python3
"""Writes the run files of the examples into crates/examples/data, from the words below.

    python3 examples/make.py

Each word has its instruction beside it. The lines that the files must print are in README.md here; they are worked out from the
documents, and this script does not know them.
"""
import os

HERE = os.path.dirname(os.path.abspath(__file__))
OUT = os.path.join(HERE, '..', 'crates', 'examples', 'data')
MINUS = 0x8000  # -32768


def words(numbers):
    return b''.join(n.to_bytes(2, 'little') for n in numbers)


def run_file(program, budget, data=(), input=()):
    at_data = 16 + 2 * len(program)
    at_input = at_data + 2 * len(data)
    head = [1, len(program), 16, len(data), at_data, len(input), at_input, budget]
    return words(head) + words(program) + words(data) + words(input)


def stack_of_frames(n, overflow_mode):
    """n frames of -32768, each with a weight of -32768: the weights in ROM from 0020h, the frames in external RAM from 0400h."""
    program = [
        overflow_mode,          # SOVM or ROVM
        0xCE0B,                 # SPM 3: products shifted right by 6
        0xC806,                 # LDPK 6: page 0300h, block B1
        0xCA04, 0x6000,         # LACK 4; SACL 0
        0x2800, 0x6000,         # LAC 0,8; SACL 0: 0400h
        0x3100,                 # LAR AR1,0: where the frames are
        0xCA00, 0xA000,         # LACK 0; MPYK 0: ACC and P are 0
        0x5589,                 # LARP 1
        0xCB00 + n - 1,         # RPTK n - 1
        0x5DA0, 0x0020,         # MAC 0020h,*+
        0xCE15,                 # APAC
        0x6801, 0xE101,         # SACH 1; OUT 1,1: the upper half of the sum
        0x6002, 0xE102,         # SACL 2; OUT 2,1: the lower half
    ]
    program += [0] * (0x20 - len(program)) + [MINUS] * n
    return run_file(program, 17 + n, data=[MINUS] * n)


def copy(input):
    """IN to OUT round a loop, up to a word that is 0: four words."""
    return run_file([
        0xC806,          # LDPK 6
        0x8000,          # IN 0,0
        0xE100,          # OUT 0,1
        0x2000,          # LAC 0
        0xF580, 0x0001,  # BNZ 0001h
    ], 4 * 4 + 1, input=input)


# every section at its most, 16,400 bytes; the last word of each is used
LARGEST = run_file(
    [
        0xC808,          # LDPK 8: page 0400h, the first data words
        0x5589,          # LARP 1
        0x3100,          # LAR AR1,0: 0FFFh, where the last data word is
        0xE180,          # OUT *,1
        0x3101,          # LAR AR1,1: 0800h
    ] + 4 * [
        0xCBFF, 0x80A0,  # RPTK 255; IN *+,0: 256 words
    ] + [
        0x5590, 0xE180,  # MAR *-; OUT *,1: the last input word
        0xFF80, 0x0FFF,  # B 0FFFh
    ] + (0xFFF - 17) * [0] + [
        0xCA5A,          # LACK 5Ah: the last program word
    ], 1037, data=[0x0FFF, 0x0800] + 3069 * [0] + [0xDA7A], input=1023 * [0] + [0x1A57])

EXAMPLES = {
    # document 01's own file
    'first': run_file([
        0xCA05,  # LACK 5
        0xCC07,  # ADDK 7
        0xC806,  # LDPK 6: page 0300h, block B1
        0x6000,  # SACL 0
        0xE100,  # OUT 0,1
    ], 5),
    'frames-127-held': stack_of_frames(127, 0xCE03),
    'frames-127-free': stack_of_frames(127, 0xCE02),
    'frames-128-held': stack_of_frames(128, 0xCE03),
    'frames-128-free': stack_of_frames(128, 0xCE02),
    # three weights in B0, which CNFP makes program memory at FF00h; MACD multiplies and moves the samples in B1 one on
    'convolution': run_file([
        0xC804,          # LDPK 4: page 0200h, block B0
        0xCA02, 0x6000,  # LACK 2; SACL 0: weight 2
        0xCA03, 0x6001,  # LACK 3; SACL 1: weight 3
        0xCA05, 0x6002,  # LACK 5; SACL 2: weight 5
        0xC806,          # LDPK 6: page 0300h, block B1
        0x8000,          # IN 0,0: the newest sample
        0x8001,          # IN 1,0
        0x8002,          # IN 2,0: the oldest sample
        0xCA03, 0x6004,  # LACK 3; SACL 4
        0x2804, 0x6004,  # LAC 4,8; SACL 4: 0300h
        0xCA02, 0x0004,  # LACK 2; ADD 4: 0302h
        0x6004,          # SACL 4
        0x3104,          # LAR AR1,4
        0xCE05,          # CNFP: B0 answers at FF00h
        0xCA00, 0xA000,  # LACK 0; MPYK 0
        0x5589,          # LARP 1
        0xCB02,          # RPTK 2
        0x5C90, 0xFF00,  # MACD FF00h,*-: three passes, down from the oldest sample
        0xCE15,          # APAC
        0x6005, 0xE105,  # SACL 5; OUT 5,1: the sum
        0xE101, 0xE102, 0xE103,  # OUT: the samples, each one further on
    ], 33, input=[7, 11, 13]),
    # 1000 / 7: sixteen passes of SUBC
    'division': run_file([
        0xC806,          # LDPK 6
        0x8000, 0x8001,  # IN 0,0; IN 1,0: 1000 and 7
        0x4100,          # ZALS 0
        0xCB0F,          # RPTK 15
        0x4701,          # SUBC 1
        0x6002, 0xE102,  # SACL 2; OUT 2,1: the quotient
        0x6803, 0xE103,  # SACH 3; OUT 3,1: the remainder
    ], 25, input=[1000, 7]),
    # the last word is missing, and the same run with all words
    'copy': copy([0x1234, 0xABCD, 0xFFFF]),
    'copy-whole': copy([0x1234, 0xABCD, 0xFFFF, 0]),
    'largest': LARGEST,
    # 1,024 words sent in 10,000 steps or more, then refused by 10: 5,145 bytes
    'longest': run_file([
        0xC806,          # LDPK 6
        0xCC01, 0x6000,  # ADDK 1; SACL 0
        0xCB0F, 0x5500,  # RPTK 15; NOP
        0xE100,          # OUT 0,1
        0xFF80, 0x0001,  # B 0001h
    ], 65535),
    'refused-3': run_file([0xCA01, 0x00B0], 5),   # LACK 1; an indirect field of 011 is in no encoding
    'refused-4': run_file([0xCA01, 0xCE1F], 5),   # LACK 1; IDLE is published and not built
    'refused-5': run_file([0xFF80, 0x1000], 5),   # B 1000h: past the ROM
    'refused-6': run_file([0xC801, 0x2000], 5),   # LDPK 1; LAC 0: 0080h is absent
    'refused-7': run_file([0xCB01, 0xCA01], 5),   # RPTK 1; LACK is not repeatable
    'refused-9': run_file([0xC806, 0xE000], 5),   # LDPK 6; OUT 0,0: no such port to write to
    'refused-10': run_file([
        0xC806,          # LDPK 6
        0xCBFF, 0xE100,  # RPTK 255; OUT 0,1: 256 words
        0xFF80, 0x0001,  # B 0001h
    ], 2000),
    'refused-20': bytes([1, 0, 5]),                       # three bytes
    'refused-21': words([2, 0, 16, 0, 16, 0, 16, 0]),     # version 2
    'refused-22': run_file([0xCA05], 1) + b'\0',          # a byte past the last section
    'refused-22-largest': LARGEST + b'\0',               # a byte past the largest file
    'refused-22-long': run_file([0] * 4096, 1) + b'\0' * 60000,  # longer than any file
}

if __name__ == '__main__':
    os.makedirs(OUT, exist_ok=True)
    for name, bytes_ in EXAMPLES.items():
        with open(os.path.join(OUT, name), 'wb') as f:
            f.write(bytes_)

#!/usr/bin/env python3
"""Draws docs/crates.svg, the crates in their layers, from crates.txt.

    python3 docs/crates.py          writes the picture
    python3 docs/crates.py check    fails where the picture is not that of crates.txt

A line `## NAME: WORDS` of crates.txt begins a layer. A crate may use crates of its own layer and of layers before it: any other use is
refused. In the picture a layer stands above those that it uses, and a crate to the right of those of its layer that it uses. What follows
from other uses is not drawn.
"""
import os
import sys
from html import escape

HERE = os.path.dirname(os.path.abspath(__file__))
LIST = os.path.join(HERE, '..', 'crates.txt')
PICTURE = os.path.join(HERE, 'crates.svg')

TITLE, COLUMN, BETWEEN, ROW, BOX, GAP = 300, 160, 28, 28, 20, 16
STYLE = ('text{font:12px sans-serif}.name{font-weight:bold;font-size:14px}.layer{fill:#f2f2f2}'
         '.crate{fill:#fff;stroke:#333}path{stroke:#888;fill:none}')


def read(path):
    """The layers in order, each its name, its words and its crates; and what each crate uses, the toolchain's libraries left out."""
    layers, uses = [], {}
    for line in open(path, encoding='utf-8'):
        if line.startswith('## '):
            name, _, words = line[3:].strip().partition(': ')
            layers.append((name, words, []))
        crate, is_crate, used = line.split('#')[0].partition(':')
        if is_crate:
            crate = crate.split()[0]  # without `staticlib`
            if not layers:
                sys.exit(f'crates.txt: {crate} stands in no layer')
            layers[-1][2].append(crate)
            uses[crate] = used.split()
    return layers, {crate: [u for u in used if u in uses] for crate, used in uses.items()}


def refuse_later_layers(layers, uses, layer_of):
    wrong = [f'crates.txt: {crate} ({layers[layer_of[crate]][0]}) uses {u} of a later layer ({layers[layer_of[u]][0]})'
             for crate in uses for u in uses[crate] if layer_of[u] > layer_of[crate]]
    if wrong:
        sys.exit('\n'.join(wrong))


def reduced(uses):
    """Without the uses that follow from others."""
    below = {}

    def all_below(one):
        if one not in below:
            below[one] = set(uses[one]).union(*(all_below(u) for u in uses[one]))
        return below[one]

    return {one: [u for u in used if not any(u in all_below(v) for v in used)] for one, used in uses.items()}


def within(crates, uses):
    """What the crates of a layer use of each other."""
    return reduced({c: [u for u in uses[c] if u in crates] for c in crates})


def columns(uses):
    """The column of each crate of a layer: after those of all that it uses."""
    column = {}

    def of(crate):
        if crate not in column:
            column[crate] = max((of(u) + 1 for u in uses[crate]), default=0)
        return column[crate]

    for crate in uses:
        of(crate)
    return column


def line(x, y, to_x, to_y):
    """From a crate to one that uses it; between the rows, where other columns stand between them."""
    if to_x - x == BETWEEN:
        return f'<path d="M{x} {y}L{to_x} {to_y}"/>'
    return f'<path d="M{x} {y}L{x + BETWEEN} {y + ROW // 2}H{to_x - BETWEEN}L{to_x} {to_y}"/>'


def layer_picture(name, words, stands_on, uses, top, width):
    """The elements of one layer, and its height."""
    column, count, left, middle = columns(uses), {}, {}, {}
    for crate in uses:
        row = count.get(column[crate], 0)
        count[column[crate]] = row + 1
        left[crate] = TITLE + column[crate] * COLUMN
        middle[crate] = top + (GAP + ROW) // 2 + row * ROW
    height = max(2, *count.values()) * ROW + GAP
    out = [f'<rect x="0" y="{top}" width="{width}" height="{height}" class="layer"/>',
           f'<text x="12" y="{top + 22}" class="name">{escape(name)}</text>',
           f'<text x="12" y="{top + 40}">{escape(words)}</text>']
    if stands_on:
        out.append(f'<text x="12" y="{top + 56}">on {escape(", ".join(stands_on))}</text>')
    out += [line(left[u] + COLUMN - BETWEEN, middle[u], left[c], middle[c]) for c in uses for u in uses[c]]
    for crate in uses:
        out.append(f'<rect x="{left[crate]}" y="{middle[crate] - BOX // 2}" width="{COLUMN - BETWEEN}" height="{BOX}" class="crate"/>')
        out.append(f'<text x="{left[crate] + 8}" y="{middle[crate] + 4}">{escape(crate)}</text>')
    return out, height


def picture(layers, uses, layer_of):
    names = [name for name, _, _ in layers]
    on = reduced({i: sorted({layer_of[u] for c in crates for u in uses[c]} - {i}) for i, (_, _, crates) in enumerate(layers)})
    inner = [within(crates, uses) for _, _, crates in layers]
    width = TITLE + COLUMN * (1 + max(max(columns(i).values()) for i in inner))
    out, top = [], 0
    for i in reversed(range(len(layers))):
        elements, height = layer_picture(names[i], layers[i][1], [names[j] for j in on[i]], inner[i], top, width)
        out += elements
        top += height + 4
    head = f'<svg xmlns="http://www.w3.org/2000/svg" viewBox="0 0 {width} {top}" width="{width}" height="{top}" role="img" aria-label="The crates in their layers">'
    return '\n'.join([head, f'<style>{STYLE}</style>', *out, '</svg>', ''])


def is_drawn(drawn):
    return os.path.exists(PICTURE) and open(PICTURE, encoding='utf-8').read() == drawn


def main():
    layers, uses = read(LIST)
    layer_of = {crate: i for i, (_, _, crates) in enumerate(layers) for crate in crates}
    refuse_later_layers(layers, uses, layer_of)
    drawn = picture(layers, uses, layer_of)
    if sys.argv[1:] == ['check']:
        if not is_drawn(drawn):
            sys.exit('docs/crates.svg is not that of crates.txt: run python3 docs/crates.py')
    elif sys.argv[1:]:
        sys.exit('usage: crates.py [check]')
    else:
        open(PICTURE, 'w', encoding='utf-8').write(drawn)


if __name__ == '__main__':
    main()

"""Prints, as Markdown tables, what the kit's contracts.py found changed between two checkouts: signatures,
clauses, definitions and statements of specs/, and what is gone. docs/DESIGN-PASS.md ends with its output.

    python3 KIT/port/contracts.py BEFORE NOW --json >changes.json
    python3 tools/side_by_side.py changes.json
"""
import json
import sys


def cell(text):
    text = ' '.join(text.split()).replace('|', '\\|')
    return '`%s`' % text.replace('`', "'") if text else ''


def name(place):
    words = place.split(' src/', 1)
    if len(words) == 1:
        return place
    rest = words[1].split(' ', 1)
    file = rest[0].rsplit('.', 1)[0]
    return '%s:%s' % (words[0], ('' if file in ('lib', 'main') else file + '::') + rest[1])


def clauses(pairs, word):
    return ' '.join('%s%s { %s }' % (word, ' ' + label if label else '', fact) for label, fact in pairs)


def table(title, rows, heads=('Place', 'Before', 'Now')):
    print('\n### %s\n' % title)
    print('| ' + ' | '.join(heads) + ' |')
    print('|' + '---|' * len(heads))
    for row in rows:
        print('| ' + ' | '.join(row) + ' |')


def main():
    found = json.load(open(sys.argv[1], encoding='utf-8'))
    table('Signatures', [(name(place), cell(old), cell(new)) for place, old, new in found['signatures changed']])
    rows = []
    for place, requires, ensures, requires_now, ensures_now in found['contracts changed']:
        before, now = [], []
        for old, new, word in ((requires, requires_now, 'requires'), (ensures, ensures_now, 'ensures')):
            if old != new:
                before.append(clauses(old, word))
                now.append(clauses(new, word))
        rows.append((name(place), cell(' '.join(before)), cell(' '.join(now))))
    table('Clauses', rows)
    rows = []
    for kind in ('definitions', 'ghost items and constants'):
        for *place, old, new in found[kind].get('changed', []):
            rows.append((':'.join(place), cell(' '.join(old)), cell(' '.join(new))))
    table('Definitions and statements of specs/, constants', rows)


main()

"""Counts, in a checkout, the places in src/ that an older form of the language leaves: docs/DESIGN-PASS.md has
the counts and says what became of each place.

    python3 tools/forms.py [FOLDER] [--list]

One line a point, and with --list each place below it. What is counted:

  1  enums of the repository with a variant that carries nothing or a value and says "accepted" or "nothing",
     and functions that return a fixed number where there is no answer
  2  functions of at least four lines that are equal once names and numbers are taken away, each beyond the
     first of its kind, and those whose names differ only by a number or by encrypt and decrypt
  3  loops that count an index by hand: `while`, with an increment of a name of its test in the body
  4  functions whose whole body widens or narrows one number or compares by hand, `x as T` elsewhere, and
     functions that turn one enum into another value by a `match` alone
  5  facts of one parameter that stand in `requires` of three or more functions, and pairs of parameters that
     three or more functions take side by side
  6  a buffer with a length or a place beside it, in one parameter list
  7  parameters that choose a step: a `bool`, a Direction, a path number
  8  answers in proofs/F/Answers.antt, and their lines
"""
import collections
import glob
import os
import re
import sys

NAMES = re.compile(r'[A-Za-z_][A-Za-z_0-9]*')
WORDS = {'fn', 'pub', 'let', 'mut', 'if', 'else', 'while', 'for', 'in', 'match', 'return', 'as', 'self', 'Self', 'true', 'false', 'break'}


def plain(text):
    return re.sub(r'//[^\n]*', '', text)


def functions(folder):
    """(crate, file, line, name, head, clauses, body) of each function outside tests."""
    for path in sorted(glob.glob(os.path.join(folder, 'crates/*/src/*.rt'))):
        crate = path.split('/crates/')[1].split('/')[0]
        text = plain(open(path, encoding='utf-8').read())
        for found in re.finditer(r'^( *)(?:pub )?(?:unsafe )?(?:extern "C" )?(?:const )?fn ([a-z_0-9]+)', text, re.M):
            start = found.start()
            depth, at, opened = 0, found.end(), None
            while at < len(text):
                sign = text[at]
                if sign == '{':
                    if depth == 0:
                        opened = at
                    depth += 1
                elif sign == '}':
                    depth -= 1
                    if depth == 0:
                        before = text[:opened].rsplit('\n', 1)[-1]
                        if not re.match(r'^ *(requires|ensures)\b', before):
                            break
                elif sign == ';' and depth == 0 and not text[found.end():at].count('['):
                    opened = None
                    break
                at += 1
            if opened is None:
                continue
            head_and_clauses = text[found.start():opened]
            split = re.search(r'\n *(requires|ensures)\b', head_and_clauses)
            head = head_and_clauses[:split.start()] if split else head_and_clauses
            clauses = head_and_clauses[split.start():] if split else ''
            line = text[:start].count('\n') + 1
            yield crate, os.path.relpath(path, folder), line, found.group(2), head, clauses, text[opened:at + 1]


def shape(body):
    """The body with each name replaced by the order of its first use, and each number by one sign."""
    order = {}
    body = re.sub(r'\b(0x[0-9a-fA-F_]+|[0-9][0-9_]*)(u8|u16|u32|u64|usize)?\b', '#', body)

    def put(found):
        word = found.group(0)
        if word in WORDS:
            return word
        return '%%%d' % order.setdefault(word, len(order))

    return re.sub(r'\s+', ' ', NAMES.sub(put, body))


def parameters(head):
    """The parameters of a function, as `name: type` without `mut`."""
    name = re.search(r'fn [a-z_0-9]+', head).end()
    at = name
    if head[at:at + 1] == '<':
        depth = 0
        while True:
            depth += (head[at] == '<') - (head[at] == '>' and head[at - 1] != '-')
            at += 1
            if depth == 0:
                break
    parts, depth, word = [], 0, ''
    for before, sign in zip(head[at:], head[at + 1:]):
        if sign in ')]>' and before != '-' and before != '=':
            if sign == ')' and depth == 0:
                break
            depth -= 1
        elif sign in '([<':
            depth += 1
        if sign == ',' and depth == 0:
            parts.append(word)
            word = ''
        else:
            word += sign
    parts.append(word)
    parts = [re.sub(r'\s+', ' ', part).strip() for part in parts]
    return [re.sub(r'^mut ', '', part) for part in parts if ':' in part]


def conjuncts(clauses):
    for clause in re.findall(r'\n *requires\b[^{]*\{(.*)\}', clauses):
        depth, word = 0, ''
        for sign in clause + ' ×':
            if sign in '([':
                depth += 1
            elif sign in ')]':
                depth -= 1
            if sign == '×' and depth == 0:
                fact = word.strip()
                while fact.startswith('(') and fact.endswith(')') and fact.count('(') == fact.count(')'):
                    fact = fact[1:-1]
                yield re.sub(r'\b([a-z_]+)\.(now|old|new)\b', r'\1.now', fact)
                word = ''
            else:
                word += sign


def count(folder):
    found = {point: [] for point in range(1, 9)}
    all_functions = list(functions(folder))

    # 1
    for path in sorted(glob.glob(os.path.join(folder, 'crates/*/src/*.rt'))):
        text = plain(open(path, encoding='utf-8').read())
        for enum in re.finditer(r'enum ([A-Za-z]+) \{(.*?)\n\}', text, re.S):
            if re.search(r'\b(Accepted|Nothing|Pass|Put|Day|Date|Read)\b', enum.group(2)) and not enum.group(1).endswith(('Error', 'Refusal')):
                found[1].append('%s: enum %s' % (os.path.relpath(path, folder), enum.group(1)))
    for crate, path, line, name, head, clauses, body in all_functions:
        lines = [part.strip() for part in body.splitlines()]
        if '-> usize' in head and len(lines) > 3 and (
                any(re.fullmatch(r'return (0|4|16);', part) for part in lines) or (lines[-2] in ('0', '4', '16') if len(lines) > 2 else False)):
            found[1].append('%s:%d: fn %s returns a number for none' % (path, line, name))

    # 2
    kinds = collections.defaultdict(list)
    for crate, path, line, name, head, clauses, body in all_functions:
        if crate.startswith('show') or body.count('\n') < 5:
            continue
        kinds[shape(body)].append('%s:%d: fn %s' % (path, line, name))
    seen = set()
    for places in kinds.values():
        for place in places[1:]:
            found[2].append('%s, as %s' % (place, places[0]))
            seen.add(place)
    twins = collections.defaultdict(list)
    for crate, path, line, name, head, clauses, body in all_functions:
        if crate.startswith('show'):
            continue
        root = re.sub(r'(encrypt|decrypt|encrypted|decrypted)', '*', re.sub(r'[0-9]+', '#', name))
        if root != name:
            twins[crate, root].append('%s:%d: fn %s' % (path, line, name))
    for places in twins.values():
        for place in places[1:]:
            if place not in seen:
                found[2].append('%s, by its name as %s' % (place, places[0]))

    # 3
    for crate, path, line, name, head, clauses, body in all_functions:
        for loop in re.finditer(r'\n( *)while ([^\n]*) \{(.*?)\n\1\}', body, re.S):
            if loop.group(2).startswith('let '):
                continue
            if any(re.search(r'\b%s [+-]= ' % word, loop.group(3)) for word in NAMES.findall(loop.group(2))):
                found[3].append('%s: fn %s: while %s' % (path, name, loop.group(2)))

    # 4
    for crate, path, line, name, head, clauses, body in all_functions:
        inside = re.sub(r'\s+', ' ', body[1:-1]).strip()
        if re.fullmatch(r'\(?[a-z0-9\[\] /%*]+\)? as (u8|u16|u32|u64|usize)', inside):
            found[4].append('%s:%d: fn %s is a conversion' % (path, line, name))
        elif re.match(r'match [a-z]+ \{', inside) and inside.count('match') == 1 and inside.endswith('}') and inside.count('=>') >= 2 \
                and re.search(r'_(answer|pointed)$', name):
            found[4].append('%s:%d: fn %s turns an enum by a match' % (path, line, name))
        elif name in ('same_bytes', 'lower_of', 'higher_of'):
            found[4].append('%s:%d: fn %s compares by hand' % (path, line, name))
        for cast in re.findall(r'[^\n]*\bas (?:u8|u16|u32|u64|usize)\b[^\n]*', body):
            if not re.fullmatch(r'\(?[a-z0-9\[\] /%*]+\)? as (u8|u16|u32|u64|usize)', inside):
                found[4].append('%s: fn %s: %s' % (path, name, cast.strip()))

    # 5
    facts = collections.defaultdict(list)
    pairs = collections.defaultdict(set)
    for crate, path, line, name, head, clauses, body in all_functions:
        for fact in set(conjuncts(clauses)):
            facts[fact].append('%s:%s' % (crate, name))
        taken = parameters(head)
        for one, two in zip(taken, taken[1:]):
            if not one.startswith('rt:'):
                pairs[one.replace('&mut ', '&'), two.replace('&mut ', '&')].add('%s:%s' % (crate, name))
    for fact, places in sorted(facts.items()):
        if len(places) >= 3:
            found[5].append('fact %s: %d functions' % (fact, len(places)))
    for pair, places in sorted(pairs.items()):
        if len(places) >= 3:
            found[5].append('pair %s, %s: %d functions' % (pair + (len(places),)))

    # 6
    for crate, path, line, name, head, clauses, body in all_functions:
        taken = parameters(head)
        for one, two in zip(taken, taken[1:]):
            if re.search(r': &mut \[|: \[', one) and re.fullmatch(r'(at|n|len|done|next): usize', two):
                found[6].append('%s:%d: fn %s: %s, %s' % (path, line, name, one, two))

    # 7
    for crate, path, line, name, head, clauses, body in all_functions:
        for parameter in parameters(head):
            if re.search(r': (bool|Direction)$', parameter) or re.fullmatch(r'(p|path): u16', parameter):
                found[7].append('%s:%d: fn %s: %s' % (path, line, name, parameter))

    # 8
    for path in sorted(glob.glob(os.path.join(folder, 'crates/*/proofs/**/Answers.antt'), recursive=True)):
        text = open(path, encoding='utf-8').read()
        for answer in re.findall(r'^pub [^ ]+ : goal\.', text, re.M):
            found[8].append(os.path.relpath(path, folder))
    return found


TITLES = {
    1: 'own answers shaped as Option or Result, and numbers for none',
    2: 'twins',
    3: 'loops that count an index by hand',
    4: 'conversions and comparisons by hand',
    5: 'facts in three contracts or more, and parameters that travel together',
    6: 'buffers with a length or a place beside them',
    7: 'parameters that choose a step',
    8: 'answers to goals',
}


def main():
    folder = next((word for word in sys.argv[1:] if not word.startswith('--')), '.')
    found = count(folder)
    for point in sorted(found):
        print('%d  %4d  %s' % (point, len(found[point]), TITLES[point]))
        if '--list' in sys.argv and point != 8:
            for place in found[point]:
                print('         ' + place)


main()

#!/usr/bin/env python3
"""Respells the repository's own definitions and lemmas: words in snake case, types and facts in upper camel case.

usage: python3 tools/respell.py [--list]      at the top of the repository, once, after the kit's port.py

Takes every name that a file of specs/ or proofs/ defines (definitions, constructors, fields, lemmas) and that has a dash or a capital
inside, and writes it anew in every .antt and .rt file and every must-fail edit. Left alone: names of functions and types of src/, goals
and invariants that Rattle names, names imported from elsewhere, strings and comments. --list prints the table and changes nothing.
"""
import glob
import re
import sys

# Names that would fall together with another, and what they are called instead.
BY_HAND = {
    'Too-many': 'TooManyTokens',
    'bit-of': 'bit_of_byte',
    'bitIn': 'bit_cell_in',
    'atEnd': 'skip_at_end',
    'causeOf': 'word_cause',
    'internalBit': 'internal_bit_at',
    'judged-all': 'judged_each',
    'kind-of': 'item_kind',
    'scan-of': 'scan_by',
    'switch-of': 'switch_bit_of',
}

WORD = r"[^\s(){}\[\];,.:=λ→×]+"
TOP = re.compile(r"^(?:(?:pub|abbrev|unfoldable|axiom|data|record) )*(" + WORD + r") :\s")
MEMBER = re.compile(r"^\s+(?:pub |abbrev |unfoldable |data |record )*(" + WORD + r"(?: " + WORD + r")*) :\s")
PARAMS = re.compile(r"^(?:(?:pub|abbrev|unfoldable|data|record) )+(" + WORD + r") [({]")
MADE = re.compile(r":\s+(goal|need|given)\.")
IMPORT = re.compile(r"^(?:ghost )?(?:pub )?use ([\w.+·'-]+)\.\{([^}]*)\}")


CRATES = [line.split(':')[0] for line in open('crates.txt', encoding='utf-8') if ':' in line and line[0] != '#']
OWN = re.compile(r"Rattle\.(" + '|'.join(CRATES) + r")\.(specs|proofs)\.")
MODULE = re.compile(r"\.(Goals|Given)$")


def sources():
    found = glob.glob('crates/*/specs/*.antt') + glob.glob('crates/*/proofs/**/*.antt', recursive=True)
    return sorted(f for f in found if '/out/' not in f)


def is_odd(name):
    return bool(re.search(r"[A-Za-z0-9']-[A-Za-z0-9']", name)) or (name[0].islower() and re.search(r"[a-z0-9][A-Z]", name) is not None)


def snake(name):
    name = re.sub(r"([a-z0-9])([A-Z])", lambda m: m.group(1) + '_' + m.group(2).lower(), name)
    return name.replace('-', '_')


def camel(name):
    return ''.join(part[:1].upper() + part[1:] for part in name.split('-'))


def respelled(name):
    if name in BY_HAND:
        return BY_HAND[name]
    return camel(name) if name[0].isupper() else snake(name)


def defined():
    names = {}
    plain = set()
    for f in sources():
        in_body = False
        with open(f, encoding='utf-8') as text:
            for line in text:
                line = re.sub(r"--.*", '', line)
                m = TOP.match(line) or PARAMS.match(line)
                if m:
                    in_body = bool(re.match(r"^(?:pub )?(data|record)", line))
                elif re.match(r"^(?:abbrev |unfoldable )?(?:pub )?(mutual|module|variable)", line):
                    in_body = True
                    continue
                elif in_body:
                    m = MEMBER.match(line)
                    if line.strip() and not line[0].isspace():
                        in_body = False
                if not m or MADE.search(line):
                    continue
                for name in m.group(1).split():
                    if is_odd(name):
                        names.setdefault(name, f)
                    else:
                        plain.add(name)
    for name, f in cited():
        if is_odd(name):
            names.setdefault(name, f)
    return names, plain


def cited():
    for f in sources():
        with open(f, encoding='utf-8') as text:
            for line in text:
                m = IMPORT.match(line)
                if m and OWN.match(m.group(1)) and '.declared.' not in m.group(1) and not MODULE.search(m.group(1)):
                    for part in m.group(2).split(','):
                        if part.split():
                            yield part.split()[0], f
                            yield part.split()[-1], f


def table():
    names, plain = defined()
    to = {}
    for old in sorted(names):
        to[old] = respelled(old)
    back = {}
    for old, new in to.items():
        back.setdefault(new, []).append(old)
    together = {new: olds for new, olds in back.items() if len(olds) > 1 or new in plain}
    return to, together


TOKEN = re.compile(r'"(?:[^"\\]|\\.)*"|--[^\n]*|//[^\n]*|' + r"[A-Za-z_][A-Za-z0-9_']*(?:[-!'][A-Za-z0-9_'!]+)*!?")


def imported(text):
    away = set()
    for line in text.split('\n'):
        m = IMPORT.match(line.strip())
        if not m:
            continue
        own = m.group(1).startswith('Rattle.') and not m.group(1).startswith('Rattle.std')
        if not own:
            for part in m.group(2).split(','):
                words = part.split()
                if words:
                    away.add(words[-1])
    return away


def turned(text, to, is_rust):
    away = imported(text)
    out = []
    at = 0
    for m in TOKEN.finditer(text):
        word = m.group(0)
        out.append(text[at:m.start()])
        at = m.end()
        if word[0] == '"' or word.startswith('//') and is_rust or word.startswith('--') and not is_rust:
            out.append(word)
            continue
        if word.startswith('--') or word.startswith('//'):
            # no comment in this language: turn what stands in it
            out.append(word[:2] + turned(word[2:], {k: v for k, v in to.items() if k not in away}, is_rust))
            continue
        before = text[:m.start()]
        made = re.search(r"(?:goal|need|given)\.$", before[-8:]) is not None
        new = to.get(word)
        if new is None or word in away or made:
            out.append(word)
        else:
            out.append(new)
    out.append(text[at:])
    return ''.join(out)


def main():
    to, together = table()
    if '--list' in sys.argv:
        for old in sorted(to):
            print(old, to[old])
        for new, olds in sorted(together.items()):
            print('TOGETHER', new, olds)
        return
    if together:
        for new, olds in sorted(together.items()):
            print('falls together:', new, olds)
    files = sources() + glob.glob('crates/*/src/**/*.rt', recursive=True) + glob.glob('crates/*/must-fail/*.edit')
    changed = 0
    for f in sorted(files):
        with open(f, encoding='utf-8') as handle:
            text = handle.read()
        new = turned(text, to, not f.endswith('.antt'))
        if new != text:
            with open(f, 'w', encoding='utf-8') as handle:
                handle.write(new)
            changed += 1
    print(f'respell: {len(to)} names, {changed} files')


if __name__ == '__main__':
    main()

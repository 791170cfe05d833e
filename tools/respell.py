#!/usr/bin/env python3
"""Brings the repository's own names to the spelling of today's Rattle, after the kit's port.py: definitions and lemmas in snake case, a
dash only between two names that a lemma joins, and other names for the two crates that were named as libraries of the kit. Run it at
the top of the repository; a second run changes nothing. Functions of src/, strings, inputs and outputs keep their names."""
import glob
import os
import re

# A library of the kit has the old name.
CRATES = {'bytes': 'buffers', 'hex': 'hexadecimal'}

SPELLED = '''
    afterAll answerTo asKind benchCar benchOf byCode byteAt-take callNumber cardNumber cardWords castOf codesAfter commandOf contentsOf
    deadAt deletedAt digitOf digitsOf dropBlock exchangeOf failureText faultLayer faultNumber faultText faultWords firstDifference
    firstFrom firstRow fitsIn givenUp glyphOf heldBy invertFrom invertedByte isDead isFill isKind kindIn kindsAt kindsIn kindsOf laidAs
    laidAt laidValue lastReply linkNumber linkWords nameNumber nameWords noCell readCell reasonLayer reasonNumber reasonWords recordAt
    recordsOf refersBelow refusalOf refusalText replyCount replyOf requestLength requestOf requestsOf sameAnswer sameByte sameNumber
    serviceOf shapesIn sizeFits tapeCar twoBytes typeNumber typeWords unlessRefused unlessZero withBool withCells withChar withInt
    withPointer
'''.split()

# Lemmas that are named for the two names on their left side, the outer one first.
JOINED = {
    'below-append': 'Below-append',
    'below-drop': 'Below-drop',
    'below-take': 'Below-take',
    'below-zeros': 'Below-replicate',
    'below_set': 'Below-set',
    'byte_at-take': 'byte_at-take',
    'drop-painted': 'drop-painted',
    'getD-fill': 'get_or-invert_from',
    'length-fill': 'length-invert_from',
    'length-fresh': 'length-fresh',
    'length-record': 'length-record_at',
    'length-records': 'length-records',
    'length-repeated': 'length-repeated',
    'length-rows': 'length-rows_from',
    'length-two-bytes': 'length-two_bytes',
    'pushed-take': 'pushed-take',
    'record-at': 'get_or-records',
    'set-painted': 'set-painted',
    'take-painted': 'take-painted',
}

# Lemmas that port.py gave the name of a definition, by their file.
FALLEN = {
    'crates/cells/proofs/Kept.antt': {'kind_at': 'get_or-map-kind_in'},
    'crates/tape/proofs/Frames.antt': {'byte_of': 'get_or_part'},
    'crates/tape/proofs/Inverted.antt': {'byte_at': 'get_or-record_at', 'same_byte': 'kept_same'},
}

NAME = re.compile(r"(?<![.A-Za-z0-9_'◌-])[A-Za-z_◌][A-Za-z0-9_'₁₂◌-]*")
DECLARED = re.compile(r"^ *(?:abbrev |unfoldable |pub )*([A-Za-z_][A-Za-z0-9_'-]*) : (?!goal\.)", re.M)


def snake(name):
    return re.sub(r'([a-z])([A-Z])', lambda m: f'{m[1]}_{m[2].lower()}', name)


def files(*endings):
    return sorted(path for ending in endings for path in glob.glob(f'crates/*/**/*.{ending}', recursive=True) if '/out/' not in path)


def read(path):
    with open(path, encoding='utf-8') as file:
        return file.read()


def rewrite(path, change):
    old = read(path)
    new = change(old)
    if new != old:
        with open(path, 'w', encoding='utf-8') as file:
            file.write(new)


def renamed(names):
    return lambda text: NAME.sub(lambda m: names.get(m[0], m[0]), text)


def in_new_crates(text):
    for old, new in CRATES.items():
        text = re.sub(rf'\bRattle\.{old}\.', f'Rattle.{new}.', text)
        text = re.sub(rf'\buse {old}::', f'use {new}::', text)
    return text


def lines_of_crates(text):
    return ''.join(re.sub(r'[a-z_]+', lambda m: CRATES.get(m[0], m[0]), line) for line in text.splitlines(keepends=True))


def with_dashes():
    """Lemmas, and fields of records, that still have a dash between words."""
    kept = {new for names in (JOINED, *FALLEN.values()) for new in names.values()}
    names = {}
    for path in files('antt'):
        for name in DECLARED.findall(read(path)):
            if '-' in name and name not in kept:
                names[name] = name.replace('-', '_')
    return names


def main():
    for old, new in CRATES.items():
        if os.path.exists(f'crates/{old}'):
            os.rename(f'crates/{old}', f'crates/{new}')
    rewrite('crates.txt', lines_of_crates)
    for path, names in FALLEN.items():
        if not set(names.values()) & set(DECLARED.findall(read(path))):
            rewrite(path, renamed(names))
    names = {name: snake(name) for name in SPELLED} | JOINED
    for path in files('rt', 'antt', 'edit'):
        rewrite(path, lambda text: in_new_crates(renamed(names)(text)))
    names = with_dashes()
    for path in files('rt', 'antt', 'edit'):
        rewrite(path, renamed(names))


if __name__ == '__main__':
    main()

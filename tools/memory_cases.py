#!/usr/bin/env python3
"""Makes the cases of crates/memory_cases, with a second implementation of operators, casts and first fit: stdin and stdout."""
import os
import random

HERE = os.path.join(os.path.dirname(os.path.abspath(__file__)), '..', 'crates', 'memory_cases')
LOW, HIGH = -2 ** 63, 2 ** 63 - 1
EDGES = [LOW, LOW + 1, -2 ** 32, -257, -256, -255, -2, -1, 0, 1, 2, 3, 7, 255, 256, 257, 2 ** 31, 2 ** 32, HIGH - 1, HIGH]
KINDS = ['char', 'int', 'bool', 'pointer', 'none']


def wrap(n):
    return (n - LOW) % 2 ** 64 + LOW


def value(kind, n):
    """A kind and its number, as the program makes it of two words."""
    if kind == 'char':
        return kind, n % 256
    if kind == 'bool':
        return kind, int(n != 0)
    return (kind, n) if kind != 'none' else (kind, 0)


def shown(kind, n):
    return f'bool {str(bool(n)).lower()}' if kind == 'bool' else f'{kind} {n}'


def evaluate(code, left, right):
    (lk, a), (rk, b) = left, right
    if lk != rk:
        return 'misfit'
    if code in (1, 2) and lk == 'bool':
        return shown('bool', (a or b) if code == 1 else (a and b))
    if code in (3, 4) and lk != 'none':
        return shown('bool', (a == b) == (code == 3))
    if 5 <= code <= 8 and lk in ('char', 'int', 'pointer'):
        return shown('bool', [a < b, a > b, a <= b, a >= b][code - 5])
    if 9 <= code <= 13 and lk == 'int':
        if code in (10, 11) and b == 0:
            return 'fault 30'
        if code in (10, 11):
            quotient = abs(a) // abs(b) * (1 if (a < 0) == (b < 0) else -1)
            return shown('int', wrap(quotient if code == 10 else a - quotient * b))
        return shown('int', wrap({9: a * b, 12: a + b, 13: a - b}[code]))
    return 'misfit'


def cast(operand, kind):
    (k, n) = operand
    if k in ('bool', 'none') or kind == 'bool':
        return 'misfit'
    return shown(kind, n % 256 if kind == 'char' else n)


class Heap:
    def __init__(self):
        self.live = [False] * 1024
        self.blocks = {}

    def new(self, size):
        if not 1 <= size <= 1024:
            return 'no such shape'
        for start in range(1024 - size + 1):
            if not any(self.live[start:start + size]):
                self.live[start:start + size] = [True] * size
                self.blocks[start] = size
                return str(1025 + start)
        return 'fault 34'

    def delete(self, address):
        size = self.blocks.pop(address - 1025, None)
        if size is None:
            return 'fault 36'
        self.live[address - 1025:address - 1025 + size] = [False] * size
        return 'done'


def main():
    rng = random.Random(23)
    lines, answers = [], []

    def number():
        return rng.choice(EDGES) if rng.random() < 0.7 else rng.randint(LOW, HIGH)

    for code in range(0, 16):
        for _ in range(24):
            kind = rng.choice(KINDS)
            other = kind if rng.random() < 0.85 else rng.choice(KINDS)
            if 9 <= code <= 13 and rng.random() < 0.8:
                kind = other = 'int'
            a, b = number(), number()
            lines.append(f'eval {code} {kind} {a} {other} {b}')
            answers.append(evaluate(code, value(kind, a), value(other, b)))
    for a in (LOW, HIGH, 0, -1):
        for b in (LOW, HIGH, 0, -1, 1):
            for code in (9, 10, 11, 12, 13):
                lines.append(f'eval {code} int {a} int {b}')
                answers.append(evaluate(code, ('int', a), ('int', b)))
    for _ in range(100):
        kind, to, n = rng.choice(KINDS), rng.choice(KINDS[:4]), number()
        lines.append(f'cast {kind} {n} {to}')
        answers.append(cast(value(kind, n), to))
    heap = Heap()
    for _ in range(300):
        if rng.random() < 0.55:
            size = rng.choice([0, 1, 2, 3, 5, 8, 40, 100, 300, 1024, 1025])
            lines.append(f'new {size}')
            answers.append(heap.new(size))
        else:
            some = list(heap.blocks) or [0]
            address = rng.choice([1025 + rng.choice(some), 1025 + rng.choice(some), 1026, 0, -1, 1024, 2048, 2049])
            lines.append(f'del {address}')
            answers.append(heap.delete(address))
    with open(os.path.join(HERE, 'stdin'), 'w') as out:
        out.write('\n'.join(lines) + '\n')
    with open(os.path.join(HERE, 'stdout'), 'w') as out:
        out.write('\n'.join(answers) + '\n')


if __name__ == '__main__':
    main()

#!/usr/bin/env python3
"""chip-pairs.py MODULE.ll: writes the module to standard output with two forms replaced that mean another thing with pointers of 32 bits.

  - A pair with a pointer that is loaded or stored whole lies otherwise with 32 bits, since its pointer moves to byte 4. Each of its two
    values is loaded or stored by itself in its place, the pointer at byte 8, where all other code has it.
  - `ptrtoaddr .. to i64` has no meaning with 32 bits. `ptrtoint .. to i64` gives the same address, with zeros above it.

With pointers of 64 bits the module means what it meant."""
import re
import sys

REG = r'%[\w.]+'
PAIR = r'\{ (i1|i8|i16|i32), ptr \}'
LOAD = re.compile(rf'  ({REG}) = load {PAIR}, ptr ({REG}), align 8')
STORE = re.compile(rf'  store {PAIR} ({REG}), ptr ({REG}), align 8')
ADDRESS = re.compile(rf'  ({REG}) = ptrtoaddr ptr ({REG}) to i64')


def replaced(line):
    """The lines that stand for one."""
    load, store, address = LOAD.fullmatch(line), STORE.fullmatch(line), ADDRESS.fullmatch(line)
    if load:
        name, kind, at = load.groups()
        pair = f'{{ {kind}, ptr }}'
        return [f'  {name}.first = load {kind}, ptr {at}, align 8',
                f'  {name}.place = getelementptr inbounds i8, ptr {at}, i64 8',
                f'  {name}.second = load ptr, ptr {name}.place, align 8',
                f'  {name}.half = insertvalue {pair} poison, {kind} {name}.first, 0',
                f'  {name} = insertvalue {pair} {name}.half, ptr {name}.second, 1']
    if store:
        kind, value, at = store.groups()
        pair = f'{{ {kind}, ptr }}'
        return [f'  {value}.first = extractvalue {pair} {value}, 0',
                f'  {value}.second = extractvalue {pair} {value}, 1',
                f'  store {kind} {value}.first, ptr {at}, align 8',
                f'  {value}.place = getelementptr inbounds i8, ptr {at}, i64 8',
                f'  store ptr {value}.second, ptr {value}.place, align 8']
    if address:
        return [f'  {address[1]} = ptrtoint ptr {address[2]} to i64']
    return [line]


with open(sys.argv[1], encoding='utf-8') as module:
    print('\n'.join(one for line in module.read().split('\n') for one in replaced(line)), end='')

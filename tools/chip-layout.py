#!/usr/bin/env python3
"""chip-layout.py MODULE.ll: tells whether a module that was lowered for pointers of 64 bits means the same with pointers of 32.

Each line of the module must have one of the forms below; any other is a finding. Memory is addressed in bytes alone, so the layout
can matter only where a pointer itself lies in memory: it takes 8 bytes there, then 4. The script follows every pointer (all values
that each can have, without the order of statements) and finds

  - a byte that is part of a pointer's 8 bytes in one access, and of a number or of another place of a pointer in another; copies are
    followed,
  - a pointer in lent memory, or at a place that is not constant,
  - an access or a copy that goes past its local or its constant, with the size that it has with 32 bits,
  - zeros that are written over a part of a pointer's bytes,
  - a constant that is written to,
  - a pair of values that lies otherwise in memory with 32 bits,
  - an address that is used for more than how far it is from another,
  - an access through a pointer whose origin is not known.

Exit status 0: none.
"""
import re
import sys
from collections import defaultdict

REG = r'%[\w.]+'
NUMBER = r'i(?:1|8|16|32|64)'
SCALAR = rf'(?:ptr|{NUMBER})'
PAIR = rf'\{{ {SCALAR}, {SCALAR} \}}'
OPERAND = rf'(?:{REG}|-?\d+|true|false)'
POINTER = rf'(?:{REG}|@static\.\d+)'
CALLEE = r'@(?:"[^"]+"|[\w.]+)'
SIZE = {'i1': 1, 'i8': 1, 'i16': 2, 'i32': 4, 'i64': 8, 'ptr': 8}

# Forms that touch no memory and no pointer.
PLAIN = re.compile('|'.join((
    rf'{REG} = (?:zext|sext|trunc)(?: nuw| nneg| nsw)* {NUMBER} {OPERAND} to {NUMBER}',
    rf'{REG} = icmp \w+ {NUMBER} {OPERAND}, {OPERAND}',
    rf'{REG} = icmp eq ptr {REG}, null',
    rf'{REG} = (?:add|sub|mul|udiv|urem|lshr|shl|and|or|xor)(?: nuw| nsw| exact| disjoint)* {NUMBER} {OPERAND}, {OPERAND}',
    rf'br label {REG}', rf'br i1 {OPERAND}, label {REG}, label {REG}',
    rf'switch {NUMBER} {REG}, label {REG} \[', rf'{NUMBER} -?\d+, label {REG}', r'\]',
    rf'ret (?:void|{NUMBER} {OPERAND})', r'unreachable', r'call void @llvm\.trap\(\)(?: #\d+)?')))
ALLOCA = re.compile(rf'({REG}) = alloca (?:\[(\d+) x i8\]|({NUMBER}|ptr)), align \d+')
GEP = re.compile(rf'({REG}) = getelementptr (?:inbounds )?(?:nuw )?i8, ptr ({POINTER}), i64 ({OPERAND})')
LOAD = re.compile(rf'({REG}) = load ({SCALAR}|{PAIR}), ptr ({POINTER}), align \d+(?:, !\w+ !\d+)*')
STORE = re.compile(rf'store ({SCALAR}|{PAIR}) ({OPERAND}|@static\.\d+), ptr ({POINTER}), align \d+')
PART = re.compile(rf'({REG}) = extractvalue ({PAIR}) ({REG}), ([01])')
JOIN = re.compile(rf'({REG}) = insertvalue {PAIR} (poison|{REG}), {SCALAR} ({OPERAND}), ([01])')
ADDRESS = re.compile(rf'({REG}) = ptrtoint ptr ({REG}) to i64')
COPY = re.compile(rf'call void @llvm\.memmove\.p0\.p0\.i64\(ptr ({POINTER}), ptr ({POINTER}), i64 (\d+), i1 false\)')
COUNTED = re.compile(rf'call void @llvm\.memmove\.p0\.p0\.i64\(ptr ({POINTER}), ptr ({POINTER}), i64 ({REG}), i1 false\)')
ZEROS = re.compile(rf'call void @llvm\.memset\.p0\.i64\(ptr ({POINTER}), i8 0, i64 (\d+), i1 false\)')
CALL = re.compile(rf'(?:({REG}) = )?call (void|{SCALAR}|{PAIR}) ({CALLEE})\((.*)\)')
RETURN = re.compile(rf'ret (ptr|{PAIR}) ({POINTER})')
PARAMETER = re.compile(rf'({SCALAR})(?: noundef| zeroext)* ({OPERAND}|@static\.\d+)')
DEFINE = re.compile(rf'define (internal )?(?:noundef |zeroext )*(?:void|{SCALAR}|{PAIR}) ({CALLEE})\((.*)\) #\d+ {{')
STATIC = re.compile(r'(@static\.\d+) = private unnamed_addr constant \[(\d+) x i8\] (?:c".*"|zeroinitializer), align \d+')
OUTSIDE = re.compile(r'(?:;.*|source_filename = .*|target .*|attributes #.*|!.*|declare void @llvm\.(?:memmove|memset|trap).*|)')

findings = []
functions, statics, allocas, geps, loads, stores, parts, joins = {}, {}, [], [], [], [], [], []
copies, counted, zeros, addresses, calls, returns = [], [], [], [], [], []
FORMS = ((ALLOCA, allocas), (GEP, geps), (LOAD, loads), (STORE, stores), (PART, parts), (JOIN, joins), (COPY, copies), (COUNTED, counted),
         (ZEROS, zeros), (ADDRESS, addresses), (CALL, calls), (RETURN, returns))


def words_of(text, number):
    """The types and names of parameters, or of what is passed for them."""
    found = [(word, PARAMETER.fullmatch(word)) for word in text.split(', ') if word]
    findings.extend(f'line {number}: {word}' for word, match in found if not match)
    return [match.groups() for _, match in found if match]


def places_of(kind, number):
    """The scalars of a type and where each lies. Of a pair with a pointer the other value must have 64 bits too, or else it lies elsewhere
    with pointers of 32."""
    kinds = re.findall(SCALAR, kind)
    if len(kinds) == 1:
        return [(kind, 0)]
    if 'ptr' in kinds and 'i64' not in kinds:
        findings.append(f'line {number}: {kind} lies otherwise with pointers of 32 bits')
    first, second = (SIZE[one] for one in kinds)
    return [(kinds[0], 0), (kinds[1], -(-first // second) * second)]


def read(lines):
    name = None
    for number, line in enumerate(lines, 1):
        text = line.split(' ; ')[0].strip() if name else line.rstrip()
        define = DEFINE.fullmatch(text)
        static = STATIC.fullmatch(text)
        if define:
            name = define[2]
            functions[name] = (bool(define[1]), words_of(define[3], number))
        elif static and name is None:
            statics['static', static[1]] = int(static[2])
        elif name is None:
            if not OUTSIDE.fullmatch(text):
                findings.append(f'line {number}: {text}')
        elif text == '}':
            name = None
        elif text == '' or text.startswith(';') or re.fullmatch(r'[\w.]+:(?: .*)?', text) or PLAIN.fullmatch(text):
            pass
        else:
            for form, kept in FORMS:
                found = form.fullmatch(text)
                if found:
                    kept.append((number, name, *found.groups()))
                    if form is CALL:
                        words_of(found[4], number)
                    break
            else:
                findings.append(f'line {number}: {text}')


def split(accesses):
    """Loads or stores, a pair as two: (function, register or value with the number of the part, type, pointer, offset)."""
    for number, name, kind, value, at in accesses:
        for part, (scalar, plus) in enumerate(places_of(kind, number)):
            yield name, (value, part), scalar, at, plus


def follow(reads, writes):
    """Where each pointer can point: (object, offset), the offset None where it is not constant."""
    points, held, size = defaultdict(set), defaultdict(set), dict(statics)
    for static in statics:
        for name in functions:
            points[name, (static[1], 0)].add((static, 0))
    for _, name, register, array, scalar in allocas:
        size[name, register] = int(array) if array else 4 if scalar == 'ptr' else SIZE[scalar]
        points[name, (register, 0)].add(((name, register), 0))
    for name, (internal, parameters) in functions.items():
        for kind, register in parameters:
            if kind == 'ptr' and not internal:
                points[name, (register, 0)].add((('lent', name, register), 0))
    passed = []
    for _, name, result, kind, callee, words in calls:
        if callee not in functions:
            findings.append(f'{name} calls {callee}')
            continue
        given = words.split(', ') if words else []
        for (what, register), word in zip(functions[callee][1], given, strict=True):
            if what == 'ptr':
                passed.append((name, (word.split()[-1], 0), callee, (register, 0)))
        for _, returning, _, value in [one for one in returns if one[1] == callee]:
            passed.extend((returning, (value, part), name, (result, part)) for part in (0, 1))
    changed = True

    def grow(of, key, more):
        nonlocal changed
        if not more <= of[key]:
            of[key] |= more
            changed = True

    while changed:
        changed = False
        for _, name, register, base, step in geps:
            constant = re.fullmatch(r'\d+', step)
            grow(points, (name, (register, 0)), {
                (o, None if at is None or not constant else at + int(step)) for o, at in points[name, (base, 0)]})
        for _, name, register, _, pair, part in parts:
            grow(points, (name, (register, 0)), points[name, (pair, int(part))])
        for _, name, register, pair, value, part in joins:
            grow(points, (name, (register, int(part))), points[name, (value, 0)])
            grow(points, (name, (register, 1 - int(part))), points[name, (pair, 1 - int(part))])
        for name, register, kind, at, plus in reads:
            if kind == 'ptr':
                for o, offset in set(points[name, (at, 0)]):
                    grow(points, (name, register), held[o, None if offset is None else offset + plus])
        for name, value, kind, at, plus in writes:
            if kind == 'ptr':
                for o, offset in set(points[name, (at, 0)]):
                    grow(held, (o, None if offset is None else offset + plus), points[name, value])
        for _, name, to, source, count in copies:
            for s, s_at in set(points[name, (source, 0)]):
                for t, t_at in set(points[name, (to, 0)]):
                    if s_at is not None and t_at is not None:
                        for k in range(int(count)):
                            if held.get((s, s_at + k)):
                                grow(held, (t, t_at + k), held[s, s_at + k])
        for name, value, callee, register in passed:
            grow(points, (callee, register), points[name, value])
    return points, size


def judge(reads, writes, points, size):
    kinds = defaultdict(set)

    def targets(name, at, what):
        found = points[name, (at, 0)]
        if not found:
            findings.append(f'{name}: {what} through {at}, whose origin is not known')
        return found

    for name, _, kind, at, plus in [*reads, *writes]:
        for o, offset in targets(name, at, 'access'):
            if offset is None:
                kinds[o, None].add('a pointer' if kind == 'ptr' else 'number')
                continue
            if o in size and offset + plus + (4 if kind == 'ptr' else SIZE[kind]) > size[o]:
                findings.append(f'{name}: access past {o} at {offset + plus}')
            for k in range(SIZE[kind]):
                kinds[o, offset + plus + k].add(k if kind == 'ptr' else 'number')
    for name, at in [(n, a) for n, _, _, a, _ in writes] + [(n, a) for _, n, a, *_ in copies + counted + zeros]:
        findings.extend(f'{name}: writes to {o[1]}' for o, _ in points[name, (at, 0)] if o in statics)
    moves = []
    for _, name, to, source, count in copies:
        for o, offset in targets(name, to, 'copy') | targets(name, source, 'copy'):
            if offset is not None and o in size and offset + int(count) > size[o]:
                findings.append(f'{name}: copy of {count} bytes past {o}, of {size[o]}, at {offset}')
        for s, s_at in points[name, (source, 0)]:
            for t, t_at in points[name, (to, 0)]:
                if s_at is None or t_at is None:
                    kinds[s, None].add('number'), kinds[t, None].add('number')
                moves.append((s, s_at, t, t_at, int(count)))
    # A copy of a number of bytes that is not constant: they may be any of both objects, which then hold no pointer.
    for _, name, to, source, _ in counted:
        for o, _ in targets(name, to, 'copy') | targets(name, source, 'copy'):
            kinds[o, None].add('number')
    # Zeros are a number and a pointer alike, where they are written over all of its bytes or none.
    for _, name, at, count in zeros:
        for o, offset in targets(name, at, 'zeros'):
            if offset is None:
                kinds[o, None].add('number')
            elif o in size and offset + int(count) > size[o]:
                findings.append(f'{name}: {count} zeros past {o}, of {size[o]}, at {offset}')
    changed = True
    while changed:
        changed = False
        for s, s_at, t, t_at, count in moves:
            for k in range(count):
                a = kinds[s, None if s_at is None else s_at + k]
                b = kinds[t, None if t_at is None else t_at + k]
                if a != b:
                    a |= b
                    b |= a
                    changed = True
    for _, name, at, count in zeros:
        for o, offset in points[name, (at, 0)]:
            for edge in () if offset is None else (offset, offset + int(count)):
                if kinds.get((o, edge), set()) - {0, 'number'}:
                    findings.append(f'{name}: zeros over a part of the pointer in {o} at {edge}')
    # A place that is not constant may be any of its object.
    pointers = {o for (o, _), found in kinds.items() if found - {'number'}}
    for o in pointers:
        if kinds.get((o, None)):
            findings.append(f'{o} holds a pointer, and is also accessed at a place that is not constant')
        if o[0] == 'lent':
            findings.append(f'{o} is lent, and holds a pointer')
    findings.extend(f'{place}: used as {found}' for place, found in kinds.items() if len(found) > 1)
    return len(kinds), len(pointers)


def measured(lines):
    """An address may be taken from another, and what is between them held against a number of bytes: that is the same with 32 bits."""
    name, bodies = None, defaultdict(list)
    for line in lines:
        define = DEFINE.fullmatch(line.rstrip())
        name = define[2] if define else name
        bodies[name].append(line.split(' ; ')[0].strip())
    taken = {(name, register) for _, name, register, _ in addresses}
    for number, name, register, _ in addresses:
        uses = [line for line in bodies[name] if re.search(rf'{re.escape(register)}(?![\w.])', line) and not line.startswith(f'{register} = ')]
        between = [re.fullmatch(rf'({REG}) = sub i64 ({REG}), ({REG})', line) for line in uses]
        for found in between:
            if found and not all((name, one) in taken for one in found.group(2, 3)):
                findings.append(f'line {number}: an address from which a number is taken, or that is taken from one')
            after = found and [line for line in bodies[name] if re.search(rf'{re.escape(found[1])}(?![\w.])', line) and not line.startswith(f'{found[1]} = ')]
            if not found or not all(re.fullmatch(rf'{REG} = icmp ult i64 {re.escape(found[1])}, {REG}', line) for line in after):
                findings.append(f'line {number}: an address that is not taken from another')


def main():
    with open(sys.argv[1], encoding='utf-8') as file:
        lines = file.read().split('\n')
    read(lines)
    measured(lines)
    reads = list(split((number, name, kind, register, at) for number, name, register, kind, at in loads))
    writes = list(split(stores))
    places, locals_with_pointers = (0, 0) if findings else judge(reads, writes, *follow(reads, writes))
    for finding in findings[:20]:
        print(f'layout: {finding}')
    print(f'layout: {len(functions)} functions, {len(loads) + len(stores)} accesses, {len(copies)} copies, {len(zeros)} fills, '
          f'{len(statics)} constants, {places} bytes followed, {locals_with_pointers} locals with pointers, {len(findings)} findings')
    return 1 if findings else 0


sys.exit(main())

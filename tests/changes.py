#!/usr/bin/env python3
"""Pairs of random zones through `dnsd change`. For each pair the script works out by itself which zone the change is to lead to: the new one,
or the new one at the serial after the old one's where its own isn't greater (RFC 1982), or the old one where they differ in nothing but such a
serial. Then it asks three things: that the lines printed are the difference of the two zones' canonical texts; that `dnsd answer`, over the old
zone, takes the message of `change --hex` with NOERROR; and that the zone transferred after it is the one worked out.

Usage: tests/changes.py [PAIRS [SEED]], by default 200 pairs. DNSD names the program, by default crates/dnsd/out/dnsd. Its status is 1 where a
pair fails; the two zones are then printed."""
import os
import random
import subprocess
import sys
import tempfile

PROGRAM = os.environ.get('DNSD') or os.path.join(os.path.dirname(os.path.abspath(__file__)), '../crates/dnsd/out/dnsd')
APEX = 'example.test.'
RING = 2 ** 32
NAMES = ['a', 'b', 'c', 'w.a', 'x.w.a', '*.b', 'ns1', 'ns2', 'deep.er.c']
TTLS = [0, 60, 300, 3600]
AXFR = '123401000001000000000000' + '076578616d706c65047465737400' + '00fc0001'


def run(words, given=''):
    """What the program prints over words and input; an end with another status than 0 is an error."""
    done = subprocess.run([PROGRAM, *words], input=given, capture_output=True, text=True, timeout=60)
    if done.returncode != 0:
        raise AssertionError(f'dnsd {" ".join(words)}: status {done.returncode}: {done.stderr}')
    return done.stdout


def random_data(rng, rtype):
    """Data of a type, in words."""
    if rtype == 'A':
        return f'192.0.2.{rng.randrange(6)}'
    if rtype == 'TXT':
        return ' '.join(f'"{rng.choice(["", "x", "two  blanks", "y" * 60])}"' for _ in range(rng.randrange(1, 3)))
    if rtype == 'MX':
        return f'{rng.randrange(3)} {rng.choice(NAMES[:3])}.{APEX}'
    if rtype == 'TYPE257':
        return rng.choice([r'\# 3 010203', r'\# 0', r'\# 1 ff'])
    return f'{rng.choice(NAMES)}.{APEX}'


def random_sets(rng):
    """Sets by owner and type: a TTL, and data. An alias is alone; NS below the apex are cuts."""
    sets = {(APEX, 'NS'): (rng.choice(TTLS), {random_data(rng, 'NS') for _ in range(rng.randrange(1, 3))})}
    for name in rng.sample(NAMES, rng.randrange(0, len(NAMES))):
        owner = f'{name}.{APEX}'
        if rng.random() < 0.2:
            sets[owner, 'CNAME'] = (rng.choice(TTLS), {random_data(rng, 'CNAME')})
            continue
        for rtype in rng.sample(['A', 'TXT', 'MX', 'TYPE257', 'NS'], rng.randrange(1, 3)):
            if rtype == 'NS' and name.startswith('*'):
                continue
            sets[owner, rtype] = (rng.choice(TTLS), {random_data(rng, rtype) for _ in range(rng.randrange(1, 4))})
    return sets


def changed_sets(rng, sets):
    """Other sets, that differ from these a little or in all."""
    if rng.random() < 0.3:
        return random_sets(rng)
    fresh = random_sets(rng)
    changed = dict(sets)
    for key in rng.sample(sorted(fresh), rng.randrange(0, min(4, len(fresh)) + 1)):
        owner, rtype = key
        for there in [k for k in changed if k[0] == owner and k != key and 'CNAME' in (k[1], rtype)]:
            del changed[there]
        changed[key] = fresh[key]
    for key in sorted(changed):
        if key != (APEX, 'NS') and rng.random() < 0.15:
            del changed[key]
        elif rng.random() < 0.1:
            changed[key] = (rng.choice(TTLS), changed[key][1])
    return changed


def text_of(zone):
    """A zone as a text: its serial, the SOA's own data and TTL, and its sets."""
    serial, soa, sets = zone
    lines = [f'{APEX} {soa[0]} IN SOA ns1.{APEX} {soa[1]}.{APEX} {serial} 7200 900 1209600 300']
    for (owner, rtype), (ttl, data) in sets.items():
        lines += [f'{owner} {ttl} IN {rtype} {one}' for one in data]
    return ''.join(line + '\n' for line in lines)


def is_greater(serial, other):
    """Whether a serial is greater than another (RFC 1982, 3.2)."""
    return 0 < (serial - other) % RING < RING // 2


def aimed(old, new):
    """The zone that a change is to lead to."""
    if is_greater(new[0], old[0]):
        return new
    if new[1:] == old[1:]:
        return old
    return ((old[0] + 1) % RING, *new[1:])


def random_pair(rng):
    """Two zones of one apex."""
    serial = rng.choice([0, 1, 7, RING - 1, RING // 2, rng.randrange(RING)])
    step = rng.choice([0, 0, 1, 2, RING - 1, RING // 2, RING // 2 - 1, rng.randrange(RING)])
    soa = (rng.choice(TTLS), rng.choice(['admin', 'other']))
    sets = random_sets(rng)
    same = rng.random()
    next_soa = soa if same < 0.7 else (rng.choice(TTLS), rng.choice(['admin', 'other']))
    next_sets = sets if same < 0.15 else changed_sets(rng, sets)
    return (serial, soa, sets), ((serial + step) % RING, next_soa, next_sets)


def difference(old, new):
    """The lines of one canonical text that another hasn't, after a sign, and the other way round; the SOA's in both."""
    if old == new:
        return ''
    before, after = old.splitlines(), new.splitlines()
    gone = before[:1] + [line for line in before[1:] if line not in set(after)]
    come = after[:1] + [line for line in after[1:] if line not in set(before)]
    return ''.join(f'- {line}\n' for line in gone) + ''.join(f'+ {line}\n' for line in come)


def try_pair(room, old, new):
    """Tries a pair, and returns what fails."""
    paths = {name: os.path.join(room, name) for name in ('old', 'new', 'aim')}
    for name, zone in (('old', old), ('new', new), ('aim', aimed(old, new))):
        with open(paths[name], 'w') as file:
            file.write(text_of(zone))
    before, after = run(['check', paths['old']]), run(['check', paths['aim']])
    printed = run(['change', paths['old'], paths['new']])
    if printed != difference(before, after):
        return f'printed:\n{printed}right:\n{difference(before, after)}'
    message = run(['change', '--hex', paths['old'], paths['new']])
    if before == after:
        return f'a message where nothing changes: {message}' if message else None
    reply, *transfer = run(['answer', '--tcp', paths['old']], message + AXFR + '\n').splitlines()
    if reply != '0000a8000000000000000000':
        return f'the update got {reply}'
    left = run(['apply', paths['old']], transfer[0].replace(' ', '\n') + '\n')
    if left != after:
        return f'served after it:\n{left}right:\n{after}'
    return None


def main():
    pairs = int(sys.argv[1]) if len(sys.argv) > 1 else 200
    seed = int(sys.argv[2]) if len(sys.argv) > 2 else 1
    failed = greater = none = 0
    with tempfile.TemporaryDirectory() as room:
        for at in range(pairs):
            old, new = random_pair(random.Random(f'{seed} {at}'))
            greater += is_greater(new[0], old[0])
            none += aimed(old, new) is old
            fault = try_pair(room, old, new)
            if fault:
                failed += 1
                print(f'pair {at} of seed {seed}: {fault}\nold:\n{text_of(old)}new:\n{text_of(new)}')
    print(f'{pairs - failed} of {pairs} pairs passed, {greater} with a greater serial, {none} that change nothing')
    return 1 if failed else 0


if __name__ == '__main__':
    sys.exit(main())

#!/usr/bin/env python3
"""files.py DIR: writes the benchmark's credentials files into DIR/files and its withdrawal lists into DIR/lists, the same ones on
every run."""
import os
import random
import struct
import sys

# A period is two ends here: its first minute, and the first that it no longer covers.
ALWAYS = (0, 1_000_000)
SET, INCLUSION, LINK, MEET, UNION, APART = range(6)


class File:
    def __init__(self, entities=32, names=32):
        self.entities, self.names, self.lines, self.taken, self.falling = entities, names, [], 0, False

    def fresh(self):
        """A role that nothing else uses; names 0 and 1 are left for links."""
        n = self.taken
        self.taken += 1
        return n % 32, 2 + n // 32

    def say(self, kind, head, left, right=(0, 0), period=ALWAYS):
        self.lines.append((kind, *head, *left, *right, *period))

    def member(self, head, entity, period=ALWAYS):
        self.say(SET, head, (entity, 0), period=period)

    def members(self, head, entities):
        for e in entities:
            self.member(head, e)

    def include(self, head, role, period=ALWAYS):
        self.say(INCLUSION, head, role, period=period)

    def link(self, head, role, name, period=ALWAYS):
        self.say(LINK, head, role, (0, name), period=period)

    def set_of(self, head, entities):
        """One set of two entities or more."""
        entities = list(entities)
        role = self.fresh()
        self.member(role, entities[0])
        for i, e in enumerate(entities[1:], 2):
            one, both = self.fresh(), head if i == len(entities) else self.fresh()
            self.member(one, e)
            self.say(UNION, both, role, one)
            role = both

    def room(self):
        return 256 - len(self.lines)

    def serials(self):
        """Position plus one, or they descend to 1."""
        up = [i + 1 for i in range(len(self.lines))]
        return up[::-1] if self.falling else up

    def bytes(self):
        assert len(self.lines) <= 256, len(self.lines)
        head = struct.pack('<3H', self.entities, self.names, len(self.lines))
        # In a file `to` is the last minute that is covered.
        return (head + b''.join(bytes(x[:7]) + b'\0' + struct.pack('<I', serial) for x, serial in zip(self.lines, self.serials()))
                + b''.join(struct.pack('<2I', start, stop - 1) for *_, start, stop in self.lines))


# ---- honest files ----

def office(seed, size=1):
    """An office (0), three departments (1 to 3), eight people, or `size` times as many, with as many credentials: two reviewers,
    or a partner with a reviewer."""
    r = random.Random(f'office {seed}')
    f = File(4 + 8 * size, 8)
    person = lambda: r.randrange(4, 4 + 8 * size)
    STAFF, REVIEWER, PARTNER, DEPUTY, DEPARTMENT, PAIR, SENIOR, RELEASE = range(8)
    year = 525_600
    periods = [(0, year), (0, year), (0, year // 2), (year // 2, year), (90_000, 300_000), (20_160, 40_320)]
    p = lambda: r.choice(periods)
    for d in (1, 2, 3):
        f.member((0, DEPARTMENT), d, p())
    for _ in range(14 * size):
        f.member((r.choice((1, 2, 3)), r.choice((STAFF, REVIEWER, REVIEWER))), person(), p())
    for _ in range(3 * size):
        f.member((0, PARTNER), person(), p())
    for _ in range(4 * size):
        f.member((r.choice((1, 2, 3)), DEPUTY), person(), p())
    for d in (1, 2, 3):
        f.include((d, REVIEWER), (d, DEPUTY), p())
        f.include((d, STAFF), (d, REVIEWER), p())
    for name in (STAFF, REVIEWER, DEPUTY):
        f.link((0, name), (0, DEPARTMENT), name, p())
    f.say(MEET, (0, SENIOR), (0, PARTNER), (0, REVIEWER), p())
    f.say(MEET, (0, SENIOR), (0, PARTNER), (0, DEPUTY), p())
    f.say(APART, (0, PAIR), (1, REVIEWER), (2, REVIEWER), p())
    f.say(APART, (0, PAIR), (2, REVIEWER), (3, REVIEWER), p())
    f.say(UNION, (0, RELEASE), (0, PARTNER), (1, REVIEWER), p())
    f.include((0, RELEASE), (0, PAIR), p())
    f.include((0, RELEASE), (0, SENIOR), p())
    assert len(f.lines) == 19 + 21 * size
    r.shuffle(f.lines)
    return f


def large(seed):
    """As large as a file may be: 256 credentials, 64 ends."""
    r = random.Random(f'large {seed}')
    f = File()
    inner = sorted(r.sample(range(1, 800_000), 62))
    ends = [0, *inner, 800_000]
    unused = ends[:]
    r.shuffle(unused)

    def p():
        i = ends.index(unused.pop()) if unused else r.randrange(64)
        j = (i + r.randrange(10, 54)) % 64
        return ends[min(i, j)], ends[max(i, j)]
    base = lambda: (r.randrange(10), r.randrange(5))         # teams
    middle = lambda: (r.randrange(10, 18), r.randrange(6, 11))  # offices
    upper = lambda: (r.randrange(18, 26), r.randrange(12, 20))  # releases
    for _ in range(104):
        f.member(base(), r.randrange(32), p())
    for i in range(10):
        f.member((26 + i % 2, 21), i, p())
    for _ in range(64):
        f.include(middle(), base(), p())
    for i in range(22):
        f.link(middle(), (26 + i % 2, 21), r.randrange(5), p())
    for _ in range(16):
        f.include(middle(), middle(), p())
    for _ in range(16):
        f.say(MEET, upper(), middle(), r.choice((base, middle))(), p())
    for _ in range(8):
        f.say(UNION, upper(), middle(), middle(), p())
    for _ in range(16):
        f.say(APART, upper(), middle(), middle(), p())
    assert len(f.lines) == 256
    r.shuffle(f.lines)
    return f


def threshold():
    """Any four of twelve, a signature at a time."""
    f = File(12, 4)
    f.members((0, 0), range(12))
    for n in (1, 2, 3):
        f.say(APART, (0, n), (0, n - 1), (0, 0))
    return f


# ---- hostile files ----

def chain():
    """255 inclusions, each before the one that it rests on."""
    f = File()
    roles = [f.fresh() for _ in range(256)]
    for above, below in zip(roles[:0:-1], roles[-2::-1]):
        f.include(above, below)
    f.member(roles[0], 7)
    return f


def ring(f, length, rounds, starts=None):
    """`length` roles in a ring, each before the one that it includes; the last goes back to the first by a link that turns
    {C} into {C + 1}. A set that starts n places before the end arrives after n + 1 levels. Returns the last role."""
    roles = [f.fresh() for _ in range(length)]
    if rounds > 1:
        f.link(roles[0], roles[-1], 0)
    for above, below in zip(roles[:0:-1], roles[-2::-1]):
        f.include(above, below)
    for before, period in starts or [(length * rounds - 1, ALWAYS)]:
        place = length * rounds - 1 - before
        f.member(roles[place % length], place // length, period)
    for c in range(rounds - 1):
        f.member((c, 0), c + 1)
    return roles[-1]


def deep():
    """A least level near 1,000 with 63 credentials."""
    f = File()
    ring(f, 31, 32)
    return f


def wide():
    """246 equal statements P ← P ⊙ P, 1,023 sets."""
    f = File()
    p = f.fresh()
    f.members(p, range(10))
    while f.room():
        f.say(UNION, p, p, p)
    return f


def many_sets(f, head, entities, further=()):
    """What `head` has, together with any of the entities, and with any of the further sets: 2 ^ n sets for n entities. A
    further set of one new entity and k others adds 2 ^ (n - k)."""
    ones = f.fresh()
    f.members(ones, entities)
    for x in further:
        f.set_of(ones, x)
    f.say(UNION, head, head, ones)


def naive_worst():
    """A ring that goes on by one step a pass, while hundreds of products over a large role stand by."""
    f = File()
    p = f.fresh()
    ring(f, 18, 19)
    f.members(p, range(9))
    f.set_of(p, (9, 2, 5))
    while f.room():
        f.say(UNION, p, p, p)
    return f


def staggered(f):
    """A role whose one set gets its 63 spans one after the other, a pass apart."""
    moments = [*range(63), ALWAYS[1]]
    last = ring(f, 8, 8, [(i, (moments[i], moments[i + 1])) for i in range(63)])
    only, role = f.fresh(), f.fresh()
    f.member(only, 7)
    f.say(MEET, role, last, only)
    return role


def stag_sets():
    f = File()
    x = staggered(f)
    p = f.fresh()
    f.include(p, x)
    many_sets(f, p, range(8, 17), ((8, 17), (8, 9, 17, 18)))
    return f, p


def stag_same():
    """Equal products over a large role whose spans arrive one after the other."""
    f, p = stag_sets()
    while f.room():
        f.say(UNION, p, p, p)
    return f


def stag_zero():
    """The same with ⊗ and other heads: all sets meet, so nothing comes of it."""
    f, p = stag_sets()
    while f.room():
        f.say(APART, f.fresh(), p, p)
    return f


def halves(f, left, right, start=None, more=()):
    """Two roles, of 2 ^ |right| and 2 ^ |left| sets, whose unions are all the same set; with more entities for the second,
    so many more sets and unions."""
    roles = []
    for always, also in ((left, right), (right, [*left, *more])):
        role, ones = f.fresh(), f.fresh()
        if start:
            whole = f.fresh()
            f.set_of(whole, always)
            f.say(UNION, role, whole, start)
        else:
            f.set_of(role, always)
        f.members(ones, also)
        f.say(UNION, role, role, ones)
        roles.append(role)
    return roles


def stag_heads():
    """Some two hundred heads over one body whose unions are all equal, spans one after the other."""
    f = File()
    x = staggered(f)
    p, q = halves(f, range(8, 16), range(16, 25), x)
    while f.room():
        f.say(UNION, f.fresh(), p, q)
    return f


def over_at_once():
    """Too many memberships, soon."""
    f = File()
    p = f.fresh()
    f.members(p, range(32))
    f.say(UNION, p, p, p)
    return f


def over_late():
    """Too many memberships, in the last pass: what comes out of a ring doubles a large role."""
    f = File()
    p = f.fresh()
    last = ring(f, 16, 16)
    only, out = f.fresh(), f.fresh()
    f.member(only, 15)
    f.say(MEET, out, last, only)
    f.include(p, out)
    f.members(p, range(9))
    f.set_of(p, (9, 1, 4))
    while f.room():
        f.say(UNION, p, p, p)
    return f


def serials_down():
    """The credentials of large-1 with descending serials: each is searched for among all before it."""
    f = large(1)
    f.falling = True
    return f


# ---- hostile to querying: everything holds at one minute ----

def heads():
    """Some two hundred heads over one body; all unions of its two large roles are equal."""
    f = File()
    p, q = halves(f, range(8), range(8, 17))
    while f.room():
        f.say(UNION, f.fresh(), p, q)
    return f


def heads_two():
    """The same with two unions for each head, which come in turns."""
    f = File()
    p, q = halves(f, range(8), range(8, 16), more=[20])
    for _ in range(90):
        f.say(UNION, f.fresh(), p, q)
    return f


def large_role():
    """A file with a role of 960 sets that all have entity 31."""
    f = File()
    p = f.fresh()
    f.member(p, 31)
    many_sets(f, p, range(9), ((0, 9), (0, 1, 9, 10), (0, 1, 2, 9, 10, 11)))
    return f, p


def meeting():
    """⊗ over a large role whose sets all meet, for some two hundred heads."""
    f, p = large_role()
    while f.room():
        f.say(APART, f.fresh(), p, p)
    return f


def bodies():
    """As many different bodies as there is room for, ⊙ and ⊗, over ten roles whose sets all meet and have one union."""
    f = File()
    roles = []
    for k in range(10):
        role = f.fresh()
        f.member(role, 31)
        roles.append(role)
    ones = f.fresh()
    f.members(ones, range(6))
    for role in roles:
        f.say(UNION, role, role, ones)
    pairs = [(p, q) for p in roles for q in roles]
    for p, q in pairs:
        if f.room():
            f.say(APART, f.fresh(), p, q)
    for p, q in pairs:
        if f.room():
            f.say(UNION, roles[0], p, q)
    return f


def same_inclusion():
    """Equal inclusions of a large role."""
    f = File()
    p, q = f.fresh(), f.fresh()
    f.member(p, 31)
    many_sets(f, p, range(8), ((0, 1, 8), (0, 1, 2, 3, 9)))
    while f.room():
        f.include(q, p)
    return f


def links():
    """Links to a large role by its name, from roles that do not lead to it."""
    f = File()
    f.member((0, 0), 31)
    many_sets(f, (0, 0), range(9), ((0, 9), (0, 1, 9, 10), (0, 1, 2, 9, 10, 11)))
    while f.room():
        f.link(f.fresh(), f.fresh(), 0)
    return f


def linked():
    """Equal links through 32 entities, each with a role of as many sets as fit."""
    f = File()
    s, t, ones = f.fresh(), f.fresh(), f.fresh()
    f.members(s, range(32))
    f.members(ones, range(4))
    f.say(UNION, ones, ones, ones)
    for c in range(32):
        f.include((c, 0), ones)
    f.set_of(t, (4, 5))
    while f.room():
        f.link(t, s, 0)
    return f


def meets():
    """Intersections of a large role with roles that have nothing."""
    f, p = large_role()
    while f.room():
        f.say(MEET, f.fresh(), p, f.fresh())
    return f


# ---- withdrawal lists ----

def withdrawals(entries):
    """A list of (serial, minute): all serials come first, then all minutes."""
    return struct.pack(f'<H{2 * len(entries)}I', len(entries), *[s for s, _ in entries], *[m for _, m in entries])


def ordered(entries, order):
    """In file order, in reverse order, or shuffled."""
    if order == 'down':
        return entries[::-1]
    if order == 'mixed':
        return random.Random('mixed').sample(entries, len(entries))
    return entries


def late(f):
    """All credentials, each withdrawn from the first minute that it does not cover: nothing changes."""
    return [(serial, stop) for serial, (*_, stop) in zip(f.serials(), f.lines)]


def cutting(f):
    """All credentials: each eighth has no minute left, the others lose minutes from an end within their period on."""
    r = random.Random('cutting')
    ends = sorted({end for *_, start, stop in f.lines for end in (start, stop)})
    inner = lambda start, stop: r.choice([end for end in ends if start < end < stop])
    return [(serial, inner(start, stop) if i % 8 else start)
            for i, (serial, (*_, start, stop)) in enumerate(zip(f.serials(), f.lines))]


def unknown(f):
    """The last serial is on no credential."""
    entries = late(f)
    return entries[:-1] + [(max(f.serials()) + 1, entries[-1][1])]


def repeated(f):
    """The last serial is that of the entry before it."""
    entries = late(f)
    return entries[:-1] + entries[-2:-1]


def leaving(f):
    """The person with the most credentials leaves on day 200 at noon: three of them are withdrawn."""
    theirs = {}
    for serial, x in zip(f.serials(), f.lines):
        if x[0] == SET:
            theirs.setdefault(x[3], []).append(serial)
    return [(serial, 200 * 1440 + 720) for serial in max(theirs.values(), key=len)[:3]]


HONEST = {
    **{f'office-{i}': (lambda i=i: office(i)) for i in (1, 2, 3)},
    **{f'large-{i}': (lambda i=i: large(i)) for i in (1, 2, 3)},
    'threshold': threshold,
}
HOSTILE = {
    'chain': chain, 'deep': deep, 'wide': wide, 'naive-worst': naive_worst, 'stag-same': stag_same, 'stag-zero': stag_zero,
    'stag-heads': stag_heads, 'over-at-once': over_at_once, 'over-late': over_late, 'serials-down': serials_down,
    'heads': heads, 'heads-two': heads_two, 'meeting': meeting, 'bodies': bodies, 'same-inclusion': same_inclusion,
    'links': links, 'linked': linked, 'meets': meets,
}

# Measured with a withdrawal list alone.
BESIDE = {'middle': lambda: office(4, 3)}
FILES = {**HONEST, **HOSTILE, **BESIDE}
# By name: the file, and the list for it.
LISTS = {
    **{f'{name}-{order}': ('large-1', lambda f, make=make, order=order: ordered(make(f), order))
       for name, make in (('late', late), ('cut', cutting)) for order in ('up', 'down', 'mixed')},
    'unknown': ('large-1', unknown), 'repeated': ('large-1', repeated),
    'leaving': ('middle', leaving),
}


def entries(name):
    """The serials and minutes of a list."""
    file, make = LISTS[name]
    return make(FILES[file]())


def write(folder, contents):
    os.makedirs(folder, exist_ok=True)
    for name, content in contents.items():
        with open(f'{folder}/{name}', 'wb') as out:
            out.write(content)


if __name__ == '__main__':
    write(f'{sys.argv[1]}/files', {name: make().bytes() for name, make in FILES.items()})
    write(f'{sys.argv[1]}/lists', {name: withdrawals(entries(name)) for name in LISTS})

#!/usr/bin/env python3
"""Measures the library against the yardstick; called by bench/run.

report.py DIR table|doc|quick|limits     DIR has the program `bench` and the folders `files` and `lists`

table   everything, as tables on standard output       doc     the same, written into docs/BENCHMARKS.md
quick   agreement, times and, with valgrind, instructions against bench/limits      limits   writes bench/limits"""
import json
import os
import re
import shutil
import subprocess
import sys

sys.dont_write_bytecode = True
import files

HERE = os.path.dirname(os.path.abspath(__file__))
DIR, MODE = sys.argv[1:3]
PROGRAM = f'{DIR}/bench'
CALLS = 'complete', 'query', 'absent', 'ends', 'intervals', 'forward', 'back', 'check'
BRINGING = 'forward', 'back'
CUTTING = 'complete', 'query', 'ends', 'intervals', 'check'     # what takes a withdrawal list
SECOND = 1e6                # a call may take no longer, in microseconds
BROUGHT = 100_000           # instructions that forward and back may take for 256 credentials
WITHDRAWN = 100             # microseconds that a call may take more with 256 withdrawals than with none
MARGIN = 1.15               # of a limit over the ratio that was measured
VALGRIND = shutil.which('valgrind')
SWIPL = shutil.which('swipl')
# Valgrind counts a `rep stos` once for each byte or word: the C library is told to clear and copy with vectors.
TUNABLES = 'glibc.cpu.x86_rep_stosb_threshold=100000000:glibc.cpu.x86_rep_movsb_threshold=100000000'


def run(command, seconds=None):
    """What a command prints, or None when it takes longer."""
    try:
        done = subprocess.run(command, capture_output=True, text=True, timeout=seconds)
    except subprocess.TimeoutExpired:
        return None
    if done.returncode:
        sys.exit(f'bench: {" ".join(command)}: {done.stdout}{done.stderr}')
    return done.stdout


def path(name):
    return f'{DIR}/files/{name}'


def given(name):
    """A withdrawal list with its file; or a file, with the list of count 0."""
    return [path(files.LISTS[name][0]), f'{DIR}/lists/{name}'] if name in files.LISTS else [path(name), '-']


def question(name, *how):
    """Role, set, minute, absent set; level; steps."""
    w = run([PROGRAM, *given(name), *(how or ['ask'])]).split()
    return w[:4], int(w[4]), int(w[5])


def timed(name, asked, call, whose, seconds, cap):
    """Reply and microseconds, or None above the cap."""
    out = run([PROGRAM, *given(name), 'time', *asked, str(seconds), call, whose], cap)
    return out and (int(out.split()[0]), float(out.split()[1]))


def counted(name, asked, pairs):
    """Instructions of each (call, whose)."""
    if not VALGRIND or not pairs:
        return {}
    out = f'{DIR}/callgrind'
    shutil.rmtree(out, ignore_errors=True)
    os.makedirs(out)
    subprocess.run([VALGRIND, '--tool=callgrind', '--toggle-collect=measured', '--dump-after=measured',
                    f'--callgrind-out-file={out}/c', PROGRAM, *given(name), 'once', *asked, *[w for p in pairs for w in p]],
                   check=True, capture_output=True, env={**os.environ, 'GLIBC_TUNABLES': TUNABLES, 'LD_BIND_NOW': '1'})
    counts = []
    for i in range(1, len(pairs) + 1):
        with open(f'{out}/c.{i}') as f:
            counts.append(int(re.search(r'^totals: (\d+)', f.read(), re.M).group(1)))
    return dict(zip(pairs, counts))


def by_function(name, asked, call):
    """Instructions of one call of the library in each function that the compiler kept apart."""
    if not counted(name, asked, [(call, 'rtt')]):
        return {}
    names, costs, function, inclusive = {}, {}, None, False
    with open(f'{DIR}/callgrind/c.1') as f:
        for line in f:
            label = re.match(r'(c?fn)=(\(\d+\))(?: (.*))?', line)
            if label:
                if label[3]:
                    names[label[2]] = label[3]
                if label[1] == 'fn':
                    function = names[label[2]]
            elif line.startswith('calls='):
                inclusive = True
            elif re.match(r'[\d+*-]', line):
                if not inclusive:
                    costs[function] = costs.get(function, 0) + int(line.split()[1])
                inclusive = False
    parts = {}
    for function, cost in costs.items():
        kept = function if '::' in function or function.startswith('rtt_') else 'clearing and copying (C library)'
        parts[kept] = parts.get(kept, 0) + cost
    return parts


def tabled(name, when):
    """Memberships and microseconds of the Prolog program, or None."""
    out = run([SWIPL, '-O', f'{HERE}/tabling.pl', path(name), when], 20)
    return out and (int(out.split()[0]), float(out.split()[1]))


def yardsticks(call):
    return ('plain', 'grouped') if call in ('complete', 'query', 'absent') else ('grouped',)


def calls_on(name, steps):
    """Checking is last, and only where there is a proof."""
    calls = CUTTING if name in files.LISTS else CALLS
    return calls if steps else calls[:-1]


def measure(name):
    """All calls on one file. Long calls are timed and not counted."""
    asked, level, steps = question(name)
    r = {'level': level, 'steps': steps, 'time': {}, 'reply': {}}
    r['compared'] = int(run([PROGRAM, *given(name), 'agree', *asked]))
    pairs = []
    for call in calls_on(name, steps):
        for whose in ('rtt', *yardsticks(call)):
            t = timed(name, asked, call, whose, 0.2, 60)
            r['time'][f'{call} {whose}'] = t and t[1]
            r['reply'][f'{call} {whose}'] = t and t[0]
            if t and t[1] < (SECOND / 20 if whose == 'plain' else SECOND / 2):
                pairs.append((call, whose))
    r['instructions'] = {' '.join(k): v for k, v in counted(name, asked, pairs).items()}
    return r, asked


def least(name, asked, call, whose, times, seconds):
    """Reply and least microseconds of several runs."""
    return min((timed(name, asked, call, whose, seconds, None) for _ in range(times)), key=lambda t: t[1])


def longer(name, asked, call, times, seconds):
    """Microseconds that a call of the library takes more with a withdrawal list than with that of count 0."""
    given_it, bare = (least(name, asked, lent + call, 'rtt', times, seconds)[1] for lent in ('', 'bare-'))
    return given_it - bare


def measure_list(name):
    """The calls that take a withdrawal list, with this one and with that of count 0."""
    asked, level, steps = question(name)
    r = {'level': level, 'steps': steps, 'time': {}, 'reply': {}}
    r['compared'] = int(run([PROGRAM, *given(name), 'agree', *asked]))
    pairs = [(lent + call, whose) for call in calls_on(name, steps) for lent in ('', 'bare-') for whose in ('rtt', 'plain')]
    for call in (c for c, whose in pairs if whose == 'rtt'):
        r['reply'][f'{call} rtt'], r['time'][f'{call} rtt'] = least(name, asked, call, 'rtt', 3, 0.2)
    r['instructions'] = {' '.join(k): v for k, v in counted(name, asked, pairs).items()}
    return r


# ---- the whole measurement ----

def whole():
    results = {}
    for name in (*files.HONEST, *files.HOSTILE):
        r, asked = measure(name)
        if SWIPL:
            r['tabling'] = {'spans': tabled(name, 'spans'), 'minute': tabled(name, asked[2])}
        results[name] = r
        print(f'bench: {name}', file=sys.stderr, flush=True)
    lists = {}
    for name in files.LISTS:
        lists[name] = measure_list(name)
        print(f'bench: {name}', file=sys.stderr, flush=True)
    lengths = {}
    for steps in (10, 100, 1000):
        asked, level, got = question('deep', 'steps', str(steps))
        pairs = [('check', 'rtt'), ('check', 'grouped')]
        lengths[got] = {'instructions': {' '.join(k): v for k, v in counted('deep', asked, pairs).items()},
                        'time': {w: timed('deep', asked, 'check', w, 0.2, 60)[1] for w in ('rtt', 'grouped')}}
    parts = {f'{call} {name}': by_function(name, question(name)[0], call)
             for call, name in (('complete', 'large-1'), ('complete', 'office-1'), ('query', 'large-1'), ('check', 'deep'), ('ends', 'late-mixed'))}
    out = {'files': results, 'lists': lists, 'lengths': lengths, 'parts': parts}
    with open(f'{DIR}/results.json', 'w') as f:
        json.dump(out, f, indent=1)
    return out


def number(x):
    return '' if x is None else f'{x:,}'


def time(us, cap='> 60 s'):
    if us is None:
        return cap
    return f'{us:.1f} µs' if us < 1e3 else f'{us / 1e3:.1f} ms' if us < 1e6 else f'{us / 1e6:.1f} s'


def rows(head, body):
    return '\n'.join(['| ' + ' | '.join(map(str, x)) + ' |' for x in (head, ['---'] * len(head), *body)]) + '\n'


def best(r, call, what):
    """The better yardstick's figure."""
    had = [r[what].get(f'{call} {w}') for w in yardsticks(call)]
    return min((x for x in had if x is not None), default=None)


def ratio(r, call, of=None):
    """Instructions of the library over those of a yardstick; of the times where either was not counted."""
    for what, mark in (('instructions', ''), ('time', ' (time)')):
        ours = r[what].get(f'{call} rtt')
        theirs = r[what].get(f'{call} {of}') if of else best(r, call, what)
        if ours is not None and theirs is not None:
            return ours / theirs, mark
    return None, ''


def more(r, call, what, whose='rtt'):
    """A figure with the list, less that with the list of count 0."""
    had = [r[what].get(f'{lent}{call} {whose}') for lent in ('', 'bare-')]
    return None if None in had else had[0] - had[1]


def signed(x, say):
    return '' if x is None else ('+' if x >= 0 else '−') + say(abs(x))


def short(x):
    return f'{x:.2f}' if x < 10 else f'{x:,.0f}'


def shown(pair):
    return '' if pair[0] is None else short(pair[0]) + pair[1]


def reply(r, call):
    x = r['reply'].get(f'{call} rtt')
    if x is None:
        return ''
    return f'refused {x >> 32}' if x >> 32 else f'{x & 65535} steps, level {x >> 16}' if call == 'query' else str(x)


def tables(out):
    every = out['files']
    text = ['']

    def part(title, note=''):
        text.append(f'### {title}\n')
        if note:
            text.append(note + '\n')
    part('Summary')
    body = []
    honest = [every[n] for n in files.HONEST]
    hostile = [every[n] for n in files.HOSTILE]
    large = [every[n] for n in files.HONEST if n.startswith('large')]
    small = [r for r in honest if r not in large]
    for what, rs, call, of, goal in (
            ('completing, honest files, against plain', honest, 'complete', 'plain', 1.3),
            ('completing, hostile files, against the better', hostile, 'complete', None, 2),
            ('querying, `office` and `threshold`, against plain', small, 'query', 'plain', 1.9),
            ('querying, `large`, against plain', large, 'query', 'plain', 1.5),
            ('querying, hostile files, against the better', hostile, 'query', None, 2),
            ('querying an absent set, honest files, against plain', honest, 'absent', 'plain', 2),
            ('querying an absent set, hostile files, against the better', hostile, 'absent', None, 2),
            ('checking, all files', list(every.values()), 'check', None, 1.5),
            ('ends, all files', list(every.values()), 'ends', None, 2),
            ('intervals, all files', list(every.values()), 'intervals', None, 2),
            ('forward, all files', list(every.values()), 'forward', None, 2),
            ('back, all files', list(every.values()), 'back', None, 2)):
        had = [(ratio(r, call, of)[0], n) for n, r in every.items() if r in rs and ratio(r, call, of)[0] is not None]
        over = [f'`{n}` {short(x)}' for x, n in had if x > goal]
        body.append([what, f'{short(min(had)[0])} to {short(max(had)[0])}', goal,
                     'met' if not over else f'missed on {len(over)} of {len(had)}: ' + ', '.join(over)])
    # Of a file with 256 credentials; a call that refuses brings nothing, and is named beside.
    full = [(x, f'`{n}` {c} {number(x)}', r['reply'][f'{c} rtt'] == 256) for n, r in every.items() if r['reply']['forward rtt'] == 256
            for c in BRINGING for x in [r['instructions'].get(f'{c} rtt')] if x]
    if full:
        had = [x for x, _, done in full if done]
        over = [who for x, who, done in full if done and x > BROUGHT]
        refused = [who for x, who, done in full if not done and x > BROUGHT]
        body.append(['forward and back of 256 credentials, instructions', f'{number(min(had))} to {number(max(had))}', number(BROUGHT),
                     ('met' if not over else f'missed on {len(over)} of {len(had)}: ' + ', '.join(over))
                     + ('; refused, beside: ' + ', '.join(refused) if refused else '')])
    # After a list that cuts there is less to do.
    for form, what in (('late', '256 withdrawals that change nothing, more than none'), ('cut', '256 withdrawals that cut, more than none')):
        had = [(more(r, c, 'time'), f'`{n}` {c}') for n, r in out['lists'].items() if n.startswith(form) for c in CUTTING]
        over = [f'{who} {time(x)}' for x, who in had if x > WITHDRAWN]
        body.append([what, f'{signed(min(had)[0], time)} to {signed(max(had)[0], time)}', '0.1 ms',
                     'met' if not over else f'missed on {len(over)} of {len(had)}: ' + ', '.join(over)])
    slowest = max(((r['time'][f'{c} rtt'], n, c) for n, r in every.items() for c in CALLS if r['time'].get(f'{c} rtt')))
    body.append(['longest call of the library', f'{time(slowest[0])} (`{slowest[1]}`, {slowest[2]})', '0.5 s',
                 'met' if slowest[0] < SECOND / 2 else 'missed'])
    text.append(rows(['what', 'ratios', 'goal', ''], body))
    compared = sum(r['compared'] for r in (*every.values(), *out['lists'].values()))
    text.append(f'Comparisons of replies and lists between library and yardstick: {compared:,}, no difference.\n')
    part('Completing', 'Instructions of one call.')
    text.append(rows(
        ['file', 'reply', 'library', 'plain', 'grouped', 'library / plain', 'library / better'],
        [[n, reply(r, 'complete'), *[number(r['instructions'].get(f'complete {w}')) for w in ('rtt', 'plain', 'grouped')],
          shown(ratio(r, 'complete', 'plain')), shown(ratio(r, 'complete'))] for n, r in every.items()]))
    for call, title in (('query', 'Querying the deepest membership'), ('absent', 'Querying a set that the role does not have')):
        part(title, 'Instructions of one call.')
        text.append(rows(
            ['file', 'reply', 'library', 'plain', 'grouped', 'library / plain', 'library / better'],
            [[n, reply(r, call), *[number(r['instructions'].get(f'{call} {w}')) for w in ('rtt', 'plain', 'grouped')],
              shown(ratio(r, call, 'plain')), shown(ratio(r, call))] for n, r in every.items()]))
    part('Checking the proof of the deepest membership', 'Instructions of one call.')
    text.append(rows(
        ['file', 'steps', 'library', 'plain', 'library / plain'],
        [[n, r['steps'], number(r['instructions'].get('check rtt')), number(r['instructions'].get('check grouped')),
          shown(ratio(r, 'check'))] for n, r in every.items() if r['steps']]))
    for title, calls in (('Ends, and the intervals of every other span', ('ends', 'intervals')),
                         ('Old files brought forward and back', BRINGING)):
        part(title, 'Instructions of one call.')
        text.append(rows(
            ['file', *[x for call in calls for x in (call, 'library', 'plain', 'library / plain')]],
            [[n, *[x for call in calls
                   for x in (reply(r, call), *[number(r['instructions'].get(f'{call} {w}')) for w in ('rtt', 'grouped')], shown(ratio(r, call)))]]
             for n, r in every.items()]))
    part('Withdrawal lists', 'One call with the list; and what it takes more than with the list of count 0, on the same file, for the same '
         'membership, proof and every other span.')
    text.append(rows(
        ['list', 'call', 'reply', 'library', 'more', 'plain', 'more', 'library / plain', 'library, time', 'more'],
        [[n, c, reply(r, c), *[x for w in ('rtt', 'plain')
                               for x in (number(r['instructions'].get(f'{c} {w}')), signed(more(r, c, 'instructions', w), number))],
          shown(ratio(r, c, 'plain')), time(r['time'][f'{c} rtt']), signed(more(r, c, 'time'), time)]
         for n, r in out['lists'].items() for c in CUTTING if f'{c} rtt' in r['time']]))
    part('Checking by length of the proof', 'Proofs of memberships of `deep`, one call.')
    at = {int(k): v for k, v in out['lengths'].items()}
    body = []
    for k, v in sorted(at.items()):
        i, t = v['instructions'], v['time']
        body.append([k, number(i.get('check rtt')), number(i.get('check grouped')), time(t['rtt']), time(t['grouped'])])
    text.append(rows(['steps', 'library, instructions', 'plain, instructions', 'library, time', 'plain, time'], body))
    low, high = min(at), max(at)
    if at[low]['instructions']:
        slope = [(at[high]['instructions'][f'check {w}'] - at[low]['instructions'][f'check {w}']) / (high - low) for w in ('rtt', 'grouped')]
        text.append(f'Each further step costs {slope[0]:.0f} instructions, {slope[1]:.0f} in the yardstick.\n')
    part('Where the instructions of the library go', 'By function, as far as the compiler kept them apart; what it inlined counts where it ended up.')
    text.append(rows(['call', 'file', 'function', 'instructions'],
                     [[*key.split(), f'`{f}`' if '_' in f or ':' in f else f, number(x)] for key, parts in out['parts'].items()
                      for f, x in sorted(parts.items(), key=lambda p: -p[1]) if 50 * x > sum(parts.values())]))
    part('Times', 'Least of repeated calls in one run; of short ones the least mean of 20 or 200 calls. A blank cell: there is no proof to check.')
    text.append(rows(
        ['file', 'complete', 'plain', 'grouped', 'query', 'plain', 'grouped', 'absent', 'check', 'plain'],
        [[n, *[time(r['time'].get(f'complete {w}')) for w in ('rtt', 'plain', 'grouped')],
          *[time(r['time'].get(f'query {w}')) for w in ('rtt', 'plain', 'grouped')], time(r['time'].get('absent rtt')),
          *[time(r['time'].get(f'check {w}'), '') for w in ('rtt', 'grouped')]] for n, r in every.items()]))
    if any('tabling' in r for r in every.values()):
        part('SWI-Prolog with tabling', 'Processor time of a second evaluation, without start and reading. '
             'The Prolog program finds the memberships and no proofs.')
        body = []
        for n, r in every.items():
            if 'tabling' not in r:
                continue
            cells = []
            for k, call in (('spans', 'complete'), ('minute', 'query')):
                t = r['tabling'][k]
                ours = r['time'].get(f'{call} rtt')
                cells += [time(t and t[1], '> 20 s'), time(ours), f'{t[1] / ours:,.0f}' if t and ours else '']
                refused = (r['reply'][f'{call} rtt'] or 0) >> 32
                if t and call == 'complete' and not refused and t[0] != r['reply']['complete rtt']:
                    sys.exit(f'bench: Prolog has {t[0]} memberships on {n}')
            body.append([n, *cells])
        text.append(rows(['file', 'all spans', 'rtt_complete', 'times', 'one minute', 'rtt_query', 'times'], body))
    return '\n'.join(text)


# ---- the gate's part ----

def both(name, asked, calls):
    """Instructions of the library and of the grouped yardstick, by call."""
    got = counted(name, asked, [(c, w) for c in calls for w in ('rtt', 'grouped')])
    return {c: (got[c, 'rtt'], got[c, 'grouped']) for c in calls} if got else {}


def limits():
    """By file, then by call."""
    allowed = {}
    with open(f'{HERE}/limits') as f:
        for w in (line.split() for line in f if line[0] != '#'):
            allowed.setdefault(w[0], {})[w[1]] = float(w[2])
    return allowed


def quick():
    allowed = limits()
    bad, compared, held, brought = [], 0, 0, 0
    for name in (*files.HONEST, *files.HOSTILE, *files.LISTS):
        print(f'bench: {name}', file=sys.stderr, flush=True)
        asked, _, steps = question(name)
        compared += int(run([PROGRAM, *given(name), 'agree', *asked, 'grouped']))
        replies = {}
        for call in calls_on(name, steps):
            replies[call], took = min(timed(name, asked, call, 'rtt', 0, None) for _ in range(2))
            if took > SECOND:
                bad.append(f'{call} {name}: {time(took)}')
        for call, (ours, theirs) in both(name, asked, list(allowed.get(name, {}))).items():
            held += 1
            if ours / theirs > allowed[name][call]:
                bad.append(f'{call} {name}: {ours / theirs:.2f} times the yardstick, limit {allowed[name][call]:.2f}')
            if call in BRINGING and replies[call] == 256:
                brought += 1
                if ours > BROUGHT:
                    bad.append(f'{call} {name}: {number(ours)} instructions, limit {number(BROUGHT)}')
    for line in bad:
        print(f'bench: {line}')
    if bad:
        sys.exit(1)
    said = 'no valgrind, instructions not counted'
    if VALGRIND:
        said = f'{held} ratios within their limits, 256 credentials brought forward or back {brought} times within {number(BROUGHT)} instructions'
    print(f'bench: {compared} comparisons with the yardstick, no call above a second, {said}')


def write_limits():
    """A limit for each call that is short enough for the gate to count it: what was measured, or the one before where that is lower."""
    allowed = limits()
    lines = ['# Instructions of the library over those of the grouped yardstick, at most; written by `bench/run limits`, which raises none.']
    for name in (*files.HONEST, *files.HOSTILE, *files.LISTS):
        asked, _, steps = question(name)
        before = allowed.get(name, {})
        calls = [c for c in calls_on(name, steps) if all(timed(name, asked, c, w, 0.05, 60)[1] < 4e3 for w in ('rtt', 'grouped'))]
        now = {c: ours / theirs * MARGIN for c, (ours, theirs) in both(name, asked, calls).items()}
        lines += [f'{name} {c} {min(x[c] for x in (before, now) if c in x):.2f}' for c in CALLS if c in before or c in now]
    with open(f'{HERE}/limits', 'w') as f:
        f.write('\n'.join(lines) + '\n')


if MODE == 'table':
    print(tables(whole()))
elif MODE == 'doc':
    page = f'{HERE}/../docs/BENCHMARKS.md'
    measured = tables(whole())
    with open(page) as f:
        text = f.read()
    start, end = '<!-- measured: start -->\n', '<!-- measured: end -->\n'
    with open(page, 'w') as f:
        f.write(text.split(start)[0] + start + measured + end + text.split(end)[1])
elif MODE == 'quick':
    quick()
elif MODE == 'limits':
    write_limits()
else:
    sys.exit(__doc__)

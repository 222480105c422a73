#!/usr/bin/env python3
"""run.py [WORD ..] [--table]: makes one library of the sources that holds the changes of mutants.txt (those whose lines have one of the words; with no word, those not run on
today's code of their function), each beside the code it changes, unproved, and runs it beside the Rust once for each change, at most a minute. Their rows go into RESULTS.md;
--table writes that file anew and runs nothing. No part of the gate: it tests the tests."""
import hashlib, os, re, shutil, subprocess, sys, tempfile
from concurrent.futures import ThreadPoolExecutor

here = os.path.dirname(os.path.abspath(__file__))
top = os.path.dirname(os.path.dirname(here))
RESULTS = os.path.join(here, 'RESULTS.md')
SOURCES = os.environ.get('SOURCES', top)
SECONDS = int(os.environ.get('SECONDS_EACH', '60'))
# For changes of which mutants.txt says why no call can tell them.
EXPLAINED = int(os.environ.get('SECONDS_EXPLAINED', '15'))
SEED = os.environ.get('SEED', '7')
# How many runs go on at once.
AT_ONCE = int(os.environ.get('AT_ONCE', '1'))


def read_list(path):
    found, lines = [], [l.rstrip('\n') for l in open(path)]
    i = 0
    while i < len(lines):
        if not lines[i] or lines[i].startswith('#'):
            i += 1
            continue
        file, function = lines[i].split()
        old, new = lines[i + 1], lines[i + 2]
        assert old.startswith('- ') and new.startswith('+ '), lines[i]
        i += 3
        why = None
        if i < len(lines) and lines[i].startswith('= '):
            why = lines[i][2:]
            i += 1
        found.append((file, function, old[2:], new[2:], why))
    return found


def code_of(text, function):
    """Where the function's code begins and ends in the file's text; the contract is not the code. A method of an impl is TYPE::NAME."""
    begin = 0
    if '::' in function:
        of, function = function.split('::')
        impl = re.search(r'^impl\b(?:.* for|(?:<[^>]*>)?) ' + re.escape(of) + r'(<[^>]*>)? \{$', text, re.M)
        if not impl:
            return 0, 0
        begin = impl.end()
    start = re.compile(r'\bfn ' + function + r'\b').search(text, begin)
    if not start:
        return 0, 0
    following = re.compile(r'^\s*(pub(\(crate\))? )?(extern "C" )?fn ', re.M).search(text, start.end())
    end = following.start() if following else len(text)
    at = re.compile(r'\{$', re.M).search(text, start.end(), end)
    return (at.start(), body_end(text, at.start())) if at else (0, 0)


def body_end(text, at):
    """Behind the brace that closes the one at `at`; braces of comments do not count."""
    depth, i = 0, at
    while True:
        if text.startswith('//', i):
            i = text.index('\n', i)
        depth += {'{': 1, '}': -1}.get(text[i], 0)
        i += 1
        if depth == 0:
            return i


def source(file):
    path = os.path.join(SOURCES, file)
    return open(path).read() if os.path.exists(path) else ''


def misplaced(mutants):
    """The changes whose text does not stand exactly once in the code of their function."""
    found = []
    for file, function, old, new, _ in mutants:
        text = source(file)
        at, end = code_of(text, function)
        times = text[at:end].count(old)
        if times != 1:
            found.append('%s %s: %d times: %s' % (file, function, times, old))
    return found


def code_sum(m):
    """A number of the function's code."""
    text = source(m[0])
    at, end = code_of(text, m[1])
    return hashlib.sha256(text[at:end].encode()).hexdigest()[:8]


def write_sources(copy, mutants):
    """The sources, where the code of each changed function begins with a choice by the number that a run is started with: 1 is the first change, .."""
    shutil.copy(os.path.join(SOURCES, 'crates.txt'), copy)
    for c in os.listdir(os.path.join(SOURCES, 'crates')):
        src = os.path.join(SOURCES, 'crates', c, 'src')
        if os.path.isdir(src):
            shutil.copytree(src, os.path.join(copy, 'crates', c, 'src'))
    changes = {}
    for number, (file, function, old, new, _) in enumerate(mutants, 1):
        changes.setdefault(file, {}).setdefault(function, []).append((number, old, new))
    crates = set()
    for file, functions in changes.items():
        text = source(file)
        crates.add(file.split('/')[1])
        # The last function first, so that the places of the others stay.
        for function in sorted(functions, key=lambda f: -code_of(text, f)[0]):
            at, end = code_of(text, function)
            body = text[at:end]
            chosen = ''.join('if crate::chosen_change() == %d %s else ' % (n, body.replace(old, new, 1)) for n, old, new in functions[function])
            text = text[:at] + '{\n' + chosen + body + '\n}' + text[end:]
        open(os.path.join(copy, file), 'w').write(text)
    for c in crates:
        with open(os.path.join(copy, 'crates', c, 'src', 'lib.rt'), 'a') as f:
            f.write('\npub fn chosen_change() -> u32 {\n    0\n}\n')


def build(copy, so):
    r = subprocess.run(['bash', os.path.join(here, 'build.sh'), copy, so], env=dict(os.environ, OPT='-O1', CHECKS='no'), capture_output=True, text=True)
    if r.returncode:
        sys.exit('the library is not built:\n' + r.stderr)


def judge(beside, lib, number, seconds):
    """Whether the runs tell it apart, after how many calls, and by which comparison."""
    env = dict(os.environ, LD_LIBRARY_PATH=lib, CHANGE=str(number))
    p = subprocess.Popen([beside, '--brief', '--no-shrink', '--seed', SEED, '--seconds', str(seconds)], env=env, stdout=subprocess.PIPE, stderr=subprocess.DEVNULL, text=True, start_new_session=True)
    try:
        out, _ = p.communicate(timeout=seconds + 30)
    except subprocess.TimeoutExpired:
        os.killpg(p.pid, 9)
        p.communicate()
        return 'yes', '', 'a call that does not end'
    m = re.search(r'DIFFERENT: seed \d+ list \d+ after (\d+) calls: ([^\n]*)', out)
    if m:
        why = m.group(2)
        why = re.sub(r'^creation: me .*: ([^:]*)$', r'creation: \1', why)
        why = re.sub(r'[:,] the (Rust|model).*', '', why)
        why = re.sub(r'(answer|creation).*', r'\1', why) if why.startswith(('answer', 'creation')) else why
        return 'yes', m.group(1), why.strip(' :').replace('|', '/')[:70]
    m = re.search(r'seed \d+: (\d+) calls .* 0 different', out)
    return ('no', m.group(1), '') if m else ('?', '', out[-200:].replace('\n', ' '))


def named(m):
    """The first two columns of a change's row."""
    file, function, old, new, _ = m
    where = file.replace('crates/', '').replace('/src/', '/').replace('.rt', '') + ' ' + function
    return '| %s | %s |' % (where, ('`%s` → `%s`' % (old, new)).replace('|', '\\|'))


def read_rows(mutants):
    """What RESULTS.md says of the list's changes: told apart, after, by, and the number of the code that was run."""
    lines = [l.rstrip('\n') for l in open(RESULTS)] if os.path.exists(RESULTS) else []
    rows = {}
    for m in mutants:
        for l in lines:
            if l.startswith(named(m)):
                told, calls, by, code = [w.strip() for w in l[len(named(m)):].rstrip('|').split(' | ')]
                rows[named(m)] = (told, calls, by, code)
    return rows


COLUMNS = '| where | change | told apart | after | by | code |\n|---|---|---|---|---|---|\n'


def write_rows(mutants, rows):
    """RESULTS.md of what is known of the list's changes."""
    run = [m for m in mutants if rows.get(named(m), ' ')[-1] == code_sum(m)]
    before = [m for m in mutants if named(m) in rows and m not in run]
    told = sum(rows[named(m)][0] == 'yes' for m in run)
    alike = sum(rows[named(m)][0] == 'no' and bool(m[4]) for m in run)
    with open(RESULTS, 'w') as f:
        f.write('# Mutants\n\nOf the %d changes of the library in mutants.txt, %d were run on the code of their function as it stands, each beside the Rust for at most a minute (seed %s; those of which it is said why no call can tell them, for %d seconds): ' % (len(mutants), len(run), SEED, EXPLAINED))
        f.write('%d told apart, %d that no call can tell apart, %d neither. ' % (told, alike, len(run) - told - alike))
        f.write('"After" is the number of the call that differs, or of all calls made where none does; "by" what differs, or why nothing can; "code" a number of the function\'s code that was run.\n\n')
        f.write(COLUMNS)

        def row(m):
            told, calls, by, code = rows[named(m)]
            f.write('%s %s | %s | %s | %s |\n' % (named(m), told, calls, m[4] if told == 'no' and m[4] else by, code))
        for m in run:
            row(m)
        if before:
            f.write('\n## Run on earlier sources\n\n%d changes were run on earlier code of their function, and not since; %d were not run.\n\n' % (len(before), len(mutants) - len(run) - len(before)))
            f.write(COLUMNS)
            for m in before:
                row(m)
        elif len(run) < len(mutants):
            f.write('\n%d were not run.\n' % (len(mutants) - len(run)))


def harness(lib):
    """The program that runs the library beside the Rust; it loads the library as it starts."""
    if os.environ.get('BESIDE'):
        return os.environ['BESIDE']
    target = os.path.join(top, 'tests', 'target', 'mutants')
    # Debian's packages that the Rust is built of
    subprocess.run(['sh', os.path.join(top, 'tests', 'rust', 'build.sh')], stdout=subprocess.DEVNULL, check=True)
    subprocess.run(['cargo', 'build', '--release', '--offline', '-j', '1', '--quiet'], cwd=os.path.join(top, 'tests', 'beside'), env=dict(os.environ, PLUMTREE_LIB_DIR=lib, PLUMTREE_LIB_KIND='dylib', CARGO_TARGET_DIR=target), check=True)
    return os.path.join(target, 'release', 'beside')


def main():
    words = sys.argv[1:]
    mutants = read_list(os.path.join(here, 'mutants.txt'))
    wrong = misplaced(mutants)
    if wrong:
        sys.exit('mutants.txt does not fit the sources:\n' + '\n'.join(wrong))
    rows = read_rows(mutants)
    if words == ['--table']:
        return write_rows(mutants, rows)
    if words:
        todo = [m for m in mutants if any(w in ' '.join(m[:4]) for w in words)]
    else:
        todo = [m for m in mutants if rows.get(named(m), ' ')[-1] != code_sum(m)]
    sums = {named(m): code_sum(m) for m in todo}
    lib = os.path.join(top, 'tests', 'target', 'mutants', 'lib')
    os.makedirs(lib, exist_ok=True)
    with tempfile.TemporaryDirectory() as copy:
        write_sources(copy, todo)
        build(copy, os.path.join(lib, 'libplumtree.so'))
    beside = harness(lib)
    print('no change chosen:', judge(beside, lib, 0, EXPLAINED), flush=True)
    runs = sorted(enumerate(todo, 1), key=lambda t: t[1][4] is not None)
    with ThreadPoolExecutor(AT_ONCE) as pool:
        judged = pool.map(lambda t: judge(beside, lib, t[0], EXPLAINED if t[1][4] else SECONDS), runs)
        for (_, m), told in zip(runs, judged):
            rows[named(m)] = (*told, sums[named(m)])
            write_rows(mutants, rows)
            print(m[0], m[1], told, flush=True)


main()

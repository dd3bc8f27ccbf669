"""How tests/speed builds the port and the Rust, and how it compares, counts and times their calls.

The port is built as it is delivered, by `rt lib`, from the crate in tests/speed-port.txt. That crate stands in a
scratch tree below target/speed, beside a copy of the crates of this repository. The program that calls both sides is
oracle/src/speed.rs.
"""
from asking import ORACLE, ROOT, SOURCES, need_kit, need_rust
import collections, filecmp, os, platform, shutil, subprocess, sys

FOLDER = os.path.join(ROOT, 'target', 'speed')
TREE = os.path.join(FOLDER, 'tree')
PORT = os.path.join(ROOT, 'tests', 'speed-port.txt')
# how often every call is timed anew; the least counts
ROUNDS = 3
# long copies without string instructions, which valgrind would count once a byte
NO_STRINGS = 'glibc.cpu.x86_rep_stosb_threshold=1000000000:glibc.cpu.x86_rep_movsb_threshold=1000000000'
# nothing is counted before the program asks; one file with plain names, and a line for each function
CALLGRIND = ('--tool=callgrind', '--collect-atstart=no', '--combine-dumps=yes', '--dump-line=no',
             '--compress-strings=no', '--compress-pos=no')


def say(line):
    """Says how far it is."""
    print(line, file=sys.stderr, flush=True)


def need():
    """Ends the test, as a failure, where something is missing; valgrind is fetched where that can be done."""
    if platform.machine() != 'x86_64':
        sys.exit('not run: instructions are counted on x86-64, and this machine is ' + platform.machine())
    need_kit()
    need_rust()
    if not shutil.which('valgrind') and shutil.which('apt-get') and os.geteuid() == 0:
        say('fetching valgrind')
        subprocess.run(['apt-get', 'install', '-y', 'valgrind'], stdout=sys.stderr)
    if not shutil.which('valgrind'):
        sys.exit("not run: no 'valgrind' on the path, which counts instructions")


def told(words, cwd, errors=None, **environment):
    """Runs a program that must not fail, and gives the lines that it writes; its errors are shown, or go elsewhere."""
    environment = dict(os.environ, **environment)
    run = subprocess.run(words, cwd=cwd, env=environment, stdout=subprocess.PIPE, stderr=errors, text=True)
    if run.returncode:
        sys.exit('%snot run: %s ended with %d' % (run.stdout, ' '.join(words[:3]), run.returncode))
    return run.stdout.splitlines()


def archive():
    """The port's archive. Of what is proved here already the build of the scratch tree takes its own copy."""
    say('proving the port, where it is not proved yet')
    told(['rt', 'check'], os.path.join(ROOT, 'crates', 'layout'), subprocess.STDOUT)
    say('building the port')
    shutil.rmtree(TREE, ignore_errors=True)
    shutil.copytree(os.path.join(ROOT, 'crates'), os.path.join(TREE, 'crates'), ignore=shutil.ignore_patterns('out'))
    os.makedirs(os.path.join(TREE, 'crates', 'port', 'src'))
    shutil.copy(PORT, os.path.join(TREE, 'crates', 'port', 'src', 'lib.rt'))
    with open(os.path.join(ROOT, 'crates.txt')) as crates, open(os.path.join(TREE, 'crates.txt'), 'w') as more:
        more.write(crates.read() + 'port staticlib: rules layout\n')
    told(['rt', 'lib'], os.path.join(TREE, 'crates', 'port'), subprocess.STDOUT)
    built, kept = os.path.join(TREE, 'crates', 'port', 'out', 'libport.a'), os.path.join(FOLDER, 'libport.a')
    if not os.path.exists(kept) or not filecmp.cmp(built, kept, shallow=False):
        shutil.copy(built, kept)
    shutil.rmtree(TREE)
    return kept


def program(archive, *features):
    """The program that calls both sides, built with the Rust's sources and the port's archive."""
    say('building ' + ' with '.join(('the Rust',) + features))
    words = ['cargo', 'build', '--quiet', '--profile', 'speed', '--bin', 'speed', '--features']
    told(words + [' '.join(('port',) + features)], ORACLE, DIFFSL_SRC=SOURCES, PORT_ARCHIVE=archive)
    built = os.path.join(ORACLE, 'target', 'speed', 'speed')
    return shutil.copy(built, os.path.join(FOLDER, '-'.join(('speed',) + features)))


def compared(program, *asked):
    """The cases in which both sides answer alike and the port's buffers are as they must be; then the others."""
    say('comparing answers')
    found = collections.defaultdict(list)
    for line in told([program, 'check', *asked], ROOT):
        word, case = line.split(' ', 1)
        found[word].append(case)
    return found['same'], found['differs']


def costs(program, mode, *asked):
    """What the program prints of each call in a mode, by side, operation and rows."""
    lines = (line.rsplit(' ', 1) for line in told([program, mode, *asked], ROOT))
    return {tuple(case.split()): float(cost) for case, cost in lines}


def timed(program, *asked):
    """Nanoseconds of each call: the least of all rounds."""
    say('taking times')
    rounds = [costs(program, 'time', *asked) for _ in range(ROUNDS)]
    return {case: min(times[case] for times in rounds) for case in rounds[0]}


def counted(program, *asked):
    """Case by case: side, operation and rows; how many calls were counted; instructions of one, and by function."""
    say('counting instructions')
    path = os.path.join(FOLDER, 'callgrind.out')
    told(['valgrind', *CALLGRIND, '--log-file=%s.log' % path, '--callgrind-out-file=' + path, program, 'count', *asked],
         ROOT, GLIBC_TUNABLES=NO_STRINGS)
    nothing = 0
    for name, total, functions in parts(path):
        *case, calls, asked_by_one = name.split()
        if case[0] == 'none':
            nothing = total / int(calls)
            continue
        per = int(calls) * int(asked_by_one)
        shares = {name: (inside / per, below / per) for name, (inside, below) in functions.items()}
        yield tuple(case), int(calls), (total - nothing * int(calls)) / per, shares


def parts(path):
    """What callgrind wrote down under each name: the name, all instructions, those inside and below every function."""
    name, costs, at_call = None, collections.defaultdict(lambda: [0, 0]), False
    with open(path) as text:
        for line in text:
            key, _, value = line.rstrip('\n').partition('=')
            if line.startswith('desc: Trigger: Client Request: '):
                name = line.split(': ')[3].strip()
            elif line.startswith('totals: ') and name:
                yield name, int(line.split()[1]), costs
                name, costs = None, collections.defaultdict(lambda: [0, 0])
            elif key == 'fn':
                function = costs[value]
            elif key == 'calls':
                at_call = True
            elif line[0].isdigit():
                function[at_call] += int(line.split()[1])
                at_call = False

"""Who answers request lines, and how each is asked: the port, the Rust, and a reading of the rules made apart from both.

The reading and the generator of requests are in tests/reading; tests/reading/REQUESTS.md says what a request line is.
The sources of the Rust are not in the repository: the folder DIFFSL_SRC has them, by default ../shared/docs/src beside
it. What every command of tests/ shares stands here too: `--help`, the words behind a command, and one line in place of
a traceback where something is missing.
"""
import os, sys


def in_a_line(kind, error, trace):
    """Says in one line what ended a test, where it is a module, a file or a program that is not there, or the caller."""
    if issubclass(kind, ModuleNotFoundError):
        print('not run: python3 has no module %s' % error.name, file=sys.stderr)
    elif issubclass(kind, OSError) and error.filename:
        print('not run: %s: %s' % (error.filename, error.strerror), file=sys.stderr)
    elif issubclass(kind, KeyboardInterrupt):
        print('not run to its end: stopped', file=sys.stderr)
    elif issubclass(kind, BrokenPipeError):
        os.dup2(os.open(os.devnull, os.O_WRONLY), 1)
        print('not run to its end: nobody reads what is printed', file=sys.stderr)
    else:
        sys.__excepthook__(kind, error, trace)


sys.excepthook = in_a_line
if sys.version_info < (3, 9):
    sys.exit('not run: python3 is %d.%d here, and the tests need 3.9 or later' % sys.version_info[:2])

import functools, re, shutil, subprocess

ROOT = os.path.dirname(os.path.dirname(os.path.abspath(__file__)))
READING = os.path.join(ROOT, 'tests', 'reading')
SOURCES = os.path.abspath(os.environ.get('DIFFSL_SRC') or os.path.join(ROOT, '..', 'shared', 'docs', 'src'))
ORACLE = os.path.join(ROOT, 'oracle')

# the operations of request lines with the numbers that each can be refused with
REFUSALS = {
    1: (1, 5, 6, 13), 2: (1, 5), 3: (1, 5), 4: (1, 5, 6), 5: (5,), 7: (1, 3, 4, 5), 8: (1, 3), 9: (1, 3), 10: (1, 3), 11: (1, 3),
    12: (1, 2, 3), 13: (1, 2, 5), 14: (2,), 15: (1, 2, 5), 16: (1, 2, 5, 12), 17: (1, 2, 5, 12, 13), 18: (1, 2, 3),
    19: (1, 2, 3, 5, 6, 11, 12, 13), 20: (1, 2, 3, 5, 6, 11), 22: (1, 2, 3, 6, 11, 12, 13), 23: (1, 2, 3, 4, 6, 11, 12, 13),
    24: (1, 2, 3, 7), 25: (1, 2, 3, 8, 11, 12), 26: (1, 2, 3, 6, 9, 11, 12, 13), 27: (1, 2, 3, 5, 10, 12, 13),
    28: (1, 2, 3, 5, 10, 12), 29: (), 30: (), 31: (), 32: (1, 2, 3, 5, 6, 11, 12, 13), 33: (1, 2, 3, 5, 6, 11),
    34: (1, 2, 3, 5, 6, 9, 11, 12, 13), 35: (1, 2, 3, 4, 5),
}
# the operations that the port has: to be answered, and never with `unknown`
IN_PORT = tuple(REFUSALS)
# the operations that came with later requests
LATER = (32, 33, 34)
# for each program that reads records a text that it does not refuse: two scalars, and an empty pile with no exchanges
WHOLE = {'union_records': b'0 ' * 12, 'exchange_records': b'0 0'}
# the later requests that are in force, as the reading is told
os.environ['LANDED'] = 'Q-1 Q-2 Q-9'


def helped(words, text):
    """Prints what a command is for, its docstring, and ends, where a word asks for that."""
    if '--help' in words or '-h' in words:
        print(text.strip())
        sys.exit(0)


def wrong(what):
    """Ends a command, as a failure, whose words ask for what is not there."""
    sys.exit('%s: %s; --help says what can be asked for' % (os.path.basename(sys.argv[0]), what))


def number(word, what, least):
    """The number that a word is."""
    if not re.fullmatch('-?[0-9]{1,9}', word):
        wrong('%s is no number: %s' % (what, word))
    if int(word) < least:
        wrong('%s is below %d: %s' % (what, least, word))
    return int(word)


def seed_and_count(words, count):
    """The seed and the count in front of the words, or 1 and this count."""
    seed, count = (words + ['1', str(count)][len(words):])[:2]
    return number(seed, 'the seed', 0), number(count, 'the count', 1)


def named(words, known):
    """The operations that words name, all of which must be known; all that are known where none is named."""
    for word in words:
        if not word.isdecimal() or int(word) not in known:
            wrong('there is no operation %s' % word)
    return [int(word) for word in words] or tuple(known)


def no_more(words):
    """Ends a command, as a failure, that has words left over."""
    if words:
        wrong('nothing is meant by: %s' % ' '.join(words))


def need_kit():
    """Ends the test, as a failure, where the kit is not at hand."""
    if not shutil.which('rt'):
        sys.exit("not run: no 'rt' on the path (it comes with the Rattle kit)")


def need_rust():
    """Ends the test, as a failure, where the Rust is not at hand."""
    for name in ('layout.rs', 'shape.rs', 'tensor.rs'):
        if not os.path.exists(os.path.join(SOURCES, name)):
            sys.exit('not run: no %s of the Rust in %s; DIFFSL_SRC names the folder that has it' % (name, SOURCES))
    if not shutil.which('cargo'):
        sys.exit("not run: no 'cargo' on the path, which builds the Rust")


def lines(words, requests=None, cwd=ROOT):
    """The lines that a program writes, for requests if there are any."""
    text = None if requests is None else ''.join(request + '\n' for request in requests)
    run = subprocess.run(words, input=text, stdout=subprocess.PIPE, text=True, cwd=cwd)
    if run.returncode:
        sys.exit('not run: %s ended with %d' % (' '.join(words), run.returncode))
    answers = run.stdout.splitlines()
    if requests is not None and len(answers) != len(requests):
        sys.exit('failed: %s gave %d answers to %d requests' % (' '.join(words), len(answers), len(requests)))
    return answers


def generated(seed, count, operations=tuple(op for op in IN_PORT if op not in LATER)):
    """So many requests of a seed, of the operations named, or of all but those that came later."""
    later = [op for op in operations if op in LATER]
    behind = int(count) * len(later) // len(operations)
    return made('requests.py', seed, int(count) - behind, [op for op in operations if op not in LATER]) + made('later.py', seed, behind, later)


def made(generator, seed, count, operations):
    """So many requests of a seed and of the operations named, which one generator knows; none where none is named."""
    return lines([sys.executable, generator, str(seed), str(count)] + [str(op) for op in operations], cwd=READING) if operations else []


def edge_requests(operations=REFUSALS):
    """The requests at the points where the rules can be misread, of some operations."""
    with open(os.path.join(READING, 'edge-requests.txt')) as text:
        return [line for line in text.read().splitlines() if int(line.split()[0]) in operations]


def examples():
    """The requests of the examples that the gate computes, by module."""
    with open(os.path.join(READING, 'examples.txt')) as text:
        blocks = [block.strip().split('\n') for block in text.read().split('\n\n')]
    return {block[0][2:]: block[1:] for block in blocks}


def rules(requests):
    """The answers of the reading of the rules."""
    return lines([sys.executable, 'answers.py'], requests, cwd=READING)


def rust(requests):
    """The answers of the Rust, which is built first if need be."""
    need_rust()
    environment = dict(os.environ, DIFFSL_SRC=SOURCES)
    if subprocess.run(['cargo', 'build', '--release', '--quiet'], cwd=ORACLE, env=environment).returncode:
        sys.exit('not run: cargo could not build the Rust, as said above')
    return lines([os.path.join(ORACLE, 'target', 'release', 'oracle')], requests)


def port(requests):
    """The answers of the port, which is proved and built first if need be."""
    need_kit()
    return lines([os.path.join(ROOT, 'run'), 'answers'], requests)


@functools.cache
def program(name):
    """The words that start a program of the port, which is proved and built once, by a text that it does not refuse."""
    need_kit()
    run = subprocess.run([os.path.join(ROOT, 'run'), name], input=WHOLE[name], stdout=subprocess.DEVNULL)
    if run.returncode:
        sys.exit('not run: ./run %s ended with %d' % (name, run.returncode))
    return [os.path.join(ROOT, 'target', 'bin', name)]


def printed(name, text):
    """What a program of the port prints for a text; one that crashes, or takes a minute, ends the test as a failure."""
    words = program(name)
    try:
        run = subprocess.run(words, input=text.encode(), capture_output=True, cwd=ROOT, timeout=60)
    except subprocess.TimeoutExpired:
        sys.exit('failed: %s did not end in a minute on %.300r' % (name, text))
    if run.returncode:
        sys.exit('failed: %s ended with %d on %.300r' % (name, run.returncode, text))
    return run.stdout.decode()

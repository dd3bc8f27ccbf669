"""Request lines as terms of antt: each operation's call with all that it computes with unfolded, and examples that hold by computation."""
import os, re
from asking import ROOT

SPECS = os.path.join(ROOT, 'crates', 'rules', 'specs')
# the files of definitions that no call computes with, whatever words their names are: the values of expressions
ASIDE = ('Evaluation.antt',)

# operation: kinds of its arguments (S slice, z number, c size of a buffer, b operator byte), definition, form of its answer
CALLS = {
    1: ('Sz', 'broadcast_shapes_call', 'tuple'), 2: ('SS', 'can_broadcast_to_call', 'test'),
    3: ('SS', 'ravel_index_call', 'number'), 4: ('zS', 'unravel_index_call', 'tuple'),
    5: ('SS', 'cmp_index_call', 'ordering'), 7: ('SS', 'find_nnz_index_call', 'place'),
    8: ('S', 'nnz_call', 'number'), 9: ('S', 'min_rank_call', 'number'),
    10: ('SS', 'eq_nonzeros_call', 'test'), 11: ('SS', 'eq_nonzeros_and_deps_call', 'test'),
    12: ('Sc', 'to_dense_call', 'record'), 13: ('zc', 'new_empty_call', 'record'), 14: ('c', 'new_scalar_call', 'record'),
    15: ('Sc', 'dense_call', 'record'), 16: ('Sc', 'diagonal_call', 'record'), 17: ('SzSc', 'sparse_call', 'record'),
    18: ('Sc', 'to_data_layout_call', 'numbers'), 19: ('SScc', 'broadcast_to_shape_call', 'record'),
    20: ('Szcc', 'broadcast_to_rank_call', 'record'), 22: ('SScc', 'union_call', 'record'),
    23: ('SScc', 'intersect_call', 'record'), 24: ('Scc', 'contract_last_axis_call', 'record'),
    25: ('SScc', 'permute_call', 'record'), 26: ('Szbcc', 'broadcast_call', 'record'),
    27: ('Szzcc', 'concatenate_call', 'record'), 28: ('SSzzcc', 'filter_deps_from_call', 'record'),
    29: ('S', 'sound', 'test'), 30: ('S', 'ordered', 'test'), 31: ('Sz', 'row', 'part'),
    32: ('SSzcc', 'broadcast_to_shape_with_mode_call', 'record'), 33: ('Szzcc', 'broadcast_to_rank_with_mode_call', 'record'),
    34: ('Szbzcc', 'broadcast_with_mode_call', 'record'), 35: ('SzSc', 'find_nnz_indices_call', 'numbers'),
}
NEVER_REFUSED = (29, 30, 31)
TYPES = {'tuple': 'List ℕ', 'test': 'Bool', 'number': 'ℕ', 'ordering': 'Ordering', 'place': 'Lookup', 'record': 'List ℤ',
         'numbers': 'List ℤ', 'part': 'List ℤ'}
ORDERINGS = {'-1': 'Less', '0': 'Equal', '1': 'Greater'}
WORDS = {'Refusals': ['Verdict', 'given', 'refused', 'in_form'], 'Endings': ['Lookup', 'found', 'nothing']}


def specs():
    """The text of each file of the rules' definitions that a call may compute with."""
    for name in sorted(set(os.listdir(SPECS)) - set(ASIDE)):
        with open(os.path.join(SPECS, name)) as file:
            yield name[:-5], file.read()


def unfoldables():
    """The definitions that stay shut until they are named, by module."""
    found = {module: re.findall(r'^unfoldable pub (\S+)', text, re.M) for module, text in specs()}
    return {module: names for module, names in found.items() if names}


def mentions():
    """The words of each definition."""
    found = {}
    for _, text in specs():
        for block in text.split('\n\n'):
            for name in re.findall(r'^(?:unfoldable |abbrev )?pub (\S+) :', block, re.M):
                found.setdefault(name, set()).update(re.findall(r'[^\s(){}∷;,]+', block))
    return found


def reached(names, words):
    """The names of definitions that some lead to."""
    seen, todo = set(), list(names)
    while todo:
        name = todo.pop()
        if name in words and name not in seen:
            seen.add(name)
            todo += words[name]
    return seen


def asked_name(op):
    """The name under which an operation's call is asked, all unfolded."""
    return 'ask_' + CALLS[op][1].removesuffix('_call')


def words_of_answers():
    """The lines that bring in what examples are written in."""
    return ['use mathlib.Core.Path.{◌≡◌, refl}', 'use mathlib.Core.Bool.{Bool, true, false}',
            'use mathlib.Core.List.{List, [], ◌∷◌, map}', 'use Prim.Native.Nat.{ℕ}', 'use lib.IntN.{ℤ, pos, negsuc}',
            'use Rattle.std.specs.declared.cmp.Ordering.{Ordering}',
            'use Rattle.std.specs.declared.cmp.Ordering.TheVariants.{Less, Equal, Greater}']


def asked(library):
    """The calls with all that they compute with unfolded, for a file that finds the rules' specs under a name."""
    modules, words, lines = unfoldables(), mentions(), words_of_answers()
    for module in sorted(set(modules) | set(WORDS)):
        lines.append('use %s.%s.{%s}' % (library, module, ', '.join(modules.get(module, []) + WORDS.get(module, []))))
    lines += ['', '-- numbers of a slice, none of them negative', 'abbrev pub nums : List ℕ → List ℤ', 'nums l = map pos l', '']
    for op, (kinds, name, form) in CALLS.items():
        inside = reached([name, 'encode'] if form == 'record' else [name], words)
        types = [{'S': 'List ℤ', 'z': 'ℤ'}.get(k, 'ℕ') for k in kinds]
        parameters = ' '.join('abcdef'[:len(kinds)])
        body = '%s %s' % (name, parameters)
        body = 'in_form encode (%s)' % body if form == 'record' else 'given (%s)' % body if op in NEVER_REFUSED else body
        lines += ['unfoldable pub %s : %s → Verdict (%s)' % (asked_name(op), ' → '.join(types), TYPES[form]),
                  'unfolding ' + ' '.join(n for names in modules.values() for n in names if n in inside),
                  '%s %s = %s' % (asked_name(op), parameters, body), '']
    return lines


def whole(n):
    """A signed number."""
    return 'pos %d' % n if n >= 0 else 'negsuc %d' % (-n - 1)


def listed(words):
    """A list of terms."""
    return '(' + ' ∷ '.join(list(words) + ['[]']) + ')'


def numbers(values):
    """A list of signed numbers, shorter where none is negative."""
    return listed(map(whole, values)) if any(n < 0 for n in values) else '(nums %s)' % listed(map(str, values)) if values else '[]'


def arguments(kinds, values):
    """The arguments of a request as terms; an operator that is no byte is as good as a byte that names none."""
    for kind in kinds:
        if kind == 'S':
            yield numbers(values[1:1 + values[0]])
            values = values[1 + values[0]:]
        else:
            yield '(%s)' % whole(values[0]) if kind == 'z' else str(values[0] if kind == 'c' or 0 <= values[0] < 256 else 0)
            values = values[1:]


def expected(form, answer):
    """The answer line of a request as a term."""
    word, *rest = answer.split()
    if word == 'refused':
        return 'refused ' + rest[0]
    return 'given ' + {
        'tuple': lambda: listed(rest[1:]), 'test': lambda: 'true' if rest[0] == '1' else 'false',
        'number': lambda: rest[0], 'ordering': lambda: ORDERINGS[rest[0]],
        'place': lambda: 'nothing' if word == 'nothing' else '(found %s)' % rest[0],
        'record': lambda: numbers(list(map(int, rest))),
        'numbers': lambda: numbers(list(map(int, rest[1:]))), 'part': lambda: numbers(list(map(int, rest[1:]))),
    }[form]()


def example(name, request, answer):
    """A request with its answer, as a statement that holds by computation."""
    op, *values = map(int, request.split())
    kinds, _, form = CALLS[op]
    left = ' '.join([asked_name(op)] + list(arguments(kinds, values)))
    return ['%s : %s ≡ %s' % (name, left, expected(form, answer)), 'unfolding ' + asked_name(op), '%s = refl' % name, '']

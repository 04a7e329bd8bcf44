#!/usr/bin/env python3
"""Respells the repository's own names of specs/ and proofs/, and renames the crate hex. Run once, at the top, right
after the kit's port.py.

Words, lemmas, fields and constructors become snake_case, types and facts CamelCase: read-term is read_term, and
Exactly-terms-are-read is ExactlyTermsAreRead. A lemma named by its left side, outer call first, keeps its dash
(KEPT). Names that Rattle makes, of goals and steps, stay as they are. The crate hex has the name of a library of the
kit, so it becomes hex_words.

It prints each new name, and stops before any write if two names fall together.
"""
import collections
import pathlib
import re
import sys

# Lemmas whose dash joins the two names of their left side.
KEPT = {'length-hex', 'hex-append', 'length-spelled', 'then-then', 'join-split'}

# Parameters and names bound by a let or a λ.
BOUND = 'Sound-terms refusal-after refusal-before got-x got-y of-own of-any of-y is-low is-high front-len'.split()

# What port.py respelled by itself: still to be respelled in the pages.
PORTED = """a-byte all-digits all-read all-there and-then as-long begun-all by-cond by-kind four-bytes goes-on is-digit
is-name is-spelled join-more last-of left-here left-over more-bytes never-both no-byte no-kind nothing-left nothing-yet
number-at number-is number-of number-passed number-read number-small number-spelled numbered-of one-byte pair-is
pair-made pair-of pair-reads parts-same parts-seen put-next read-named read-number some-more takes-none the-end
then-same two-bytes value-read values-seen with-first""".split()

# What may stand in a name. A name with a dash never stands in the code of a .rt file, where a dash has spaces round it.
NAME = r"[A-Za-z0-9_'₀-₉-]"
HEAD = re.compile(r"^\s*(?:(?:abbrev|unfoldable|pub|data|record) )*([A-Za-z][^\s:(){}λ=.,;]*)((?:\s*[({].*?[)}])*)\s*:\s")
TOP = pathlib.Path('.')


def respelled(name):
    if name[0].isupper():
        return ''.join(part[0].upper() + part[1:] for part in re.split('[-_]', name))
    return name.replace('-', '_')


def antt_files():
    return [p for d in ('specs', 'proofs') for p in sorted(TOP.glob(f'crates/*/{d}/**/*.antt'))]


def declared():
    """Each name that a file declares: at its left margin, or as a field or a constructor."""
    names = collections.defaultdict(set)
    for path in antt_files():
        for line in path.read_text().splitlines():
            head = HEAD.match(line)
            if head and 'goal.' not in line.split(':', 1)[1] and not line.strip().startswith(('let ', 'λ')):
                names[head.group(1)].add(str(path))
    return names


def clashes(turned, names):
    """Turned names that something else has: another name of ours, or a name of the code."""
    code = ' '.join(p.read_text() for p in sorted(TOP.glob('crates/*/src/**/*.rt')))
    code_types = set(re.findall(r'\b(?:struct|enum|trait|type|const|static) ([A-Za-z_0-9]+)', code))
    code_fields = set(re.findall(r'^\s*(?:pub )?([a-z_0-9]+): [^{]*,$', code, re.M))
    for old, new in turned.items():
        if new in names and new != old:
            yield f'{old}: {new} is declared in {sorted(names[new])}'
        if new in code_types or new in code_fields:
            yield f'{old}: the code has a type, a constant or a field {new}'
    for new, count in collections.Counter(turned.values()).items():
        if count > 1:
            yield f'{new}: two names become this'


def turner(turned):
    pattern = re.compile(
        f"(?<!{NAME[:-1]}])(" + '|'.join(sorted(map(re.escape, turned), key=len, reverse=True)) + f")(?!{NAME[:-1]}])")
    return lambda text: pattern.sub(lambda m: turned[m.group(1)], text)


def in_ticks(turn, text):
    """Turns what stands between backticks: elsewhere in a page the same letters may be plain words."""
    return re.sub(r'`[^`\n]+`', lambda m: turn(m.group(0)), text)


def crate_renamed(text):
    text = re.sub(r'\bRattle\.hex\.', 'Rattle.hex_words.', text)
    return re.sub(r'\bhex::', 'hex_words::', text)


def main():
    names = declared()
    turned = {n: respelled(n) for n in [*names, *BOUND] if '-' in n and n not in KEPT}
    wrong = list(clashes(turned, names))
    if wrong:
        sys.exit('\n'.join(wrong))
    turn = turner(turned)
    for path in antt_files() + sorted(TOP.glob('crates/*/src/**/*.rt')) + sorted(TOP.glob('crates/*/must-fail/*.edit')):
        path.write_text(crate_renamed(turn(path.read_text())))
    turn_page = turner({**turned, **{n: respelled(n) for n in PORTED}})
    for path in [TOP / 'README.md', *sorted((TOP / 'docs').glob('*.md'))]:
        path.write_text(in_ticks(lambda t: crate_renamed(turn_page(t)), path.read_text()))
    listed = TOP / 'crates.txt'
    listed.write_text(re.sub(r'\bhex\b', 'hex_words', listed.read_text()))
    (TOP / 'crates/hex').rename(TOP / 'crates/hex_words')
    for old in sorted(turned):
        print(old, turned[old])


if __name__ == '__main__':
    main()

#!/usr/bin/env python3
"""Brings the names of this repository's own definitions and lemmas to the spelling of today's Rattle. It was run once, at the top, right
after the kit's port.py: a word in camel case that begins small becomes snake case, part by part between dashes (`formulaIn-right` is
`formula_in-right`); types, facts and modules, which begin with a capital, stay. Three names that would have fallen together with another
are named anew first, and a record's field with a dash has an underscore. It goes by text, through specs/, proofs/, the clauses and imports
of src/ and the must-fail edits; docs/ and README.md name the same words."""
import re
import subprocess

# (file, old name, new name): what would have fallen together
APART = [
    ('crates/replacement/proofs/trying/Joining.antt', 'kept_in', 'kept_inside'),
    ('crates/meaning/proofs/Points/Fractions.antt', 'mid_at', 'at-mid_of'),
    ('crates/meaning/proofs/Keeps/Copies.antt', 'point_at', 'at-point_of'),
]
# fields with a dash
FIELDS = ['cur-rest', 'work-rest', 'cur-long', 'work-long', 'out-long', 'record-room']
WORD = re.compile(r"[A-Za-z_][A-Za-z_0-9'₀-₉ℕℤ⁺⁻-]*")
PROSE = ('README.md', 'docs/PROMISES.md', 'docs/DECISIONS.md', 'docs/CARRYING-ON.md')


def part(s):
    if not s or not s[0].islower():
        return s
    return re.sub(r"(?<=[a-z0-9_'₀-₉])([A-Z])", lambda m: '_' + m.group(1).lower(), s)


def word(t):
    if t in FIELDS:
        return t.replace('-', '_')
    return '-'.join(part(s) for s in t.split('-'))


def main():
    listed = subprocess.check_output(['git', 'ls-files', '-co', '--exclude-standard'], text=True).split('\n')
    files = [f for f in listed if f.startswith('crates/') and f.endswith(('.antt', '.rt', '.edit'))]
    for path, old, new in APART:
        text = open(path, encoding='utf8').read()
        text = re.sub(r"(?<![A-Za-z_0-9'-])" + old + r"(?![A-Za-z_0-9'-])", new, text)
        open(path, 'w', encoding='utf8').write(text)
    turned = set()
    for path in files:
        try:
            text = open(path, encoding='utf8').read()
        except FileNotFoundError:
            continue
        words = {t for t in WORD.findall(text) if word(t) != t}
        turned |= words
        new = WORD.sub(lambda m: word(m.group(0)), text)
        if new != text:
            open(path, 'w', encoding='utf8').write(new)
    for path in PROSE:
        text = open(path, encoding='utf8').read()
        new = WORD.sub(lambda m: word(m.group(0)) if m.group(0) in turned else m.group(0), text)
        if new != text:
            open(path, 'w', encoding='utf8').write(new)
    print(len(turned), 'names')


main()

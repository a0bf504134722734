#!/usr/bin/env python3
"""Lists the places of older forms in crates/*/src: python3 tools/forms.py [TOP] [WORD of a heading, to list its places]."""
import glob
import re
import sys

top = sys.argv[1] if len(sys.argv) > 1 else '.'
wanted = sys.argv[2] if len(sys.argv) > 2 else None

# A heading, and what it looks for in the text of a source file.
FORMS = [
    ('1 every enum', r'^\s*(?:pub(?:\([a-z]+\))? )?enum \w+'),
    ('1 none or an error handed on by hand', r'let (?:Some|Ok)\(\w+\) = [^;{]*? else \{\s*return (?:None|Ok\(None\)|Err\([^;]*\));\s*\}'
     r'|None => (?:return )?Err\(|Err\(_?\w*\) => (?:return )?(?:Err\(|None)|None => (?:return )?None'),
    ('1 numbers for refusals and causes', r'(?<!fn )(?<!party\.)\bnumber\('),
    ('3 loops over a range of numbers', r'\bfor \w+ in [\w(&.]*\s*\.\.'),
    ('3 while and loop', r'\bwhile |\bloop \{'),
    ('4 comparing, ordering, converting by hand', r'fn (?:is_same|is_at_most|is_below|of|number|from_\w+|to_\w+|read)\b[(<]'),
    ('5 words that only unwrap a value', r'\b(?:key_bytes|name_bytes|stamp_value|entry_value|live_value|digest_bytes|record_value|saving_value'
     r'|fetching_value|sweeping_value|slot_value|slots_value|set_bits|party_number|doing_value|found_value|buffered|bytes_of|name_of|value_of|container_of|key_of)\b(?=[^;\n]*\})'),
    ('5 container and key side by side', r'container: u8,\s*(?:key|bytes)\b'),
    ('5 a whole state before and after', r'\bstate_of \(D\.meaning'),
    ('6 a length beside what it counts', r'^\s*(?:pub(?:\([a-z]+\))? )?(?:len|used|name_len|value_len): (?:u8|u16|usize),'),
    ('7 a match on which step to run', r'match (?:\(&self\.doing, &asked\)|step|self\.script\.take\(\)|asked|\*?step)\b'),
]

for heading, pattern in FORMS:
    places = []
    for path in sorted(glob.glob(top + '/crates/*/src/**/*.rt', recursive=True)):
        text = open(path).read()
        # Imports and comments are no places.
        body = re.sub(r'(?m)^\s*(?:ghost )?use [^;]*;|//[^\n]*', lambda m: re.sub(r'[^\n]', ' ', m.group(0)), text)
        for found in re.finditer(pattern, body, re.M):
            line = body.count('\n', 0, found.start()) + 1
            places.append(f'{path[len(top) + 1:]}:{line}: {" ".join(found.group(0).split())[:90]}')
    print(f'{len(places):4}  {heading}')
    if wanted and wanted in heading:
        print('\n'.join('        ' + place for place in places))

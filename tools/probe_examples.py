#!/usr/bin/env python3
# probe_examples.py : writes what `probe` is run on, and what it must write, from the examples of docs/PROBE.md; run it at the top of the repository
import re

page = open('docs/PROBE.md').read()
requests, lines = b'', []
for block in re.findall(r'```\n(> .*?)```', page, re.S):
    for row in block.splitlines():
        if row.startswith('>'):
            requests += bytes.fromhex(row[1:].replace(' ', ''))
        elif row:
            lines.append(row + '\n')
open('crates/probe/stdin', 'wb').write(requests)
open('crates/probe/stdout', 'w').write(''.join(lines))

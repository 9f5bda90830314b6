"""Makes a row's script: python3 script_of.py NAME.s NAME.bin > NAME.xv. What NAME.s may say is in run."""

import re
import sys


def values(source, word):
    """What stands behind a word in each line "# word .." of the source, in order."""
    return [line[len(word) + 3:].strip() for line in source.splitlines() if line.startswith('# %s ' % word)]


def script_of(source, program):
    lines = values(source, 'script')
    if not lines:
        tree = values(source, 'tree')
        pages = values(source, 'pages') or ['1']
        lines = ['guest create a trees/%s.dtb' % tree[0] if tree else 'guest flat a %s' % pages[0],
                 'guest poke a 0x80000000 PROGRAM', 'guest kick a', 'run %s' % values(source, 'run')[0],
                 'guest regs a 0']
    text = ''.join(line + '\n' for line in lines)
    text = re.sub(r'\b([0-9]+)\*([0-9a-f]{2})\b', lambda found: int(found[1]) * found[2], text)
    return text.replace('PROGRAM', program.hex())


if __name__ == '__main__':
    print(script_of(open(sys.argv[1]).read(), open(sys.argv[2], 'rb').read()), end='')

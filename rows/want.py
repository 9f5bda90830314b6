"""Tests the answers NAME.out by the lines "want" and "answer" of NAME.s: python3 want.py NAME.s NAME.out"""

import sys

source, answers = sys.argv[1:]


def values_of(lines):
    """What the answers show by name; where it is shown more than once, the last."""
    have = {}
    for line in lines:
        words = line.split() or ['']
        if words[0] == 'created':
            have['frames'] = words[7]
        if words[0] == 'ran':
            have['ran'] = '%s,%s,%s' % (words[1], words[3], words[5])
        if words[0] == 'regs':
            have['state'], have['mode'] = words[3], words[4]
        for word in words:
            key, equals, value = word.partition('=')
            if equals:
                have[key] = int(value, 16)
    return have


def is_answer(line, wanted):
    """The whole line, or its front where what is wanted ends in three points."""
    return line.startswith(wanted[:-3]) if wanted.endswith('...') else line == wanted


lines = open(answers).read().split('\n')
have = values_of(lines)
count = 0
wrong = 0
at = 0              # the answers before it have been named
for line in open(source):
    if line.startswith('# answer'):
        wanted = line[9:].rstrip('\n')
        count += 1
        found = next((i for i in range(at, len(lines)) if is_answer(lines[i], wanted)), None)
        if found is None:
            wrong += 1
            print('%s: no such answer, or not behind the one before: %s' % (source, wanted))
        else:
            at = found + 1
    if not line.startswith('# want '):
        continue
    for word in line[7:].split():
        key, _, value = word.partition('=')
        value = value if key in ('ran', 'state', 'mode', 'frames') else int(value, 16)
        count += 1
        if have.get(key) != value:
            wrong += 1
            shown = have.get(key)
            shown = '%x' % shown if isinstance(shown, int) else shown
            print('%s: %s is %s, wanted %s' % (source, key, shown, word))
if count == 0:
    print('%s: nothing is wanted' % source)
sys.exit(1 if wrong or count == 0 else 0)

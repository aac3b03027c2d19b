#!/usr/bin/env python3
"""pages.py PROGRAM man | bash: writes the manual page of the program, or its completion for bash, from what its own
`--help` says, so that a page cannot say something else than the program."""
import re
import subprocess
import sys

# The words that stand behind other words: operations of `client`, actions of `lock`, and the like.
AFTER = {'client': (4, ['get', 'put', 'del', 'cas']), 'lock': (5, ['take', 'give', 'break']), 'delay': (0, ['times']), 'dump': (2, ['state', 'keys'])}


def help_of(program, *words):
    """The parts of a help text: what it is about, its usage, the names of its commands, and the rest."""
    text = subprocess.run([program, *words, '--help'], stdout=subprocess.PIPE, text=True, check=True).stdout
    blocks = text.strip('\n').split('\n\n')
    about, usage = blocks[0], next(b for b in blocks if b.startswith('Usage: '))[len('Usage: '):]
    commands, rest = [], []
    for block in blocks[blocks.index('Usage: ' + usage) + 1:]:
        if block.startswith('Commands:'):
            commands = [line.split()[0] for line in block.splitlines()[1:]]
        elif not block.startswith(('Options:', 'Arguments:')):
            rest.append(block)
    return about, usage, commands, '\n\n'.join(rest)


def roff(text):
    """The text for a manual page: no word of it is a request, and each hyphen is one that can be copied."""
    lines = [line.replace('\\', '\\e').replace('-', '\\-') for line in text.splitlines()]
    return '\n'.join('\\&' + line if line[:1] in ('.', "'") else line for line in lines)


def manual(program):
    about, usage, commands, rest = help_of(program)
    version = subprocess.run([program, '--version'], stdout=subprocess.PIPE, text=True, check=True).stdout.split()[1]
    out = [f'.TH CRSM 1 "" "crsm {version}"', '.SH NAME', f'crsm \\- {about[0].lower() + about[1:]}', '.SH SYNOPSIS', roff(usage)]
    out += ['.SH DESCRIPTION', '.nf', roff(rest), '.fi', '.SH COMMANDS']
    for name in commands:
        about, usage, _, details = help_of(program, name)
        out += [f'.SS {roff(usage)}', roff(about) + '.', '.PP', '.nf', roff(details), '.fi']
    return '\n'.join(out + ['.SH FILES', '.TP', 'crsm\\-ME.log', 'The log of node ME, in the folder that it is started in.']) + '\n'


def completion(program):
    _, _, names, _ = help_of(program)
    cases = '\n'.join(f'    {name}) [ $((COMP_CWORD - at)) = {place + 1} ] && words="{" ".join(after)}" ;;' for name, (place, after) in AFTER.items())
    in_cluster = ' '.join(name for name in names if 'cluster' in help_of(program, name)[1])
    return f'''# Completion for bash of the command crsm.
_crsm() {{
  local at=1 words=""
  [ "${{COMP_WORDS[1]}}" = cluster ] && at=3
  if [ "$COMP_CWORD" = "$at" ]; then
    words="{' '.join(names)} cluster --help --version"
    [ "$at" = 3 ] && words="{in_cluster} --help"
  else
    case ${{COMP_WORDS[$at]}} in
{cases}
    esac
    [ "$COMP_CWORD" = $((at + 1)) ] && words="$words --help"
  fi
  COMPREPLY=($(compgen -W "$words" -- "${{COMP_WORDS[COMP_CWORD]}}"))
}}
complete -F _crsm crsm
'''


if __name__ == '__main__':
    if len(sys.argv) != 3 or sys.argv[2] not in ('man', 'bash'):
        sys.exit(__doc__)
    sys.stdout.write((manual if sys.argv[2] == 'man' else completion)(sys.argv[1]))

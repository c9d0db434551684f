#!/usr/bin/env python3
"""Lists the answers that the check finds alone: python3 tools/answers.py CRATE..

It works in a clone of its own (in target/answers) and leaves out one answer at a time. A function that is still proved
didn't need it. An answer takes 10 to 35 seconds.
"""
import glob
import os
import re
import subprocess
import sys

ANSWER = re.compile(r'^pub (\S+) : goal\.', re.M)


def blocks(text):
    return re.split(r'\n\n(?=\S)', text)


def function(crate, path):
    parts = path[len('proofs/'):-len('/Answers.antt')].split('/')
    return '::'.join([crate] + [part.lstrip('+') for part in parts])


def is_proved(name):
    run = subprocess.run(['rt', 'check', '--only', name], capture_output=True, text=True)
    return re.search(rf'^fn {re.escape(name)}: proved', run.stdout + run.stderr, re.M)


def tried(crate, path):
    """Leaves out each answer of a file once, and prints those that are not needed."""
    with open(path) as file:
        text = file.read()
    parts = blocks(text)
    places = [k for k, part in enumerate(parts) if ANSWER.search(part)]
    for place in places:
        if len(places) == 1:
            os.remove(path)
        else:
            with open(path, 'w') as file:
                file.write('\n\n'.join(parts[:place] + parts[place + 1:]).rstrip('\n') + '\n')
        if is_proved(function(crate, path)):
            print(function(crate, path), ANSWER.search(parts[place]).group(1), flush=True)
        with open(path, 'w') as file:
            file.write(text)


def main(crates):
    top = subprocess.run(['git', 'rev-parse', '--show-toplevel'], capture_output=True, text=True, check=True).stdout.strip()
    clone = os.path.join(top, 'target', 'answers')
    subprocess.run(['rm', '-rf', clone], check=True)
    subprocess.run(['git', 'clone', '-q', top, clone], check=True)
    for crate in crates:
        os.chdir(os.path.join(clone, 'crates', crate))
        for path in sorted(glob.glob('proofs/**/Answers.antt', recursive=True)):
            tried(crate, path)


main(sys.argv[1:])

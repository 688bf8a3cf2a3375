#!/usr/bin/env python3
"""Tries the edits in crates/NAME/edits: each makes a crate wrong, and the prover must refuse it. Those in crates/NAME/controls are correct
changes of the same shapes, and the prover must take them, so that an edit is not refused for its form.

usage: tests/edits/try.py [--top FOLDER] [NAME..]     FOLDER: the repository, if it is not this one

Both have the form of the edits in must-fail/, which `rt help` describes. All are tried in a copy of the repository. There the edits stand in
must-fail/, and `rt must-fail` tries them. The controls of a crate are made all at once, and `rt check` must prove it; where it does not, each
is tried alone. `rt` begins both with what its checks have kept of the same text on this machine, in whatever copy, and gives again what it
said of an edit as long as nothing changes that the edit stands on.

An edit is refused only where `rt` says so and adds nothing: not where a proof file merely names what the edit took away, nor where the prover
gave no verdict since it came to a limit of its own. Exit status: 0 where all edits are refused and all controls proved."""
import argparse, os, re, shutil, subprocess, sys, tempfile, time

HERE = os.path.dirname(os.path.dirname(os.path.dirname(os.path.abspath(__file__))))
PARTS = ('src', 'specs', 'proofs')
TRIED = re.compile(r'^rt: must-fail (\w+)/(\S+): (.*)$', re.M)
REFUSED = re.compile(r'refused, as it must be(: |$)')


def read(path):
    with open(path, encoding='utf-8') as f:
        return f.read()


def rt(folder, *words):
    """The status of a command of rt, and what it printed."""
    run = subprocess.run(['rt', *words], cwd=folder, stdin=subprocess.DEVNULL, stdout=subprocess.PIPE, stderr=subprocess.STDOUT)
    return run.returncode, run.stdout.decode('utf-8', 'replace')


def listed(top):
    """The crates of crates.txt."""
    lines = [line.split('#')[0].replace(':', ' ').split() for line in read(f'{top}/crates.txt').splitlines()]
    return [words[0] for words in lines if words]


def files_of(top, crate, kind):
    folder = f'{top}/crates/{crate}/{kind}'
    return [f'{folder}/{name}' for name in sorted(os.listdir(folder))] if os.path.isdir(folder) else []


def put(top, room, crate):
    """Has a crate of the copy stand there as in the repository."""
    for part in PARTS:
        source, target = (f'{folder}/crates/{crate}/{part}' for folder in (top, room))
        shutil.rmtree(target, ignore_errors=True)
        if os.path.isdir(source):
            shutil.copytree(source, target)


def made(folder, control):
    """Changes the crate in a folder as a control says; answers whether each of its old texts stood there once."""
    path = old = ''
    for line in read(control).splitlines():
        if line.startswith('file: '):
            path = f'{folder}/{line[6:]}'
        elif line.startswith('old: '):
            old = line[5:]
        elif line.startswith('new:'):
            text = read(path)
            if text.count(old) != 1:
                return False
            with open(path, 'w', encoding='utf-8') as f:
                f.write(text.replace(old, line[4:].removeprefix(' ')))
    return True


def proved(top, room, crate, controls):
    """What the crate comes to with these controls: '' where it is proved."""
    put(top, room, crate)
    folder = f'{room}/crates/{crate}'
    if not all(made(folder, c) for c in controls):
        return 'BAD EDIT: an old text is not there, or there more than once'
    status, said = rt(folder, 'check')
    if status == 0 and re.search('^logic=proved ', said, re.M):
        return ''
    return 'NOT PROVED: ' + next((line for line in said.splitlines() if ': error' in line), said[-300:])


def try_controls(top, room, crate):
    """Prints how each control fared, and answers how many were proved, of how many."""
    controls, began, words = files_of(top, crate, 'controls'), time.monotonic(), {}
    if controls and proved(top, room, crate, controls):
        words = {c: proved(top, room, crate, [c]) for c in controls}
    put(top, room, crate)
    for c in controls:
        print(f'controls {crate}/{os.path.basename(c)}: {words.get(c) or "proved"}', flush=True)
    well = sum(not words.get(c) for c in controls)
    if controls:
        print(f'controls {crate}: {well} of {len(controls)} proved ({time.monotonic() - began:.0f} s)', flush=True)
    return well, len(controls)


def try_edits(top, room, crates):
    """Prints what `rt must-fail` said, and answers how many edits were refused, of how many."""
    edits = {crate: files_of(top, crate, 'edits') for crate in crates}
    crates, began = [c for c in crates if edits[c]], time.monotonic()
    if not crates:
        return 0, 0
    for crate in crates:
        shutil.copytree(f'{top}/crates/{crate}/edits', f'{room}/crates/{crate}/must-fail')
    status, said = rt(room, 'must-fail', *crates)
    print(said, end='')
    refused = {(crate, name) for crate, name, words in TRIED.findall(said) if REFUSED.match(words)}
    total = 0
    for crate in crates:
        well = sum((crate, os.path.basename(e)) in refused for e in edits[crate])
        total += well
        print(f'edits {crate}: {well} of {len(edits[crate])} refused')
    print(f'edits: rt must-fail ended with status {status} after {time.monotonic() - began:.0f} s', flush=True)
    return total, sum(map(len, edits.values()))


def main():
    parser = argparse.ArgumentParser()
    parser.add_argument('--top', default=HERE)
    parser.add_argument('names', nargs='*', metavar='NAME')
    asked = parser.parse_args()
    top = os.path.abspath(asked.top)
    with tempfile.TemporaryDirectory() as room:
        for name in ('crates.txt', 'HANDLES'):
            if os.path.exists(f'{top}/{name}'):
                shutil.copy(f'{top}/{name}', room)
        for crate in listed(top):
            put(top, room, crate)
        crates = [c for c in listed(top) if c in asked.names or not asked.names]
        refused, edits = try_edits(top, room, crates)
        fared = [try_controls(top, room, crate) for crate in crates]
    well, controls = (sum(column) for column in zip(*fared))
    print(f'controls: {well} of {controls} proved')
    print(f'edits: {refused} of {edits} refused')
    return 0 if edits and (refused, well) == (edits, controls) else 1


sys.exit(main())

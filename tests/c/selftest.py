#!/usr/bin/env python3
"""Whether declarations.py can tell: of copies of its files, each altered at one place, it must say that they do not agree."""
import contextlib, io, os, sys, tempfile

sys.dont_write_bytecode = True
import declarations
from declarations import HEADER, ROOT, RUST, SOURCES

EXPORTED, SEATS, AREAS = SOURCES
ALTERED = (
    # fields or parameters in another order
    (HEADER, '    double energy;\n    size_t count;\n', '    size_t count;\n    double energy;\n'),
    (HEADER, 'size_t seat, size_t kind);', 'size_t kind, size_t seat);'),
    (RUST, '    pub energy: f64,\n    pub count: usize,\n', '    pub count: usize,\n    pub energy: f64,\n'),
    (RUST, '        seat: usize,\n        kind: usize,\n', '        kind: usize,\n        seat: usize,\n'),
    (SEATS, '    pub stiff_length: f64,\n    pub stiff_bendtwist0: f64,\n', '    pub stiff_bendtwist0: f64,\n    pub stiff_length: f64,\n'),
    # another type, length or layout
    (HEADER, '    uint8_t refusal;\n', '    size_t refusal;\n'),
    (HEADER, 'const double *positions', 'double *positions'),
    (RUST, 'work: *mut f64', 'work: *const f64'),
    (RUST, ') -> Place;', ') -> Report;'),
    (RUST, 'counts: [usize; 6]', 'counts: [usize; 7]'),
    (AREAS, 'SEATS: usize = 6', 'SEATS: usize = 7'),
    (RUST, '#[repr(C)]\n', ''),
    (EXPORTED, '#[repr(C)]\n', ''),
    (SEATS, '#[repr(C)]\n', ''),
    (RUST, 'extern "C" {', 'extern "system" {'),
    # a function or a parameter more or less
    (HEADER, 'double hairbench_sqrt(double x);', 'double hairbench_sqrt(double x);\ndouble hairbench_cbrt(double x);'),
    (RUST, '    pub fn hairbench_sqrt(x: f64) -> f64;\n', ''),
    (EXPORTED, 'fn hairbench_sqrt(x: f64)', 'fn hairbench_sqrt(x: f64, y: f64)'),
    (EXPORTED, '#[unsafe(no_mangle)]\npub extern "C" fn hairbench_sqrt', 'pub extern "C" fn hairbench_sqrt'),
    # an inline function that hands its arguments on in another order, or does not store the record
    (HEADER, 'settings, positions, positions_length, frames, frames_length);', 'settings, frames, frames_length, positions, positions_length);'),
    (HEADER, '    *record = after.seats;\n', ''),
)


def read(path):
    with open(os.path.join(ROOT, path), encoding='utf-8') as f:
        return f.read()


def agrees(path, old, new):
    """Whether declarations.py says that a copy agrees in which the first `old` of one file is `new`."""
    with tempfile.TemporaryDirectory() as folder, contextlib.redirect_stdout(io.StringIO()):
        for p in (HEADER, RUST) + SOURCES:
            text = read(p)
            if p == path and old not in text:
                raise SystemExit(f'selftest: {path} does not have {old!r}')
            os.makedirs(os.path.dirname(os.path.join(folder, p)), exist_ok=True)
            with open(os.path.join(folder, p), 'w', encoding='utf-8') as f:
                f.write(text.replace(old, new, 1) if p == path else text)
        return declarations.main(folder) == 0


missed = [a for a in ALTERED if agrees(*a)]
for path, old, new in missed:
    print(f'selftest: {path} with {new!r} for {old!r} is said to agree')
same = agrees(HEADER, '', '')
print(f"selftest: {len(ALTERED) - len(missed)} of {len(ALTERED)} altered declarations are told, the unaltered ones {'agree' if same else 'DO NOT AGREE'}")
sys.exit(0 if same and not missed else 1)

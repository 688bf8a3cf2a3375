#!/usr/bin/env python3
"""Compares host/include/hairbench.h and host/include/hairbench.rs with the functions and structs that crate bench_c exports.

From each `pub extern "C" fn` of its source that keeps its name (`no_mangle`), and from each #[repr(C)] struct that they lead to, the
declaration in C and in Rust is worked out: a slice is a pointer and a length. From a function that returns the record changed, the inline
function in C is worked out too that has the record as a pointer. Each must stand in its file word for word, and the file must declare no other.
usage: tests/c/declarations.py [FOLDER]     FOLDER: has the files instead of the repository
Exit status: 0 where they agree."""
import os, re, sys

ROOT = os.path.dirname(os.path.dirname(os.path.dirname(os.path.abspath(__file__))))
SOURCES = ('crates/bench_c/src/lib.rt', 'crates/bench/src/seats.rt', 'crates/bench/src/areas.rt')
HEADER, RUST = 'host/include/hairbench.h', 'host/include/hairbench.rs'
NUMBERS = {'f64': 'double', 'u8': 'uint8_t', 'usize': 'size_t'}


def numbered(text):
    """The source with the number of seats in place of its name, which no declaration has."""
    return text.replace('areas::SEATS', re.search(r'^pub const SEATS: usize = (\d+);', text, re.M)[1])


def functions(text):
    """Name, parameters and result of each exported function; a parameter is a name and a type."""
    for m in re.finditer(r'#\[unsafe\(no_mangle\)\]\npub extern "C" fn (\w+)\((.*?)\) -> (\w+)', text, re.S):
        yield m[1], [p.strip().split(': ', 1) for p in m[2].split(',') if p.strip()], m[3]


def structs(text):
    """Name and fields of each struct with a layout of its own."""
    for m in re.finditer(r'#\[repr\(C\)\]\s*(?:#\[derive\([^)]*\)\]\s*)?pub struct (\w+) \{(.*?)\n\}', text, re.S):
        yield m[1], re.findall(r'pub (\w+): ([^,]+),', m[2])


def crossed(given, pointer, length):
    """The parameters as they cross: a slice as a pointer, made by `pointer`, and a length."""
    for name, kind in given:
        lent = re.fullmatch(r'&(mut )?\[(\w+)\]', kind)
        if lent:
            yield name, pointer(lent[1], lent[2])
            yield name + '_length', length
        else:
            yield name, kind


def c_name(kind):
    return NUMBERS.get(kind) or 'hairbench_' + kind.lower()


def c_function(name, given, result):
    return f"{c_name(result)} {name}({', '.join(kind + p for p, kind in given)})"


def c_parameters(given):
    made = crossed(given, lambda mut, kind: f"{'' if mut else 'const '}{c_name(kind)} *", 'usize')
    return [(p, kind if kind.endswith('*') else c_name(kind) + ' ') for p, kind in made]


def c_inline(name, given):
    """The form with the record as a pointer of a function that takes the record and returns it changed."""
    (first, _), rest = given[0], given[1:]
    head = c_function(name.removesuffix('_value'), [(first, 'hairbench_record *')] + rest, 'u8')
    call = f"{name}({', '.join(['*' + first] + [p for p, _ in rest])})"
    return f'static inline {head} {{ hairbench_changed after = {call}; *{first} = after.seats; return after.refusal; }}'


def c_field(name, kind):
    array = re.fullmatch(r'\[(\w+); 6\]', kind)
    return f'{c_name(array[1])} {name}[HAIRBENCH_SEATS];' if array else f'{c_name(kind)} {name};'


def c_wanted(source):
    calls = [(name, c_parameters(given), result) for name, given, result in functions(source)]
    lines = [c_function(*f) + ';' for f in calls] + [c_inline(f[0], f[1]) for f in calls if f[2] == 'Changed']
    return lines + [f"typedef struct {{ {' '.join(c_field(*f) for f in fields)} }} {c_name(name)};" for name, fields in structs(source)]


def c_found(header):
    header = re.sub(r'\s+', ' ', re.sub(r'/\*.*?\*/', ' ', header, flags=re.S))
    inlines = re.findall(r'static inline .*?\}', header)
    for line in inlines:
        header = header.replace(line, ' ')
    return inlines + re.findall(r'typedef struct \{.*?\} \w+;', header) + re.findall(r'\w+ hairbench_\w+\([^)]*\);', header)


def rust_function(name, given, result):
    made = crossed(given, lambda mut, kind: f"*{'mut' if mut else 'const'} {kind}", 'usize')
    return f"pub fn {name}({', '.join(f'{p}: {kind}' for p, kind in made)}) -> {result};"


def rust_wanted(source):
    lines = ['extern "C" {'] + [rust_function(*f) for f in functions(source)]
    return lines + [f"#[repr(C)] pub struct {name} {{ {', '.join(f'pub {p}: {kind}' for p, kind in fields)} }}" for name, fields in structs(source)]


def rust_found(text):
    text = re.sub(r'//[^\n]*|#\[derive\([^)]*\)\]', ' ', text)
    text = re.sub(r',? ([)}])', r' \1', re.sub(r'\s+', ' ', text)).replace('( ', '(').replace(' )', ')')
    return re.findall(r'(?:#\[[^]]*\] )*(?:pub )?(?:struct \w+ \{.*?\}|fn \w+\([^;]*;)|extern "[^"]*" \{', text)


def agree(name, want, have):
    for line in sorted(set(want) - set(have)):
        print(f'not in {name}:', line)
    for line in sorted(set(have) - set(want)):
        print(f'in {name} only:', line)
    print(f'{name}: {len(set(want) & set(have))} of {len(want)} declarations agree')
    return bool(want) and sorted(want) == sorted(have)


def main(folder):
    def read(path):
        with open(os.path.join(folder, path), encoding='utf-8') as f:
            return f.read()
    source = numbered(''.join(read(s) for s in SOURCES))
    same = [agree(HEADER, c_wanted(source), c_found(read(HEADER))), agree(RUST, rust_wanted(source), rust_found(read(RUST)))]
    return 0 if all(same) else 1


if __name__ == '__main__':
    sys.exit(main(sys.argv[1] if sys.argv[1:] else ROOT))

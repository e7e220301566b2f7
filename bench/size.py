"""Bytes of machine code of the library beside the Rust one. Counted are the functions in objects from which
the six calls and reading a file can be called and nothing else: all that the library needs, without the
program around it, the C library or memcpy. A function that was inlined counts where it was inlined; so the
parts say where the code stands, and only the sums can be compared. What the Rust one takes from Rust's core
is nearly all sorting, for the failing order."""
import os
import re
import subprocess

OBJECTS = (('library -O3', 'library.o'), ('Rust -O3', 'rust-O3.o'), ('Rust -Os', 'rust-Os.o'))


def part_of(name):
    """The crate of the library, or the module of the Rust one, that a function belongs to."""
    found = re.match(r'rust::(\w+)', name) or re.match(r'<*&?(\w+)::', name)
    return 'core' if found is None or '<' in name else found.group(1)


def functions(path):
    """Names and sizes of the functions in an object."""
    listed = subprocess.run(['nm', '-C', '-S', path], stdout=subprocess.PIPE, check=True)
    for line in listed.stdout.decode().splitlines():
        found = re.match(r'[0-9a-f]+ ([0-9a-f]+) [tTwW] (.*)', line)
        if found:
            yield found.group(2), int(found.group(1), 16)


def table(folder):
    sizes = []
    for _, name in OBJECTS:
        parts = {}
        for function, size in functions(os.path.join(folder, name)):
            part = part_of(function)
            parts[part] = parts.get(part, 0) + size
        sizes.append(parts)
    print('\n## Bytes of machine code')
    print('\nBy crate of the library and module of the Rust one; what is inlined counts where it stands.')
    print('\n| part | ' + ' | '.join(title for title, _ in OBJECTS) + ' |')
    print('|---|' + '---|' * len(OBJECTS))
    for part in sorted(set().union(*sizes), key=lambda part: (part == 'core', part)):
        print('| %s | %s |' % (part, ' | '.join(str(parts.get(part, '')) for parts in sizes)))
    print('| all | %s |' % ' | '.join(str(sum(parts.values())) for parts in sizes))

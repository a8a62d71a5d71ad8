#!/usr/bin/env python3
"""Compiles a program as `rattle build` does, but without proving it: to measure a change in
minutes, before its proof. It takes the module that `rt try` hands to LLVM, drops the checks of a
program that isn't proved, gives each function what its `#[inline]` and `#[cold]` say, and compiles
it with the words of `rattle build`. Use what it makes for measuring alone: nothing in it is proved,
and nothing is checked.

    compile.py CRATE PROGRAM

CRATE is the folder of a crate with a `main`, as crates/bgp. Wants Python 3.9 and the Rattle kit,
whose `rt` is on the PATH."""
import os
import re
import shutil
import subprocess
import sys
import tempfile

KIT = os.path.dirname(os.path.dirname(os.path.realpath(shutil.which('rt'))))
TOOLS = f'{KIT}/toolchain'
# Stands in for clang: it keeps what it is given, and ends the try where the checked program would
# be compiled.
CLANG = f'''
case "$*" in *-fsanitize=address*) cp module.bc KEPT; exit 1;; esac
exec {TOOLS}/bin/clang "$@"
'''
# The words with which `rattle build` calls clang and the linker.
COMPILE = ('--target=x86_64-unknown-linux-gnu -march=x86-64 -mllvm -no-trap-after-noreturn '
           '-ffunction-sections -fdata-sections -mllvm -trap-unreachable '
           '-mllvm -no-x86-call-frame-opt -mllvm -disable-machine-licm '
           '-mllvm -disable-postra-machine-licm -mllvm -sink-common-insts=false '
           '--no-default-config -c -fPIE -O3 -Xclang -fmerge-functions '
           '-mllvm -mergefunc-use-aliases').split()
LINK = ('-m elf_x86_64 -pie --dynamic-linker /lib64/ld-linux-x86-64.so.2 --as-needed -z relro '
        '-z now -z noexecstack --eh-frame-hdr --gc-sections').split()
BEFORE, BEHIND = 'Scrt1.o crti.o crtbeginS.o'.split(), 'crtendS.o crtn.o'.split()
SHARED = ('libm.so.6 libc.so.6 libc_nonshared.a ld-linux-x86-64.so.2 libgcc.a '
          'libgcc_s.so.1').split()
# What the attributes are in LLVM's words; `rattle build` says nothing of `#[inline]` by itself.
HINTS = {'always': 'alwaysinline', 'never': 'noinline', 'cold': 'cold'}
ATTRIBUTES = ('nounwind "probe-stack"="inline-asm" "stack-probe-size"="3072" '
              '"target-cpu"="x86-64-v2"')
# The calls of checks, and the octets that fill what isn't written yet.
CHECKS = re.compile(r' +call void (@"rattle-(llvm-checks|try)::'
                    r'|@llvm.memset.p0.i64\(ptr %r\d+, i8 -86,)')


def stand_in(program, script):
    """Puts a script in the place of a program."""
    os.remove(program)
    with open(program, 'w') as out:
        out.write(f'#!/bin/sh\n{script}\n')
    os.chmod(program, 0o755)


def module_of(crate, work):
    """The module that `rt try` hands to LLVM for the program, as text."""
    kit, kept = f'{work}/kit', f'{work}/module.bc'
    os.makedirs(f'{kit}/bin')
    os.makedirs(f'{kit}/toolchain/bin')
    for folder in ('', 'bin/', 'toolchain/', 'toolchain/bin/'):
        for name in os.listdir(f'{KIT}/{folder}'):
            if not os.path.lexists(f'{kit}/{folder}{name}'):
                os.symlink(f'{KIT}/{folder}{name}', f'{kit}/{folder}{name}')
    for name in ('rt', 'rtlib.py'):
        os.remove(f'{kit}/bin/{name}')
        shutil.copy(f'{KIT}/bin/{name}', f'{kit}/bin/{name}')
    stand_in(f'{kit}/bin/rattle', 'exit 1')  # `rt try` asks it for hints alone
    stand_in(f'{kit}/toolchain/bin/clang', CLANG.replace('KEPT', kept))
    said = subprocess.run([f'{kit}/bin/rt', 'try'], cwd=crate, stdin=subprocess.DEVNULL,
                          capture_output=True, text=True)
    if not os.path.exists(kept):
        sys.exit(said.stderr)
    subprocess.run([f'{TOOLS}/bin/clang', '-S', '-emit-llvm', '-x', 'ir', kept, '-o',
                    f'{work}/module.ll', '-O0', '-Xclang', '-disable-llvm-passes'], check=True)


def sources(crate):
    """Each crate's name with the folder of its code, of the repository and of the kit."""
    for top in (os.path.dirname(os.path.realpath(crate)), f'{KIT}/rattle'):
        for name in os.listdir(top):
            if os.path.isdir(f'{top}/{name}/src'):
                yield name, f'{top}/{name}/src'


def hints(crate):
    """What is said at each function, by its crate with its modules, and its name: for each place
    where it stands the type around it, and the words."""
    found = {}
    for name, folder in sources(crate):
        for at, _, files in os.walk(folder):
            for file in files:
                if file.endswith('.rt'):
                    inner = os.path.relpath(f'{at}/{file}', folder)[:-3].split('/')
                    inner = [it for it in inner if it not in ('lib', 'main', 'mod')]
                    with open(f'{at}/{file}') as text:
                        hints_in('::'.join([name, *inner]), text, found)
    return found


def hints_in(module, text, found):
    """The hints of one file."""
    around, said = '', set()
    for line in text:
        if it := re.match(r'(?:unsafe )?impl\b(.*)', line):
            head = re.sub(r'<[^<>]*>', '', re.sub(r'<[^<>]*>', '', it[1]))
            around = re.sub(r'.*\bfor\b', '', head).strip(' {&\n').split('::')[-1].split(' ')[0]
        line = line.strip()
        if it := re.fullmatch(r'#\[(inline|cold)(?:\((always|never)\))?\]', line):
            said.add(HINTS.get(it[2] or it[1], ''))
        elif it := re.match(r'(?:pub(?:\([a-z ]*\))? )?(?:const |unsafe )*fn (\w+)', line):
            found.setdefault((module, it[1]), []).append((around, said))
            said = set()


def words_for(symbol, found):
    """The attributes of a function, by its name in the module."""
    path = re.sub(r'::<#.*', '', symbol).split('::')
    for cut in (-1, -2):
        places = found.get(('::'.join(path[:cut]), path[-1]), [])
        if len(places) > 1 and cut == -2:
            places = [it for it in places if it[0] == path[-2]] or places
        if places:
            said = places[0][1] if all(it[1] == places[0][1] for it in places) else set()
            return ' '.join(sorted(said))
    return ''


def unchecked(crate, work):
    """Writes the module without its checks, and with its hints."""
    found, sets = hints(crate), {}
    with open(f'{work}/module.ll') as text, open(f'{work}/plain.ll', 'w') as out:
        for line in text:
            if CHECKS.match(line):
                continue
            if it := re.match(r'define internal [^@]*@"?([^"(]*)"?\(.*(#\d+) \{$', line):
                if not it[1].startswith('rattle-llvm-checks'):
                    words = words_for(it[1], found)
                    number = sets.setdefault(words, len(sets) + 1000)
                    line = line[:it.start(2)] + f'#{number}' + line[it.end(2):]
            elif line.startswith('attributes #'):
                line = re.sub(r'sanitize_address( "frame-pointer"="all")?', 'nounwind', line)
            out.write(line)
        for words, number in sets.items():
            out.write(f'attributes #{number} = {{ {words} {ATTRIBUTES} }}\n')


def main(crate, program):
    with tempfile.TemporaryDirectory() as work:
        module_of(crate, work)
        unchecked(crate, work)
        subprocess.run([f'{TOOLS}/bin/clang', *COMPILE, '-x', 'ir', f'{work}/plain.ll', '-o',
                        f'{work}/module.o'], check=True)
        ours = [f'{KIT}/c/libos_c.a', f'{KIT}/c/liblibc_c.a']
        inside = [[f'{TOOLS}/lib/{it}' for it in names] for names in (BEFORE, SHARED, BEHIND)]
        subprocess.run([f'{TOOLS}/bin/ld.lld', *LINK, '-o', program, *inside[0],
                        f'{work}/module.o', *ours, *inside[1], *inside[2]], check=True)


if __name__ == '__main__':
    if len(sys.argv) != 3:
        sys.exit(__doc__)
    main(*sys.argv[1:])

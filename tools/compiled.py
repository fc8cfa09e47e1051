"""The static libraries of crates/ as archives. Only a proved crate is built: `rt lib` proves what has changed before it, and what is built over the libraries
that `rt ci` left is checked over them."""
import os
import re
import shutil
import subprocess
import sys

ROOT = os.path.dirname(os.path.dirname(os.path.abspath(__file__)))
KIT = os.path.dirname(subprocess.run(['rt', 'doc'], capture_output=True, text=True, check=True).stdout.strip())
TOOLCHAIN = f'{KIT}/toolchain'
CLANG = f'{TOOLCHAIN}/bin/clang'


def run(command, folder):
    """Runs a command, and ends this program with what it said where it fails."""
    done = subprocess.run(command, cwd=folder, stdout=subprocess.PIPE, stderr=subprocess.STDOUT, text=True)
    if done.returncode != 0:
        sys.exit(f'{" ".join(command[:2])}, in {os.path.relpath(folder, ROOT)}: {done.stdout[-2000:]}')


def listed():
    """The crates of crates.txt: whether each is a static library, and what it rests on."""
    rows = re.findall(r'^(\w+)( +staticlib)?:(.*)$', open(f'{ROOT}/crates.txt').read(), re.M)
    return {name: (bool(kind), below.split()) for name, kind, below in rows}


def crate_of(archive):
    """The static library that an archive is of: NAME_c, or NAME where that is one itself."""
    rows = listed()
    for name in (f'{archive}_c', archive):
        if rows.get(name, (False,))[0]:
            return name
    sys.exit(f'crates.txt has no static library {archive}_c or {archive}')


def below(crate):
    """What a crate rests on, of this repository, the lowest first."""
    rows, order = listed(), []

    def visit(name):
        for dep in rows.get(name, (False, []))[1]:
            if dep in rows and dep not in order:
                visit(dep)
                order.append(dep)
    visit(crate)
    return order


def proved(crate):
    """Proves and builds a static library as far as something has changed, with what it rests on."""
    run(['rt', 'lib'], f'{ROOT}/crates/{crate}')
    return f'{ROOT}/crates/{crate}/out/lib{crate}.a'


def built(crate, out, toolchain=TOOLCHAIN):
    """Builds a static library over the libraries that stand in crates/*/out. They have to be those of the files as they are: right after `rt ci` or `rt lib`."""
    own = listed()[crate][1]
    words = [f'{KIT}/bin/rattle', 'build', '--crate-name', crate, 'src/lib.rt', '--crate-type', 'staticlib']
    for name in ['std'] + own:
        words += ['--extern', f'{name}={KIT}/rlibs/{name}.rlib' if name not in listed() else f'{name}={ROOT}/crates/{name}/out/rlib/{name}.rlib']
    for folder in [f'{KIT}/rlibs'] + [f'{ROOT}/crates/{name}/out/rlib' for name in below(crate)]:
        words += ['-L', f'dependency={folder}']
    words += ['--antt-project', f'{KIT}/rattle/logic/antt-project.json', '--logic-built', f'{KIT}/logic_built']
    run(words + ['--toolchain', toolchain, '-o', out], f'{ROOT}/crates/{crate}')


def renewed(made, out):
    """Puts a file at its place, and leaves one that is the same as it is, so that nothing is built over it again."""
    os.makedirs(os.path.dirname(out), exist_ok=True)
    same = os.path.exists(out) and open(out, 'rb').read() == open(made, 'rb').read()
    if not same:
        shutil.copyfile(made, out)

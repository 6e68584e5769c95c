"""Makes the stdin and stdout files of the emulator's test programs.

    python3 oracle/vectors.py            writes all files
    python3 oracle/vectors.py --check    makes them again and compares them with what is stored

Each module `cases/cases_*.py` has a function files() -> {path from the repository's top: bytes}.
"""

import importlib
import sys
from pathlib import Path

HERE = Path(__file__).resolve().parent
TOP = HERE.parent


def case_modules(folder=HERE / 'cases'):
    """The case modules of a package whose folder is beside those of the import path, sorted by name."""
    return [importlib.import_module(f'{folder.name}.{name}') for name in sorted(path.stem for path in folder.glob('cases_*.py'))]


def gathered(modules):
    """All files of the case modules, sorted by path; no two modules may make the same one."""
    files = {}
    for module in modules:
        for path, data in module.files().items():
            if path in files:
                raise ValueError(f'{path} is made twice')
            files[path] = data
    return dict(sorted(files.items()))


def write(files, top=TOP):
    for path, data in files.items():
        place = top / path
        place.parent.mkdir(parents=True, exist_ok=True)
        place.write_bytes(data)


def complaints(files, top=TOP):
    """One line for each file that is missing or differs from what is stored."""
    found = []
    for path, data in files.items():
        place = top / path
        if not place.is_file():
            found.append(f'missing: {path}')
        elif place.read_bytes() != data:
            found.append(f'differs: {path}')
    return found


def main(arguments):
    """The exit code."""
    if arguments not in ([], ['--check']):
        print('usage: vectors.py [--check]', file=sys.stderr)
        return 2
    files = gathered(case_modules())
    size = sum(len(data) for data in files.values())
    if not arguments:
        write(files)
        print(f'{len(files)} files, {size} bytes written')
        return 0
    found = complaints(files)
    for line in found:
        print(line)
    if not found:
        print(f'{len(files)} files, {size} bytes compared')
    return 1 if found else 0


if __name__ == '__main__':
    sys.exit(main(sys.argv[1:]))

"""Model files with their sheets, and other files that are made: written to a folder or held against what is there."""

import os

import calculator


def contents(files):
    """{file name: bytes} of (name, model) pairs: each model with its sheet from the reference."""
    result = {}
    for name, file in files:
        if name + ".model" in result:
            raise ValueError(f"two files are named {name}")
        result[name + ".model"] = file
        result[name + ".sheet"] = calculator.sheet(file)
    return result


def endings(wanted):
    """What the names of these files end with."""
    return tuple({os.path.splitext(name)[1] for name in wanted})


def write(folder, wanted):
    """Writes every file, and removes those with such names of an earlier run."""
    os.makedirs(folder, exist_ok=True)
    for name, content in wanted.items():
        with open(os.path.join(folder, name), "wb") as target:
            target.write(content)
    for name in os.listdir(folder):
        if name.endswith(endings(wanted)) and name not in wanted:
            os.remove(os.path.join(folder, name))


def differences(folder, wanted):
    """The names of files that are missing, changed or not wanted."""
    there = {name for name in os.listdir(folder) if name.endswith(endings(wanted))} if os.path.isdir(folder) else set()
    result = sorted(there - set(wanted))
    for name, content in sorted(wanted.items()):
        if name not in there:
            result.append(name)
        else:
            with open(os.path.join(folder, name), "rb") as source:
                if source.read() != content:
                    result.append(name)
    return result


def main(arguments, folder, files, stderr, stdout):
    """The whole of a make.py: no argument writes, --check compares."""
    if arguments not in ([], ["--check"]):
        print("make.py: no argument to write the files, or --check to compare them", file=stderr)
        return 2
    wanted = contents(files)
    return keep(bool(arguments), folder, wanted, f"{len(wanted) // 2} models with their sheets", stderr, stdout)


def keep(check, folder, wanted, what, stderr, stdout):
    """Writes files to a folder, or compares them; the status."""
    count = f"{what}, {sum(map(len, wanted.values()))} bytes"
    if check:
        wrong = differences(folder, wanted)
        if wrong:
            print(f"make.py: {len(wrong)} stored files differ from the reference, the first is {wrong[0]}", file=stderr)
            return 1
        print(f"{os.path.basename(folder)}: {count}, as the reference makes them", file=stdout)
        return 0
    write(folder, wanted)
    print(f"wrote {count}", file=stdout)
    return 0

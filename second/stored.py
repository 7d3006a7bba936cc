"""Stored input and output of a program: written, or compared with what is made."""


def write(folder, files):
    folder.mkdir(parents=True, exist_ok=True)
    for name, content in files.items():
        (folder / name).write_bytes(content)


def differences(folder, files):
    """What is wrong with the stored files, in words; empty where they are as made."""
    found = []
    for name, content in files.items():
        path = folder / name
        if not path.is_file():
            found.append(f"{name}: is missing")
        elif path.read_bytes() != content:
            found.append(difference(name, path.read_bytes(), content))
    return found


def difference(name, stored, made):
    stored_lines, made_lines = stored.split(b"\n"), made.split(b"\n")
    for number, (old, new) in enumerate(zip(stored_lines, made_lines), start=1):
        if old != new:
            return (f"{name}: line {number} differs\n  stored {old[:200]!r}\n"
                    f"  made   {new[:200]!r}")
    return f"{name}: {len(stored_lines)} pieces stored, {len(made_lines)} made"

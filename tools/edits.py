"""Reads edits, for tools/edits and tools/apart.

A `file:` line applies to the `old:` and `new:` pairs after it; any other line says what the edit
is."""


def edited(edit, home, parts):
    """Applies the edit to the crate in `home`. Returns the new text of each changed file, and for
    each change the file, its text just before and where the change begins and ends in it. A
    ValueError says why it can't be applied: each `old:` text must be in its file exactly once, and
    the file in one of the crate's folders `parts`."""
    texts, changes, file, old = {}, [], None, ""
    for line in edit.read_text().splitlines():
        key, _, rest = line.partition(":")
        if key == "file":
            file = home / rest.strip()
            if file.relative_to(home).parts[0] not in parts or ".." in file.parts or not file.is_file():
                raise ValueError(f"'{line}' is no file of the crate's {', '.join(parts)}")
        elif key == "old":
            old = rest.removeprefix(" ")
        elif key == "new":
            text = texts[file] if file in texts else file.read_text() if file else ""
            if not old or text.count(old) != 1:
                raise ValueError(f"an 'old:' must stand in its file once: {old}")
            changes.append((file, text, text.index(old), text.index(old) + len(old)))
            texts[file], old = text.replace(old, rest.removeprefix(" ")), ""
    if not texts or old:
        raise ValueError("an 'old:' and a 'new:' for each change")
    return texts, changes

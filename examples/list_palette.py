#!/usr/bin/env python3
"""Lists an ACO or ASE palette: list_palette.py FILE

    bindings/python/build
    PYTHONPATH=bindings/python examples/list_palette.py FILE

It writes what examples/list_palette.c writes. The status is 0, or 1 where the file is refused, or 2
where it cannot be read or listed."""

import sys

import khuyurek
from khuyurek import Model, aco, ase

# A terminal would obey control characters.
SHOWN = {control: "\ufffd" for control in (*range(0x20), *range(0x7F, 0xA0))}
MODELS = {Model.RGB: "RGB", Model.CMYK: "CMYK", Model.LAB: "Lab", Model.GRAY: "gray"}


def quoted(name):
    return f'"{khuyurek.printable(name).translate(SHOWN)}"'


def list_aco(file):
    palette = aco.read(file)
    yield f"ACO: {len(palette)} colours in {palette.lists} list(s)"
    for swatch in palette:
        samples = " ".join(map(str, swatch.samples))
        yield f"{quoted(swatch.name)} space {int(swatch.space)}: {samples}"


def list_ase(file):
    palette = ase.read(file)
    yield f"ASE: {len(list(palette.colours()))} colours in {len(palette)} blocks"
    depth = 0
    for block in palette:
        if isinstance(block, ase.Stop):
            depth -= 1
        elif isinstance(block, ase.Start):
            yield "  " * depth + f"group {quoted(block.name)}"
            depth += 1
        else:
            channels = " ".join(f"{channel:g}" for channel in block.channels)
            colour = f"{quoted(block.name)} {MODELS[block.model]}: {channels} {block.ink.name.lower()}"
            yield "  " * depth + colour


def main(arguments):
    if len(arguments) != 1:
        print("usage: list_palette.py FILE", file=sys.stderr)
        return 2
    try:
        with open(arguments[0], "rb") as opened:
            # A byte past the limit is enough for the library to refuse a file that is too long.
            file = opened.read(khuyurek.LIMIT + 1)
        lines = list_ase(file) if file.startswith(b"ASEF") else list_aco(file)
        text = "".join(line + "\n" for line in lines)
        sys.stdout.buffer.write(text.encode("utf-8"))
        sys.stdout.flush()
    except khuyurek.Refusal as refusal:
        print(f"refused {refusal.number} at {refusal.place}: {refusal.sentence}", file=sys.stderr)
        return 1
    except OSError as error:
        print(error, file=sys.stderr)
        return 2
    return 0


if __name__ == "__main__":
    sys.exit(main(sys.argv[1:]))

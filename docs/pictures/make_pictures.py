#!/usr/bin/env python3
"""Makes the pictures of the documents: docs/sides.svg of crates.txt, the head comments of the crates and docs/FORMATS.md,
docs/growth.svg and docs/scale.svg of what bench/growth and bench/scale printed into growth.txt and scale.txt beside this file.

    docs/pictures/make_pictures.py

`.ci/documents` reports a picture that isn't the one that this makes."""
import os
import sys

sys.dont_write_bytecode = True
sys.path.insert(0, os.path.dirname(os.path.abspath(__file__)))
import plots  # noqa: E402
import sides  # noqa: E402

# each picture's path from the top, and what makes it
PICTURES = {"docs/sides.svg": sides.picture, "docs/growth.svg": plots.growth, "docs/scale.svg": plots.scale}


def main():
    for path, made in PICTURES.items():
        with open(os.path.join(sides.TOP, path), "w", encoding="utf-8") as file:
            file.write(made())
        print(f"pictures: {path}")


if __name__ == "__main__":
    main()

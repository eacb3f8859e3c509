#!/usr/bin/env python3
"""Renders pictures and pages of explained schedules to PNG, in light and in dark, so that they can be looked at.

usage: tests/pictures/render.py FOLDER FILE..

Each FILE is an SVG or an HTML file that `central explain --picture` wrote. FOLDER gets NAME-light.png and
NAME-dark.png of each. It also reads each SVG as XML, and fails where one isn't well-formed. Where there is no
Chromium, it says so in one line and renders nothing.
"""

import pathlib
import shutil
import subprocess
import sys
import tempfile
import xml.etree.ElementTree as ElementTree

BROWSERS = ["chromium", "chromium-browser", "google-chrome", "google-chrome-stable"]
SVG = "{http://www.w3.org/2000/svg}"

# What Blink takes for prefers-color-scheme.
SCHEMES = {"dark": 0, "light": 1}

# The size of a window for a page, whose height isn't known.
PAGE = (1040, 1500)


def browser():
    """The path of a Chromium, or None."""
    return next((path for path in map(shutil.which, BROWSERS) if path), None)


def size_of(file):
    """The size of a window in which the whole file is seen; raises ParseError where an SVG isn't well-formed."""
    if file.suffix != ".svg":
        return PAGE
    root = ElementTree.parse(file).getroot()
    if root.tag != SVG + "svg" or root.find(SVG + "title") is None or root.find(SVG + "desc") is None:
        raise SystemExit(f"{file}: no svg with title and desc")
    return int(root.get("width")), int(root.get("height"))


def render(chromium, file, scheme, size, to):
    """Renders a file to a PNG."""
    with tempfile.TemporaryDirectory() as profile:
        command = [
            chromium,
            "--headless",
            "--no-sandbox",
            "--disable-gpu",
            "--hide-scrollbars",
            f"--user-data-dir={profile}",
            f"--blink-settings=preferredColorScheme={SCHEMES[scheme]}",
            f"--window-size={size[0]},{size[1]}",
            f"--screenshot={to}",
            file.resolve().as_uri(),
        ]
        subprocess.run(command, check=True, timeout=120, capture_output=True)
    if not to.is_file():
        raise SystemExit(f"{to}: not rendered")


def main():
    if len(sys.argv) < 3:
        raise SystemExit(__doc__)
    folder = pathlib.Path(sys.argv[1])
    folder.mkdir(parents=True, exist_ok=True)
    chromium = browser()
    if chromium is None:
        print("no Chromium here: the pictures are read as XML, and not rendered")
    for file in map(pathlib.Path, sys.argv[2:]):
        size = size_of(file)
        if chromium is None:
            continue
        for scheme in SCHEMES:
            to = folder / f"{file.stem}{file.suffix.replace('.', '-')}-{scheme}.png"
            render(chromium, file, scheme, size, to)
            print(to)


if __name__ == "__main__":
    main()

"""A page in a real browser, where there is one: how wide it is, what it looks like, and whether its colours have contrast."""
import html
import os
import re
import shutil
import subprocess
import tempfile

BROWSERS = ["chromium", "chromium-browser", "google-chrome", "google-chrome-stable"]

# A browser's window isn't as narrow as a phone, so that the page is shown in a frame of that width.
FRAME = """<!DOCTYPE html><meta charset="utf-8"><body style="margin:0">
<iframe id="frame" style="border:0;width:{width}px;height:{height}px" srcdoc="{page}"></iframe>
<script>frame.onload=()=>{{const root=frame.contentDocument.documentElement;document.title=root.scrollWidth+" "+root.scrollHeight}}</script>"""


def browser():
    """The path of a Chromium, or None."""
    return next((path for path in map(shutil.which, BROWSERS) if path), None)


def seen_at(page, width, height=2_000):
    """How wide and high a page is in a frame of a width, and a picture of its beginning (PNG)."""
    with tempfile.TemporaryDirectory() as folder:
        path, picture = os.path.join(folder, "frame.html"), os.path.join(folder, "picture.png")
        with open(path, "w", encoding="utf-8") as file:
            file.write(FRAME.format(width=width, height=height, page=html.escape(page)))
        words = [
            browser(), "--headless", "--no-sandbox", "--disable-gpu", "--hide-scrollbars", f"--user-data-dir={folder}/profile",
            f"--window-size={max(width, 500)},{height}",
        ]
        dom = subprocess.run([*words, "--dump-dom", f"file://{path}"], capture_output=True, timeout=200, check=True).stdout
        subprocess.run([*words, f"--screenshot={picture}", f"file://{path}"], capture_output=True, timeout=200, check=True)
        with open(picture, "rb") as file:
            breadth, depth = re.search(rb"<title>(\d+) (\d+)</title>", dom).groups()
            return int(breadth), int(depth), file.read()


def luminance(colour):
    """Of a colour as CSS writes it (WCAG 2.2, relative luminance)."""
    digits = colour.lstrip("#")
    digits = digits if len(digits) == 6 else "".join(2 * digit for digit in digits)
    channels = [int(digits[at : at + 2], 16) / 255 for at in (0, 2, 4)]
    linear = [value / 12.92 if value <= 0.04045 else ((value + 0.055) / 1.055) ** 2.4 for value in channels]
    return 0.2126 * linear[0] + 0.7152 * linear[1] + 0.0722 * linear[2]


def contrast(one, other):
    """WCAG 2.2, contrast ratio."""
    light, dark = sorted((luminance(one), luminance(other)), reverse=True)
    return (light + 0.05) / (dark + 0.05)


def schemes(page):
    """The named colours of each scheme of a page's style sheet."""
    return [dict(re.findall(r"--(\w+):(#[0-9a-f]{3,6})", block)) for block in re.findall(r":root\{([^}]*)\}", page)]

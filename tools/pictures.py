#!/usr/bin/env python3
"""Makes a picture of each example's last turn, to be looked at: SVG by `ibcplan picture`, and where Debian's chromium is installed also PNG, on white and on dark ground.

    pictures.py FOLDER [PROGRAM WORD..]     into this folder; by ./ibcplan, unless another program is given

Each picture is read as XML first; one that isn't XML, or whose texts lie outside, ends with an error."""
import pathlib
import shutil
import subprocess
import sys
import xml.etree.ElementTree as ElementTree

TOP = pathlib.Path(__file__).resolve().parent.parent
SVG = "{http://www.w3.org/2000/svg}"


def size_of(picture):
    """The width and height of a picture, whose texts all lie within it."""
    root = ElementTree.parse(picture).getroot()
    width, height = int(root.get("width")), int(root.get("height"))
    for text in root.iter(f"{SVG}text"):
        if not (0 <= int(text.get("x")) <= width and 0 <= int(text.get("y")) <= height):
            sys.exit(f"pictures.py: {picture}: {text.text!r} lies outside")
    return width, height


def draw(picture, size, browser, is_dark):
    target = picture.with_suffix(".dark.png" if is_dark else ".png")
    width, height = size
    dark = ["--force-dark-mode", "--blink-settings=preferredColorScheme=0"] if is_dark else []
    words = [browser, "--headless", "--no-sandbox", "--disable-gpu", "--hide-scrollbars", *dark, f"--window-size={width},{height}", f"--screenshot={target}", picture.as_uri()]
    subprocess.run(words, check=True, stderr=subprocess.DEVNULL, stdout=subprocess.DEVNULL, timeout=300)


def main():
    if len(sys.argv) < 2 or sys.argv[1] in ("-h", "--help"):
        sys.stderr.write(f"{__doc__}\n")
        sys.exit(2)
    folder, program = pathlib.Path(sys.argv[1]).resolve(), sys.argv[2:] or [str(TOP / "ibcplan")]
    folder.mkdir(parents=True, exist_ok=True)
    browser = shutil.which("chromium")
    for script in sorted((TOP / "examples").glob("*.toml")):
        picture = folder / f"{script.stem}.svg"
        picture.write_bytes(subprocess.run([*program, "picture", str(script)], check=True, capture_output=True).stdout)
        size = size_of(picture)
        print(f"{picture} {size[0]} x {size[1]}")
        for is_dark in (False, True) if browser else ():
            draw(picture, size, browser, is_dark)


if __name__ == "__main__":
    main()

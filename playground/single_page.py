"""One page that holds a chart and a run of it, and needs no server: the drawing and the diagram of the run are those of the
page that tools/play serves."""
import json
import os
import re

from server import FOLDER, as_json, of_run, read

LINKED = re.compile(r'<link rel="stylesheet" href="([a-z]+\.css)">|<script src="([a-z]+\.js)"></script>')


def inlined(found):
    """The file that a line of the page names, in its place."""
    name = found[1] or found[2]
    text = read(FOLDER, name).decode()
    return f"<style>\n{text}</style>" if found[1] else f"<script>\n{text}</script>"


def written(program, name, text, ticks):
    """The page, or what the program says of the text or the ticks that it refuses."""
    checked = program.check(text)
    if not checked["accepted"]:
        return "", re.sub(r"\Atext:", f"{name}:", checked["words"]) or f"play: {checked['fault']}\n"
    image, _ = program.image(text)
    lines = ticks.split("\n")
    if not lines[-1]:
        lines.pop()
    run = of_run(program, text, image, lines)
    if run["fault"]:
        return "", f"play: {run['fault']}\n"
    page = LINKED.sub(inlined, read(FOLDER, "run.html").decode())
    data = as_json({"name": name, "text": text, "ticks": lines, **run}).decode().replace("<", "\\u003c")
    return page.replace("THE RUN", data), ""

"""Changes of a value of JSON at a path, as `a.b[1].c`."""
import re


def at(value, path):
    """The object or array that holds what a path names, and the last step to it."""
    steps = [int(step) if step.isdigit() else step for step in re.findall(r"[^.\[\]]+", path)]
    for step in steps[:-1]:
        value = value[step]
    return value, steps[-1]


def gone(path):
    def edit(value):
        holder, step = at(value, path)
        del holder[step]
    return edit


def put(path, new):
    def edit(value):
        holder, step = at(value, path)
        holder[step] = new
    return edit

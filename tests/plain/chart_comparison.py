"""The machine of a chart's table, that of its core chart's table, and the ticks of its image, over random charts."""
import json
import random
import subprocess
import tempfile

from chart_machine import ChartMachine, Endless, NoRun
from charts import text_of_chart
from expansion import expand
from ordered_charts import regions_in_order, shown
from product import Product
from programs import VARIABLES
from random_charts import random_chart


def random_ticks(source):
    return [{v.name: source.random() < 0.5 if v.kind == "bool" else source.randrange(-5, 6)
             for v in VARIABLES if v.role == "input" and source.random() < 0.6} for _ in range(source.randrange(2, 9))]


def runs_of(chart, ticks, source):
    """An admissible complete run of each tick, by the numbers of the regions."""
    machine = ChartMachine(chart, source)
    number = {r: n for n, r in enumerate(regions_in_order(chart.regions), 1)}
    for tick in ticks:
        machine.begin(tick)
        yield [number[r] for r, _ in machine.play()]


def rows_of(ticks, runs):
    for tick, run in zip(ticks, runs, strict=True):
        given = " ".join(f"{name}={'' if value is True else shown(value)}" for name, value in tick.items())
        yield f"play {given}: {' '.join(map(str, run))}"


def seen(line):
    """Of an answer whether it is a whole run, its values, and the active states, each once."""
    what, _, rest = line.partition("; values")
    values, _, active = rest.partition("; active")
    return what, values.split(), sorted({int(word) for word in active.split()})


def answers_of(program, chart, ticks, source):
    """What the program tells of the chart's ticks, and of those of its core chart."""
    own, core = rows_of(ticks, runs_of(chart, ticks, source)), rows_of(ticks, runs_of(expand(chart), ticks, source))
    asked = "\n".join(["", "=== machine", "", " ".join(text_of_chart(chart).split()), *own, "core", *core, ""])
    done = subprocess.run([program], input=asked.encode(), capture_output=True, timeout=120)
    lines = done.stdout.decode().splitlines()
    if done.returncode or len(lines) != 2 * len(ticks) + 2:
        return None, f"status {done.returncode}, {done.stdout[-200:]} {done.stderr!r}"
    return ([seen(line) for line in lines[1:len(ticks) + 1]], [seen(line) for line in lines[len(ticks) + 2:]]), None


def check_chart(program, product, seed):
    """What is wrong of a random chart, and whether it has an image."""
    source = random.Random(seed)
    chart = random_chart(seed, source.choice([3, 6, 10, 20]), source.random() < 0.5)
    if product.compiled(text_of_chart(chart).encode())[3] is None:
        return [], False
    ticks = random_ticks(source)
    try:
        answers, fault = answers_of(program, chart, ticks, source)
    except (NoRun, Endless) as stopped:
        answers, fault = None, f"{type(stopped).__name__} of the plain machine"
    if fault:
        return [f"{text_of_chart(chart)}{ticks}: {fault}"], True
    own, core = answers
    status, output, errors = product.call(["run", product.image], "".join(json.dumps(tick) + "\n" for tick in ticks))
    outputs = [v.role == "output" for v in VARIABLES]
    wanted = [[shown(line["out"][v.name]) for v in VARIABLES if v.role == "output"] for line in map(json.loads, output.splitlines())]
    given = [[value for value, told in zip(values, outputs, strict=True) if told] for _, values, _ in own]
    wrong = [] if own == core and all(what == "whole run" for what, _, _ in own) else [f"{own} and {core} of its core chart"]
    if (status, errors, wanted) != (0, "", given):
        wrong.append(f"{given} and {status} {wanted} {errors} of the image")
    return [f"{text_of_chart(chart)}{ticks}: {what}" for what in wrong], True


def check_charts(program, sct, count, first=1):
    """Of each chart what is wrong; and at the end, of all, whether too few had an image."""
    images = 0
    with tempfile.TemporaryDirectory() as room:
        product = Product(sct, room)
        for seed in range(first, first + count):
            wrong, has_image = check_chart(program, product, seed)
            images += has_image
            yield wrong
    yield [] if images * 4 >= count else [f"only {images} of {count} charts have an image"]

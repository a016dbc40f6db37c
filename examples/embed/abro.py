"""ABRO inside a program in Python: the ticks of examples/abro.ticks, as a trace.

    PYTHONPATH=bindings/python python3 examples/embed/abro.py
"""
import json
import os

import sct

folder = os.path.dirname(os.path.dirname(os.path.abspath(__file__)))
with open(os.path.join(folder, "abro.chart")) as chart, open(os.path.join(folder, "abro.ticks")) as ticks:
    with sct.Machine.of_text(chart.read()) as abro:
        for number, line in enumerate(ticks, 1):
            for name, value in json.loads(line).items():
                abro.set(name, value)
            steps = abro.tick()
            print(json.dumps({"out": abro.outputs(), "steps": steps, "tick": number}, separators=(",", ":")))

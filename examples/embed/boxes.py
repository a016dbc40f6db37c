"""Boxes inside a program in Python: two lines of belts of one image, of which the second goes on from where the first was.

    PYTHONPATH=bindings/python python3 examples/embed/boxes.py
"""
import os

import sct

folder = os.path.dirname(os.path.dirname(os.path.abspath(__file__)))
with open(os.path.join(folder, "boxes.chart")) as chart:
    image = sct.compile_text(chart.read())
with sct.Machine(image) as first, sct.Machine(image) as second:
    first.react()
    for _ in range(5):
        print("first", first.react(left=True, right=True))
    second.restore(first.save())
    for _ in range(3):
        print("second", second.react(right=True))
    print("first", first.react(stop=True))
    try:
        first.set("parts", 7)
    except sct.NotAnInput as error:
        print(error)

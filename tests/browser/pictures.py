"""The pictures in docs/pictures: four charts on the page, each in the tick that is worth seeing."""
import os
import re

from looking import answered, fresh, ticks_done
from png import small
from served import TOP, lines_of, text_of

# a chart, after which tick it is shown, the colours, and the size of the window
SHOWN = [("boxes.chart", 4, "light", (1180, 760)), ("motor.chart", 14, "light", (1240, 1000)), ("abro.chart", 5, "dark", (1180, 700)),
         ("extended/oven.extended", 3, "light", (1240, 900))]


def write_pictures(tools):
    folder = os.path.join(TOP, "docs", "pictures")
    os.makedirs(folder, exist_ok=True)
    for name, at, colours, (width, height) in SHOWN:
        text = text_of("examples", name)
        path = os.path.splitext(name)[0]
        tools.browser.command("Emulation.setDeviceMetricsOverride", width=width, height=height, deviceScaleFactor=1, mobile=False)
        # without the words above the chart, which the gallery has
        text = text[re.search("^(extended )?chart ", text, re.M).start():]
        fresh(tools, text)
        ticks = lines_of(text_of("examples", f"{path}.ticks"))
        tools.browser.js("Page.session.load(arguments[0])", ticks)
        ticks_done(tools, len(ticks))
        tools.browser.js("const field = document.getElementById('theme'); field.value = arguments[0]; field.dispatchEvent(new Event('change')); "
                         "Page.session.go(arguments[1]); for (const id of ['notice', 'gallery-ticks']) document.getElementById(id).hidden = true; "
                         "document.activeElement.blur()", colours, at)
        answered(tools, text)
        with open(os.path.join(folder, f"{os.path.basename(path)}.png"), "wb") as file:
            file.write(small(tools.browser.picture()))

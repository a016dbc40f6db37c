"""Checks of how the page can be used in a browser: by keys, by readers of screens, in the dark, in a small window, with large
texts, when things go wrong, and without a server."""
import json
import os
import subprocess

from asking import expect
from driver import Failed
from looking import BOXES, LIT, TABLE, answered, fresh, page, press, quiet, ticks_done
from served import PLAY, TOP, Served, active_after, large_chart, lines_of, text_of

# what overlaps or leaves its box in the drawing
OVERLAPS = r"""
const svg = document.querySelector('#drawing svg');
const wrong = [];
const box = (one) => one.getBoundingClientRect();
const meet = (a, b) => a.left + 0.5 < b.right && b.left + 0.5 < a.right && a.top + 0.5 < b.bottom && b.top + 0.5 < a.bottom;
const within = (a, b) => a.left >= b.left - 0.5 && a.right <= b.right + 0.5 && a.top >= b.top - 0.5 && a.bottom <= b.bottom + 0.5;
const frame = (one) => box(one.querySelector(':scope > .box, :scope > .area'));
for (const outer of svg.querySelectorAll('.region, .state')) {
  const inner = [...outer.children].filter((one) => one.matches('.region, .state'));
  inner.forEach((a, i) => {
    if (!within(frame(a), frame(outer))) wrong.push(`${a.dataset.path} leaves its box`);
    inner.slice(i + 1).forEach((b) => { if (meet(frame(a), frame(b))) wrong.push(`${a.dataset.path} and ${b.dataset.path} overlap`); });
  });
  for (const text of outer.querySelectorAll(':scope > text, :scope > .transition > text')) {
    if (!within(box(text), frame(outer))) wrong.push(`${text.textContent} leaves ${outer.dataset.path}`);
  }
}
const texts = [...svg.querySelectorAll('text')].map((one) => [one, box(one)]);
const boxes = [...svg.querySelectorAll('.state > .box')].map((one) => [one, box(one)]);
texts.forEach(([a, at], i) => {
  texts.slice(i + 1).forEach(([b, other]) => { if (meet(at, other)) wrong.push(`"${a.textContent}" and "${b.textContent}" overlap`); });
  for (const [one, other] of boxes) {
    if (a.matches('.label') && meet(at, other) && !within(at, other)) wrong.push(`"${a.textContent}" meets ${one.parentNode.dataset.path}`);
  }
});
return [svg.querySelectorAll('.state').length, svg.querySelectorAll('.transition').length, wrong];
"""
CONTRAST = r"""
const light = (colour) => {
  const parts = colour.match(/[\d.]+/g).slice(0, 3).map((part) => part / 255).map((c) => (c <= 0.03928 ? c / 12.92 : ((c + 0.055) / 1.055) ** 2.4));
  return 0.2126 * parts[0] + 0.7152 * parts[1] + 0.0722 * parts[2];
};
const ratio = (a, b) => (Math.max(light(a), light(b)) + 0.05) / (Math.min(light(a), light(b)) + 0.05);
const style = (selector) => getComputedStyle(document.querySelector(selector));
const paper = style('#text-side').backgroundColor;
const found = {};
for (const selector of ['.sheet .comment', '.sheet .word', '.sheet .kind', '.sheet .number', '.numbers', '#verdict .headline', '#when']) {
  found[selector] = ratio(style(selector).color, paper);
}
found['.state-name on .box'] = ratio(style('.state-name').fill, style('.state > .box').fill);
found['.state-name on .active'] = ratio(style('.state-name').fill, style('.state.active > .box').fill);
found['.label on .area'] = ratio(style('.label').fill, style('.area').fill);
found['button.main'] = ratio(style('button.main').color, style('button.main').backgroundColor);
return [light(paper), found];
"""


def gallery_drawn(tools):
    """Every chart of the gallery is drawn: all its states and transitions, without overlap of boxes or words."""
    fresh(tools, BOXES)
    names = tools.browser.js("return [...document.querySelectorAll('#gallery option')].map((one) => one.value).filter((one) => one.endsWith('.chart'))")
    expect(len(names) >= 17, True, "charts in the gallery")
    for name in names:
        text = text_of("examples", name)
        tools.browser.js("const field = document.getElementById('gallery'); field.value = arguments[0]; field.dispatchEvent(new Event('change'))", name)
        tools.browser.wait_js("return Page.editor.text === arguments[0] && Page.pane.drawn && Page.pane.drawn.plan.chart.to <= arguments[0].length && "
                              "document.querySelector('#drawing svg').getAttribute('aria-label') === arguments[1]",
                              text, f"chart {text.split('chart ', 1)[1].split(' ')[0] if text.startswith('chart') else name_of(text)}")
        states, transitions, wrong = tools.browser.js(OVERLAPS)
        words = [word for line in text.split("\n") for word in line.split("//")[0].replace(";", " ").replace("{", " { ").split()]
        expect((states, transitions), (words.count("state"), words.count("->")), f"states and transitions of {name}")
        expect(wrong, [], name)
    quiet(tools)


def name_of(text):
    return next(line.split(" ")[1] for line in text.split("\n") if line.startswith("chart "))


def large_drawn(tools):
    """200 states are drawn without overlap, and one region of 200 states as well."""
    for text, count in [(large_chart(), 202 - 2), (large_chart(1, 202), 202)]:
        fresh(tools, text)
        states, _, wrong = tools.browser.js(OVERLAPS)
        expect((states, wrong), (text.count("state "), []), f"{count} states")


def keys_suffice(tools):
    """With the keyboard alone: all that can be pressed is reached, a text typed, an input pressed, ticks played and stepped."""
    fresh(tools, BOXES)
    tools.browser.js("document.activeElement.blur(); window.scrollTo(0, 0); document.querySelector('#gallery').focus()")
    reached = set()
    for _ in range(70):
        reached.add(tools.browser.js("const one = document.activeElement; return one.id || one.dataset.name || one.dataset.fold || one.className || one.tagName"))
        tools.browser.keys("Tab")
    wanted = set(tools.browser.js("return [...document.querySelectorAll('button, select, textarea, input')].filter((one) => one.offsetParent && "
                                  "one.tabIndex >= 0).map((one) => one.id || one.dataset.name)"))
    expect(sorted(wanted - reached), [], "what keys do not reach")
    expect({"wave-view", "Line.Running", "Line", "drawing"} - reached, set(), "what keys do not reach in the drawing and the diagram")
    tools.browser.js("document.querySelector('#inputs [data-name=left]').focus()")
    tools.browser.keys("Space")
    for count in (1, 2):
        tools.browser.keys("Control", "Enter")
        ticks_done(tools, count)
    expect(tools.browser.js("return Page.session.ticks"), ['{"left":true}', "{}"], "the ticks")
    tools.browser.js("document.querySelector('.wave-view').focus()")
    for key, at in [("Left", 1), ("Right", 2), ("Home", 1), ("End", 2)]:
        tools.browser.keys(key)
        expect(tools.browser.js("return Page.session.at"), at, f"after {key}")
    tools.browser.js("document.getElementById('tab-chart').focus()")
    tools.browser.keys("Right")
    expect(tools.browser.js("return document.activeElement.id + document.getElementById('panel-expanded').hidden"), "tab-expandedfalse", "the tabs")


def everything_named(tools):
    """Whatever can be pressed or read has a name for readers of screens, and what happens is told."""
    fresh(tools, BOXES)
    press(tools, '{"left":true}')
    ticks_done(tools, 1)
    tree = tools.browser.command("Accessibility.getFullAXTree")["nodes"]
    roles = {"button", "textbox", "combobox", "slider", "tab", "checkbox", "spinbutton", "ComboBoxSelect", "image", "graphics-symbol"}
    unnamed = [node["role"]["value"] for node in tree if not node["ignored"] and node.get("role", {}).get("value") in roles
               and not node.get("name", {}).get("value", "").strip()]
    expect(unnamed, [], "without a name")
    names = {node.get("name", {}).get("value", "") for node in tree if not node["ignored"]}
    for name in ["text of the chart", "superstate Running, initial, active", "state Stopped", "strong abort to Stopped if stop do parts = 0", "fold state Running",
                 "chart Boxes", "Tick", "left", "region Left"]:
        expect(name in names, True, f"the name {name!r}")
    expect(tools.browser.js("return document.querySelector('#when[aria-live]').textContent"), "Tick 1 of 1, 7 steps: no output changed.", "what is told")
    expect(tools.browser.js("return document.documentElement.lang"), "en", "the language")


def light_and_dark(tools):
    """In both, what is written stands out from its ground by 4.5 to 1."""
    try:
        for wanted in ("light", "dark"):
            tools.browser.command("Emulation.setEmulatedMedia", features=[{"name": "prefers-color-scheme", "value": wanted}])
            fresh(tools, BOXES)
            press(tools, "{}")
            ticks_done(tools, 1)
            paper, found = tools.browser.js(CONTRAST)
            expect(paper > 0.5, wanted == "light", f"the ground in the {wanted}")
            expect({name: ratio for name, ratio in found.items() if ratio < 4.5}, {}, f"too faint in the {wanted}")
        tools.browser.js("const field = document.getElementById('theme'); field.value = 'light'; field.dispatchEvent(new Event('change'))")
        expect(tools.browser.js(CONTRAST)[0] > 0.5, True, "light by choice")
    finally:
        tools.browser.command("Emulation.setEmulatedMedia", features=[])


def small_window(tools):
    """At 800 pixels nothing leaves the window, and text, chart and session have their room."""
    tools.browser.resize(800, 800)
    try:
        fresh(tools, text_of("examples", "washing_machine.chart"))
        press(tools, "{}")
        ticks_done(tools, 1)
        expect(tools.browser.js("return document.documentElement.scrollWidth <= window.innerWidth"), True, "the width of the page")
        outside = tools.browser.js("return [...document.querySelectorAll('button, select, input, textarea')].filter((one) => one.offsetParent && "
                                   "!one.closest('.wave-view, #drawing')).filter((one) => { const box = one.getBoundingClientRect(); "
                                   "return box.left < 0 || box.right > window.innerWidth; }).map((one) => one.id || one.dataset.name)")
        expect(outside, [], "what leaves the window")
        for selector, width, height in [("#text", 300, 200), ("#drawing", 300, 200), ("#waves", 300, 60)]:
            box = tools.browser.js("const box = document.querySelector(arguments[0]).getBoundingClientRect(); return [box.width, box.height]", selector)
            expect(box[0] >= width and box[1] >= height, True, f"the room of {selector}: {box}")
        quiet(tools)
    finally:
        tools.browser.resize(1280, 900)


def typing_is_free(tools):
    """While a text of 200 states is typed in, no script, layout or painting of the page takes 50 ms of the processor. Needs a
    browser that is traced."""
    fresh(tools, large_chart())
    place = ("const area = document.getElementById('text'); const at = area.value.indexOf('level > 3 do') + 10; area.focus(); "
             "area.setSelectionRange(at, at)")
    for turn, letters in enumerate(["+1 ", "+2 ", "+3 ", "+4 "]):
        # the first turn is that of a page which has not run yet
        if turn == 1:
            tools.browser.js("performance.mark('typing begins')")
        tools.browser.js(place)
        for letter in letters:
            tools.browser.type("#text", letter)
        answered(tools, tools.browser.js("return Page.editor.text"))
        tools.browser.wait_js("return [...document.querySelectorAll('.label')].some((one) => one.textContent.includes(arguments[0]))", letters.strip())
    longest = tools.browser.tasks_after("typing begins")[:5]
    expect([one for one in longest if one[0] >= 50], [], "what took longest")


def server_stopped(tools):
    """Where the server is stopped the page says so, and the text is kept."""
    with Served(tools.path, tools.for_server) as other:
        was, tools.served = tools.served, other
        try:
            fresh(tools, BOXES)
            other.stop()
            mine = BOXES.replace("Boxes", "After")
            tools.browser.js("Page.editor.replace(arguments[0])", mine)
            tools.browser.wait_js("return !document.getElementById('notice').hidden && document.getElementById('notice').textContent.includes('does not answer')")
            tools.browser.click("#tick")
            expect(tools.browser.js("return Page.editor.text"), mine, "the text")
            tools.browser.wait_js("return JSON.parse(localStorage.getItem('soilannual-text')).text === arguments[0]", mine)
            tools.browser.complaints()
        finally:
            tools.served = was


def program_ends(tools):
    """Where the program ends as it should not, or cannot be started, the page says so, and the text is kept."""
    path = os.path.join(tools.program.room, "ending")
    with open(path, "w", encoding="utf-8") as file:
        file.write("#!/bin/sh\n[ \"$1\" = --version ] && echo 'sct 0.0.0' && exit 0\nkill -9 $$\n")
    os.chmod(path, 0o755)
    with Served(path, tools.for_server) as other:
        was, tools.served = tools.served, other
        try:
            page(tools)
            tools.browser.wait_js("return !document.getElementById('notice').hidden")
            expect(tools.browser.js("return document.getElementById('notice-words').textContent"), "sct explain ended unexpectedly, with status -9.", "the words")
            os.remove(path)
            tools.browser.js("Page.editor.replace(arguments[0])", BOXES)
            tools.browser.wait_js("return document.getElementById('notice-words').textContent.includes('could not be started')")
            expect(tools.browser.js("return Page.editor.text"), BOXES, "the text")
            tools.browser.complaints()
        finally:
            tools.served = was


def large_text(tools):
    """A text of 2 MB is kept in the page, and a sentence says that it is too long."""
    fresh(tools, BOXES)
    tools.browser.js("Page.editor.replace(('//' + 'x'.repeat(98) + '\\n').repeat(20000))")
    tools.browser.wait_js("return document.getElementById('notice').textContent.includes('longer than')")
    expect(tools.browser.js("return Page.editor.text.length"), 101 * 20000, "the text")
    tools.browser.js("Page.editor.replace(arguments[0])", BOXES)
    answered(tools, BOXES)


def told_where_refused(tools):
    """A page of one run is refused where the text or the ticks are, and words that mean nothing too."""
    room = tools.program.room
    for name, ticks, status, words in [("refused/two_speeds.chart", "boxes.ticks", 1, "two_speeds.chart:10:43: E11 6 13"), ("boxes.chart", "lift.ticks", 1, "E51 line"),
                                       ("nobody.chart", "lift.ticks", 1, "cannot be read")]:
        done = subprocess.run([PLAY, "--program", tools.path, "--page", os.path.join(TOP, "examples", name), os.path.join(TOP, "examples", ticks), "x.html"],
                              capture_output=True, text=True, cwd=room, check=False)
        expect((done.returncode, words in done.stderr, os.path.exists(os.path.join(room, "x.html"))), (status, True, False), f"{name} {done.stderr}")
    done = subprocess.run([PLAY, "--page", "a", "b"], capture_output=True, text=True, cwd=room, check=False)
    expect(done.returncode, 2, "words that mean nothing")


def single_page(tools):
    """The page of one run is stepped through without a server: lit states and values in each tick."""
    text, ticks = text_of("examples", "motor.chart"), lines_of(text_of("examples", "motor.ticks"))
    outputs = [json.loads(line)["out"] for line in lines_of(text_of("examples", "motor.trace"))]
    path = os.path.join(tools.program.room, "motor.html")
    subprocess.run([PLAY, "--program", tools.path, "--page", os.path.join(TOP, "examples", "motor.chart"), os.path.join(TOP, "examples", "motor.ticks"), path], check=True)
    with open(path, encoding="utf-8") as file:
        whole = file.read()
    for foreign in ('src="', "href=", "fetch(", "XMLHttpRequest", "import("):
        expect(foreign in whole, False, f"{foreign} in the page of one run")
    tools.browser.open("file://" + path)
    tools.browser.wait_js("return document.querySelectorAll('#drawing .state').length === 9")
    expected = active_after(text, ticks)
    for at, (active, hidden) in enumerate(expected):
        expect(tools.browser.js("return Run.session.at"), at + 1, "the tick")
        expect(tools.browser.js(LIT), sorted(active), f"the lit states of tick {at + 1}")
        values = {name: cells[0] for name, cells in tools.browser.js(TABLE).items()}
        shown = {name: str(value).lower() if isinstance(value, bool) else str(value) for name, value in {**outputs[at], **hidden}.items()}
        expect(values, shown, f"the values of tick {at + 1}")
        names = tools.browser.js("return [...document.querySelectorAll('#text .lit')].map((one) => one.textContent)")
        expect(sorted(names), sorted(path.rpartition(".")[2] for path in active), f"the lit names of tick {at + 1}")
        tools.browser.click("#forward")
    tools.browser.click("#back")
    expect(tools.browser.js(LIT), sorted(expected[-2][0]), "one tick back")
    quiet(tools)


CHECKS = [gallery_drawn, large_drawn, keys_suffice, everything_named, light_and_dark, small_window, server_stopped, program_ends, large_text,
          told_where_refused, single_page]
TRACED = [typing_is_free]

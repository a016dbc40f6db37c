"""Checks of the page in a browser, with the program behind it: what is drawn, played, marked, saved and said."""
import base64
import json
import os
import zlib

from asking import expect
from driver import Failed
from served import active_after, lines_of, text_of

# the names of what is drawn of the chart, in the order of the text
BOXES = text_of("examples", "boxes.chart")
BOXES_STATES = ["Line.Running", "Line.Running/Left.Belt", "Line.Running/Right.Belt", "Line.Running/Box.Filling", "Line.Stopped"]
# ABRO after its seven ticks, worked out by hand
ABRO_STATES = ["Main.ABO", "Main.ABO/Body.Wait", "Main.ABO/Body.Wait/GetA.WA", "Main.ABO/Body.Wait/GetA.DA", "Main.ABO/Body.Wait/GetB.WB",
               "Main.ABO/Body.Wait/GetB.DB", "Main.ABO/Body.Done"]
ABRO_ACTIVE = [[0, 1, 2, 4], [0, 1, 4], [0, 6], [0, 1, 2, 4], [0, 1, 4], [0, 1, 2, 4], [0, 6]]
LIT = "return [...document.querySelectorAll('#drawing .state.active')].map((one) => one.dataset.path).sort()"
LIT_LINES = "return [...document.querySelectorAll('.mark.lit')].map((one) => Number(one.dataset.line)).sort((a, b) => a - b)"
TABLE = ("return Object.fromEntries([...document.querySelectorAll('#values tbody tr')].map((row) => "
         "[row.dataset.name, [row.cells[1].textContent, row.className]]))")


def page(tools, path=""):
    """The page with nothing kept in the browser."""
    tools.browser.open(tools.served.address)
    tools.browser.js("localStorage.clear(); window.onpagehide = null")
    tools.browser.open("about:blank")
    tools.browser.open(tools.served.address + path)
    tools.browser.js("return document.readyState")


def fresh(tools, text):
    """The page with this text, once the program has answered and its drawing is there."""
    page(tools)
    tools.browser.wait_js("return document.querySelectorAll('#gallery option').length > 10 && Page.editor.text.length > 0")
    tools.browser.js("Page.editor.replace(''); Page.editor.replace(arguments[0])", text)
    answered(tools, text)


def answered(tools, text):
    tools.browser.wait_js("return Page.editor.text === arguments[0] && !document.getElementById('verdict').classList.contains('waiting') && "
                          "Page.views.text === arguments[0] && (!document.querySelector('#verdict.accepted') || Page.session.text === arguments[0])", text)
    tools.browser.wait_js("return Page.pane.drawn && document.querySelector('#drawing svg') === Page.pane.drawn.svg || !Page.pane.chart")


def ticks_done(tools, count):
    tools.browser.wait_js("return Page.session.ticks.length === arguments[0]", count)


def trace(tools):
    return tools.browser.js("return Page.session.results.map((one) => one.line)")


def quiet(tools):
    """The console has said nothing."""
    expect(tools.browser.complaints(), [], "the console")


def shown_value(value):
    return str(value).lower() if isinstance(value, bool) else str(value)


def opens(tools):
    """The page opens with a chart of the gallery, asks nobody else for anything, and complains of nothing."""
    page(tools)
    tools.browser.wait_js("return document.querySelectorAll('#drawing .state').length === 5")
    asked = tools.browser.js("return performance.getEntriesByType('resource').map((one) => one.name)")
    expect([name for name in asked if not name.startswith(tools.served.address) and not name.startswith("data:")], [], "asked for elsewhere")
    expect(len(tools.browser.js("return [...document.querySelectorAll('#gallery option')].map((one) => one.value)")) > 20, True, "the gallery")
    quiet(tools)


def boxes_typed(tools):
    """Boxes is typed line by line, accepted, and drawn."""
    fresh(tools, "chart X { region R { initial state s; } }")
    tools.browser.click("#text")
    tools.browser.keys("Control", "a")
    text = BOXES[BOXES.index("chart "):]
    first, _, rest = text.partition("\n")
    tools.browser.type("#text", first + "\n")
    for line in rest.splitlines(keepends=True):
        tools.browser.command("Input.insertText", text=line)
    answered(tools, text)
    expect(tools.browser.js("return document.getElementById('verdict').textContent"), "Accepted: nodes=40 threads=6 budget=26", "the verdict")
    drawn = tools.browser.js("return [...document.querySelectorAll('#drawing .state')].map((one) => one.dataset.path)")
    expect(sorted(drawn), sorted(BOXES_STATES), "the states drawn")
    kinds = tools.browser.js("return [...document.querySelectorAll('#drawing .transition')].map((one) => one.getAttribute('class')).sort()")
    expect(kinds, ["transition go"] * 4 + ["transition strong"], "the transitions drawn")
    initial = tools.browser.js("return [...document.querySelectorAll('#drawing .state.initial')].length")
    expect(initial, 4, "initial states")
    quiet(tools)


def press(tools, line):
    """Presses what a tick has and then Tick."""
    for name, value in json.loads(line).items():
        if value is True:
            tools.browser.click(f"#inputs button[data-name={name}]")
        elif value:
            tools.browser.js("const field = document.querySelector(arguments[0]); field.value = arguments[1]", f"#inputs input[data-name={name}]", value)
    tools.browser.click("#tick")


def played(tools, text, ticks, states):
    """Plays ticks by the buttons, and compares outputs and lit states after each of them."""
    fresh(tools, text)
    wanted = tools.program.trace(text, ticks)
    lines = text.split("\n")
    for at, line in enumerate(ticks):
        press(tools, line)
        ticks_done(tools, at + 1)
        expect(trace(tools)[at], wanted[at], f"the line of tick {at + 1}")
        values = {name: cells[0] for name, cells in tools.browser.js(TABLE).items()}
        out = {name: shown_value(value) for name, value in json.loads(wanted[at])["out"].items()}
        expect({name: values[name] for name in out}, out, f"the values after tick {at + 1}")
        expect(tools.browser.js(LIT), sorted(states[at]), f"the lit states after tick {at + 1}")
        names = {path.rpartition(".")[2] for path in states[at]}
        lit = tools.browser.js(LIT_LINES)
        expect(len(lit), len(states[at]), f"the lit names after tick {at + 1}")
        for number in lit:
            if not any(f"state {name}" in lines[number - 1] for name in names):
                raise Failed(f"line {number} is lit after tick {at + 1}")
    quiet(tools)


def boxes_played(tools):
    """Ten ticks of Boxes by its buttons: outputs and lit states as `sct run` and the active states."""
    ticks = lines_of(text_of("examples", "boxes.ticks"))[:8] + ['{"stop":true}', '{"stop":true,"left":true}']
    expected = active_after(BOXES, ticks)
    running = BOXES_STATES[:4]
    by_hand = [running] * 5 + [["Line.Stopped"]] + [running] * 2 + [["Line.Stopped"]] * 2
    expect([sorted(active) for active, _ in expected], [sorted(active) for active in by_hand], "the plain machine of charts")
    played(tools, BOXES, ticks, by_hand)


def abro_played(tools):
    """The seven ticks of ABRO: the lit states are those that were worked out by hand."""
    played(tools, text_of("examples", "abro.chart"), lines_of(text_of("examples", "abro.ticks")), [[ABRO_STATES[n] for n in row] for row in ABRO_ACTIVE])


def locals_shown(tools):
    """Local variables are shown and changes marked, as the plain machine of charts has them."""
    text, ticks = text_of("examples", "motor.chart"), lines_of(text_of("examples", "motor.ticks"))
    fresh(tools, text)
    tools.browser.js("Page.session.load(arguments[0])", ticks)
    ticks_done(tools, len(ticks))
    expected = active_after(text, ticks)
    expect(tools.browser.js("return Page.session.results.map((one) => one.locals)"), [hidden for _, hidden in expected], "the locals")
    for at in range(1, len(ticks) + 1):
        tools.browser.js("Page.session.go(arguments[0])", at)
        values, before = tools.browser.js(TABLE), expected[at - 2][1]["load"] if at > 1 else 0
        expect(values["load"], [str(expected[at - 1][1]["load"]), "changed" if expected[at - 1][1]["load"] != before else ""], f"load after tick {at}")
        expect(tools.browser.js(LIT), sorted(expected[at - 1][0]), f"the lit states after tick {at}")


def scl_played(tools):
    """A text of SCL is played too; it has no states, and the page says so."""
    text, ticks = text_of("examples", "heater.scl"), lines_of(text_of("examples", "heater.ticks"))
    fresh(tools, text)
    tools.browser.js("Page.session.load(arguments[0])", ticks)
    ticks_done(tools, len(ticks))
    expect(trace(tools), lines_of(text_of("examples", "heater.trace")), "the trace")
    expect("no states" in tools.browser.js("return document.getElementById('drawing').textContent"), True, "the words of the drawing")
    quiet(tools)


def steps_back(tools):
    """Back, forward, a tick that is clicked in the diagram, a tick from an earlier one, and reset."""
    text, ticks = text_of("examples", "abro.chart"), lines_of(text_of("examples", "abro.ticks"))
    fresh(tools, text)
    tools.browser.js("Page.session.load(arguments[0])", ticks)
    ticks_done(tools, 7)
    at = "return Page.session.at"
    for selector, wanted in [("#back", 6), ("#back", 5), ("#forward", 6)]:
        tools.browser.click(selector)
        expect(tools.browser.js(at), wanted, f"after {selector}")
        expect(tools.browser.js(LIT), sorted(ABRO_STATES[n] for n in ABRO_ACTIVE[wanted - 1]), f"the lit states after {selector}")
    box = tools.browser.js("const box = document.querySelector('svg.waves').getBoundingClientRect(); return [box.left, box.top]")
    tools.browser.ask("actions", {"actions": [{"type": "pointer", "id": "pointer", "actions": [
        {"type": "pointerMove", "duration": 0, "x": int(box[0] + 2 * 38 + 15), "y": int(box[1] + 30)}, {"type": "pointerDown", "button": 0},
        {"type": "pointerUp", "button": 0}]}]})
    expect(tools.browser.js(at), 3, "after a click on the third column")
    expect(tools.browser.js(LIT), sorted(ABRO_STATES[n] for n in (0, 6)), "the lit states of the third tick")
    press(tools, '{"R":true}')
    ticks_done(tools, 4)
    expect(trace(tools), tools.program.trace(text, [*ticks[:3], '{"R":true}']), "the trace from an earlier tick")
    tools.browser.click("#reset")
    ticks_done(tools, 0)
    expect(tools.browser.js(LIT), [], "the lit states after a reset")


def runs_by_period(tools):
    fresh(tools, BOXES)
    tools.browser.js("const field = document.getElementById('period'); field.value = 60; document.getElementById('hold').checked = true")
    tools.browser.click("#inputs button[data-name=left]")
    tools.browser.click("#run")
    tools.browser.wait_js("return Page.session.ticks.length >= 6")
    tools.browser.click("#run")
    tools.browser.wait_js("return document.getElementById('run').getAttribute('aria-pressed') === 'false'")
    ticks = tools.browser.js("return Page.session.ticks")
    expect(set(ticks), {'{"left":true}'}, "the ticks")
    expect(trace(tools)[:6], tools.program.trace(BOXES, ticks)[:6], "the trace")


def waves_drawn(tools):
    """The diagram has a row for each variable, and the values of each tick."""
    fresh(tools, BOXES)
    ticks = lines_of(text_of("examples", "boxes.ticks"))
    tools.browser.js("Page.session.load(arguments[0])", ticks)
    ticks_done(tools, 8)
    names = tools.browser.js("return [...document.querySelectorAll('.wave-name')].map((one) => one.textContent)")
    expect(names, ["left", "right", "stop", "parts", "boxes"], "the rows")
    expect(tools.browser.js("return [...document.querySelectorAll('.tick-number')].map((one) => one.textContent)"), [str(n) for n in range(1, 9)], "the columns")
    values = tools.browser.js("return [...document.querySelectorAll('.wave-value')].map((one) => one.textContent)")
    expect(values, ["0", "1", "4", "1", "3", "0", "1", "0", "1"], "the values of parts and of boxes")
    expect(tools.browser.js("return document.querySelectorAll('.waves .full.input').length"), 6 + 4 + 1, "the ticks in which an input was true")


def refused_chart(tools):
    """A chart that is refused: marks at its places, in the drawing too, and the words of `explain`."""
    text = text_of("examples", "refused", "two_speeds.chart")
    fresh(tools, text)
    marks = tools.browser.js("return [...document.querySelectorAll('.mark.fault')].map((one) => one.dataset.line + ':' + one.dataset.column)")
    expect(sorted(set(marks)), ["10:43", "14:43"], "the marks")
    tools.program.write("text", text)
    words = tools.program.call("explain", "text")[1]
    said = tools.browser.js("return [...document.querySelectorAll('#verdict > *')].map((one) => one.textContent).join('\\n') + '\\n'")
    expect(said, words.removeprefix("text:"), "the words")
    faults = tools.browser.js("return [...document.querySelectorAll('#drawing .transition.fault')].map((one) => one.dataset.path).sort()")
    expect(faults, ["Fast.Waiting#0", "Slow.Waiting#0"], "the transitions that are marked")
    tools.browser.click("#verdict button.node:last-of-type")
    expect(tools.browser.js("return document.activeElement.id"), "text", "a click on a place goes to the text")
    quiet(tools)


def fault_while_typing(tools):
    """A fault is marked at its line and column while the text is typed, and goes when it is mended."""
    fresh(tools, "chart P {\n  output int x;\n  region R {\n    initial state s { go if y > 0 -> s; }\n  }\n}\n")
    expect(tools.browser.js("return [...document.querySelectorAll('.mark.fault')].map((one) => [one.dataset.line, one.dataset.column])"), [["4", "29"]], "the mark")
    expect("4:29: E03" in tools.browser.js("return document.getElementById('verdict').textContent"), True, "the words")
    tools.browser.js("const area = document.getElementById('text'); const at = area.value.indexOf('y >'); area.focus(); area.setSelectionRange(at, at + 1)")
    tools.browser.type("#text", "x")
    tools.browser.wait_js("return document.querySelector('#verdict.accepted') && !document.querySelector('.mark.fault')")
    # an accepted text has its warnings below its line, each marked at its place
    told = tools.browser.js("return [...document.querySelectorAll('#verdict button')].map((one) => one.textContent.slice(0, 9))")
    expect(told, ["2:14: W05"], "the warnings")
    expect(tools.browser.js("return document.querySelectorAll('.mark.warned').length"), len(told), "the marks of warnings")
    # what is half typed leaves the last drawing
    tools.browser.type("#text", " +")
    tools.browser.wait_js("return document.querySelector('#verdict.refused') && document.querySelectorAll('.mark.fault').length === 1")
    expect(tools.browser.js("return document.querySelectorAll('#drawing .state').length"), 1, "the drawing of a half typed text")


def link_opens(tools):
    """A text behind the # of the address is opened; the page makes such links; one that cannot be read is told."""
    pressed = zlib.compressobj(9, zlib.DEFLATED, -15)
    packed = pressed.compress(BOXES.encode()) + pressed.flush()
    page(tools, "#text=" + base64.urlsafe_b64encode(packed).decode().rstrip("="))
    tools.browser.wait_js("return typeof Page === 'object' && Page.editor.text === arguments[0]", BOXES)
    answered(tools, BOXES)
    other = text_of("examples", "lift.chart") + "// \u00e9\u4e2d\U0001f600\n"
    tools.browser.js("Page.editor.replace(arguments[0])", other)
    tools.browser.click("#link")
    hash_of = tools.browser.wait_js("return location.hash.length > 700 && location.hash")
    data = base64.urlsafe_b64decode(hash_of.removeprefix("#text=") + "===")
    expect(zlib.decompress(data, -15).decode(), other, "the text in the address")
    tools.browser.js("location.hash = '#text=AAAA'")
    tools.browser.wait_js("return document.getElementById('notice').textContent.includes('cannot be read')")
    expect(tools.browser.js("return Page.editor.text"), other, "the text behind a broken link")


def folds(tools):
    """Superstates and regions fold and unfold, by a click and by keys, and all at once."""
    fresh(tools, BOXES)
    count = "return document.querySelectorAll('#drawing .state').length"
    tools.browser.click('[data-fold="Line.Running"]')
    tools.browser.wait_js(f"{count} === 2")
    expect(tools.browser.js("return document.querySelector('[data-fold=\"Line.Running\"]').getAttribute('aria-expanded')"), "false", "the handle")
    press(tools, "{}")
    ticks_done(tools, 1)
    expect(tools.browser.js(LIT), ["Line.Running"], "what is lit of a folded state")
    tools.browser.js("document.querySelector('[data-fold=\"Line.Running\"]').focus()")
    tools.browser.keys("Enter")
    tools.browser.wait_js(f"{count} === 5")
    expect(tools.browser.js("return document.activeElement.dataset.fold"), "Line.Running", "the focus stays")
    tools.browser.click('[data-fold="Line.Running/Left"]')
    tools.browser.wait_js(f"{count} === 4")
    tools.browser.click("#unfold-all")
    tools.browser.wait_js(f"{count} === 5")
    tools.browser.click("#fold-all")
    tools.browser.wait_js(f"{count} === 2")


def ticks_and_traces(tools):
    """Ticks are loaded from a file, and ticks, trace, image, text and drawing are saved as the program has them."""
    fresh(tools, "")
    tools.browser.js("const field = document.getElementById('gallery'); field.value = 'lift.chart'; field.dispatchEvent(new Event('change'))")
    text = text_of("examples", "lift.chart")
    answered(tools, text)
    tools.browser.js("document.getElementById('ticks-file').hidden = false")
    tools.browser.type("#ticks-file", os.path.join(tools.top, "examples", "lift.ticks"))
    tools.browser.wait_js("return Page.session.ticks.length > 0")
    expect(trace(tools), lines_of(text_of("examples", "lift.trace")), "the trace")
    folder = os.path.join(tools.program.room, "saved")
    tools.browser.command("Browser.setDownloadBehavior", behavior="allow", downloadPath=folder)
    for selector, name, wanted in [("#save-ticks", "lift.ticks", None), ("#save-trace", "lift.trace", None), ("#save-text", "lift.chart", None),
                                   ("#save-image", "lift.image", tools.program.image(text)), ("#save-drawing", "lift.svg", b"<svg")]:
        tools.browser.click(selector)
        path = os.path.join(folder, name)
        tools.browser.wait(lambda: os.path.exists(path), 180, f"{name} was not saved")
        with open(path, "rb") as file:
            data = file.read()
        if name == "lift.svg":
            expect(data.startswith(wanted) and b".chart .state" in data, True, "the drawing")
        else:
            expect(data, wanted or text_of("examples", name).encode(), name)
    quiet(tools)


def bad_ticks(tools):
    """Ticks that are none end before their line, in words."""
    fresh(tools, BOXES)
    tools.browser.js("Page.session.load(['{}', '{\"left\":true}', '{\"left\":3}', '{}'])")
    ticks_done(tools, 2)
    expect("line 3" in tools.browser.js("return document.getElementById('when').textContent"), True, "the words")


def tabs(tools):
    """The tabs have the program's own texts, and what is pointed at in the text or the drawing is marked in each of them."""
    fresh(tools, BOXES)
    tools.program.image(BOXES)
    shown = {"lowered": tools.program.call("scl", "text")[1], "listing": tools.program.call("list", "image", "--source", "text")[1],
             "graph": tools.program.call("dot", "text")[1]}
    for name in ("expanded", "lowered", "listing", "graph"):
        tools.browser.click(f"#tab-{name}")
        tools.browser.wait_js("return document.querySelector(arguments[0])", f"#panel-{name} pre")
        got = tools.browser.js("return [...document.querySelectorAll(arguments[0])].map((row) => row.textContent.trimEnd()).join('\\n')", f"#panel-{name} pre > div")
        if name in shown:
            expect(got.rstrip(), "\n".join(line.rstrip() for line in shown[name].split("\n")).rstrip(), f"the tab {name}")
        elif "region Right {" not in got or "strong" in got:
            raise Failed(f"the expanded chart: {got}")
    # the transition of the left belt: its test and its effect are the nodes 19 and 20
    for name, wanted in [("listing", ["19", "20"]), ("lowered", ["if (left) {", "parts = parts + 1;"]), ("expanded", ["initial state Belt {"])]:
        tools.browser.click(f"#tab-{name}")
        tools.browser.wait_js("return document.querySelector(arguments[0])", f"#panel-{name} pre")
        tools.browser.js("const area = document.getElementById('text'); const at = area.value.indexOf('go if left') + 4; area.focus(); area.setSelectionRange(at, at)")
        tools.browser.keys("Shift")
        marked = tools.browser.wait_js("const rows = [...document.querySelectorAll(arguments[0])].map((row) => row.textContent.trim()); return rows.length && rows",
                                       f"#panel-{name} .under")
        expect([row.split(" ")[0] if name == "listing" else row for row in marked], wanted, f"what is marked in {name}")
    tools.browser.click("#tab-listing")
    tools.browser.js("const row = [...document.querySelectorAll('#panel-listing pre > div')].find((one) => one.textContent.startsWith('14 ')); row.id = 'row-14'")
    tools.browser.point("#row-14")
    tools.browser.wait_js("return document.querySelector('.mark.under') && document.querySelector('.mark.under').dataset.line === '20'")
    tools.browser.click("#tab-chart")
    tools.browser.point('[data-path="Line.Stopped"] > .box')
    tools.browser.wait_js("return document.querySelector('.mark.under') && document.querySelector('#drawing .under').dataset.path === 'Line.Stopped'")
    quiet(tools)


def kept_text(tools):
    """The text outlives a reload, and one that was replaced can be brought back."""
    fresh(tools, BOXES)
    mine = BOXES.replace("Boxes", "Mine")
    tools.browser.js("Page.editor.replace(arguments[0])", mine)
    tools.browser.open(tools.served.address)
    tools.browser.wait_js("return typeof Page === 'object' && Page.editor.text === arguments[0]", mine)
    tools.browser.wait_js("return document.querySelectorAll('#gallery option').length > 10")
    tools.browser.js("const field = document.getElementById('gallery'); field.value = 'abro.chart'; field.dispatchEvent(new Event('change'))")
    answered(tools, text_of("examples", "abro.chart"))
    tools.browser.click("#notice-act")
    tools.browser.wait_js("return Page.editor.text === arguments[0]", mine)


CHECKS = [opens, boxes_typed, boxes_played, abro_played, locals_shown, scl_played, steps_back, runs_by_period, waves_drawn, refused_chart,
          fault_while_typing, link_opens, folds, ticks_and_traces, bad_ticks, tabs, kept_text]

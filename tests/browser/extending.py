"""Checks of extended charts on the page, as there are of charts: drawn, coloured, played, folded, explained and saved as the author
wrote them; and what reductions make is shown in its tab alone."""
import json
import os
import subprocess

from asking import expect
from looking import BOXES, LIT, TABLE, answered, fresh, played, press, quiet, shown_value, ticks_done, trace
from served import PLAY, TOP, active_after, lines_of, text_of, words_of
from using import OVERLAPS

NAMES = ["blinds", "holiday", "lift_door", "oven", "pin_lock", "star_delta", "traffic_light"]
OVEN = text_of("examples", "extended", "oven.extended")
# what is new and not in the oven, with comments over lines
PRESS = """/* A press that is stopped and goes on as it was,
   // each `extended chart` of which is no head
   const int comment = 1; */
extended chart Press {
  input bool stop; /* two
  lines */ input bool next;
  output int made = 2;
  output signal bell;
  signal done;
  local signal half;
  local int count = 4;
  const bool SURE = true;
  const int after = -(3);
  pre bool rang = bell;
  region Main {
    initial state Work {
      during if next do count += 1;
      region Steps {
        initial state Down { entry do emit half; exit do made *= 2, made -= 1; go after 2 of next -> Up; }
        state Up { go after made - after if SURE do emit bell -> Down; go if stop and next -> Up; }
      }
      strong if stop do emit done -> Rest;
      strong after 40 -> shallow history Work;
    }
    state Rest { immediate during do count -= 1; go if not stop -> shallow history Work; go after 3 -> End; }
    final state End;
  }
  region Beside {
    initial state Wait {
      region Once { initial state A { go if rang -> B; } final state B { entry do emit half; } }
      join if half and not stop -> Over;
    }
    state Over;
  }
}
"""
PRESS_TICKS = [json.dumps({"stop": k in (5, 6, 14), "next": k % 3 != 1}) for k in range(18)]


def example(name):
    return text_of("examples", "extended", f"{name}.extended"), lines_of(text_of("examples", "extended", f"{name}.ticks"))


def marked_lines(tools, kind):
    """The lines with marks of this kind, in sight or not."""
    return tools.browser.js("return Page.editor.marks.get(arguments[0]).map((one) => Page.editor.lineOf(one.from) + 1)", kind)


def line_of(text, path):
    """The line of the state at a path, of whose name there is no other one."""
    return next(number for number, line in enumerate(text.split("\n"), 1) if f"state {path.rpartition('.')[2]} {{" in line or f"state {path.rpartition('.')[2]};" in line)


def drawn_whole(tools, name, text):
    """An extended chart is drawn: all states, transitions and actions, without overlap."""
    fresh(tools, text)
    states, transitions, wrong = tools.browser.js(OVERLAPS)
    words = words_of(text)
    expect((states, transitions), (words.count("state"), words.count("->")), f"states and transitions of {name}")
    expect(wrong, [], name)
    drawn = tools.browser.js("return [...document.querySelectorAll('#drawing .action tspan')].map((one) => one.textContent).join(' ').split(' ')")
    expect([drawn.count(word) for word in ("entry", "exit", "during")], [words.count(word) for word in ("entry", "exit", "during")], f"the actions of {name}")


def extended_drawn(tools):
    """Every extended chart of the gallery is drawn, and one of all that is new."""
    for name, text in [(name, example(name)[0]) for name in NAMES] + [("the press", PRESS)]:
        drawn_whole(tools, name, text)
    quiet(tools)


def words_drawn(tools):
    """What stands in the boxes and at the arrows is the author's, and has a name for readers of screens."""
    fresh(tools, PRESS)
    said = tools.browser.js("return [...document.querySelectorAll('#drawing [data-path] > .action tspan, #drawing .label tspan')].map((one) => one.textContent)")
    for words in ["during next / count += 1", "entry / emit half", "exit / made *= 2, made -= 1", "immediate during / count -= 1", "after 2 of next",
                  "1: after made - after if SURE", "/ emit bell", "half and not stop", "2: after 40", "2: after 3"]:
        expect(words in said, True, f"{words!r} among {said}")
    marks = tools.browser.js("return [...document.querySelectorAll('#drawing .history-letter')].map((one) => one.closest('.transition').dataset.path).sort()")
    expect(marks, ["Main.Rest#0", "Main.Work#1"], "the marks of histories")
    named = tools.browser.js("return [...document.querySelectorAll('#drawing .transition')].map((one) => one.getAttribute('aria-label'))")
    for name in ["strong abort to the history of Work after 40", "transition to Down after made - after if SURE do emit bell", "termination to Over if half and not stop",
                 "transition to Up after 2 of next"]:
        expect(name in named, True, f"{name!r} among {named}")


def coloured(tools):
    """The pieces of each line, with their sorts: those that are words, and those that are comments. Lines are drawn where they are in sight."""
    return tools.browser.js("const area = document.getElementById('text'); const found = {}; for (const top of [0, area.scrollHeight]) { area.scrollTop = top; "
                            "Page.editor.show(); document.querySelectorAll('.sheet > div').forEach((line, k) => { found[Page.editor.first + k] = "
                            "['word', 'comment'].map((sort) => [...line.querySelectorAll('.' + sort)].map((one) => one.textContent)); }); } return Object.values(found)")


def comments_coloured(tools):
    """Comments over lines are coloured as such, and each word of extended charts at its place alone."""
    fresh(tools, PRESS)
    lines = coloured(tools)
    for at in range(3):
        expect(lines[at], [[], [PRESS.split("\n")[at]]], f"line {at + 1}")
    expect(lines[4:6], [[["input"], ["/* two"]], [["input"], ["  lines */"]]], "lines 5 and 6")
    for number, words in [(4, ["extended", "chart"]), (8, ["output", "signal"]), (9, ["signal"]), (10, ["local", "signal"]), (13, ["const"]), (14, ["pre"]),
                          (17, ["during", "if", "do"]), (19, "initial state entry do emit exit do go after of".split()), (20, "state go after if do emit go if and".split()),
                          (23, ["strong", "after", "shallow", "history"]), (25, "state immediate during do go if not shallow history go after".split())]:
        expect(lines[number - 1][0], words, f"the words of line {number}")
    # in a chart they are no words, and `/*` begins no comment
    fresh(tools, "chart after { output int of; region signal { initial state entry { go do of = 6 /* 2 -> entry; } } }\n")
    expect(coloured(tools)[0], ["chart output region initial state go do".split(), []], "a chart")
    fresh(tools, "/* a comment that is not closed\nextended chart P {")
    expect(coloured(tools)[1], [["chart"], []], "a text that does not begin with `extended`")
    fresh(tools, "extended chart P { /* a comment\n that is not closed")
    expect(coloured(tools), [[["extended", "chart"], ["/* a comment"]], [[], [" that is not closed"]]], "a comment that is not closed")
    # and a comment that is begun above while a text is typed goes over all lines
    fresh(tools, OVEN)
    tools.browser.js("const area = document.getElementById('text'); area.focus(); const at = area.value.indexOf('extended chart Oven {') + 21; area.setSelectionRange(at, at)")
    tools.browser.type("#text", " /*")
    expect(coloured(tools)[5:8], [[[], ["  const int BAKE = 6;"]], [[], ["  const int HEAT = 2;"]], [[], ["  const int REST = 1;"]]], "behind a comment that is begun")


def examples_played(tools):
    """The ticks of all examples: the traces that stand there, and the active states and locals of the plain machine."""
    for name in NAMES:
        text, ticks = example(name)
        fresh(tools, text)
        tools.browser.js("Page.session.load(arguments[0])", ticks)
        ticks_done(tools, len(ticks))
        expect(trace(tools), lines_of(text_of("examples", "extended", f"{name}.trace")), f"the trace of {name}")
        expected = active_after(text, ticks)
        expect(tools.browser.js("return Page.session.results.map((one) => [...one.states].sort())"), [sorted(active) for active, _ in expected], f"the states of {name}")
        expect(tools.browser.js("return Page.session.results.map((one) => one.locals)"), [hidden for _, hidden in expected], f"the locals of {name}")
    quiet(tools)


def oven_played(tools):
    """Eight ticks of the oven by its buttons: outputs, lit states, lit names in the text, and what its button was in the tick before."""
    ticks = lines_of(text_of("examples", "extended", "oven.ticks"))[:8]
    expected = active_after(OVEN, ticks, ("pre",))
    played(tools, OVEN, ticks, [active for active, _ in expected])
    for at in range(len(ticks), -1, -1):
        tools.browser.js("Page.session.go(arguments[0])", at)
        values = tools.browser.js(TABLE)
        if at:
            expect(values["was"][0], shown_value(expected[at - 1][1]["was"]), f"what start was before tick {at}")
        for name, value in [("BAKE", "6"), ("HEAT", "2"), ("REST", "1")]:
            expect(values[name], [value, ""], f"a constant after tick {at}")
    first = {name: cells[0] for name, cells in values.items() if name in ("heat", "ready", "left", "was")}
    expect(first, {"heat": "false", "ready": "true", "left": "3", "was": "false"}, "the values before the first tick")
    tools.browser.click("#forward")
    expect(tools.browser.js("return document.getElementById('when').textContent"), "Tick 1 of 8, 8 steps: no output changed.", "what is told of initial values")


def press_played(tools):
    """Signals, during actions, counts and histories: outputs and states as the plain machine; locals and signals with them, and the diagram has
    a row for each variable that is no constant."""
    fresh(tools, PRESS)
    # the variables of which the reduced chart is warned are marked in the text
    expect(marked_lines(tools, "warned"), [9, 11], "the lines that are marked of warnings")
    tools.browser.js("Page.session.load(arguments[0])", PRESS_TICKS)
    ticks_done(tools, len(PRESS_TICKS))
    expected = active_after(PRESS, PRESS_TICKS, ("output", "local", "pre"))
    rows = dict(tools.browser.js("return Page.session.rows().map(({ name, values }) => [name, values])"))
    expect({name: rows[name] for name in expected[0][1]}, {name: [shown[name] for _, shown in expected] for name in expected[0][1]}, "the values")
    expect(list(rows), ["stop", "next", "made", "bell", "done", "half", "count", "rang"], "the rows")
    expect(tools.browser.js("return Page.session.results.map((one) => [...one.states].sort())"), [sorted(active) for active, _ in expected], "the states")
    for at in range(1, len(PRESS_TICKS) + 1):
        tools.browser.js("Page.session.go(arguments[0])", at)
        expect(tools.browser.js(LIT), sorted(expected[at - 1][0]), f"the lit states after tick {at}")
        expect(marked_lines(tools, "lit"), [line_of(PRESS, path) for path in expected[at - 1][0]], f"the lit names after tick {at}")
    quiet(tools)


def told_paths(tools):
    """Of told paths those of the reduced chart become the author's, and the author's stay."""
    fresh(tools, OVEN)
    for told, author in [("Main.On/Duty.Heat", "Main.On/Duty.Heat"), ("whole__1.whole__1/Main.On", "Main.On"), ("whole__1.whole__1", None), ("Main.enter__1", None),
                         ("Main.Run/body__12.body__12/Water.Fill", "Main.Run/Water.Fill"), ("Main.Run/body__1.hold__1", None), ("whole__1.whole__1/clock__1.tick__1", None)]:
        expect(tools.browser.js("return Made.stateOf(arguments[0])", told), author, told)


def extended_folds(tools):
    """A folded superstate is lit, and its actions are hidden with what is inside."""
    fresh(tools, OVEN)
    tools.browser.click('[data-fold="Main.On"]')
    tools.browser.wait_js("return document.querySelectorAll('#drawing .state').length === 2")
    for count, line in enumerate(("{}", '{"start":true}'), 1):
        press(tools, line)
        ticks_done(tools, count)  # buttons are let go after a tick
    expect(tools.browser.js(LIT), ["Main.On"], "what is lit of a folded state")
    expect(tools.browser.js("return document.querySelectorAll('#drawing .action').length"), 0, "the actions of what is folded")
    tools.browser.click("#unfold-all")
    tools.browser.wait_js("return document.querySelectorAll('#drawing .state').length === 4")
    expect(tools.browser.js(LIT), ["Main.On", "Main.On/Duty.Heat"], "what is lit of an unfolded one")


def extended_fault(tools):
    """A fault is marked at its place while the text is typed, one behind the reduction too. So is a warning."""
    text = "/* a\n   lamp */ extended chart P {\n  output int x;\n  region R {\n    initial state s { entry do x = y; go after 2 -> t; }\n    state t;\n  }\n}\n"
    fresh(tools, text)
    expect(tools.browser.js("return [...document.querySelectorAll('.mark.fault')].map((one) => [one.dataset.line, one.dataset.column])"), [["5", "36"]], "the mark")
    expect(tools.browser.js("return document.querySelector('#drawing .state.fault').dataset.path"), "R.s", "the state that is marked")
    tools.browser.js("const area = document.getElementById('text'); const at = area.value.indexOf('y;'); area.focus(); area.setSelectionRange(at, at + 1)")
    tools.browser.type("#text", "4")
    tools.browser.wait_js("return document.querySelector('#verdict.accepted') && !document.querySelector('.mark.fault')")
    tools.browser.type("#text", " /* half")
    tools.browser.wait_js("return document.querySelector('#verdict.refused') && document.querySelectorAll('.mark.fault').length")
    expect(tools.browser.js("return document.querySelectorAll('#drawing .state').length"), 2, "the drawing of a half typed text")
    late = text_of("docs", "extended.md").split("```refused\nchart Boiler")[1].split("```")[0]
    fresh(tools, "extended chart Boiler" + late.replace("initial state On {", "initial state On {\n      entry do alarm = false;"))
    headline = tools.browser.js("return document.querySelector('#verdict .headline').textContent")
    expect(headline.startswith("9:7: E12 "), True, f"the words {headline}")
    faults = tools.browser.js("return [...document.querySelectorAll('#drawing .fault')].map((one) => one.dataset.path).sort()")
    expect(faults, ["Main.On#0", "Main.On/Heater.Heat#0"], "what is marked of a fault behind the reduction")
    stays_on = next(text for text in text_of("docs", "extended.md").split("```extended\n") if "chart Winch" in text).split("```")[0]
    fresh(tools, stays_on)
    expect(marked_lines(tools, "warned"), [11], "the lines that are marked of warnings")
    tools.browser.click("#verdict button")
    at = tools.browser.js("return document.getElementById('text').selectionStart")
    expect(stays_on[at:at + 14], "strong if stop", "where a click on a warning goes")
    quiet(tools)


def tab_lines(tools, name):
    tools.browser.click(f"#tab-{name}")
    tools.browser.wait_js("return document.querySelector(arguments[0])", f"#panel-{name} pre")
    return tools.browser.js("return [...document.querySelectorAll(arguments[0])].map((row) => row.textContent.trimEnd())", f"#panel-{name} pre > div")


def extended_tabs(tools):
    """The tabs have the program's own texts of an extended chart, the reduced one among them; what is pointed at is marked in each."""
    fresh(tools, OVEN)
    tools.program.image(OVEN)
    shown = {"reduced": ("reduce", "text"), "expanded": ("core", "text"), "lowered": ("scl", "text"), "listing": ("list", "image", "--source", "text"), "graph": ("dot", "text")}
    for name, words in shown.items():
        wanted = [line.rstrip() for line in tools.program.call(*words)[1].split("\n")]
        expect(tab_lines(tools, name), wanted, f"the tab {name}")
    for name, place, wanted in [("reduced", "state Heat {", ["heat = true -> Heat;", "state Heat {"]), ("expanded", "state Heat {", ["heat = true -> Heat;", "state Heat {"]),
                                ("lowered", "go if start", ["if (((start and"]), ("listing", "go if start", ["start and"])]:
        tab_lines(tools, name)
        tools.browser.js("const area = document.getElementById('text'); const at = area.value.indexOf(arguments[0]) + 4; area.focus(); area.setSelectionRange(at, at)", place)
        tools.browser.keys("Shift")
        marked = tools.browser.wait_js("const rows = [...document.querySelectorAll(arguments[0])].map((row) => row.textContent.trim()); return rows.length && rows",
                                       f"#panel-{name} .under")
        for words in wanted:
            expect(any(words in row for row in marked), True, f"{words!r} is marked in {name}: {marked}")
    at = next(k for k, line in enumerate(tab_lines(tools, "reduced")) if "-> leave__4;" in line)
    tools.browser.js("const row = document.querySelectorAll('#panel-reduced pre > div')[arguments[0]]; row.id = 'row-of-abort'; row.scrollIntoView({ block: 'center' })", at)
    tools.browser.point("#row-of-abort")
    tools.browser.wait_js("const found = document.querySelector('#drawing .under'); return found && found.dataset.path === 'Main.On#1'")
    expect(marked_lines(tools, "under"), [29], "the line of the abort")
    # a chart has no such tab
    tools.browser.js("Page.editor.replace(arguments[0])", BOXES)
    answered(tools, BOXES)
    expect(tools.browser.js("return [document.getElementById('tab-reduced').hidden, document.getElementById('panel-chart').hidden]"), [True, False], "the tabs of a chart")
    quiet(tools)


def extended_files(tools):
    """An extended chart is opened from the gallery and from a file, its ticks are loaded, and text, ticks, trace and image are saved."""
    fresh(tools, "")
    tools.browser.js("const field = document.getElementById('gallery'); field.value = 'extended/star_delta.extended'; field.dispatchEvent(new Event('change'))")
    text, ticks = example("star_delta")
    answered(tools, text)
    tools.browser.click("#gallery-ticks")
    ticks_done(tools, len(ticks))
    expect(trace(tools), lines_of(text_of("examples", "extended", "star_delta.trace")), "the trace")
    folder = os.path.join(tools.program.room, "extended")
    os.makedirs(folder, exist_ok=True)
    tools.browser.command("Browser.setDownloadBehavior", behavior="allow", downloadPath=folder)
    for selector, ending in [("#save-text", "extended"), ("#save-ticks", "ticks"), ("#save-trace", "trace"), ("#save-image", "image")]:
        tools.browser.click(selector)
        path = os.path.join(folder, f"star_delta.{ending}")
        tools.browser.wait(lambda: os.path.exists(path), 180, f"{path} was not saved")
        with open(path, "rb") as file:
            data = file.read()
        if ending != "ticks":
            expect(data, tools.program.image(text) if ending == "image" else text_of("examples", "extended", f"star_delta.{ending}").encode(), ending)
    tools.browser.js("document.getElementById('text-file').hidden = false")
    tools.browser.type("#text-file", os.path.join(tools.top, "examples", "extended", "oven.extended"))
    answered(tools, OVEN)
    tools.browser.click("#link")
    tools.browser.wait_js("return location.hash.startsWith('#text=')")
    linked = tools.browser.js("return location.href")
    tools.browser.open("about:blank")
    tools.browser.open(linked)
    tools.browser.wait_js("return typeof Page === 'object' && Page.editor.text === arguments[0]", OVEN)
    quiet(tools)


def extended_page(tools):
    """The page of one run of an extended chart: coloured, lit in each tick, with constants and what variables were, without a server."""
    ticks = lines_of(text_of("examples", "extended", "oven.ticks"))
    path = os.path.join(tools.program.room, "oven.html")
    names = [os.path.join(TOP, "examples", "extended", name) for name in ("oven.extended", "oven.ticks")]
    subprocess.run([PLAY, "--program", tools.path, "--page", *names, path], check=True)
    tools.browser.open("file://" + path)
    tools.browser.wait_js("return document.querySelectorAll('#drawing .state').length === 4")
    outputs = [json.loads(line)["out"] for line in lines_of(text_of("examples", "extended", "oven.trace"))]
    constants = {"BAKE": 6, "HEAT": 2, "REST": 1}
    for at, (active, shown) in enumerate(active_after(OVEN, ticks, ("pre",))):
        expect(tools.browser.js(LIT), sorted(active), f"the lit states of tick {at + 1}")
        values = {name: cells[0] for name, cells in tools.browser.js(TABLE).items()}
        expect(values, {name: shown_value(value) for name, value in {**outputs[at], **shown, **constants}.items()}, f"the values of tick {at + 1}")
        lit = tools.browser.js("return [...document.querySelectorAll('#text .lit')].map((one) => one.textContent)")
        expect(sorted(lit), sorted(path.rpartition(".")[2] for path in active), f"the lit names of tick {at + 1}")
        tools.browser.click("#forward")
    words = tools.browser.js("return [...document.querySelectorAll('#text .word')].map((one) => one.textContent)")
    expect([words.count(word) for word in ("extended", "const", "pre", "entry", "exit", "after", "of")], [1, 3, 1, 2, 2, 3, 0], "the words in colour")
    quiet(tools)


CHECKS = [extended_drawn, words_drawn, comments_coloured, examples_played, oven_played, press_played, told_paths, extended_folds, extended_fault, extended_tabs,
          extended_files, extended_page]

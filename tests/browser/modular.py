"""Checks of modules on the page: each use is drawn, lit and played by its own names, and what is told of a module is told at its text."""
import json
import os
import subprocess

from asking import expect
from extending import coloured, drawn_whole, example, line_of, marked_lines, tab_lines
from looking import LIT, TABLE, fresh, quiet, shown_value, ticks_done
from served import PLAY, TOP, active_after

BLINDS = example("blinds")
# a module that is used in a state and by another one, with names that are words of modules elsewhere
NESTED = """extended chart Nested {
  input bool as;
  output int use = 1;
  const bool module = true;
  module Light(input bool on, output int times, const bool YES) {
    local int own = 5;
    signal lit;
    region Main {
      initial state Off { go if on and YES do emit lit, times += own -> On; }
      final state On { entry do own += 1; }
    }
  }
  module Pair(input bool both) {
    local int shared;
    region Two { initial state Half { use Light(both, shared, true) as In; join -> Half; } }
    use Light(both, shared, true) as Beside;
  }
  region Before { initial state Wait { go if as -> Wait; } }
  use Pair(as) as P;
  region Last {
    initial state Holds {
      use Light(as, use, module) as L;
      weak after 2 do use *= 2 -> Holds;
    }
  }
}
"""
NESTED_TICKS = [json.dumps({"as": k % 3 == 1}) for k in range(12)]


def modules_coloured(tools):
    """A chart with modules within modules and states is drawn, and their words are coloured at their place, and are names elsewhere."""
    drawn_whole(tools, "modules", NESTED)
    lines = coloured(tools)
    for number, words in [(2, ["input"]), (3, ["output"]), (4, ["const"]), (5, ["module", "input", "output", "const"]), (7, ["signal"]), (13, ["module", "input"]),
                          (15, "region initial state use as join".split()), (16, ["use", "as"]), (18, "region initial state go if".split()), (19, ["use", "as"]),
                          (22, ["use", "as"]), (23, ["weak", "after", "do"])]:
        expect(lines[number - 1][0], words, f"the words of line {number}")


def modules_shown(tools):
    """Each use is drawn and lit by its own name; what is drawn of a use leads to the text of its module, and what is pointed at there is marked in all uses."""
    text, ticks = BLINDS
    fresh(tools, text)
    regions = tools.browser.js("return [...document.querySelectorAll('#drawing .region')].map((one) => one.dataset.path)")
    expect(regions, [f"{use}_{part}" for use in ("Kitchen", "Study") for part in ("Up_Contact", "Down_Contact", "Motor")], "the regions")
    for path in ("Kitchen_Motor.Halted", "Study_Motor.Halted", "Study_Down_Contact.Closing"):
        name = path.rpartition(".")[2]
        tools.browser.click(f'[data-path="{path}"] > .state-name')
        expect(tools.browser.js("return document.getElementById('text').selectionStart"), text.index(f"state {name}") + 6, f"where a click on {path} goes")
    for name, wanted in [("Halted", ["Kitchen_Motor.Halted", "Study_Motor.Halted"]),
                         ("Closed", [f"{use}_{way}_Contact.Closed" for use in ("Kitchen", "Study") for way in ("Down", "Up")])]:
        tools.browser.js("const area = document.getElementById('text'); area.focus(); area.setSelectionRange(arguments[0], arguments[0])", text.index(f"state {name}") + 3)
        tools.browser.keys("Shift")
        tools.browser.wait_js("const found = [...document.querySelectorAll('#drawing .under')].map((one) => one.dataset.path).sort(); return found.join() === arguments[0]", ",".join(wanted))
        expect(marked_lines(tools, "under"), [line_of(text, name)], f"the line of {name}")
    tools.browser.js("Page.session.load(arguments[0])", ticks)
    ticks_done(tools, len(ticks))
    for at, (active, _) in enumerate(active_after(text, ticks), 1):
        tools.browser.js("Page.session.go(arguments[0])", at)
        expect(tools.browser.js(LIT), sorted(active), f"the lit states after tick {at}")
        expect(sorted(marked_lines(tools, "lit")), sorted({line_of(text, path) for path in active}), f"the lit names after tick {at}")
    quiet(tools)


def modules_played(tools):
    """Modules within modules and states: outputs, states, locals and signals of each use as the plain machine."""
    fresh(tools, NESTED)
    tools.browser.js("Page.session.load(arguments[0])", NESTED_TICKS)
    ticks_done(tools, len(NESTED_TICKS))
    expected = active_after(NESTED, NESTED_TICKS, ("output", "local"))
    rows = dict(tools.browser.js("return Page.session.rows().map(({ name, values }) => [name, values])"))
    expect({name: rows.get(name) for name in expected[0][1]}, {name: [shown[name] for _, shown in expected] for name in expected[0][1]}, "the values")
    expect(tools.browser.js("return Page.session.results.map((one) => [...one.states].sort())"), [sorted(active) for active, _ in expected], "the states")
    own = {"P_shared", *(f"{use}_{name}" for use in ("L", "P_In", "P_Beside") for name in ("own", "lit"))}
    expect(set(rows) - {"as", "use"}, own, "the rows of what modules declare")
    first = tools.browser.js("Page.session.go(0); const found = {}; for (const row of document.querySelectorAll('#values tr[data-name]')) found[row.dataset.name] = row.cells[1].textContent; return found")
    expect([first[name] for name in ("use", "L_own", "P_In_own", "P_shared", "module")], ["1", "5", "5", "0", "true"], "the values before the first tick")
    # a text whose modules cannot be read is not drawn, and the drawing before it stays
    for before, behind in [("use Pair(as)", "use Pear(as)"), ("use Pair(as)", "use Pair(as, use)"), ("module Pair", "module Light")]:
        tools.browser.js("Page.editor.replace(arguments[0])", NESTED.replace(before, behind))
        tools.browser.wait_js("return document.querySelector('#verdict.refused:not(.waiting)')")
        expect(tools.browser.js("return Language.chartOf(Page.editor.text)"), None, behind)
        expect(tools.browser.js("return document.querySelectorAll('#drawing .region').length"), 6, f"the drawing with {behind}")
    quiet(tools)


def modules_marked(tools):
    """A fault in a module is marked at its text and in all uses, a warning of the reduced chart at the text alone, and what is pointed at in a tab for each use."""
    fresh(tools, NESTED)
    expect(sorted(set(marked_lines(tools, "warned"))), [7, 14], "the lines that are marked of warnings")
    fresh(tools, NESTED.replace("times += own", "times += owl"))
    expect(marked_lines(tools, "fault"), [9], "the line that is marked of a fault")
    faults = tools.browser.js("return [...document.querySelectorAll('#drawing .fault')].map((one) => one.dataset.path).sort()")
    expect(faults, ["Last.Holds/L_Main.Off#0", "P_Beside_Main.Off#0", "P_Two.Half/In_Main.Off#0"], "what is marked of a fault")
    fresh(tools, BLINDS[0])
    for name, wanted in [("reduced", "state Halted {"), ("expanded", "state Halted {")]:
        tab_lines(tools, name)
        tools.browser.js("const area = document.getElementById('text'); area.focus(); area.setSelectionRange(arguments[0], arguments[0])", BLINDS[0].index("state Halted") + 3)
        tools.browser.keys("Shift")
        tools.browser.wait_js("return [...document.querySelectorAll(arguments[0])].filter((row) => row.textContent.trim() === arguments[1]).length === 2",
                              f"#panel-{name} .under", wanted)
    tools.browser.click("#tab-chart")
    quiet(tools)


def modules_page(tools):
    """The page of one run of a chart with modules: lit by the names of uses, and names in the text of a module that any of its uses has lit."""
    path = os.path.join(tools.program.room, "blinds.html")
    names = [os.path.join(TOP, "examples", "extended", name) for name in ("blinds.extended", "blinds.ticks")]
    subprocess.run([PLAY, "--program", tools.path, "--page", *names, path], check=True)
    tools.browser.open("file://" + path)
    tools.browser.wait_js("return document.querySelectorAll('#drawing .state').length === 22")
    for at, (active, shown) in enumerate(active_after(BLINDS[0], BLINDS[1])):
        expect(tools.browser.js(LIT), sorted(active), f"the lit states of tick {at + 1}")
        values = {name: cells[0] for name, cells in tools.browser.js(TABLE).items()}
        expect({name: values.get(name) for name in shown}, {name: shown_value(value) for name, value in shown.items()}, f"the locals of tick {at + 1}")
        lit = tools.browser.js("return [...document.querySelectorAll('#text .lit')].map((one) => one.textContent)")
        expect(sorted(lit), sorted({path.rpartition(".")[2] for path in active}), f"the lit names of tick {at + 1}")
        tools.browser.click("#forward")
    quiet(tools)


CHECKS = [modules_coloured, modules_shown, modules_played, modules_marked, modules_page]

// What is below the text and the drawing: the inputs of the next tick, the values after the one that is looked at, and what
// stands in `sct run`'s form.
"use strict";

class Panel {
  constructor(session) {
    this.session = session;
    this.inputs = document.getElementById("inputs");
    this.values = document.getElementById("values");
    this.waves = new Waves(document.getElementById("waves"), (at) => session.go(at));
    this.kinds = "";
    this.inputs.addEventListener("submit", (event) => event.preventDefault());
    this.inputs.addEventListener("click", (event) => {
      const button = event.target.closest("button[data-name]");
      if (button) Panel.press(button, button.getAttribute("aria-pressed") !== "true");
    });
  }

  static press(button, pressed) {
    button.setAttribute("aria-pressed", String(pressed));
  }

  // A button for each truth value, a field for each number; what was pressed stays pressed where the inputs stay the same.
  showInputs() {
    const inputs = this.session.inputs();
    const kinds = inputs.map(({ name, kind }) => `${name}:${kind}`).join();
    if (kinds === this.kinds) return;
    this.kinds = kinds;
    this.inputs.replaceChildren(...inputs.map(({ name, kind }) => (kind === "bool" ? Panel.button(name) : Panel.field(name))));
    if (!inputs.length) this.inputs.append("No inputs.");
  }

  static button(name) {
    const button = document.createElement("button");
    button.type = "button";
    button.dataset.name = name;
    button.className = "input";
    button.textContent = name;
    Panel.press(button, false);
    return button;
  }

  static field(name) {
    const label = document.createElement("label");
    const field = document.createElement("input");
    for (const [key, value] of [["type", "number"], ["min", "-2147483648"], ["max", "2147483647"], ["step", "1"], ["value", "0"]]) {
      field.setAttribute(key, value);
    }
    field.dataset.name = name;
    label.className = "input";
    label.append(`${name} `, field);
    return label;
  }

  // The inputs as a line of `sct run`, null where a field has no number of 32 bits.
  line() {
    const given = {};
    for (const element of this.inputs.querySelectorAll("[data-name]")) {
      const { name } = element.dataset;
      if (element.tagName === "BUTTON") {
        if (element.getAttribute("aria-pressed") === "true") given[name] = true;
      } else if (!element.checkValidity() || element.value === "") {
        element.focus();
        return null;
      } else if (Number(element.value)) given[name] = Number(element.value);
    }
    return JSON.stringify(given);
  }

  release() {
    for (const button of this.inputs.querySelectorAll("button[data-name]")) Panel.press(button, false);
  }

  // Puts the inputs of a tick into the buttons and fields.
  fill(given) {
    for (const element of this.inputs.querySelectorAll("[data-name]")) {
      const value = given[element.dataset.name];
      if (element.tagName === "BUTTON") Panel.press(element, value === true);
      else element.value = value;
    }
  }

  show() {
    const { session } = this;
    this.showInputs();
    this.showValues();
    const words = this.words();
    this.waves.show(session.rows(), session.ticks.length, session.at, words);
    const end = session.fault ? ` ${Panel.faultWords(session.fault)}` : "";
    document.getElementById("when").textContent = `${words}${end}`;
    const trace = document.getElementById("trace");
    trace.textContent = session.ticks.slice(-500).map((tick, k) => `${tick}\n    ${session.results.slice(-500)[k].line}`).join("\n");
    const has = { back: session.at > 0, forward: session.at < session.ticks.length, reset: session.ticks.length > 0,
      "save-ticks": session.ticks.length > 0, "save-trace": session.ticks.length > 0 };
    for (const [name, enabled] of Object.entries(has)) document.getElementById(name).setAttribute("aria-disabled", String(!enabled));
  }

  static faultWords(fault) {
    const found = /^E(\d\d) line (\d+)$/.exec(fault);
    if (!found) return `The run ended with ${fault}.`;
    const why = found[1] === "51" ? "gives a value to a name that is no input, or one of another kind" : "is no JSON object in one line";
    return `The ticks end before line ${found[2]}: it ${why} (E${found[1]}).`;
  }

  // The tick that is looked at, for people and readers of screens.
  words() {
    const { session } = this;
    if (!session.at) return session.ticks.length ? `Before the first of ${session.ticks.length} ticks.` : "No tick yet.";
    const outputs = session.variables.filter(({ role }) => role === "output");
    const changed = outputs.filter((output) => session.value(output, session.at) !== session.value(output, session.at - 1));
    const said = changed.map((output) => `${output.name} ${session.value(output, session.at)}`).join(", ") || "no output changed";
    return `Tick ${session.at} of ${session.ticks.length}, ${session.now().steps} steps: ${said}.`;
  }

  showValues() {
    const { session } = this;
    const table = document.createElement("table");
    const head = table.createTHead().insertRow();
    for (const words of ["variable", "value", "before"]) {
      const cell = document.createElement("th");
      cell.scope = "col";
      cell.textContent = words;
      head.append(cell);
    }
    const body = table.createTBody();
    const place = { output: 0, local: 0, pre: 1, const: 2 };
    const shown = session.variables.filter(({ role }) => role in place).sort((a, b) => place[a.role] - place[b.role]);
    for (const variable of shown) {
      const value = session.value(variable, session.at);
      if (value !== undefined) Panel.row(body, variable, value, session.value(variable, Math.max(0, session.at - 1)));
    }
    this.values.replaceChildren(table);
    if (!session.hasLocals()) this.values.append("Locals are not shown: with them there are too many outputs.");
  }

  // What is said of a variable where the pointer rests on its name.
  static title({ role, isSignal, initial, of }) {
    if (role === "const") return "constant";
    if (role === "pre") return `what ${of} was in the tick before`;
    return `${role}${isSignal ? " signal" : ""}${initial === undefined ? "" : `, ${initial} before the first tick`}`;
  }

  static row(body, variable, value, before) {
    const row = body.insertRow();
    row.dataset.name = variable.name;
    const head = document.createElement("th");
    head.scope = "row";
    head.textContent = variable.name;
    head.className = variable.role;
    head.title = Panel.title(variable);
    row.append(head);
    row.insertCell().textContent = String(value);
    const last = row.insertCell();
    if (value !== before) {
      row.className = "changed";
      last.textContent = `was ${before}`;
    }
  }
}

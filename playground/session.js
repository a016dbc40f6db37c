// The ticks that were played and what they gave. Each tick is one line of `sct run`'s input and has one line of its output.
"use strict";

class Session {
  // `changed` hears of each change.
  constructor(changed) {
    this.changed = changed;
    this.text = "";
    this.variables = [];
    this.forget();
    this.turn = Promise.resolve();
  }

  forget() {
    this.ticks = [];
    this.results = [];
    this.at = 0;
    this.fault = "";
  }

  // The results after the tick that is looked at; before the first, none.
  now() {
    return this.at ? this.results[this.at - 1] : null;
  }

  inputs() {
    return this.variables.filter((variable) => variable.role === "input");
  }

  // The inputs of a tick by their names, those too that its line does not name.
  given(at) {
    return Object.fromEntries(this.inputs().map((input) => [input.name, this.value(input, at)]));
  }

  // What is asked for is done one after another.
  queue(work) {
    const done = this.turn.then(work);
    this.turn = done.catch(() => null);
    return done;
  }

  // Plays these ticks from the one that differs on, and keeps what came before.
  async play(ticks, from, at) {
    const { text } = this;
    const answer = await Calls.ask("run", { text, ticks, from });
    if (text !== this.text) return;
    if (answer.refused) throw new Calls.Sentence(`The text was refused: ${answer.refused}.`);
    this.results = [...this.results.slice(0, from), ...Session.results(answer, ticks.slice(from), text)];
    this.ticks = ticks.slice(0, this.results.length);
    this.at = Math.min(at, this.ticks.length);
    this.fault = answer.fault;
    this.changed();
  }

  // What each tick gave: its line and what stands there, its inputs, the locals and the author's active states.
  static results(answer, ticks, text) {
    const authors = (states) => (states && Tokens.isExtended(text) ? states.map(Made.stateOf).filter((path) => path) : states);
    return answer.lines.map((line, k) => ({ line, ...JSON.parse(line), given: JSON.parse(ticks[k]),
      locals: answer.locals && answer.locals[k], states: authors(answer.states[k]) }));
  }

  // One tick more, behind the one that is looked at; those behind it are dropped.
  tick(line) {
    return this.queue(() => this.play([...this.ticks.slice(0, this.at), line], this.at, this.at + 1));
  }

  load(lines) {
    return this.queue(() => this.play(lines, 0, lines.length));
  }

  // Takes a text that is accepted, and plays the ticks over it.
  take(text, variables) {
    if (text === this.text) return Promise.resolve();
    return this.queue(() => {
      this.text = text;
      this.variables = variables;
      if (this.ticks.length) return this.play(this.ticks, 0, this.at);
      this.changed();
      return null;
    });
  }

  go(at) {
    if (at === this.at || at < 0 || at > this.ticks.length) return;
    this.at = at;
    this.changed();
  }

  reset() {
    return this.queue(() => {
      this.forget();
      this.changed();
    });
  }

  // Forgets the text too.
  leave() {
    this.text = "";
    this.variables = [];
    return this.reset();
  }

  // Whether the locals are known after each tick.
  hasLocals() {
    return this.results.every((result) => result.locals);
  }

  // What a variable holds after a tick, before the first one where that is 0; undefined where that is not known.
  value(variable, at) {
    const { role, name, kind } = variable;
    if (role === "const") return variable.initial;
    if (role === "pre") return this.earlier(variable, at);
    if (!at) return variable.initial ?? (kind === "bool" ? false : 0);
    const { given, out, locals } = this.results[at - 1];
    if (role === "input") return given[name] ?? (kind === "bool" ? false : 0);
    if (role === "output") return out[name];
    return locals ? locals[name] : undefined;
  }

  // What the variable of a `pre` was in the tick before.
  earlier(variable, at) {
    const of = this.variables.find(({ role, name }) => name === variable.of && role !== "pre" && role !== "const");
    return of ? this.value(of, Math.max(0, at - 1)) : undefined;
  }

  // The rows of the diagram: constants have none.
  rows() {
    const place = { input: 0, output: 1, local: 2, pre: 3 };
    const shown = this.variables.filter(({ role }) => role in place).sort((a, b) => place[a.role] - place[b.role]);
    return shown.map((variable) => ({ name: variable.name, role: variable.role, kind: variable.kind,
      values: this.results.map((_, k) => this.value(variable, k + 1)) })).filter(({ values }) => !values.includes(undefined));
  }
}

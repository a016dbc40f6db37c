// A chart's text as a tree, in which each part knows its place.
"use strict";

class Stop extends Error {}

class ChartReader {
  constructor(text) {
    const lines = new Tokens.Lines(text);
    this.text = text;
    this.tokens = lines.tokens(0, lines.lines.length);
    this.at = 0;
    this.end = 0;
  }

  // The piece of the next token; of a name, none.
  ahead() {
    const token = this.tokens[this.at];
    return token && token.sort !== "name" ? token.piece : "";
  }

  place() {
    return this.at < this.tokens.length ? this.tokens[this.at].from : this.text.length;
  }

  isAtEnd() {
    return this.at === this.tokens.length;
  }

  // The next token, where it is this one.
  takes(piece) {
    return this.ahead() === piece ? this.next() : null;
  }

  next() {
    const token = this.tokens[this.at];
    if (!token) throw new Stop("the text ends here");
    this.at += 1;
    this.end = token.to;
    return token;
  }

  take(piece) {
    const token = this.takes(piece);
    if (!token) throw new Stop(`${piece} is missing`);
    return token;
  }

  name() {
    const token = this.next();
    if (token.sort !== "name") throw new Stop("a name is missing");
    return token;
  }

  kind() {
    const token = this.next();
    if (token.sort !== "kind") throw new Stop("bool or int is missing");
    return token;
  }

  // What stands before the first of these tokens outside parentheses, with single spaces.
  until(ends) {
    const pieces = [];
    let open = 0;
    const from = this.place();
    while (open || !ends.includes(this.ahead())) {
      const token = this.next();
      if (token.piece === "(") open += 1;
      if (token.piece === ")") open -= 1;
      if (token.piece === ";" || token.piece === "{" || token.piece === "}") throw new Stop("an expression does not end");
      pieces.push(token);
    }
    return { words: this.spaced(pieces), from, to: this.end };
  }

  spaced(pieces) {
    return pieces.map((p, i) => (i && pieces[i - 1].to < p.from ? " " : "") + p.piece).join("");
  }

  // The word or words with which the text begins.
  head() {
    return this.take("chart");
  }

  declarations() {
    const variables = [];
    while (["input", "output", "local"].includes(this.ahead())) {
      const from = this.place();
      const role = this.next().piece;
      const kind = this.kind().piece;
      const name = this.name();
      variables.push({ role, kind, name: name.piece, from, to: name.to, label: { from: name.from, to: name.to } });
      this.take(";");
    }
    return variables;
  }

  chart() {
    const { from, piece } = this.head();
    const name = this.name().piece;
    this.take("{");
    const variables = this.declarations();
    const regions = this.regions("");
    if (!regions.length) throw new Stop("a region is missing");
    this.take("}");
    const shape = this.tokens.map((token) => token.piece).join(" ");
    return { name, isExtended: piece === "extended", variables, regions, from, to: this.end, shape };
  }

  regions(above) {
    const found = [];
    while (this.ahead() === "region") found.push(this.region(above));
    return found;
  }

  region(above) {
    const from = this.take("region").from;
    const name = this.name();
    const path = above ? `${above}/${name.piece}` : name.piece;
    this.take("{");
    const states = [];
    while (["initial", "final", "state"].includes(this.ahead())) states.push(this.state(path));
    this.take("}");
    return { name: name.piece, path, states, from, to: this.end, head: { from, to: name.to } };
  }

  state(region) {
    const from = this.place();
    const initial = Boolean(this.takes("initial"));
    const final = Boolean(this.takes("final"));
    this.take("state");
    const name = this.name();
    const path = `${region}.${name.piece}`;
    const state = { name: name.piece, path, initial, final, actions: [], regions: [], transitions: [], from,
      head: { from, to: name.to }, label: { from: name.from, to: name.to } };
    if (!this.takes(";")) {
      this.take("{");
      state.actions = this.actions();
      state.regions = this.regions(path);
      while (this.ahead() !== "}") state.transitions.push(this.transition(path, state.transitions.length));
      this.take("}");
    }
    state.to = this.end;
    return state;
  }

  // What a state does by itself: nothing in a chart.
  actions() {
    return [];
  }

  transition(state, number) {
    const from = this.place();
    const kind = this.next().piece;
    if (!["go", "strong", "weak", "join"].includes(kind)) throw new Stop("a transition is missing");
    const immediate = kind !== "join" && Boolean(this.takes("immediate"));
    const wait = immediate ? null : this.wait(kind);
    const trigger = this.trigger(kind);
    const effects = this.ahead() === "do" ? this.effects("->") : [];
    this.take("->");
    const target = this.target();
    this.take(";");
    return { kind, immediate, wait, trigger, effects, ...target, from, to: this.end, path: `${state}#${number}` };
  }

  wait() {
    return null;
  }

  trigger(kind) {
    return kind !== "join" && this.takes("if") ? this.until(["do", "->"]) : null;
  }

  effects(end) {
    const effects = [];
    this.take("do");
    do effects.push(this.until([",", end])); while (this.takes(","));
    return effects;
  }

  target() {
    return { target: this.name().piece, history: false };
  }
}

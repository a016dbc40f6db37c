// The text of an extended chart as a tree: that of a chart, and the author's constants, initial values, signals, actions, waits,
// triggers at terminations, and transitions by history. Uses of modules are read as what they stand for.
"use strict";

class ExtendedReader extends ChartReader {
  head() {
    this.tokens = Modules.without(this.tokens);
    const word = this.take("extended");
    this.take("chart");
    return word;
  }

  declarations() {
    const variables = [];
    while (["input", "output", "local", "signal", "const", "pre"].includes(this.ahead())) variables.push(this.item());
    return variables;
  }

  // A signal without a role is a local one. What stands behind `=` is the value of all but of what a variable was.
  item() {
    const from = this.place();
    const role = this.ahead() === "signal" ? "local" : this.next().piece;
    const isSignal = Boolean(this.takes("signal"));
    const kind = isSignal ? "bool" : this.kind().piece;
    const name = this.name();
    const item = { role, kind, name: name.piece, isSignal, from, to: name.to, label: { from: name.from, to: name.to } };
    if (this.takes("=")) {
      const { words } = this.value();
      if (role === "pre") item.of = ExtendedReader.bare(words);
      else item.initial = ExtendedReader.literal(words);
    }
    this.take(";");
    return item;
  }

  value() {
    const pieces = [];
    while (this.ahead() !== ";") pieces.push(this.next());
    return { words: this.spaced(pieces) };
  }

  static bare(words) {
    return words.replace(/[()\s]/g, "");
  }

  // The value that a literal spells; of words that are none, nothing.
  static literal(words) {
    const bare = ExtendedReader.bare(words);
    if (bare === "true" || bare === "false") return bare === "true";
    return /^-?[0-9]+$/.test(bare) ? Number(bare) : undefined;
  }

  // The entry, exit and during actions that stand before the regions and transitions of a state.
  actions() {
    const actions = [];
    while (["entry", "exit", "immediate", "during"].includes(this.ahead())) actions.push(this.action());
    return actions;
  }

  action() {
    const from = this.place();
    const immediate = Boolean(this.takes("immediate"));
    const kind = immediate ? this.take("during").piece : this.next().piece;
    const trigger = kind === "during" && this.takes("if") ? this.until(["do"]) : null;
    const effects = this.effects(";");
    this.take(";");
    return { kind, immediate, trigger, effects, from, to: this.end };
  }

  wait(kind) {
    if (kind === "join" || !this.takes("after")) return null;
    const ticks = this.until(["of", "if", "do", "->"]);
    const counted = this.takes("of") ? this.until(["if", "do", "->"]) : null;
    return { words: counted ? `after ${ticks.words} of ${counted.words}` : `after ${ticks.words}`, ticks, counted };
  }

  trigger() {
    return this.takes("if") ? this.until(["do", "->"]) : null;
  }

  target() {
    const history = Boolean(this.takes("shallow"));
    if (history) this.take("history");
    return { target: this.name().piece, history };
  }
}

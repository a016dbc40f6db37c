// A chart that the program has made of the author's: the one to which an extended chart is reduced, or the one without aborts.
// Names of an extended chart with two underscores side by side are those of reductions, and the author has none.
"use strict";

class Made {
  static isMade(step) {
    return step.includes("__");
  }

  // The path of the author's state for that of a state of the reduced chart, or null where a reduction has made the state: the
  // superstates that were put around the author's regions are left out. What is an author's path stays as it is.
  static stateOf(path) {
    const steps = path.split("/");
    if (Made.isMade(steps[steps.length - 1])) return null;
    return steps.filter((step) => !Made.isMade(step)).join("/");
  }

  // The path of the innermost state or region of the author's around a part of the reduced chart, "" where there is none.
  static around(path) {
    const steps = path.split("#")[0].split("/");
    while (steps.length && Made.isMade(steps[steps.length - 1])) {
      const [region, state] = steps.pop().split(".");
      if (state && !Made.isMade(region)) steps.push(region);
    }
    return steps.filter((step) => !Made.isMade(step)).join("/");
  }

  // The text of what was made, where there is one, and the tree of the author's text.
  constructor(text, author) {
    const chart = text ? Language.chartOf(text) : null;
    this.lines = new Tokens.Lines(text || "");
    this.author = author;
    this.regions = chart ? chart.regions : [];
    this.own = new Map([...Language.partsOf(author ? author.regions : [])].map((found) => [found.part.path, found]));
    this.parts = [...Language.partsOf(this.regions)].map(({ part }) => part);
    this.made = new Map(this.parts.map((part) => [part.path, part]));
  }

  // The path of the author's part for which a part stands, or null.
  pathOf(part) {
    if (!this.author || !this.author.isExtended) return part.path;
    const [path, number] = part.path.split("#");
    const own = Made.stateOf(path);
    // a state that was made for the entry of another one leads to that alone
    if (!own && part.target && /\.enter__\d+$/.test(path)) return Made.stateOf(path.replace(/[^.]*$/, part.target));
    if (!this.own.has(own)) return Made.around(path) || null;
    return number !== undefined && this.keepsTransitions(own, path) ? `${own}#${number}` : own;
  }

  // Whether the transitions of a state are those of the author's, in their order.
  keepsTransitions(own, path) {
    return this.own.get(own).part.transitions.length === this.made.get(path).transitions.length;
  }

  // The path of the author's part at a line and a column, which both count from 1.
  pathAt(line, column) {
    const found = Language.partIn(this.regions, this.lines.starts[line - 1] + column - 1);
    return found ? this.pathOf(found.part) : null;
  }

  // So of the first word of a line.
  pathOfLine(line) {
    const words = this.lines.lines[line - 1] || "";
    return this.pathAt(line, words.length - words.trimStart().length + 1);
  }

  // The author's part at a line and a column.
  partAt(line, column) {
    const path = this.pathAt(line, column);
    return (path && this.own.get(path)) || null;
  }

  // The author's variable of the name at a line and a column.
  variableAt(line, column) {
    const [name] = /^\w*/.exec(this.lines.lines[line - 1].slice(column - 1));
    return this.author ? this.author.variables.find((variable) => variable.name === name) : undefined;
  }

  // The lines in which what stands for the author's part at this path begins.
  linesOf(path) {
    return this.parts.filter((part) => this.pathOf(part) === path).map((part) => this.lineOf((part.head || part).to));
  }

  lineOf(place) {
    const { starts } = this.lines;
    let line = 1;
    while (line < starts.length && starts[line] <= place) line += 1;
    return line;
  }
}

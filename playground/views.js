// The tabs beside the drawing: the chart to which an extended chart is reduced, the chart without aborts, the program to which it
// is lowered, the listing of its image, and the Graphviz text. What is pointed at is marked in each of them, by the place in the
// text that each node has, or in the reduced chart.
"use strict";

class Views {
  static NAMES = ["chart", "reduced", "expanded", "lowered", "listing", "graph"];

  // `pointed` hears of the place in the text of what is pointed at.
  constructor(pointed) {
    this.pointed = pointed;
    this.shown = "chart";
    this.text = null;
    this.given = null;
    this.nodes = [];
    this.filled = new Set();
    for (const name of Views.NAMES) {
      const tab = this.tab(name);
      tab.addEventListener("click", () => this.show(name));
      tab.addEventListener("keydown", (event) => this.key(event, name));
      if (name !== "chart") this.listen(name);
    }
  }

  tab(name) {
    return document.getElementById(`tab-${name}`);
  }

  panel(name) {
    return document.getElementById(`panel-${name}`);
  }

  key(event, name) {
    const names = Views.NAMES.filter((one) => !this.tab(one).hidden);
    const at = names.indexOf(name);
    const to = { ArrowLeft: at - 1, ArrowRight: at + 1, Home: 0, End: names.length - 1 }[event.key];
    if (to === undefined) return;
    event.preventDefault();
    const next = names[(to + names.length) % names.length];
    this.show(next);
    this.tab(next).focus();
  }

  show(name) {
    this.shown = name;
    for (const other of Views.NAMES) {
      this.tab(other).setAttribute("aria-selected", String(other === name));
      this.tab(other).tabIndex = other === name ? 0 : -1;
      this.panel(other).hidden = other !== name;
    }
    return this.fill();
  }

  // The text whose views are wanted, once it can be read.
  take(text) {
    if (text === this.text) return;
    this.text = text;
    this.given = null;
    const isExtended = Tokens.isExtended(text);
    this.tab("reduced").hidden = !isExtended;
    if (this.shown === "reduced" && !isExtended) this.show("chart");
    else this.fill();
  }

  // Shows a line of the reduced chart.
  async showReduced(line) {
    await this.show("reduced");
    const row = this.panel("reduced").querySelectorAll("pre > div")[line - 1];
    if (!row) return;
    row.classList.add("under");
    row.scrollIntoView({ block: "center" });
  }

  async fill() {
    if (this.shown === "chart" || this.text === null) return;
    try {
      if (!this.given) await this.ask();
    } catch (error) {
      if (!(error instanceof Calls.Sentence)) throw error;
      this.panel(this.shown).textContent = error.message;
      return;
    }
    if (!this.given || this.filled.has(this.shown)) return;
    this.filled.add(this.shown);
    const none = this.given.fault ? `The text is refused: ${this.given.fault}` : "There is none of an SCL text.";
    const words = this.given[this.shown] || none;
    const pre = document.createElement("pre");
    pre.tabIndex = 0;
    pre.append(...words.split("\n").map((line) => {
      const row = document.createElement("div");
      row.textContent = line || " ";
      return row;
    }));
    this.panel(this.shown).replaceChildren(pre);
  }

  async ask() {
    const { text } = this;
    const given = await Calls.ask("views", { text });
    if (text !== this.text) return;
    this.given = given;
    this.filled.clear();
    const lowered = Views.places(given.lowered_listing || "");
    const shown = Views.places(given.listing || "");
    this.reduced = new Made(given.reduced, Language.chartOf(text));
    this.expanded = new Made(given.expanded, this.reduced.author);
    const pathOf = given.reduced ? (node) => this.reduced.pathAt(node.line, node.column) : Views.paths(text, this.reduced.author);
    this.nodes = Views.places(given.reduced_listing || given.listing || "").map((node, at) => ({ ...node, row: shown[at] && shown[at].row,
      lowered: lowered[at] && lowered[at].line, path: pathOf(node) }));
  }

  // For a place in the text of a chart the path of what is there.
  static paths(text, chart) {
    const { starts } = new Tokens.Lines(text);
    return (node) => {
      const found = chart && Language.partAt(chart, starts[node.line - 1] + node.column - 1);
      return found ? found.part.path : null;
    };
  }

  // The nodes of a listing: the line and column of the source, and the line in the listing itself.
  static places(listing) {
    const nodes = [];
    listing.split("\n").forEach((row, at) => {
      const found = /^(\d+)\s+(\d+):(\d+)\s/.exec(row);
      if (found) nodes[Number(found[1])] = { line: Number(found[2]), column: Number(found[3]), row: at + 1 };
    });
    return nodes;
  }

  listen(name) {
    const panel = this.panel(name);
    panel.addEventListener("mousemove", (event) => {
      const row = event.target.closest("pre > div");
      const at = row ? [...row.parentNode.children].indexOf(row) + 1 : 0;
      this.pointed(this.nodeAt(name, at));
    });
    panel.addEventListener("mouseleave", () => this.pointed(null));
  }

  // What a line of a tab has: a node with the path of its part, or, of an SCL text, with its line; or the path of a part.
  nodeAt(name, row) {
    if (name === "reduced" && this.reduced) {
      const path = this.reduced.pathOfLine(row);
      return path && { path };
    }
    const node = this.nodes.find((one) => (name === "listing" ? one.row : name === "lowered" && one.lowered) === row);
    return node && (node.path || !this.reduced.author) ? node : null;
  }

  // Marks what belongs to the parts at these paths; of an SCL text, to this line.
  mark(paths, line) {
    const panel = this.shown === "chart" ? null : this.panel(this.shown).querySelector("pre");
    if (!panel) return;
    for (const row of panel.querySelectorAll(".under")) row.classList.remove("under");
    let first = null;
    for (const at of this.linesOf(paths, line)) {
      const row = panel.children[at - 1];
      if (!row) continue;
      row.classList.add("under");
      if (!first || first.offsetTop > row.offsetTop) first = row;
    }
    if (first && !panel.matches(":hover")) panel.scrollTop = Math.max(0, first.offsetTop - panel.clientHeight / 3);
  }

  linesOf(paths, line) {
    if (this.shown === "reduced") return this.reduced ? paths.flatMap((path) => this.reduced.linesOf(path)) : [];
    if (this.shown === "expanded") return this.expanded ? paths.flatMap((path) => this.expanded.linesOf(path.split("#")[0])) : [];
    const hasLines = Boolean(line) && this.given && !this.given.reduced;
    const isMeant = (node) => node && (paths.length ? paths.includes(node.path) : hasLines && node.line === line);
    return new Set(this.nodes.filter(isMeant).map((node) => (this.shown === "listing" ? node.row : this.shown === "lowered" ? node.lowered : 0)));
  }
}

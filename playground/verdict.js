// What the compiler says of the text: its verdict, faults and warnings, with their places in the text and in the drawing. What a
// program without places of extended charts tells of the chart to which one is reduced is shown where the author's part is.
"use strict";

class Verdict {
  static PLACE = /^(?:text:(\d+):(\d+): |node \d+ at (\d+):(\d+))/;
  static SHOWN = /^(\d+) \| (.*)$/;

  constructor(host, editor, pane, views) {
    this.host = host;
    this.editor = editor;
    this.pane = pane;
    this.views = views;
  }

  // Of an accepted text what it has and its warnings, of another one its fault. `chart` is the tree of the text, or null.
  show(verdict, chart) {
    const { accepted } = verdict;
    this.chart = chart;
    this.reduced = new Made(verdict.reduced, chart);
    this.host.className = accepted ? "accepted" : "refused";
    const words = (verdict.words || verdict.fault).trimEnd().split("\n");
    const places = words.map((line, at) => this.placeOf(line, words.slice(at + 1)));
    this.host.replaceChildren(...words.map((line, at) => (places[at] ? this.button(line, places[at]) : this.line(line, at, accepted))));
    const marks = places.filter((place) => place && place.to);
    const faults = accepted ? [] : marks;
    this.editor.mark("fault", faults.filter((mark, at) => !mark.isNode || at));
    this.editor.mark("warned", accepted ? marks : []);
    this.pane.mark("fault", faults.flatMap(({ paths }) => paths || []));
  }

  // Of words that begin with a place: where that is in the text, and the paths of what is there. `below` are the words behind them.
  placeOf(words, below) {
    const found = Verdict.PLACE.exec(words);
    if (!found) return null;
    const [line, column] = [Number(found[1] || found[3]), Number(found[2] || found[4])];
    const place = { isNode: Boolean(found[3]), line };
    return this.isReduced(line, below) ? { ...place, ...this.inReduced(line, column) } : { ...place, ...this.inText(line, column) };
  }

  // Whether a line is one of the reduced chart: as it is shown below the place it stands there, and not in the text.
  isReduced(line, below) {
    const shown = below.map((words) => Verdict.SHOWN.exec(words)).find((found) => found && Number(found[1]) === line);
    if (!shown) return false;
    const words = shown[2].replace(/^\.\.\.|\.\.\.$/g, "");
    const stands = (lines) => (lines[line - 1] || "").includes(words);
    return stands(this.reduced.lines.lines) && !stands(this.editor.lines);
  }

  // What stands in a module belongs to all its uses.
  inText(line, column) {
    const from = this.editor.offset(line, column);
    const found = this.chart && Language.partAt(this.chart, from);
    return { from, to: this.editor.endOfToken(from), paths: found && Language.alike(this.chart, found.part).map(({ path }) => path) };
  }

  // The author's part for a place of the reduced chart, or the author's variable of the name that stands there.
  inReduced(line, column) {
    const found = this.reduced.partAt(line, column);
    if (found) {
      const { from, to } = found.part.head || found.part;
      return { isReduced: true, from, to, paths: [found.part.path] };
    }
    const variable = this.reduced.variableAt(line, column);
    return variable ? { isReduced: true, ...variable.label } : { isReduced: true };
  }

  line(words, at, accepted) {
    const line = document.createElement("div");
    line.className = at === 0 ? "headline" : /^(help:|\s+=)/.test(words) ? "advice" : "shown";
    line.textContent = accepted ? words.replace(/^ok /, "Accepted: ") : words;
    return line;
  }

  // What begins with a place leads there.
  button(words, place) {
    const button = document.createElement("button");
    button.type = "button";
    button.className = place.isNode ? "node" : "headline";
    button.textContent = place.isNode ? words : words.replace(/^text:/, place.isReduced ? "reduced chart " : "");
    button.addEventListener("click", () => (place.to ? this.editor.go(place.from) : this.views.showReduced(place.line)));
    return button;
  }
}

// The pane of the drawing: makes it in slices so that typing is never held up, folds, and scales.
"use strict";

class Pane {
  static SLICE = 8; // milliseconds
  static LEAST = 0.75;
  static MOST = 1.25;

  // `pointed` hears of the path under the pointer, `chosen` of one that is clicked, `drawn` of each new drawing.
  constructor(host, { pointed, chosen, drawn }) {
    this.host = host;
    this.folded = new Set();
    this.chart = null;
    this.drawn = null;
    this.factor = null;
    this.turn = 0;
    this.lit = [];
    this.marks = new Map();
    this.told = drawn;
    host.addEventListener("mousemove", (event) => pointed(Pane.pathOf(event.target)));
    host.addEventListener("mouseleave", () => pointed(null));
    host.addEventListener("click", (event) => {
      const handle = event.target.closest("[data-fold]");
      if (handle) this.fold(handle.dataset.fold);
      else if (Pane.pathOf(event.target)) chosen(Pane.pathOf(event.target));
    });
    host.addEventListener("keydown", (event) => {
      const handle = event.target.closest("[data-fold]");
      if (handle && (event.key === "Enter" || event.key === " ")) {
        event.preventDefault();
        this.fold(handle.dataset.fold);
      }
    });
    new ResizeObserver(() => this.rescale()).observe(host);
  }

  static pathOf(element) {
    const part = element.closest("[data-path]");
    return part ? part.dataset.path : null;
  }

  // Does work that yields, in slices; false where other work was begun.
  async sliced(work) {
    this.turn += 1;
    const { turn } = this;
    for (;;) {
      const until = performance.now() + Pane.SLICE;
      let step;
      do step = work.next(); while (!step.done && performance.now() < until);
      if (step.done) return step.value;
      await new Promise((go) => { setTimeout(go); });
      if (turn !== this.turn) return null;
    }
  }

  * making(chart) {
    const plan = yield* Layout.of(chart, this.folded, Drawing.measure);
    return yield* Drawing.of(plan, (drawn) => this.begun(drawn));
  }

  // A drawing that is made stands unseen behind the one that is shown.
  begun(drawn) {
    Drawing.scale(drawn, this.factor || this.fitting(drawn));
    drawn.svg.classList.add("coming");
    this.host.append(drawn.svg);
  }

  async show(chart) {
    this.chart = chart;
    const focus = document.activeElement && document.activeElement.dataset ? document.activeElement.dataset.fold : null;
    for (const coming of this.host.querySelectorAll(".coming")) coming.remove();
    const drawn = await this.sliced(this.making(chart));
    if (!drawn) return;
    drawn.svg.classList.remove("coming");
    this.drawn = drawn;
    Drawing.light(drawn, this.lit);
    for (const [kind, paths] of this.marks) Drawing.mark(drawn, kind, paths);
    for (const other of [...this.host.children]) if (other !== drawn.svg) other.remove();
    if (focus) {
      const handle = [...drawn.svg.querySelectorAll("[data-fold]")].find((one) => one.dataset.fold === focus);
      if (handle) handle.focus();
    }
    this.told();
  }

  clear(words) {
    this.turn += 1;
    this.chart = null;
    this.drawn = null;
    const note = document.createElement("p");
    note.className = "no-drawing";
    note.textContent = words;
    this.host.replaceChildren(note);
  }

  light(paths) {
    this.lit = paths;
    if (this.drawn) Drawing.light(this.drawn, paths);
  }

  mark(kind, paths) {
    this.marks.set(kind, paths);
    if (this.drawn) Drawing.mark(this.drawn, kind, paths);
  }

  // ---- folding

  again() {
    return this.chart ? this.show(this.chart) : null;
  }

  fold(path) {
    if (this.folded.has(path)) this.folded.delete(path);
    else this.folded.add(path);
    return this.again();
  }

  foldAll() {
    for (const { sort, part } of Language.partsOf(this.chart ? this.chart.regions : [])) {
      if (sort === "state" && part.regions.length) this.folded.add(part.path);
    }
    return this.again();
  }

  unfoldAll() {
    this.folded.clear();
    return this.again();
  }

  // ---- scale

  fitting(drawn) {
    const { wide, tall } = drawn.plan;
    const fits = Math.min((this.host.clientWidth - 12) / wide, (this.host.clientHeight - 12) / tall);
    return Math.min(Pane.MOST, Math.max(Pane.LEAST, fits));
  }

  rescale() {
    if (this.drawn) Drawing.scale(this.drawn, this.factor || this.fitting(this.drawn));
  }

  scale(by) {
    if (!this.drawn) return;
    this.factor = by ? Math.min(4, Math.max(0.2, (this.factor || this.fitting(this.drawn)) * by)) : null;
    this.rescale();
  }
}

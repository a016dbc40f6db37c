// The diagram of all ticks: a row for each variable and a column for each tick. Only what is in sight is drawn.
"use strict";

class Waves {
  static COLUMN = 38;
  static ROW = 24;
  static HEAD = 18;

  // `picked` hears of the tick that is chosen.
  constructor(host, picked) {
    this.names = document.createElement("div");
    this.names.className = "wave-names";
    this.view = document.createElement("div");
    this.view.className = "wave-view";
    for (const [key, value] of [["tabindex", "0"], ["role", "slider"], ["aria-label", "tick"], ["aria-orientation", "horizontal"]]) {
      this.view.setAttribute(key, value);
    }
    host.append(this.names, this.view);
    this.svg = Drawing.made("svg", { class: "waves", "aria-hidden": "true" });
    this.view.append(this.svg);
    this.picked = picked;
    this.rows = [];
    this.count = 0;
    this.at = 0;
    this.view.addEventListener("scroll", () => this.draw());
    this.view.addEventListener("keydown", (event) => this.key(event));
    this.svg.addEventListener("click", (event) => {
      const column = Math.floor((event.clientX - this.svg.getBoundingClientRect().left) / Waves.COLUMN);
      if (column < this.count) this.picked(column + 1);
    });
    new ResizeObserver(() => this.draw()).observe(this.view);
  }

  key(event) {
    const to = { ArrowLeft: this.at - 1, ArrowRight: this.at + 1, Home: 1, End: this.count }[event.key];
    if (to === undefined || event.ctrlKey || event.altKey || event.metaKey) return;
    event.preventDefault();
    this.picked(Math.min(Math.max(to, 0), this.count));
  }

  // Rows have a name, what they are, and the value in each tick; `at` is the tick that is looked at, 0 before the first.
  show(rows, count, at, words) {
    const isNew = rows.map((row) => row.name).join() !== this.rows.map((row) => row.name).join();
    this.rows = rows;
    this.count = count;
    this.at = at;
    if (isNew) {
      this.names.replaceChildren(...rows.map((row) => {
        const name = document.createElement("div");
        name.className = `wave-name ${row.role}`;
        name.textContent = row.name;
        name.title = `${row.role} ${row.name}`;
        return name;
      }));
    }
    for (const [key, value] of [["valuemin", 0], ["valuemax", count], ["valuenow", at], ["valuetext", words]]) {
      this.view.setAttribute(`aria-${key}`, value);
    }
    this.svg.setAttribute("width", Math.max(1, count * Waves.COLUMN));
    this.svg.setAttribute("height", Waves.HEAD + rows.length * Waves.ROW);
    const left = (at - 1) * Waves.COLUMN;
    if (left < this.view.scrollLeft) this.view.scrollLeft = left - Waves.COLUMN;
    const over = left + 2 * Waves.COLUMN - this.view.scrollLeft - this.view.clientWidth;
    if (over > 0) this.view.scrollLeft += over;
    this.draw();
  }

  draw() {
    const first = Math.max(0, Math.floor(this.view.scrollLeft / Waves.COLUMN) - 2);
    const last = Math.min(this.count, first + Math.ceil(this.view.clientWidth / Waves.COLUMN) + 5);
    const parts = [];
    if (this.at) {
      parts.push(Drawing.made("rect", { class: "chosen", x: (this.at - 1) * Waves.COLUMN, y: 0, width: Waves.COLUMN,
        height: Waves.HEAD + this.rows.length * Waves.ROW }));
    }
    for (let tick = first; tick < last; tick += 1) {
      const x = tick * Waves.COLUMN;
      parts.push(Drawing.made("line", { class: "grid", x1: x, x2: x, y1: Waves.HEAD - 4, y2: Waves.HEAD + this.rows.length * Waves.ROW }));
      parts.push(Drawing.made("text", { class: "tick-number", x: x + Waves.COLUMN / 2, y: 12 }, String(tick + 1)));
    }
    this.rows.forEach((row, at) => {
      const top = Waves.HEAD + at * Waves.ROW + 4;
      parts.push(...(row.kind === "bool" ? this.line(row, top, first, last) : this.boxes(row, top, first, last)));
    });
    this.svg.replaceChildren(...parts);
  }

  line(row, top, first, last) {
    const height = Waves.ROW - 9;
    let way = "";
    for (let tick = first; tick < last; tick += 1) {
      const y = row.values[tick] ? top : top + height;
      const x = tick * Waves.COLUMN;
      way += `${way ? "L" : "M"}${x + (way ? 3 : 0)} ${y}L${x + Waves.COLUMN} ${y}`;
    }
    const shape = Drawing.made("path", { class: `wave ${row.role}`, d: way || "M0 0" });
    const filled = [];
    for (let tick = first; tick < last; tick += 1) {
      if (row.values[tick]) {
        // a level that rises here does so by a slope
        const slope = tick > first && !row.values[tick - 1] ? 3 : 0;
        filled.push(Drawing.made("rect", { class: `full ${row.role}`, x: tick * Waves.COLUMN + slope, y: top,
          width: Waves.COLUMN - slope, height }));
      }
    }
    return [...filled, shape];
  }

  boxes(row, top, first, last) {
    const parts = [];
    const height = Waves.ROW - 9;
    for (let tick = first; tick < last;) {
      let end = tick + 1;
      while (end < last && row.values[end] === row.values[tick]) end += 1;
      const [x, wide] = [tick * Waves.COLUMN, (end - tick) * Waves.COLUMN];
      const middle = top + height / 2;
      parts.push(Drawing.made("path", { class: `wave ${row.role}`, d: `M${x} ${middle}L${x + 4} ${top}L${x + wide - 4} ${top}` +
        `L${x + wide} ${middle}L${x + wide - 4} ${top + height}L${x + 4} ${top + height}Z` }));
      const words = String(row.values[tick] ?? "");
      const fits = words.length * 7 < wide - 6;
      const text = Drawing.made("text", { class: "wave-value", x: x + wide / 2, y: middle + 4 }, fits ? words : "…");
      if (!fits) text.append(Drawing.made("title", {}, words));
      parts.push(text);
      tick = end;
    }
    return parts;
  }
}

// The text with its colours and marks. What is typed goes into a text area of the browser's own; behind it lie the lines that are
// in sight, coloured, and the marks.
"use strict";

class Editor {
  static LINE = 18;
  static TAB = 2;
  static LONGEST = 2000; // letters of a line that are coloured

  // `changed` hears of each new text, `pointed` of the place under the pointer or the caret.
  constructor(host, changed, pointed) {
    const part = (name) => {
      const element = document.createElement("div");
      element.className = name;
      element.setAttribute("aria-hidden", "true");
      return element;
    };
    this.numbers = part("numbers");
    this.under = part("marks");
    this.sheet = part("sheet");
    this.area = document.createElement("textarea");
    this.area.id = "text";
    for (const [key, value] of [["aria-label", "text of the chart"], ["spellcheck", "false"], ["autocapitalize", "off"],
      ["autocomplete", "off"], ["wrap", "off"], ["aria-describedby", "verdict"]]) this.area.setAttribute(key, value);
    host.append(this.numbers, this.under, this.sheet, this.area);
    this.marks = new Map();
    this.read("");
    this.changed = changed;
    const context = document.createElement("canvas").getContext("2d");
    context.font = getComputedStyle(this.area).font;
    this.letter = context.measureText("0".repeat(100)).width / 100;
    this.area.addEventListener("input", () => this.renew());
    this.area.addEventListener("scroll", () => this.show());
    new ResizeObserver(() => this.show()).observe(host);
    this.area.addEventListener("mousemove", (event) => pointed(this.placeAt(event)));
    this.area.addEventListener("mouseleave", () => pointed(null));
    for (const name of ["keyup", "click"]) this.area.addEventListener(name, () => pointed(this.area.selectionStart));
  }

  get text() {
    return this.area.value;
  }

  // Puts another text in the place of this one. The browser's own undoing brings the old one back where it can.
  replace(text) {
    this.area.value = text;
    this.area.setSelectionRange(0, 0);
    this.area.scrollTop = 0;
    this.area.scrollLeft = 0;
    this.renew();
  }

  renew() {
    this.read(this.area.value);
    this.show();
    this.changed(this.area.value);
  }

  read(text) {
    this.pieces = new Tokens.Lines(text);
    this.lines = this.pieces.lines;
    this.starts = this.pieces.starts;
  }

  // The offset of a line and a column, which both count from 1.
  offset(line, column) {
    const at = Math.min(Math.max(line, 1), this.lines.length) - 1;
    return this.starts[at] + Math.min(column - 1, this.lines[at].length);
  }

  // Where the token or comment ends that stands at an offset.
  endOfToken(offset) {
    const line = this.lineOf(offset);
    let from = this.starts[line];
    for (const { piece } of this.pieces.pieces(line)) {
      if (from + piece.length > offset) return piece.trim() ? from + piece.length : offset + 1;
      from += piece.length;
    }
    return offset + 1;
  }

  lineOf(offset) {
    let low = 0;
    let high = this.lines.length - 1;
    while (low < high) {
      const middle = Math.ceil((low + high) / 2);
      if (this.starts[middle] <= offset) low = middle;
      else high = middle - 1;
    }
    return low;
  }

  // How many letters wide the beginning of a line is.
  across(line, column) {
    let at = 0;
    for (const letter of line.slice(0, column)) at = letter === "\t" ? at - (at % Editor.TAB) + Editor.TAB : at + 1;
    return at;
  }

  placeAt(event) {
    const box = this.area.getBoundingClientRect();
    const line = Math.floor((event.clientY - box.top + this.area.scrollTop - 6) / Editor.LINE);
    if (line < 0 || line >= this.lines.length) return null;
    const wanted = (event.clientX - box.left + this.area.scrollLeft - 6) / this.letter;
    const text = this.lines[line];
    let at = 0;
    for (let column = 0; column < text.length && at <= wanted; column += 1) {
      at = text[column] === "\t" ? at - (at % Editor.TAB) + Editor.TAB : at + 1;
      if (at > wanted) return this.starts[line] + column;
    }
    return null;
  }

  // Marks exactly these parts of the text with this kind: [{from, to}].
  mark(kind, parts) {
    this.marks.set(kind, parts);
    this.showMarks();
  }

  go(offset) {
    this.area.focus();
    this.area.setSelectionRange(offset, offset);
    const top = this.lineOf(offset) * Editor.LINE;
    if (top < this.area.scrollTop || top > this.area.scrollTop + this.area.clientHeight - 2 * Editor.LINE) {
      this.area.scrollTop = Math.max(0, top - this.area.clientHeight / 2);
    }
  }

  show() {
    this.first = Math.floor(this.area.scrollTop / Editor.LINE);
    this.last = Math.min(this.lines.length, this.first + Math.ceil(this.area.clientHeight / Editor.LINE) + 2);
    const lines = [];
    const numbers = [];
    for (const [k, pieces] of this.pieces.coloured(this.first, this.last, Editor.LONGEST).entries()) {
      const line = document.createElement("div");
      for (const { sort, piece } of pieces) {
        if (sort === "space" || sort === "name") line.append(piece);
        else {
          const span = document.createElement("span");
          span.className = sort;
          span.textContent = piece;
          line.append(span);
        }
      }
      lines.push(line);
      const number = document.createElement("div");
      number.textContent = this.first + k + 1;
      numbers.push(number);
    }
    this.sheet.replaceChildren(...lines);
    this.numbers.replaceChildren(...numbers);
    const down = this.first * Editor.LINE - this.area.scrollTop;
    this.sheet.style.transform = `translate(${-this.area.scrollLeft}px, ${down}px)`;
    this.numbers.style.transform = `translateY(${down}px)`;
    this.showMarks();
  }

  showMarks() {
    const shown = [];
    for (const [kind, parts] of this.marks) {
      for (const { from, to } of parts) {
        for (let at = Math.max(this.lineOf(from), this.first); at < this.last && this.starts[at] < Math.max(to, from + 1); at += 1) {
          shown.push(this.markOfLine(kind, at, from, to));
        }
      }
    }
    this.under.replaceChildren(...shown);
  }

  markOfLine(kind, at, from, to) {
    const line = this.lines[at];
    const indent = line.length - line.trimStart().length;
    const first = from <= this.starts[at] ? indent : from - this.starts[at];
    const last = Math.min(line.length, to - this.starts[at]);
    const left = this.across(line, first);
    const mark = document.createElement("div");
    mark.className = `mark ${kind}`;
    mark.dataset.line = at + 1;
    mark.dataset.column = first + 1;
    mark.style.left = `${left * this.letter - this.area.scrollLeft + 6}px`;
    mark.style.top = `${at * Editor.LINE - this.area.scrollTop + 6}px`;
    mark.style.width = `${Math.max(1, this.across(line, last) - left) * this.letter}px`;
    return mark;
  }
}

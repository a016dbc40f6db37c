// The pieces of texts, to colour them by and to read them. In an extended chart a comment goes over lines between /* and */, and
// its own words are words at their place alone, and names everywhere else.
"use strict";

const Tokens = (() => {
  const PIECE = /\s+|\/\/.*|[A-Za-z_][A-Za-z0-9_]*|[0-9]+|->|[=!<>]=|[{}();,:=<>+\-*/%]|./gsu;
  const EXTENDED_PIECE = new RegExp(`\\/\\*.*?(?:\\*\\/|$)|${PIECE.source}`, "gsu");
  const INSIDE_PIECE = new RegExp(`^.*?(?:\\*\\/|$)|${EXTENDED_PIECE.source}`, "gsu");
  const PIECES = { plain: PIECE, extended: EXTENDED_PIECE, inside: INSIDE_PIECE };
  const BLANK = /\s+|\/\/.*/y;
  const EXTENDED_BLANK = /\s+|\/\/.*|\/\*[^]*?\*\//y;
  const COMMENT = /\/\/.*|\/\*[^]*?(?:\*\/|$)/g;
  const WORDS = new Set(("chart scl input output local region initial final state go strong weak join immediate if else do " +
    "goto fork par pause not and or min max").split(" "));
  const KINDS = new Set(["bool", "int"]);
  const VALUES = new Set(["true", "false"]);
  const LINES = 5000; // that are kept
  const LONGEST = 100; // letters of a word
  const BEFORE = 40; // lines above those that are coloured, in which what stands in them may begin
  const kept = { plain: new Map(), extended: new Map(), inside: new Map() };

  function sortOf(piece) {
    if (/^\s/.test(piece)) return "space";
    if (/^[0-9]/.test(piece)) return "number";
    if (/^[A-Za-z_]/.test(piece)) {
      if (WORDS.has(piece)) return "word";
      if (KINDS.has(piece)) return "kind";
      return VALUES.has(piece) ? "number" : "name";
    }
    return /^(->|[=!<>]=|[{}();,:=<>+\-*/%])$/.test(piece) ? "sign" : "foreign";
  }

  function piecesOf(line, how) {
    return (line.match(PIECES[how]) || []).filter((piece) => piece).map((piece, k) => {
      const isComment = piece.startsWith("//") || (how === "inside" && k === 0) || (how !== "plain" && piece.startsWith("/*"));
      return { sort: isComment ? "comment" : sortOf(piece), piece };
    });
  }

  // The pieces of one line: [{sort, piece}]. No piece goes over a line's end. Lines that were read last are kept.
  function piecesOfLine(line, how) {
    const lines = kept[how];
    let pieces = lines.get(line);
    if (!pieces) {
      pieces = piecesOf(line, how);
      if (lines.size > LINES) lines.clear();
      lines.set(line, pieces);
    }
    return pieces;
  }

  // The word behind space and comments, as these are here.
  function wordBehind(text, blank) {
    let at = 0;
    for (blank.lastIndex = 0; blank.test(text);) at = blank.lastIndex;
    return /^[A-Za-z0-9_]*/.exec(text.slice(at, at + LONGEST))[0];
  }

  // Whether the first token is `extended`: so the program takes a text as an extended chart.
  function isExtended(text) {
    return wordBehind(text, EXTENDED_BLANK) === "extended";
  }

  // The word with which a text of a chart or of SCL begins.
  function firstOf(text) {
    return wordBehind(text, BLANK);
  }

  // A text by its lines, each with how its pieces are to be found.
  class Lines {
    constructor(text) {
      this.lines = text.split("\n");
      this.starts = [0];
      for (const line of this.lines) this.starts.push(this.starts[this.starts.length - 1] + line.length + 1);
      this.isExtended = isExtended(text);
      this.inside = this.isExtended ? this.begunInside(text) : new Set();
    }

    // The lines at whose beginning a comment goes on.
    begunInside(text) {
      const inside = new Set();
      let at = 0;
      for (const { index, 0: comment } of text.matchAll(COMMENT)) {
        while (at < this.lines.length && this.starts[at] <= index) at += 1;
        for (; at < this.lines.length && this.starts[at] < index + comment.length; at += 1) inside.add(at);
      }
      return inside;
    }

    how(at) {
      if (!this.isExtended) return "plain";
      return this.inside.has(at) ? "inside" : "extended";
    }

    pieces(at) {
      return piecesOfLine(this.lines[at], this.how(at));
    }

    // The tokens of some lines, without space and comments: [{sort, piece, from, to}].
    tokens(first, last, longest = Infinity) {
      const found = [];
      for (let at = first; at < last; at += 1) {
        let from = this.starts[at];
        for (const { sort, piece } of piecesOfLine(this.lines[at].slice(0, longest), this.how(at))) {
          if (sort !== "space" && sort !== "comment") found.push({ sort, piece, from, to: from + piece.length });
          from += piece.length;
        }
      }
      if (this.isExtended) Placed.mark(found);
      return found;
    }

    // The pieces of some lines, a list for each of them, with the words that are words at their place; of long lines the beginning.
    coloured(first, last, longest = Infinity) {
      const placed = this.isExtended ? this.placed(first, last, longest) : new Set();
      const lines = [];
      for (let at = first; at < last; at += 1) {
        let from = this.starts[at];
        lines.push(piecesOfLine(this.lines[at].slice(0, longest), this.how(at)).map((one) => {
          from += one.piece.length;
          return placed.has(from - one.piece.length) ? { sort: "word", piece: one.piece } : one;
        }));
      }
      return lines;
    }

    placed(first, last, longest) {
      const tokens = this.tokens(Math.max(0, first - BEFORE), Math.min(this.lines.length, last + 1), longest);
      return new Set(tokens.filter(({ sort }) => sort === "word").map(({ from }) => from));
    }
  }

  return { Lines, isExtended, firstOf };
})();

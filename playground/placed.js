// The words of extended charts that are words at their place alone: `extended`, `const`, `pre`, `signal`, `emit`, `entry`, `exit`,
// `during`, `after`, `of`, `shallow`, `history`, `module`, `use` and `as`.
"use strict";

const Placed = (() => {
  const WORDS = new Set("extended const pre signal emit entry exit during after of shallow history module use as".split(" "));
  const ENDS = new Set([";", "{", "}"]);
  const ROLES = new Set(["output", "local"]);
  const LEAVING = new Set(["go", "strong", "weak"]);

  function isPiece(token, ...pieces) {
    return Boolean(token) && pieces.includes(token.piece);
  }

  function isSort(token, sort) {
    return Boolean(token) && token.sort === sort;
  }

  // The word with which an item, an action or the text itself begins, where this is one.
  function* begun([first, second, third]) {
    if (isPiece(first, "extended") && isPiece(second, "chart")) yield first;
    if (isPiece(first, "const", "pre") && isSort(second, "kind")) yield first;
    if (isPiece(first, "signal") && isSort(second, "name")) yield first;
    if (first && ROLES.has(first.piece) && isPiece(second, "signal") && isSort(third, "name")) yield second;
    if (isPiece(first, "entry", "exit") && isPiece(second, "do")) yield first;
    if (isPiece(first, "during") && isPiece(second, "do", "if")) yield first;
    if (isPiece(first, "immediate") && isPiece(second, "during")) yield second;
  }

  // `after`, and the `of` behind its ticks: the first that stands where an operator could.
  function* waits(tokens) {
    if (!tokens.length || !LEAVING.has(tokens[0].piece) || !isPiece(tokens[1], "after")) return;
    yield tokens[1];
    let open = 0;
    for (let k = 2; k < tokens.length && !isPiece(tokens[k], "if", "do", "->"); k += 1) {
      if (isPiece(tokens[k], "(")) open += 1;
      if (isPiece(tokens[k], ")")) open -= 1;
      const isBehind = k > 2 && (isSort(tokens[k - 1], "name") || isSort(tokens[k - 1], "number") || isPiece(tokens[k - 1], ")"));
      if (!open && isBehind && isPiece(tokens[k], "of")) {
        yield tokens[k];
        return;
      }
    }
  }

  // `module` and `use`, the `const` of parameters, and the `as` behind arguments.
  function* ofModules(tokens) {
    if (!isPiece(tokens[0], "module", "use") || !isSort(tokens[1], "name") || !isPiece(tokens[2], "(")) return;
    yield tokens[0];
    for (let k = 3; k + 1 < tokens.length; k += 1) {
      const [before, token, next] = [tokens[k - 1], tokens[k], tokens[k + 1]];
      if (isPiece(tokens[0], "module") && isPiece(token, "const") && isPiece(before, "(", ",") && isSort(next, "kind")) yield token;
      if (isPiece(tokens[0], "use") && isPiece(token, "as") && isPiece(before, ")") && isSort(next, "name")) yield token;
    }
  }

  // `emit` among effects, and `shallow history` before a target.
  function* led(tokens) {
    for (let k = 1; k + 1 < tokens.length; k += 1) {
      const [before, token, next] = [tokens[k - 1], tokens[k], tokens[k + 1]];
      if (isPiece(token, "emit") && isPiece(before, "do", ",") && isSort(next, "name")) yield token;
      if (isPiece(token, "shallow") && isPiece(before, "->") && isPiece(next, "history")) {
        yield token;
        yield next;
      }
    }
  }

  // Makes these words of the tokens of a text words: what stands between two of `;`, `{` and `}` is looked at together.
  function mark(tokens) {
    let first = 0;
    let hasWord = false;
    tokens.forEach((token, at) => {
      hasWord = hasWord || WORDS.has(token.piece);
      if (!ENDS.has(token.piece) && at + 1 < tokens.length) return;
      if (hasWord) {
        const together = tokens.slice(first, at + 1);
        const found = [...begun(together), ...waits(together), ...led(together), ...ofModules(together)];
        for (const word of found) word.sort = "word";
      }
      first = at + 1;
      hasWord = false;
    });
  }

  // Whether a token is such a word, at its place.
  function isPlaced({ sort, piece }) {
    return sort === "word" && WORDS.has(piece);
  }

  return { mark, isPlaced };
})();

// The modules of an extended chart, as tokens: of a text with modules, what its tokens are where each use stands for the regions
// of its module. Names are replaced, and places are those of the module's text. A text whose modules cannot be so read is none.
"use strict";

const Modules = (() => {
  const MODULES = 64;
  const MADE = 65536; // tokens that the uses of a text may make
  const ENDS = [";", "{", "}"];
  const ARGUMENTS = ["name", "number"]; // truth values are coloured as numbers are

  function isPiece(token, ...pieces) {
    return Boolean(token) && pieces.includes(token.piece);
  }

  function isName(token) {
    return Boolean(token) && token.sort === "name";
  }

  function deeper(depth, { piece }) {
    return Math.max(0, depth + (piece === "{") - (piece === "}"));
  }

  // Whether a module or a use begins at a place: behind `;` or a brace its word, a name and a parenthesis.
  function begins(tokens, at, word) {
    return (at === 0 || isPiece(tokens[at - 1], ...ENDS)) && isName(tokens[at]) && isPiece(tokens[at], word)
      && isName(tokens[at + 1]) && isPiece(tokens[at + 2], "(");
  }

  // Takes tokens off a text, from a place on.
  class Phrase {
    constructor(tokens, at) {
      this.tokens = tokens;
      this.at = at;
    }

    take(isWanted) {
      const token = this.tokens[this.at];
      if (!token || !isWanted(token)) throw new Stop("a module or a use is not whole");
      this.at += 1;
      return token;
    }

    piece(...pieces) {
      return this.take((token) => isPiece(token, ...pieces));
    }

    name() {
      return this.take(isName);
    }

    inParentheses(one) {
      this.piece("(");
      const found = [];
      if (!isPiece(this.tokens[this.at], ")")) found.push(one());
      while (this.piece(",", ")").piece === ",") found.push(one());
      return found;
    }
  }

  // The names that the items of a module declare.
  function declared(items) {
    return items.filter((token, at) => isName(token) && at > 0
      && (items[at - 1].sort === "kind" || isPiece(items[at - 1], "signal"))).map(({ piece }) => piece);
  }

  // The names of the outermost of some regions.
  function titles(regions) {
    let depth = 0;
    return regions.filter((token, at) => {
      const isTitle = isName(token) && !depth && isPiece(regions[at - 1], "region");
      depth = deeper(depth, token);
      return isTitle;
    }).map(({ piece }) => piece);
  }

  // For each name the token that stands for it in a use.
  function fresh(names, use) {
    return new Map(names.map((name) => [name, { sort: "name", piece: `${use}_${name}` }]));
  }

  // The tokens with names replaced: those of the outermost regions by `ofRegions`, all others by `names`.
  function renamed(tokens, names, ofRegions) {
    let depth = 0;
    return tokens.map((token, at) => {
      const table = !depth && isPiece(tokens[at - 1], "region") ? ofRegions : names;
      depth = deeper(depth, token);
      const other = isName(token) && table.get(token.piece);
      return other ? { ...token, sort: other.sort, piece: other.piece } : { ...token };
    });
  }

  // The items and the regions for which a use stands.
  function made(module, given, use) {
    const names = fresh(declared(module.items), use);
    module.parameters.forEach((name, k) => names.set(name, given[k]));
    return { items: renamed(module.items, names, new Map()), regions: renamed(module.regions, names, fresh(titles(module.regions), use)) };
  }

  // The use that begins at a place, and the place behind it.
  function readUse(tokens, at, modules) {
    const phrase = new Phrase(tokens, at + 1);
    const module = modules.get(phrase.name().piece);
    const given = phrase.inParentheses(() => phrase.take(({ sort }) => ARGUMENTS.includes(sort)));
    phrase.piece("as");
    const use = phrase.name().piece;
    phrase.piece(";");
    if (!module || given.length !== module.parameters.length) throw new Stop("a use has no module");
    return { ...made(module, given, use), behind: phrase.at };
  }

  // The items that uses in a text make, and the text with regions in their place.
  function used(tokens, modules) {
    const items = [];
    const text = [];
    let count = 0;
    for (let at = 0; at < tokens.length;) {
      if (begins(tokens, at, "use")) {
        const use = readUse(tokens, at, modules);
        count += use.items.length + use.regions.length;
        if (count > MADE) throw new Stop("uses make too much");
        for (const token of use.items) items.push(token);
        for (const token of use.regions) text.push(token);
        at = use.behind;
      } else {
        text.push(tokens[at]);
        at += 1;
      }
    }
    return { items, text };
  }

  // The place of the brace that closes what was opened before a place.
  function closing(tokens, from) {
    let depth = 0;
    for (let at = from; at < tokens.length; at += 1) {
      if (isPiece(tokens[at], "}") && !depth) return at;
      depth = deeper(depth, tokens[at]);
    }
    throw new Stop("a module does not end");
  }

  function parameter(phrase) {
    phrase.piece("input", "output", "const");
    phrase.take(({ sort }) => sort === "kind");
    return phrase.name().piece;
  }

  // Reads the module that begins at a place, and gives the place behind it.
  function readModule(tokens, at, modules) {
    const phrase = new Phrase(tokens, at + 1);
    const name = phrase.name().piece;
    const parameters = phrase.inParentheses(() => parameter(phrase));
    phrase.piece("{");
    if (modules.has(name) || modules.size >= MODULES || new Set(parameters).size < parameters.length) throw new Stop("no such module may be");
    const end = closing(tokens, phrase.at);
    const { items, text } = used(tokens.slice(phrase.at, end), modules);
    const first = text.findIndex((token) => isPiece(token, "region"));
    const count = first < 0 ? text.length : first;
    modules.set(name, { parameters, items: [...text.slice(0, count), ...items], regions: text.slice(count) });
    return end + 1;
  }

  // The tokens as they are before words are told from names by their place.
  function unplaced(tokens) {
    return tokens.map((token) => (Placed.isPlaced(token) ? { ...token, sort: "name" } : token));
  }

  // The tokens of a text without its modules.
  function without(placed) {
    const tokens = unplaced(placed);
    const regions = tokens.findIndex((token) => isPiece(token, "region"));
    const first = tokens.findIndex((token, at) => at > 0 && begins(tokens, at, "module"));
    if (first < 0 || (regions >= 0 && regions < first)) return placed;
    const modules = new Map();
    let at = first;
    while (begins(tokens, at, "module")) at = readModule(tokens, at, modules);
    const { items, text } = used(tokens.slice(at), modules);
    const whole = [...tokens.slice(0, first), ...items, ...text];
    Placed.mark(whole);
    return whole;
  }

  return { without };
})();

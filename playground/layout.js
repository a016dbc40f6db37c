// Where the parts of a chart are drawn: superstates as boxes with their regions side by side, states in rows below one another,
// transitions as ways with labels. What a transition looks like is decided in drawing.js.
"use strict";

const Layout = (() => {
  const LINE = 15; // the height of a line of a label
  const LETTERS = 30; // about as many in a line
  const EDGE = 8; // between a box and what is in it
  const TITLE = 22;
  const MARK = 16; // the height of the mark of a history
  const ROW = 1100; // the width up to which regions stand in one row
  const SHAPE = 1.45; // the width that a chart should have for its height

  // The words of a transition in lines: "1: trigger", "/ effect, effect".
  function labelOf(transition, number) {
    const { wait, trigger } = transition;
    const asked = [wait && wait.words, trigger && (wait ? `if ${trigger.words}` : trigger.words)].filter(Boolean).join(" ");
    const effects = transition.effects.map((effect) => effect.words);
    const head = number ? `${number}:` : "";
    const made = effects.length ? `/ ${effects.join(", ")}` : "";
    if (!asked) return wrapped(`${head} ${made}`.trim(), /(?<=,) /);
    return [...wrapped(`${head} ${asked}`.trim(), / (?=and |or |if |of )/), ...wrapped(made, /(?<=,) /)];
  }

  // The words of a state's action in lines: "entry / effect, effect".
  function actionLines({ kind, immediate, trigger, effects }) {
    const head = [immediate && "immediate", kind, trigger && trigger.words].filter(Boolean).join(" ");
    const breaks = trigger ? /(?<=,) | (?=\/ |and |or )/ : /(?<=,) /;
    return wrapped(`${head} / ${effects.map((effect) => effect.words).join(", ")}`, breaks);
  }

  // Breaks words where a break may be; what goes on stands behind a space.
  function wrapped(words, breaks) {
    if (!words) return [];
    const lines = [];
    for (const part of words.split(breaks)) {
      const last = lines[lines.length - 1];
      if (last !== undefined && last.length + part.length < LETTERS) lines[lines.length - 1] = `${last} ${part}`;
      else lines.push(last === undefined ? part : `  ${part}`);
    }
    return lines;
  }

  class Plan {
    constructor(folded, measure) {
      this.folded = folded;
      this.measure = measure;
    }

    sized(lines) {
      const wide = Math.max(0, ...lines.map((line) => this.measure(line, "label")));
      return { lines, wide, height: lines.length * LINE };
    }

    // What a state does by itself stands below its name.
    * state(state) {
      const title = this.measure(state.name, "state");
      const box = { sort: "state", state, regions: [], actions: [], folded: this.folded.has(state.path) };
      if (box.folded) {
        box.wide = Math.max(48, title + 48);
        box.tall = 28;
        return box;
      }
      box.actions = state.actions.flatMap(actionLines);
      const wide = box.actions.length ? this.sized(box.actions).wide + 20 : 0;
      const tall = box.actions.length * LINE + (box.actions.length ? 6 : 0);
      if (!state.regions.length) {
        box.wide = Math.max(48, title + 36, wide);
        box.tall = 28 + tall;
        return box;
      }
      const inside = yield* this.regions(state.regions);
      const top = TITLE + 4 + (tall && tall + 4);
      box.regions = inside.boxes;
      for (const region of box.regions) move(region, region.left + EDGE, region.top + top);
      box.wide = Math.max(inside.wide + 2 * EDGE, title + 44, wide);
      box.tall = top + inside.tall + EDGE;
      return box;
    }

    // Regions side by side in one row; where that is too wide, in rows of the best shape.
    * regions(regions) {
      const boxes = [];
      for (const region of regions) boxes.push(yield* this.region(region));
      let best = null;
      const widths = boxes.map((box) => box.wide);
      for (let first = 0; first < boxes.length; first += 1) {
        // each beginning of the first row gives a width that the other rows keep to
        const limit = widths.slice(0, boxes.length - first).reduce((sum, wide) => sum + wide + EDGE, 0);
        const rows = rowsOf(boxes, Math.max(limit, ...widths));
        const wide = Math.max(...rows.map((row) => row.reduce((sum, box) => sum + box.wide, (row.length - 1) * EDGE)));
        const tall = rows.reduce((sum, row) => sum + Math.max(...row.map((box) => box.tall)), (rows.length - 1) * EDGE);
        const cost = rows.length === 1 && wide <= ROW ? 0 : Math.max(wide, tall * SHAPE);
        if (!best || cost < best.cost) best = { rows, wide, tall, cost };
      }
      let top = 0;
      for (const row of best.rows) {
        const tall = Math.max(...row.map((box) => box.tall));
        const spare = (best.wide - row.reduce((sum, box) => sum + box.wide, (row.length - 1) * EDGE)) / row.length;
        let left = 0;
        for (const box of row) {
          move(box, left, top);
          box.wide += spare;
          box.tall = tall;
          left += box.wide + EDGE;
        }
        top += tall + EDGE;
      }
      return { boxes, wide: best.wide, tall: best.tall };
    }

    * region(region) {
      const title = this.measure(region.name, "region") + 34;
      const box = { sort: "region", region, states: [], edges: [], folded: this.folded.has(region.path), left: 0, top: 0 };
      if (box.folded || !region.states.length) {
        box.wide = title;
        box.tall = TITLE;
        return box;
      }
      const initial = region.states.findIndex((state) => state.initial);
      const states = [...region.states];
      // the walk by which rows are found begins at the initial state
      if (initial > 0) states.unshift(...states.splice(initial, 1));
      const boxes = [];
      for (const state of states) {
        boxes.push(yield* this.state(state));
        yield;
      }
      yield* this.within(box, states, boxes);
      box.wide = Math.max(box.wide, title);
      return box;
    }

    // The transitions of some states: of each its two ends and its label.
    * edges(states) {
      const names = new Map(states.map((state, i) => [state.name, i]));
      const edges = [];
      for (const [from, state] of states.entries()) {
        for (const transition of state.transitions.filter((one) => names.has(one.target))) {
          const number = state.transitions.length > 1 ? state.transitions.indexOf(transition) + 1 : 0;
          const size = this.sized(labelOf(transition, number));
          const label = { left: 5, right: size.wide ? size.wide + 8 : 5, height: size.height };
          edges.push({ transition, from, to: names.get(transition.target), size, label });
        }
        yield;
      }
      return edges;
    }

    // Places states and transitions in the box of their region.
    * within(box, states, boxes) {
      const all = yield* this.edges(states);
      const far = all.filter((edge) => edge.from !== edge.to);
      const ranking = Layers.ranked(states.length, far);
      const jumps = new Set(far.filter((_, k) => ranking.jumps[k]));
      const beside = boxes.map(() => []);
      for (const edge of all) if (edge.from === edge.to || jumps.has(edge)) beside[edge.from].push(edge);
      yield;
      const marked = new Set(far.filter((edge) => edge.transition.history && !jumps.has(edge)).map((edge) => edge.to));
      const nodes = boxes.map((one, i) => this.node(one, beside[i], marked.has(i) ? MARK : 0));
      yield;
      const plan = yield* Layers.arranged(nodes, far, ranking);
      boxes.forEach((one, i) => {
        const { x, top } = plan.places[i];
        one.left = x - one.wide / 2 + EDGE;
        one.top = top + TITLE + 2;
      });
      box.states = boxes;
      for (const [k, edge] of far.entries()) {
        if (plan.ways[k]) box.edges.push(lineOf(edge, plan.ways[k], ranking.back[k]));
        yield;
      }
      boxes.forEach((one, i) => sideLines(one, beside[i], box));
      box.wide = plan.width + 2 * EDGE;
      box.tall = plan.height + TITLE + 2 + EDGE;
    }

    // What a state takes up with the transitions that are drawn at its right side, and with the marks of histories above and below.
    node(box, beside, mark) {
      const tall = beside.reduce((sum, edge) => sum + sideHeight(edge), 0);
      box.tall = Math.max(box.tall, tall);
      const extra = Math.max(0, ...beside.map((edge) => 30 + sideWidth(edge, this.measure)));
      return { left: box.wide / 2, right: box.wide / 2 + extra, height: box.tall + 2 * mark, wide: box.wide, tall: box.tall };
    }
  }

  function rowsOf(boxes, limit) {
    const rows = [[]];
    let used = 0;
    for (const box of boxes) {
      if (rows[rows.length - 1].length && used + box.wide > limit) {
        rows.push([]);
        used = 0;
      }
      rows[rows.length - 1].push(box);
      used += box.wide + EDGE;
    }
    return rows;
  }

  function move(box, left, top) {
    box.left = left;
    box.top = top;
  }

  // ---- transitions

  function isLoop(edge) {
    return edge.from === edge.to;
  }

  // From where a loop leaves its state down to where it comes back.
  function loopHeight({ transition }) {
    return transition.history ? 18 : 12;
  }

  function sideHeight(edge) {
    return isLoop(edge) ? Math.max(loopHeight(edge) + 12, edge.size.height + 6) : edge.size.height + LINE + 8;
  }

  function sideWidth(edge, measure) {
    return Math.max(edge.size.wide, isLoop(edge) ? 0 : measure(farWords(edge), "label"));
  }

  // What stands at the head of an arrow that is too far from its target to be drawn.
  function farWords({ transition }) {
    return transition.history ? `to ${transition.target}, history` : `to ${transition.target}`;
  }

  // A transition that goes from row to row: its way in the direction in which it is taken, its ends, and its label.
  function lineOf(edge, way, back) {
    const dx = EDGE;
    const dy = TITLE + 2;
    const stops = way.map((stop) => ({ x: stop.x + dx, first: stop.top + dy, last: stop.bottom + dy, label: stop.label }));
    if (back) {
      stops.reverse();
      for (const stop of stops) [stop.first, stop.last] = [stop.last, stop.first];
    }
    const drawn = [`M${round(stops[0].x)} ${round(stops[0].first)}`];
    stops.forEach((stop, k) => {
      if (k) {
        const before = stops[k - 1];
        const middle = round((before.last + stop.first) / 2);
        drawn.push(`C${round(before.x)} ${middle} ${round(stop.x)} ${middle} ${round(stop.x)} ${round(stop.first)}`);
      }
      if (stop.first !== stop.last) drawn.push(`L${round(stop.x)} ${round(stop.last)}`);
    });
    const labelled = stops.find((stop) => stop.label);
    const label = labelled && { x: labelled.x + 6, top: labelled.label.top + dy, lines: edge.size.lines };
    const end = stops[stops.length - 1];
    const side = back ? "up" : "down";
    return { transition: edge.transition, way: drawn.join(""), label, history: edge.transition.history, tail: { x: stops[0].x, y: stops[0].first, side },
      head: { x: end.x, y: end.last, side } };
  }

  // Transitions at the right side of their state: those that lead back to it, and those that lead too far for a line.
  function sideLines(box, edges, region) {
    let top = box.top + (box.tall - edges.reduce((sum, edge) => sum + sideHeight(edge), 0)) / 2;
    for (const edge of edges) {
      const middle = top + sideHeight(edge) / 2;
      const right = box.left + box.wide;
      top += sideHeight(edge);
      const lines = isLoop(edge) ? edge.size.lines : [...edge.size.lines, farWords(edge)];
      const label = { x: right + 26, top: middle - (lines.length * LINE) / 2, lines };
      const down = isLoop(edge) ? loopHeight(edge) : 0;
      const y = middle - down / 2;
      const way = isLoop(edge)
        ? `M${right} ${y}C${right + 28} ${y - 4} ${right + 28} ${y + down + 4} ${right} ${y + down}` : `M${right} ${y}L${right + 20} ${y}`;
      region.edges.push({ transition: edge.transition, way, label, history: edge.transition.history && isLoop(edge), tail: { x: right, y, side: "right" },
        head: isLoop(edge) ? { x: right, y: y + down, side: "left" } : { x: right + 20, y, side: "right" } });
    }
  }

  function round(x) {
    return Math.round(x * 10) / 10;
  }

  // The plan of a chart, made in steps: it yields wherever it may be put off. `folded` has the paths of states and regions of
  // which only the name is drawn; `measure` gives the width of words as "state", "region" or "label".
  function* of(chart, folded, measure) {
    const plan = new Plan(folded, measure);
    const inside = yield* plan.regions(chart.regions);
    for (const region of inside.boxes) move(region, region.left + EDGE, region.top + TITLE + 4);
    return { chart, regions: inside.boxes, wide: Math.max(inside.wide, measure(chart.name, "state")) + 2 * EDGE,
      tall: inside.tall + TITLE + 4 + EDGE };
  }

  return { of, LINE, TITLE, MARK };
})();

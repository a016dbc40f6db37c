// A planned chart as SVG, with names for readers of screens. Transitions are told apart by their tails: a disc for a strong
// abort, a triangle for a termination, none for weak aborts and the transitions of simple states; what is immediate is dashed.
"use strict";

const Drawing = (() => {
  const SVG = "http://www.w3.org/2000/svg";
  const FONTS = { state: "600 13px", region: "12px", label: "12px" };
  const FAMILY = '"DejaVu Sans", "Liberation Sans", Verdana, Arial, sans-serif';
  const KINDS = { go: "transition", strong: "strong abort", weak: "weak abort", join: "termination" };
  const HEAD = "M-4 -8L0 0L4 -8Z";
  const TURNS = { down: 0, left: 90, up: 180, right: 270 };

  function made(name, attributes = {}, ...inside) {
    const element = document.createElementNS(SVG, name);
    for (const [key, value] of Object.entries(attributes)) element.setAttribute(key, value);
    element.append(...inside);
    return element;
  }

  let canvas = null;
  const widths = new Map();

  // The width of words in the font of this use.
  function measure(words, use) {
    const key = `${use} ${words}`;
    if (!widths.has(key)) {
      canvas = canvas || document.createElement("canvas").getContext("2d");
      canvas.font = `${FONTS[use]} ${FAMILY}`;
      widths.set(key, Math.ceil(canvas.measureText(words).width));
    }
    return widths.get(key);
  }

  function words(transition) {
    const parts = [transition.immediate ? `immediate ${KINDS[transition.kind]}` : KINDS[transition.kind],
      transition.history ? `to the history of ${transition.target}` : `to ${transition.target}`];
    if (transition.wait) parts.push(transition.wait.words);
    if (transition.trigger) parts.push(`if ${transition.trigger.words}`);
    if (transition.effects.length) parts.push(`do ${transition.effects.map((effect) => effect.words).join(", ")}`);
    return parts.join(" ");
  }

  class Sheet {
    constructor() {
      this.parts = new Map();
      this.boxes = [];
    }

    // A handle by which a state or a region is folded and unfolded.
    handle(sort, part, folded) {
      const name = `${sort} ${part.name}`;
      const d = folded ? "M5 3L11 8L5 13Z" : "M3 5L13 5L8 11Z";
      return made("g", { class: "handle", role: "button", tabindex: "0", "aria-expanded": String(!folded), "data-fold": part.path,
        "aria-label": folded ? `unfold ${name}` : `fold ${name}` },
      made("rect", { class: "grip", x: 0, y: 0, width: 16, height: 16, rx: 3 }), made("path", { d }));
    }

    * regions(boxes, into) {
      for (const box of boxes) yield* this.region(box, into);
    }

    * region(box, into) {
      const { region } = box;
      const group = made("g", { class: box.folded ? "region folded" : "region", "data-path": region.path, role: "group",
        "aria-label": `region ${region.name}`, transform: `translate(${box.left} ${box.top})` });
      group.append(made("rect", { class: "area", width: box.wide, height: box.tall, rx: 3 }));
      const handle = this.handle("region", region, box.folded);
      handle.setAttribute("transform", "translate(4 3)");
      group.append(handle, made("text", { class: "region-name", x: 23, y: 15 }, region.name));
      this.parts.set(region.path, { element: group, part: region });
      into.append(group);
      for (const one of box.states) yield* this.state(one, group);
      for (const edge of box.edges) {
        group.append(this.transition(edge));
        yield;
      }
    }

    * state(box, into) {
      const { state } = box;
      const sorts = ["state", state.regions.length && "super", state.initial && "initial", state.final && "final",
        box.folded && "folded"].filter(Boolean);
      const group = made("g", { class: sorts.join(" "), "data-path": state.path, role: "group",
        transform: `translate(${box.left} ${box.top})` });
      group.append(made("rect", { class: "box", width: box.wide, height: box.tall, rx: 9 }));
      if (state.final) group.append(made("rect", { class: "inner", x: 3, y: 3, width: box.wide - 6, height: box.tall - 6, rx: 6 }));
      group.append(made("circle", { class: "light", cx: 9, cy: 9, r: 3.5 }));
      const middle = box.regions.length ? 16 : box.tall / 2 + 5;
      group.append(made("text", { class: "state-name", x: box.wide / 2, y: box.actions.length ? 18 : middle }, state.name));
      if (box.actions.length) group.append(...actions(box));
      if (state.regions.length) {
        const handle = this.handle("state", state, box.folded);
        handle.setAttribute("transform", `translate(${box.wide - 20} 4)`);
        group.append(handle);
      }
      this.parts.set(state.path, { element: group, part: state });
      name(group, state, false);
      into.append(group);
      yield;
      yield* this.regions(box.regions, group);
    }

    transition(edge) {
      const { transition, tail, head, label } = edge;
      const sorts = ["transition", transition.kind, transition.immediate && "immediate"].filter(Boolean);
      const group = made("g", { class: sorts.join(" "), "data-path": transition.path, role: "img", "aria-label": words(transition) });
      group.append(made("path", { class: "reach", d: edge.way }), made("path", { class: "way", d: edge.way }));
      group.append(...(edge.history ? history(head) : [made("path", { class: "head", d: HEAD, transform: turned(head) })]));
      if (transition.kind === "strong") group.append(made("circle", { class: "tail", r: 4.5, transform: turned(tail), cy: 4.5 }));
      if (transition.kind === "join") group.append(made("path", { class: "tail", d: "M-6 0L6 0L0 10Z", transform: turned(tail) }));
      if (label) {
        const text = made("text", { class: "label", x: label.x });
        label.lines.forEach((line, k) => {
          text.append(made("tspan", { x: label.x, y: label.top + 12 + k * Layout.LINE }, line));
        });
        group.append(text);
      }
      this.parts.set(transition.path, { element: group, part: transition });
      return group;
    }
  }

  // What a state does by itself, below its name.
  function actions(box) {
    const words = made("text", { class: "action" });
    box.actions.forEach((line, k) => words.append(made("tspan", { x: 10, y: Layout.TITLE + 17 + k * Layout.LINE }, line)));
    return [made("path", { class: "rule", d: `M0.6 ${Layout.TITLE + 3}H${box.wide - 0.6}` }), words];
  }

  // The head of an arrow that leads to a state as it was left.
  function history(head) {
    const r = Layout.MARK / 2;
    const [x, y] = { down: [0, -r], up: [0, r], left: [r, 0] }[head.side];
    return [made("path", { class: "head", d: HEAD, transform: `${turned(head)} translate(0 ${1 - 2 * r})` }),
      made("circle", { class: "history", r: r - 1, cx: head.x + x, cy: head.y + y }),
      made("text", { class: "history-letter", x: head.x + x, y: head.y + y + 3.6 }, "H")];
  }

  function turned(end) {
    return `translate(${end.x} ${end.y}) rotate(${TURNS[end.side]})`;
  }

  function name(group, state, active) {
    const parts = [state.regions.length ? `superstate ${state.name}` : `state ${state.name}`, state.initial && "initial",
      state.final && "final", active && "active"];
    group.setAttribute("aria-label", parts.filter(Boolean).join(", "));
  }

  // Draws a plan in steps: yields wherever it may be put off, and gives the SVG and its parts by their paths. `begun` hears of the
  // SVG while it is empty, so that the browser can lay out what is drawn bit by bit.
  function* of(plan, begun) {
    const sheet = new Sheet();
    const svg = made("svg", { xmlns: SVG, class: "chart", viewBox: `0 0 ${plan.wide} ${plan.tall}`, role: "group",
      "aria-label": `chart ${plan.chart.name}` });
    svg.append(made("rect", { class: "paper", width: plan.wide, height: plan.tall }));
    svg.append(made("text", { class: "chart-name", x: 8, y: 17 }, plan.chart.name));
    const drawn = { svg, plan, parts: sheet.parts };
    begun(drawn);
    yield* sheet.regions(plan.regions, svg);
    return drawn;
  }

  // Lights exactly these states, by their paths.
  function light(drawn, paths) {
    const lit = new Set(paths);
    for (const [path, { element, part }] of drawn.parts) {
      if (!element.classList.contains("state")) continue;
      const active = lit.has(path);
      if (active !== element.classList.contains("active")) {
        element.classList.toggle("active", active);
        name(element, part, active);
      }
    }
  }

  // Gives a class to exactly these parts.
  function mark(drawn, kind, paths) {
    for (const element of drawn.svg.querySelectorAll(`.${kind}`)) element.classList.remove(kind);
    for (const path of paths) if (drawn.parts.has(path)) drawn.parts.get(path).element.classList.add(kind);
  }

  function scale(drawn, factor) {
    drawn.svg.setAttribute("width", Math.round(drawn.plan.wide * factor));
    drawn.svg.setAttribute("height", Math.round(drawn.plan.tall * factor));
  }

  // The drawing as a file of its own, with these styles.
  function saved(drawn, styles) {
    const copy = drawn.svg.cloneNode(true);
    copy.setAttribute("width", drawn.plan.wide);
    copy.setAttribute("height", drawn.plan.tall);
    copy.prepend(made("style", {}, styles));
    return new XMLSerializer().serializeToString(copy);
  }

  return { of, light, mark, scale, saved, measure, made };
})();

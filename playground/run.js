// The page of one run: the chart, and its ticks to be stepped through. It asks nobody for anything.
"use strict";

const Run = (() => {
  const $ = (id) => document.getElementById(id);
  const PERIOD = 700; // milliseconds
  const data = JSON.parse($("data").textContent);
  const names = new Map(); // of each name of a state in the text the paths that it has: in a module one for each use
  let running = null;

  // The text in colours, with the names of states to be lit.
  function showText(chart) {
    const labels = new Map();
    for (const { sort, part } of Language.partsOf(chart ? chart.regions : [])) {
      if (sort === "state") labels.set(part.label.from, [...(labels.get(part.label.from) || []), part.path]);
    }
    const lines = new Tokens.Lines(data.text);
    let at = 0;
    for (const pieces of lines.coloured(0, lines.lines.length)) {
      const row = document.createElement("div");
      for (const { sort, piece } of pieces) {
        const span = document.createElement("span");
        span.className = sort;
        span.textContent = piece;
        if (labels.has(at)) names.set(span, labels.get(at));
        row.append(span);
        at += piece.length;
      }
      at += 1;
      if (!pieces.length) row.append(" ");
      $("text").append(row);
    }
  }

  function show() {
    panel.show();
    const now = session.now();
    const lit = new Set(now && now.states ? now.states : []);
    for (const [span, paths] of names) span.classList.toggle("lit", paths.some((path) => lit.has(path)));
    pane.light([...lit]);
    panel.fill(now ? session.given(session.at) : {});
    if (session.at === session.ticks.length) stop();
  }

  function stop() {
    clearInterval(running);
    running = null;
    $("run").setAttribute("aria-pressed", "false");
  }

  function run() {
    if (running) {
      stop();
      return;
    }
    $("run").setAttribute("aria-pressed", "true");
    if (session.at === session.ticks.length) session.go(0);
    running = setInterval(() => session.go(session.at + 1), PERIOD);
  }

  const session = new Session(() => show());
  const panel = new Panel(session);
  const pane = new Pane($("drawing"), { pointed: () => {}, chosen: () => {}, drawn: () => {} });
  session.text = data.text;
  session.variables = Language.variablesOf(data.text);
  session.ticks = data.ticks;
  session.results = Session.results(data, data.ticks, data.text);
  session.at = Math.min(1, data.ticks.length);
  const acts = { back: () => session.go(session.at - 1), forward: () => session.go(session.at + 1), reset: () => session.go(0), run,
    "save-ticks": () => Files.save(data.name, "ticks", data.ticks.map((line) => `${line}\n`), "text/plain"),
    "save-trace": () => Files.save(data.name, "trace", data.lines.map((line) => `${line}\n`), "text/plain") };
  for (const [id, act] of Object.entries(acts)) $(id).addEventListener("click", () => act());
  document.addEventListener("keydown", (event) => {
    const key = event.altKey && { Comma: "back", Period: "forward", Digit0: "reset" }[event.code];
    if (key) acts[key]();
  });
  $("name").textContent = data.name;
  document.title = data.name;
  const chart = Language.chartOf(data.text);
  showText(chart);
  if (chart) pane.show(chart);
  else pane.clear("An SCL text has no states to draw.");
  show();
  return { session, pane };
})();

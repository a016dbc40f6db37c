// The page: one text, what the program says of it, its drawing and its session, put together.
"use strict";

const Page = (() => {
  const $ = (id) => document.getElementById(id);
  const KEPT = { text: "soilannual-text", before: "soilannual-before", theme: "soilannual-theme" };
  const SOON = { draw: 120, check: 220, keep: 300 }; // milliseconds after the last letter

  let chart = null; // the tree of the text, null where it spells none
  let shape = ""; // the tokens of what is drawn
  let name = "chart";
  let gallery = [];
  let asking = null;
  let running = 0;
  let pointing = null;
  const waiting = {};

  // ---- what is kept in the browser

  function kept(key) {
    try {
      return JSON.parse(localStorage.getItem(key));
    } catch {
      return null;
    }
  }

  function keep(key, value) {
    try {
      localStorage.setItem(key, JSON.stringify(value));
    } catch {
      // a browser that keeps nothing is no reason to stop
    }
  }

  function keepText() {
    keep(KEPT.text, { text: editor.text, name, page: location.pathname, hash: location.hash });
  }

  // Does this some time after it was last asked for.
  function soon(what, work) {
    clearTimeout(waiting[what]);
    waiting[what] = setTimeout(work, SOON[what]);
  }

  // ---- messages

  function tell(words, act, label) {
    $("notice-words").textContent = words;
    $("notice-act").hidden = !act;
    $("notice-act").textContent = label || "";
    $("notice-act").onclick = act || null;
    $("notice").hidden = false;
  }

  // Does what may end with a sentence, and tells it.
  async function told(work) {
    try {
      const value = await work();
      return value;
    } catch (error) {
      if (error.name === "AbortError") return undefined;
      if (!(error instanceof Calls.Sentence)) throw error;
      stop();
      tell(error.message, () => { $("notice").hidden = true; check(); }, "Try again");
      return undefined;
    }
  }

  // ---- the text

  function changed() {
    soon("keep", keepText);
    soon("draw", draw);
    soon("check", check);
  }

  // Another text: the one from before can be brought back.
  function take(text, newName, words) {
    const before = editor.text;
    if (before.trim() && before !== text) {
      keep(KEPT.before, { text: before, name });
      tell(words, () => {
        $("notice").hidden = true;
        take(before, kept(KEPT.before).name, "The text is back.");
      }, "Bring back the text from before");
    }
    name = newName || "chart";
    stop();
    session.leave();
    pane.folded.clear();
    editor.replace(text);
    $("gallery-ticks").hidden = true;
  }

  function draw() {
    const { text } = editor;
    chart = Language.chartOf(text);
    if (!Language.isChart(text)) {
      shape = "";
      $("drawing-note").textContent = "";
      pane.clear(text.trim() ? "An SCL text has no states to draw. Its graph is in the tab Graphviz." : "No text yet.");
      return;
    }
    $("drawing-note").textContent = chart ? "" : "The text is no whole chart at the moment: the drawing is the last one.";
    if (!chart) return;
    lightText();
    if (chart.shape === shape && pane.drawn) return;
    shape = chart.shape;
    pane.show(chart);
  }

  async function check() {
    const { text } = editor;
    if (asking) asking.abort();
    asking = new AbortController();
    const { signal } = asking;
    $("verdict").classList.add("waiting");
    const verdict = await told(() => Calls.ask("check", { text }, signal));
    if (!verdict || text !== editor.text) return;
    $("verdict").classList.remove("waiting");
    if ($("notice-act").textContent === "Try again") $("notice").hidden = true;
    said.show(verdict, chart);
    views.take(text);
    if (verdict.accepted) await told(() => session.take(text, Language.variablesOf(text)));
    showAll();
  }

  // ---- what is pointed at

  function point(place, path) {
    cancelAnimationFrame(pointing);
    pointing = requestAnimationFrame(() => {
      let found = place !== null && chart ? Language.partAt(chart, place) : null;
      if (path && chart) found = [...Language.partsOf(chart.regions)].find(({ part }) => part.path === path) || null;
      const part = found && found.part;
      const paths = (part && !path ? Language.alike(chart, part) : [part || []]).flat().map((one) => one.path);
      editor.mark("under", part ? [part.head || { from: part.from, to: part.to }] : []);
      pane.mark("under", paths);
      views.mark(paths, place !== null && !chart ? editor.lineOf(place) + 1 : 0);
    });
  }

  // ---- the session

  function showAll() {
    panel.show();
    const isOfText = session.text === editor.text;
    $("session").classList.toggle("earlier", Boolean(session.text) && !isOfText);
    $("earlier-note").hidden = !session.text || isOfText;
    const now = session.now();
    pane.light(now && now.states ? now.states : []);
    lightText();
  }

  function lightText() {
    const now = session.now();
    const lit = new Set(now && now.states && chart ? now.states : []);
    const parts = lit.size ? [...Language.partsOf(chart.regions)].filter(({ part }) => lit.has(part.path)) : [];
    // the uses of a module have one text
    editor.mark("lit", [...new Map(parts.map(({ part }) => [part.label.from, part.label])).values()]);
  }

  function canPlay() {
    if (session.text) return true;
    tell("There is no text yet that the compiler accepts, so nothing can be played.");
    return false;
  }

  async function tick() {
    if (!canPlay()) return false;
    const line = panel.line();
    if (line === null) {
      tell("A number field has no whole number from -2147483648 to 2147483647.");
      return false;
    }
    const done = await told(async () => {
      await session.tick(line);
      return true;
    });
    if (done && !$("hold").checked) panel.release();
    return Boolean(done);
  }

  function stop() {
    running += 1;
    $("run").setAttribute("aria-pressed", "false");
  }

  async function run() {
    if ($("run").getAttribute("aria-pressed") === "true") {
      stop();
      return;
    }
    running += 1;
    const turn = running;
    $("run").setAttribute("aria-pressed", "true");
    while (turn === running) {
      const next = performance.now() + Math.max(50, Number($("period").value) || 500);
      if (!await tick()) {
        stop();
        return;
      }
      await new Promise((go) => { setTimeout(go, Math.max(0, next - performance.now())); });
    }
  }

  function linesOf(text) {
    const lines = text.split("\n");
    if (!lines[lines.length - 1]) lines.pop();
    return lines;
  }

  function loadTicks(text) {
    if (canPlay()) told(() => session.load(linesOf(text)));
  }

  // ---- files

  function save(ending, parts, type) {
    Files.save(name, ending, parts, type);
  }

  async function saveImage() {
    const answer = await told(() => Calls.ask("image", { text: editor.text }));
    if (!answer) return;
    if (answer.image) save("image", [Uint8Array.from(answer.image.match(/../g), (byte) => parseInt(byte, 16))], "application/octet-stream");
    else tell(`There is no image: the text is refused with ${answer.fault}.`);
  }

  async function saveDrawing() {
    if (!pane.drawn) return;
    await told(async () => {
      const styles = await fetch("drawing.css").then((answer) => answer.text()).catch(() => "");
      save("svg", [Drawing.saved(pane.drawn, styles)], "image/svg+xml");
    });
  }

  async function link() {
    location.hash = await Links.of(editor.text);
    keepText();
    const copied = await navigator.clipboard.writeText(location.href).then(() => " and was copied", () => "");
    tell(`The text stands in the address now${copied}: whoever has tools/play opens it with tools/play 'ADDRESS'.`);
  }

  async function fromAddress() {
    const text = await Links.textOf(location.hash);
    if (text === undefined) tell("The address has a text behind its #, but it cannot be read.");
    return text;
  }

  // ---- the beginning

  function theme(value) {
    if (value) document.documentElement.dataset.theme = value;
    else delete document.documentElement.dataset.theme;
    keep(KEPT.theme, value);
  }

  function listen() {
    const acts = { tick, back: () => session.go(session.at - 1), forward: () => session.go(session.at + 1), run,
      reset: () => { stop(); session.reset(); },
      smaller: () => pane.scale(1 / 1.2), larger: () => pane.scale(1.2), fit: () => pane.scale(0),
      "fold-all": () => pane.foldAll(), "unfold-all": () => pane.unfoldAll(), "save-drawing": saveDrawing, "save-image": saveImage, link,
      "save-text": () => save(Language.endingOf(editor.text), [editor.text], "text/plain"),
      "save-ticks": () => save("ticks", [session.ticks.map((line) => `${line}\n`).join("")], "text/plain"),
      "save-trace": () => save("trace", [session.results.map(({ line }) => `${line}\n`).join("")], "text/plain"),
      "open-text": () => $("text-file").click(), "load-ticks": () => $("ticks-file").click(),
      "notice-close": () => { $("notice").hidden = true; } };
    for (const [id, act] of Object.entries(acts)) $(id).addEventListener("click", () => act());
    Files.opened($("text-file"), (text, file) => take(text, file, `${file} is opened.`));
    Files.opened($("ticks-file"), loadTicks);
    $("theme").addEventListener("change", () => theme($("theme").value));
    $("gallery").addEventListener("change", () => choose($("gallery").value));
    document.addEventListener("keydown", (event) => {
      const withAlt = event.altKey && { Comma: "back", Period: "forward", Digit0: "reset" }[event.code];
      const key = event.ctrlKey && event.key === "Enter" ? "tick" : withAlt;
      if (!key) return;
      event.preventDefault();
      acts[key]();
    });
    window.addEventListener("hashchange", async () => {
      const text = await fromAddress();
      if (typeof text === "string" && text !== editor.text) take(text, "", "The text of the address is opened.");
    });
    window.addEventListener("pagehide", keepText);
  }

  function choose(chosen) {
    const found = gallery.find((one) => one.name === chosen);
    $("gallery").value = "";
    if (!found) return;
    take(found.text, found.name, `${found.name} is opened.`);
    $("gallery-ticks").hidden = !found.ticks;
    $("gallery-ticks").onclick = () => loadTicks(found.ticks);
  }

  async function begin() {
    $("theme").value = kept(KEPT.theme) || "";
    theme($("theme").value);
    listen();
    const linked = await fromAddress();
    const start = await told(() => Calls.get("start.json")) || {};
    gallery = await told(() => Calls.get("gallery.json")) || [];
    $("gallery").append(...gallery.map((one) => new Option(one.name, one.name)));
    const last = kept(KEPT.text);
    const isOfPage = last && last.page === location.pathname && last.hash === location.hash;
    if (last && last.text) {
      name = last.name || "chart";
      editor.replace(last.text);
    }
    if (isOfPage && last.text) return;
    if (typeof linked === "string") take(linked, "", "The text of the address is opened.");
    else if (start.text !== undefined) take(start.text, start.name, `${start.name} is opened.`);
    else if (!last || !last.text) choose("boxes.chart");
  }

  const session = new Session(() => showAll());
  const panel = new Panel(session);
  const pane = new Pane($("drawing"), {
    pointed: (path) => point(null, path),
    chosen: (path) => {
      const found = chart && [...Language.partsOf(chart.regions)].find(({ part }) => part.path === path);
      if (found) editor.go((found.part.label || found.part).from);
    },
    drawn: () => {},
  });
  const views = new Views((node) => point(node && !node.path ? editor.offset(node.line, node.column) : null, node && node.path));
  const editor = new Editor($("editor"), changed, (place) => point(place, null));
  const said = new Verdict($("verdict"), editor, pane, views);
  begin();
  return { editor, session, pane, views };
})();

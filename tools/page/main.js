// The page: which run is seen, at which step, and what keys and buttons do.

// How long an entry stands while it plays, in milliseconds, and for who wants little motion.
const PACE = 120;
const CALM_PACE = 1000;
const CALM = matchMedia("(prefers-reduced-motion: reduce)");

const go = (step) => page.go(step);
const stage = new Stage();
const line = new Line(go);
const lanes = new Lanes(go);
const panel = new Panel(go);
const clients = new Clients();

const page = {
  run: runs[0],
  timer: null, // of an entry each so often, while it plays
  noting: null,

  open(run) {
    this.stop();
    this.run = run;
    document.title = run.name;
    byId("name").textContent = run.name;
    byId("said").textContent = run.said;
    for (const tab of byId("tabs").children) {
      tab.setAttribute("aria-pressed", runs[Number(tab.dataset.run)] === run);
    }
    stage.begin(run);
    lanes.begin(run);
    line.begin(run);
    clients.begin(run);
    showLists(run, (step) => {
      this.go(step);
      byId("figure").scrollIntoView({ block: "nearest" });
    });
    byId("stops").replaceChildren(...stops(run));
    this.show();
  },

  go(step) {
    const bounded = Math.max(0, Math.min(step, this.run.steps.length));
    if (!Number.isInteger(bounded) || bounded === this.run.at) return;
    this.run.at = bounded;
    this.show();
    this.note();
  },

  show() {
    const { run } = this;
    stage.show();
    lanes.show();
    line.show(lanes.first, lanes.first + lanes.count, this.timer !== null);
    panel.show(run);
    clients.show();
    for (const stop of byId("stops").children) {
      stop.setAttribute("aria-pressed", Number(stop.dataset.step) === run.at);
    }
  },

  // Writes the place into the address, once it has stood for a while: browsers limit how often.
  note() {
    clearTimeout(this.noting);
    this.noting = setTimeout(() => history.replaceState(null, "", addressOf(this.run)), 200);
  },

  fit() {
    lanes.fit();
    line.draw();
    this.show();
  },

  play() {
    if (this.timer !== null) {
      this.stop();
      return;
    }
    if (this.run.at === this.run.steps.length) this.go(0);
    byId("play").textContent = "stop";
    byId("plain").setAttribute("aria-live", "off");
    this.timer = setInterval(() => {
      this.go(this.run.at + 1);
      if (this.run.at === this.run.steps.length) this.stop();
    }, CALM.matches ? CALM_PACE : PACE);
  },

  // What a screen reader was not told meanwhile, it is told now.
  stop() {
    if (this.timer === null) return;
    clearInterval(this.timer);
    this.timer = null;
    byId("play").textContent = "play";
    byId("plain").setAttribute("aria-live", "polite");
    this.show();
  },
};

// A button for each picture, as long as there are few.
function stops(run) {
  if (run.pictures.length > 12) return [];
  return run.pictures.map(([name, step]) => {
    const stop = made("button", "stop", name.replace(".ppm", ""));
    stop.type = "button";
    stop.dataset.step = step;
    stop.addEventListener("click", () => page.go(step));
    return stop;
  });
}

// What else goes along the run while the focus is on the line of time, as on any slider. Elsewhere
// these keys scroll the page.
function placesOfLine(at, far) {
  return { ArrowUp: at + far, ArrowDown: at - far, PageUp: at + 10, PageDown: at - 10 };
}

// The keys go along the run, but where the focus is in a part that scrolls, they scroll it.
function onKey(event) {
  if (event.altKey || event.ctrlKey || event.metaKey) return;
  if (event.target instanceof Element && event.target.closest(".scrolled")) return;
  const { at, steps } = page.run;
  const far = event.shiftKey ? 10 : 1;
  const places = { ArrowLeft: at - far, ArrowRight: at + far, Home: 0, End: steps.length,
    ...(event.target === byId("line") ? placesOfLine(at, far) : {}) };
  if (!(event.key in places)) return;
  event.preventDefault();
  page.stop();
  page.go(places[event.key]);
}

function tabs() {
  const names = ["outer run", "inner run"];
  return runs.map((run, place) => {
    const tab = made("button", "", names[place]);
    tab.type = "button";
    tab.dataset.run = place;
    tab.addEventListener("click", () => {
      page.open(run);
      page.note();
    });
    return tab;
  });
}

// The address of a run's place: `#29` of the first run, and `#inner-29` of the inner one.
function addressOf(run) {
  return `#${run === runs[0] ? "" : "inner-"}${run.address()}`;
}

// Opens the run at the place that the address names, and else where it stands.
function openByAddress() {
  const wanted = /^#(inner-)?(\d{1,9}(?:\.\d{1,9})?)$/.exec(location.hash);
  const run = wanted ? runs[wanted[1] ? 1 : 0] ?? page.run : page.run;
  if (wanted) run.at = run.stepOfAddress(wanted[2]);
  page.open(run);
}

function begin() {
  const buttons = {
    first: () => 0, before: () => page.run.at - 1, after: () => page.run.at + 1,
    last: () => page.run.steps.length,
  };
  for (const [id, place] of Object.entries(buttons)) {
    byId(id).addEventListener("click", () => page.go(place()));
  }
  byId("play").addEventListener("click", () => page.play());
  document.addEventListener("keydown", onKey);
  byId("tabs").hidden = runs.length < 2;
  byId("tabs").append(...tabs());
  window.addEventListener("hashchange", openByAddress);
  openByAddress();
  new ResizeObserver(() => page.fit()).observe(byId("lanes"));
}

begin();

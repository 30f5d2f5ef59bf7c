// The line of time over the whole run, and below it the lanes: a row for the user and one for each
// client, with a column for each step. Column 0 is the beginning.

const ROW = 38;
const USER_ROW = 44;
const LEAST_COLUMN = 15;
const WIDEST_CURSOR = 26;
const LINE_HEIGHT = 34;

// The spans of steps in which a track has one value: [first, behind the last, value].
function spans(run, name) {
  const pairs = run.tracks[name];
  return pairs.map(([step, value], place) =>
    [step, place + 1 < pairs.length ? pairs[place + 1][0] : run.steps.length + 1, value]);
}

class Line {
  constructor(go) {
    this.svg = byId("line");
    scrub(this.svg, (x) => go(Math.round(this.stepAt(x))), () => {});
  }

  begin(run) {
    this.run = run;
    this.svg.setAttribute("aria-valuemax", run.steps.length);
    this.draw();
  }

  // Where a step stands: in the middle of its part of the width.
  x(step) {
    return ((step + 0.5) / (this.run.steps.length + 1)) * this.width;
  }

  stepAt(x) {
    return (x / this.width) * (this.run.steps.length + 1) - 0.5;
  }

  draw() {
    const { run } = this;
    this.width = Math.max(this.svg.clientWidth, 60);
    this.svg.setAttribute("viewBox", `0 0 ${this.width} ${LINE_HEIGHT}`);
    this.knob = drawn("g", { class: "knob" });
    this.knob.append(drawn("line", { y1: 2, y2: LINE_HEIGHT - 2 }),
      drawn("circle", { cy: 20, r: 7 }));
    this.view = drawn("rect", { class: "window", y: 13, height: 14, rx: 3 });
    this.svg.replaceChildren(...this.modes(), this.view, this.refusals(), ...this.pictures(),
      this.knob);
    if (run.at !== undefined) this.show();
  }

  modes() {
    return spans(this.run, "mode").map(([from, to, mode]) => drawn("rect", {
      class: `mode ${mode}`, x: this.x(from), y: 17, height: 6, rx: from === 0 ? 3 : 0,
      width: Math.max(this.x(Math.min(to, this.run.steps.length)) - this.x(from), 1),
    }));
  }

  // A red tick for each refused call, but one alone where many fall together.
  refusals() {
    const steps = this.run.steps.flatMap((step, place) => (step.isRefused() ? [place + 1] : []));
    const places = new Set(steps.map((step) => Math.round(this.x(step))));
    return drawn("path", {
      class: "refused", d: [...places].map((x) => `M${x} 14v12`).join(""),
    });
  }

  pictures() {
    return this.run.pictures.map(([name, step]) => {
      const group = drawn("g", { class: "picture", transform: `translate(${this.x(step)} 0)` });
      group.append(drawn("path", { d: "M0 12L-5 4H5Z" }), drawn("title", {}, name));
      return group;
    });
  }

  // While it plays, a screen reader is told no place.
  show(first = null, behind = null, isPlaying = false) {
    const { run } = this;
    this.knob.setAttribute("transform", `translate(${this.x(run.at)} 0)`);
    if (!isPlaying) {
      this.svg.setAttribute("aria-valuenow", run.at);
      this.svg.setAttribute("aria-valuetext", run.place());
    }
    if (first === null) return;
    const isPart = first > 0 || behind <= run.steps.length;
    this.view.setAttribute("visibility", isPart ? "visible" : "hidden");
    this.view.setAttribute("x", this.x(first));
    this.view.setAttribute("width",
      Math.max(this.x(Math.min(behind, run.steps.length)) - this.x(first), 2));
  }
}

// Calls `go` with the place at which the pointer is pressed and dragged, by mouse or by touch.
function scrub(element, go, end) {
  let isHeld = false;
  const place = (event) => event.clientX - element.getBoundingClientRect().left;
  element.addEventListener("pointerdown", (event) => {
    if (event.button !== 0) return;
    isHeld = true;
    element.setPointerCapture(event.pointerId);
    go(place(event));
  });
  element.addEventListener("pointermove", (event) => {
    if (isHeld) go(place(event));
  });
  for (const name of ["pointerup", "pointercancel"]) {
    element.addEventListener(name, () => {
      if (isHeld) end();
      isHeld = false;
    });
  }
}

class Lanes {
  constructor(go) {
    this.svg = byId("marks");
    this.first = 0;
    scrub(this.svg, (x) => {
      this.isHeld = true;
      go(this.first + Math.floor(x / this.column));
    }, () => {
      this.isHeld = false;
      this.show();
    });
  }

  begin(run) {
    this.run = run;
    this.first = 0;
    const labels = [made("span", "", run.hasUser ? "user" : "run")];
    run.clients.forEach((_, client) => labels.push(chip(run, client, "label")));
    byId("labels").replaceChildren(...labels);
    byId("legend").replaceChildren(...legend(run));
    this.fit();
  }

  fit() {
    const { run } = this;
    this.width = Math.max(this.svg.clientWidth, 60);
    this.height = USER_ROW + ROW * run.clients.length;
    this.svg.style.height = `${this.height}px`;
    this.svg.setAttribute("viewBox", `0 0 ${this.width} ${this.height}`);
    this.count = Math.min(Math.floor(this.width / LEAST_COLUMN), run.steps.length + 1);
    this.column = this.width / this.count;
  }

  y(client) {
    return client === null ? 20 : USER_ROW + ROW * client + 14;
  }

  x(step) {
    return (step - this.first + 0.5) * this.column;
  }

  // Moves the columns that are seen, so that the step stands among them and has some room.
  follow() {
    const { at, steps } = this.run;
    const room = Math.min(6, this.count >> 2);
    if (at - room < this.first) this.first = at - Math.floor(this.count / 2);
    if (at + room >= this.first + this.count) this.first = at - Math.floor(this.count / 2);
    this.first = Math.max(0, Math.min(this.first, steps.length + 1 - this.count));
  }

  show() {
    if (!this.isHeld) this.follow();
    const { run } = this;
    const behind = Math.min(this.first + this.count + 1, run.steps.length + 1);
    const parts = [this.cursor(), ...this.bands(behind), ...this.rows()];
    this.reasonEnds = [];
    for (let step = Math.max(this.first, 1); step < behind; step += 1) {
      parts.push(...this.stepMarks(step, run.steps[step - 1]));
    }
    this.svg.replaceChildren(...parts);
  }

  cursor() {
    const width = Math.min(this.column, WIDEST_CURSOR);
    return drawn("rect", {
      class: "cursor", x: this.x(this.run.at) - width / 2, y: 0, width, height: this.height, rx: 3,
    });
  }

  // The line of each row, up to where its session ends.
  rows() {
    const { run } = this;
    const line = (client, to) => drawn("line", {
      class: "row", x1: 0, x2: to, y1: this.y(client), y2: this.y(client),
    });
    const ends = run.clients.map((_, client) => {
      const end = run.tracks[`${client} state`].find(([, state]) => state !== "live");
      return line(client, end ? Math.max(this.x(end[0]), 0) : this.width);
    });
    return [line(null, this.width), ...ends];
  }

  // What lasts: the mode in the user's row, and in a client's row that it has the focus.
  bands(behind) {
    const seen = (name) => spans(this.run, name)
      .filter(([from, to]) => to > this.first && from < behind);
    const band = ([from, to], y, height, kind) => drawn("rect", {
      class: kind, x: this.x(from) - this.column / 2, y, height,
      width: (to - from) * this.column,
    });
    const modes = seen("mode").filter(([, , mode]) => mode !== "flat")
      .map((span) => band(span, 2, USER_ROW - 6, `mode ${span[2]}`));
    const focus = seen("focus").filter(([, , client]) => client !== null).map((span) =>
      colour(band(span, USER_ROW + ROW * span[2] + 1, ROW - 4, "focus"), span[2]));
    return [...modes, ...focus];
  }

  stepMarks(step, what) {
    const x = this.x(step);
    const parts = what.told.map(([client, item], place) =>
      this.delivery(x + (place - (what.told.length - 1) / 2) * 4, client, item));
    if (what.kind === "shot" || what.kind === "final") {
      parts.push(drawn("line", { class: "taken", x1: x, x2: x, y1: 12, y2: this.height }));
    }
    const mark = markOf(what, x, this.y(what.lane));
    mark.append(drawn("title", {}, what.plain));
    parts.push(mark);
    if (what.isRefused()) parts.push(...this.reason(step, what, x));
    return parts;
  }

  // From the user's row down to the client that gets it.
  delivery(x, client, item) {
    const y = this.y(client);
    const shaft = `M${x} ${this.y(null)}V${y - 3}`;
    const head = `M${x - 3.5} ${y - 7}L${x} ${y - 2}L${x + 3.5} ${y - 7}`;
    const kind = item === "kill" ? "delivery kill" : "delivery";
    const path = drawn("path", { class: kind, d: shaft + head });
    path.append(drawn("title", {}, `${this.run.label(client)}: ${item}`));
    return colour(path, client);
  }

  // Why a call was refused, in red below it where there is room.
  reason(step, what, x) {
    const words = what.text.split(" ");
    const text = what.kind === "wrong" ? what.why : words[what.kind === "clip" ? 3 : 2];
    const row = what.lane === null ? -1 : what.lane;
    const width = text.length * 5.6;
    const left = Math.max(0, Math.min(x - 5, this.width - width));
    if (left < (this.reasonEnds[row + 1] ?? -1)) return [];
    this.reasonEnds[row + 1] = left + width + 4;
    return [drawn("text", { class: "reason", x: left, y: this.y(what.lane) + 19 }, text)];
  }
}

// The mark of a step. Each kind has a form of its own.
function markOf(step, x, y) {
  const forms = {
    call: () => drawn("rect", { x: x - 2, y: y - 7, width: 4, height: 14, rx: 1.5 }),
    take: () => drawn("circle", { cx: x, cy: y, r: 4.5 }),
    refused: () => drawn("path", { d: `M${x - 5} ${y - 5}l10 10m0 -10l-10 10` }),
    wrong: () => drawn("path", { d: `M${x - 6} ${y - 6}l12 12m0 -12l-12 12` }),
    clip: () => drawn("path", { d: `M${x} ${y - 7}l6 7l-6 7l-6 -7Z` }),
    motion: () => drawn("circle", { cx: x, cy: y, r: 2.5 }),
    wheel: () => drawn("path", {
      d: `M${x} ${y - 7}v14M${x - 3} ${y - 4}l3 -3l3 3M${x - 3} ${y + 4}l3 3l3 -3`,
    }),
    press: () => drawn("path", { d: `M${x - 5.5} ${y - 5}h11l-5.5 10Z` }),
    release: () => drawn("path", { d: `M${x - 5.5} ${y + 5}h11l-5.5 -10Z` }),
    shot: () => drawn("path", { d: `M${x - 7} ${y - 5}h3l2 -3h4l2 3h3v10h-14Z` }),
  };
  forms.final = forms.shot;
  const mark = drawn("g", { class: `mark ${step.kind}${step.isRefused() ? " bad" : ""}` });
  mark.append(forms[step.kind]());
  return step.lane === null ? mark : colour(mark, step.lane);
}

// The marks, arrows and bands that this run has, each with its word.
function legend(run) {
  return [...legendMarks(run), ...legendArrows(run), ...legendBands(run)].map(([image, word]) => {
    const svg = drawn("svg", { viewBox: "-9 -9 18 18", width: 16, height: 16 });
    svg.append(image);
    return made("li", "", "", [svg, made("span", "", word)]);
  });
}

function legendMarks(run) {
  const words = {
    call: "call", take: "event taken", refused: "refused call", clip: "clip call",
    "clip bad": "refused clip call", motion: "motion", press: "press", release: "release",
    wheel: "wheel", shot: "picture", wrong: "no entry of a run",
  };
  const wordOf = ({ kind, why }) =>
    (kind === "final" ? words.shot : words[kind === "clip" && why ? "clip bad" : kind]);
  return Object.values(words).flatMap((word) => {
    const step = run.steps.find((one) => wordOf(one) === word);
    return step ? [[markOf(step, 0, 0), word]] : [];
  });
}

function legendArrows(run) {
  const told = run.steps.flatMap((step) => step.told);
  const arrow = (kind, word, pair) => (pair
    ? [[colour(drawn("path", { class: kind, d: "M0 -8V7M-3.5 3L0 8L3.5 3" }), pair[0]), word]]
    : []);
  return [
    ...arrow("delivery", "a client gets an event", told.find(([, item]) => item !== "kill")),
    ...arrow("delivery kill", "a client is locked out", told.find(([, item]) => item === "kill")),
  ];
}

function legendBands(run) {
  const has = (name, value) => run.tracks[name].some((pair) => pair[1] === value);
  const band = (kind) => drawn("rect", { class: kind, x: -9, y: -6, width: 18, height: 12 });
  const modes = ["xray", "kill"].filter((mode) => has("mode", mode))
    .map((mode) => [band(`mode ${mode}`), `${MODES[mode]} mode`]);
  const focused = run.tracks.focus.find((pair) => pair[1] !== null);
  return focused ? [...modes, [colour(band("focus"), focused[1]), "has the focus"]] : modes;
}

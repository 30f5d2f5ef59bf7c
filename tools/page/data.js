// What the page shows, and what holds behind a step of a run. All texts go into the document by
// `textContent` alone.

const HUES = [212, 150, 282, 42, 182, 318, 96, 244, 28, 196, 264, 122, 60, 300, 166, 228];
const MODES = { flat: "flat", xray: "X-ray", kill: "kill" };

function byId(id) {
  return document.getElementById(id);
}

// A new element with a class, a text and children.
function made(tag, kind = "", text = "", children = []) {
  const element = document.createElement(tag);
  if (kind) element.className = kind;
  if (text !== "") element.textContent = text;
  element.append(...children);
  return element;
}

// A new element of a drawing with its attributes.
function drawn(tag, attributes, text = "") {
  const element = document.createElementNS("http://www.w3.org/2000/svg", tag);
  for (const [name, value] of Object.entries(attributes)) element.setAttribute(name, value);
  if (text !== "") element.textContent = text;
  return element;
}

// A part that scrolls by itself, also by the keys, once it has the focus.
function scrolled(element, name) {
  element.classList.add("scrolled");
  element.tabIndex = 0;
  element.setAttribute("aria-label", name);
  return element;
}

// The last place in a sorted list whose key is at most this one, or -1.
function lastUpTo(list, key, keyOf) {
  let low = 0;
  let high = list.length;
  while (low < high) {
    const middle = (low + high) >> 1;
    if (keyOf(list[middle]) <= key) low = middle + 1;
    else high = middle;
  }
  return low - 1;
}

class Step {
  constructor([text, plain, lane, kind, why, told, entry]) {
    Object.assign(this, { text, plain, lane, kind, why, told, entry });
  }

  // Whether it stands in red.
  isRefused() {
    return this.kind === "refused" || this.kind === "wrong" || this.why !== "";
  }
}

class Run {
  constructor(given) {
    Object.assign(this, given);
    this.steps = given.steps.map((step) => new Step(step));
    this.entries = this.steps.filter((step) => step.entry !== null).length;
    this.hasUser = this.steps.some((step) => ["motion", "press", "wheel"].includes(step.kind));
    this.firstMotion = this.steps.findIndex((step) => step.kind === "motion") + 1;
    this.at = this.steps.length;
  }

  // Whether the page lays an arrow over the picture: from the journal's first motion on.
  hasArrow() {
    return this.firstMotion > 0 && this.at >= this.firstMotion;
  }

  // The value of a track behind so many steps.
  value(name, step = this.at) {
    const pairs = this.tracks[name];
    return pairs ? pairs[lastUpTo(pairs, step, (pair) => pair[0])][1] : null;
  }

  ofClient(client, name, step = this.at) {
    return this.value(`${client} ${name}`, step);
  }

  label(client) {
    return client === null ? "nobody" : this.clients[client].label;
  }

  step(number = this.at) {
    return number === 0 ? null : this.steps[number - 1];
  }

  // How a step is called.
  place(number = this.at) {
    const step = this.step(number);
    if (step === null) return "Before the first entry";
    if (step.entry === null) return `Clip call behind entry ${this.entryUpTo(number)}`;
    return `Entry ${step.entry} of ${this.entries}`;
  }

  entryUpTo(number) {
    let at = number;
    while (at > 0 && this.steps[at - 1].entry === null) at -= 1;
    return at === 0 ? 0 : this.steps[at - 1].entry;
  }

  // The step of an entry, or the last one where there is no such entry.
  stepOfEntry(entry) {
    if (entry === 0) return 0;
    return this.steps.findIndex((step) => step.entry === entry) + 1 || this.steps.length;
  }

  // A step in the page's address: `29` is entry 29, and `29.2` the second clip call behind it.
  address(number = this.at) {
    const entry = this.entryUpTo(number);
    const behind = number - this.stepOfEntry(entry);
    return behind === 0 ? `${entry}` : `${entry}.${behind}`;
  }

  stepOfAddress(address) {
    const [entry, behind = 0] = address.split(".").map(Number);
    return Math.min(this.stepOfEntry(entry) + behind, this.steps.length);
  }

  // The picture that the entries up to a step lead up to: its name and its step.
  pictureFrom(number) {
    return this.pictures.find(([, step]) => step >= number) ?? this.pictures.at(-1) ?? null;
  }
}

// Gives an element the colour of a client.
function colour(element, client) {
  element.style.setProperty("--hue", HUES[client % HUES.length]);
  element.classList.add("client");
  return element;
}

// A client's label with its dot.
function chip(run, client, kind = "chip") {
  if (client === null) return made("span", `${kind} nobody`, "nobody");
  return colour(made("span", kind, run.label(client)), client);
}

const runs = JSON.parse(byId("data").textContent).runs.map((run) => new Run(run));

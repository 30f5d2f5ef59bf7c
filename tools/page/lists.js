// Lists below the line of time: the pictures with the journal up to each, the refused calls, and
// what was checked.

const LINES_AT_ONCE = 300;
const SMALL_WIDTH = 512;
const SMALL_HEIGHT = 384;

// Fills a list with lines of the journal. A long one is filled part by part.
function fill(list, run, numbers, go, isPlain = false) {
  const add = (from) => {
    const part = numbers.slice(from, from + LINES_AT_ONCE);
    list.append(...part.map((number) => journalLine(run, number, go, isPlain)));
    const left = numbers.length - from - part.length;
    if (left === 0) return;
    const more = made("button", "more", `${left} more`);
    more.type = "button";
    const item = made("li", "", "", [more]);
    more.addEventListener("click", () => {
      item.remove();
      add(from + part.length);
    });
    list.append(item);
  };
  list.replaceChildren();
  add(0);
}

// How wide a small picture is: a whole number of its pixels fit into one of the screen's, or the
// other way round, so that labels can be read and checks have no moire.
function acrossOf({ width, height }) {
  const room = Math.min(SMALL_WIDTH / width, SMALL_HEIGHT / height);
  return room >= 1 ? width * Math.floor(room) : width / Math.ceil(1 / room);
}

function goButton(kind, go) {
  const button = made("button", kind);
  button.type = "button";
  button.addEventListener("click", go);
  return button;
}

// A picture beside the lines of the journal since the one before.
function pictureCard(run, place, go) {
  const [name, step] = run.pictures[place];
  const start = place === 0 ? 1 : run.pictures[place - 1][1] + 1;
  const canvas = made("canvas");
  canvas.setAttribute("role", "img");
  canvas.setAttribute("aria-label", name);
  canvas.style.setProperty("--ratio", run.width / run.height);
  const across = acrossOf(run);
  canvas.style.setProperty("--across", `${across}px`);
  const show = goButton(across < run.width ? "open smooth" : "open", () => go(step));
  show.append(canvas);
  show.title = `Go to ${name}`;
  const large = goButton("large", () => go(step));
  large.textContent = "see it large";
  const mode = run.value("mode", step);
  const caption = made("figcaption", "", "", [made("b", "", name),
    made("span", `mode ${mode}`, MODES[mode]), made("span", "", "focus"),
    chip(run, run.value("focus", step)), large]);
  const lines = scrolled(made("ol", "journal"), `The journal up to ${name}`);
  fill(lines, run, Array.from({ length: step - start + 1 }, (_, at) => start + at), go);
  new Picture(run, canvas).show(step);
  return made("article", "card picture", "", [made("figure", "", "", [show, caption]), lines]);
}

function showLists(run, go) {
  byId("gallery").hidden = run.pictures.length === 0;
  byId("pictures").replaceChildren(...run.pictures.map((_, place) => pictureCard(run, place, go)));
  const refused = run.steps.flatMap((step, place) => (step.isRefused() ? [place + 1] : []));
  byId("refusals").hidden = refused.length === 0;
  fill(scrolled(byId("refused"), "Refused calls"), run, refused, go, true);
  byId("checks").replaceChildren(...run.checks.map((check) => made("li", "", check)));
}

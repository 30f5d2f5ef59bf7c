// Pictures on canvases: each is put together from the PNG files of its run.

class Picture {
  constructor(run, canvas) {
    this.run = run;
    this.canvas = canvas;
    canvas.width = run.width;
    canvas.height = run.height;
    this.context = canvas.getContext("2d", { alpha: false });
    this.drawn = -1;
    this.wanted = -1;
  }

  // The place in the list of frames of the one to be seen at a step.
  placeAt(step) {
    const { frames, each } = this.run;
    if (each) return lastUpTo(frames, step, (frame) => frame[0]);
    const place = frames.findIndex((frame) => frame[0] >= step);
    return place < 0 ? frames.length - 1 : place;
  }

  isWhole(place) {
    const [x, y, width, height] = this.run.frames[place][1][0];
    return x === 0 && y === 0 && width === this.run.width && height === this.run.height;
  }

  // Where drawing has to begin for a frame.
  startOf(place) {
    let start = place;
    while (!this.isWhole(start)) {
      if (start - 1 === this.drawn) return start;
      start -= 1;
    }
    return start;
  }

  // The parts that are still to be drawn for a frame.
  parts(place) {
    return this.run.frames.slice(this.startOf(place), place + 1).flatMap((frame) => frame[1]);
  }

  // Shows the frame at a step. A later wish overtakes one that still waits.
  async show(step) {
    const place = this.placeAt(step);
    this.wanted = place;
    if (place < 0 || place === this.drawn) return;
    await Promise.all(this.parts(place).map((part) => loaded(this.run, part[4])));
    const parts = this.parts(place);
    const isReady = parts.every((part) => this.run.images[part[4]]);
    if (this.wanted !== place || this.drawn === place || !isReady) return;
    for (const [x, y, , , file] of parts) this.context.drawImage(this.run.images[file], x, y);
    this.drawn = place;
  }
}

// One of the PNG files of a run as an image that can be drawn.
function loaded(run, file) {
  run.images ??= [];
  run.loading ??= [];
  run.loading[file] ??= new Promise((done, failed) => {
    const image = new Image();
    image.onload = () => {
      run.images[file] = image;
      done();
    };
    image.onerror = () => failed(new Error(`picture ${file} cannot be read`));
    image.src = `data:image/png;base64,${run.files[file]}`;
  });
  return run.loading[file];
}

// The picture at the top of the page, with the pointer and the region on it.
class Stage {
  constructor() {
    this.screen = byId("screen");
    this.over = byId("over");
    new ResizeObserver(() => this.fit()).observe(this.screen);
  }

  begin(run) {
    this.run = run;
    const canvas = made("canvas");
    canvas.id = "canvas";
    canvas.setAttribute("role", "img");
    byId("canvas").replaceWith(canvas);
    this.picture = new Picture(run, canvas);
    this.screen.style.setProperty("--ratio", run.width / run.height);
    this.over.setAttribute("viewBox", `0 0 ${run.width} ${run.height}`);
    byId("size").textContent = `${run.width} × ${run.height} pixels`;
    this.screen.hidden = run.frames.length === 0;
    byId("film").hidden = run.region === null;
    this.fit();
  }

  // A picture that is larger than its place is smoothed: no dot of a label is lost.
  fit() {
    if (!this.run) return;
    const shown = this.screen.clientWidth * window.devicePixelRatio;
    this.screen.classList.toggle("smooth", shown < this.run.width);
    this.drawOver();
  }

  async show() {
    const { run } = this;
    const step = run.at;
    const caption = captionOf(run);
    byId("caption").textContent = caption.text;
    byId("laid").textContent = laidOver(run);
    byId("canvas").setAttribute("aria-label", caption.text);
    this.screen.classList.toggle("ahead", caption.isAhead);
    this.drawOver();
    await this.picture.show(step);
    if (run !== this.run || step !== run.at) return;
    byId("canvas").dataset.step = step;
    if (run.region !== null) cutOut(run.region);
  }

  // The pointer, and the region of a film.
  drawOver() {
    const { run } = this;
    const scale = run.width / Math.max(this.screen.clientWidth, 1);
    const parts = [];
    if (run.region !== null) {
      const [x, y, width, height] = run.region;
      parts.push(drawn("rect", { class: "region back", x, y, width, height }));
      parts.push(drawn("rect", { class: "region", x, y, width, height }));
    }
    if (run.hasArrow()) {
      const [x, y] = run.value("pointer");
      parts.push(drawn("path", {
        class: "pointer", d: "M0 0V17L4 13L7 20L10 18.5L7 12H13Z",
        transform: `translate(${x + 0.5} ${y + 0.5}) scale(${scale})`,
      }));
    }
    this.over.replaceChildren(...parts);
  }
}

// What the picture is, and whether it was taken later than the step.
function captionOf(run) {
  const exact = run.pictures.find(([, step]) => step === run.at);
  if (run.frames.length === 0) return { text: "An audit takes no pictures.", isAhead: false };
  if (exact) return { text: `${exact[0]}, as the program has left it`, isAhead: false };
  if (run.each) {
    const entry = run.entryUpTo(run.at);
    const place = entry === 0 ? "before the first entry" : `behind entry ${entry}`;
    return { text: `The frame ${place}, by the rules`, isAhead: false };
  }
  const [name, step] = run.pictureFrom(run.at);
  const isAhead = step > run.at;
  const what = isAhead ? "These entries lead to" : "Behind";
  return { text: `${what} ${name}, taken at entry ${run.entryUpTo(step)}`, isAhead };
}

// What of the picture is the page's own.
function laidOver(run) {
  if (run.frames.length === 0) return "";
  const arrow = "The arrow is the page's, where the pointer is.";
  const region = "The dashed lines are the page's, around what is filmed.";
  return [run.hasArrow() ? arrow : "", run.region === null ? "" : region].join(" ").trim();
}

// The film's picture: the region of the picture that is shown.
function cutOut([x, y, width, height]) {
  const cut = byId("cut");
  cut.width = width;
  cut.height = height;
  cut.getContext("2d").drawImage(byId("canvas"), x, y, width, height, 0, 0, width, height);
}

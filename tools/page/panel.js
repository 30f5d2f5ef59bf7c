// What holds behind a step, in words.

const NEAR = 12;

// A line of the journal that leads to its step, and in plain words where they are asked for.
function journalLine(run, number, go, isPlain = false) {
  const step = run.step(number);
  const entry = made("span", "number", step.entry === null ? "clip" : step.entry);
  const line = made("button", step.isRefused() ? "line bad" : "line", "",
    [entry, made("code", "", step.text)]);
  if (isPlain) line.append(made("span", "plain", step.plain));
  line.type = "button";
  line.title = step.plain;
  if (step.lane !== null) colour(line, step.lane);
  line.addEventListener("click", () => go(number));
  return made("li", "", "", [line]);
}

class Panel {
  constructor(go) {
    this.go = go;
  }

  show(run) {
    const step = run.step();
    byId("place").textContent = run.place();
    byId("text").textContent = step === null ? "" : step.text;
    byId("plain").replaceChildren(
      ...(step === null ? ["Nobody has done anything yet."] : plainParts(step)));
    byId("told").replaceChildren(...(step === null ? [] : told(run, step)));
    byId("state").replaceChildren(...stateOf(run, this.go));
    const near = byId("near");
    near.replaceChildren(...this.near(run));
    const line = near.querySelector("[aria-current]");
    if (line) near.scrollTop = line.offsetTop - (near.clientHeight - line.offsetHeight) / 2;
  }

  // The lines of the journal around the step.
  near(run) {
    const count = Math.min(2 * NEAR + 1, run.steps.length);
    const first = Math.max(1, Math.min(run.at - NEAR, run.steps.length - count + 1));
    return Array.from({ length: count }, (_, place) => {
      const line = journalLine(run, first + place, this.go);
      if (first + place === run.at) line.firstChild.setAttribute("aria-current", "step");
      return line;
    });
  }
}

// A step in plain words, what was refused in red.
function plainParts(step) {
  const why = step.kind === "wrong" ? step.plain : `Refused: ${step.why}.`;
  if (!step.isRefused() || !step.plain.endsWith(why)) return [step.plain];
  return [step.plain.slice(0, -why.length), made("span", "why", why)];
}

// Who got what at a step.
function told(run, step) {
  return step.told.map(([client, item]) =>
    made("li", item === "kill" ? "kill" : "", "", [chip(run, client), made("code", "", item)]));
}

// Since which entry the focus is where it is, and how it came there.
function sinceOf(run, go) {
  const since = run.value("since");
  if (since === null) return [];
  const [entry, how] = since;
  const link = made("button", "link", `entry ${entry}`);
  link.type = "button";
  link.addEventListener("click", () => go(run.stepOfEntry(entry)));
  return [made("span", "since", "", ["since ", link, `, ${how}`])];
}

function stateOf(run, go) {
  const rows = [["mode", made("span", `mode ${run.value("mode")}`, MODES[run.value("mode")])]];
  rows.push(["focus", chip(run, run.value("focus")), ...sinceOf(run, go)]);
  rows.push(["hover", chip(run, run.value("hover"))]);
  rows.push(["pointer", made("span", "", `(${run.value("pointer").join(", ")})`)]);
  const held = run.value("held");
  if (held.length > 0) {
    rows.push(["held", made("span", "", held.join(", "))]);
    rows.push(["goes to", chip(run, run.value("receiver"))]);
  }
  if (run.tracks.clipboard) {
    const text = run.value("clipboard");
    rows.push(["clipboard", text === null ? made("span", "nobody", "nothing")
      : made("code", "", `“${text}”`)]);
  }
  return rows.flatMap(([name, ...values]) => [made("dt", "", name), made("dd", "", "", values)]);
}

// A card for each client: what it has behind a step, and its events.
class Clients {
  begin(run) {
    this.run = run;
    this.cards = run.clients.map((client, place) => {
      const state = made("dl");
      const parts = [made("h3", "", "", [chip(run, place)]), state];
      if (client.events) parts.push(eventsOf(client));
      return { state, card: colour(made("article", "card", "", parts), place) };
    });
    byId("clients").replaceChildren(...this.cards.map(({ card }) => card));
  }

  show() {
    const { run } = this;
    this.cards.forEach(({ state, card }, client) => {
      const isLive = run.ofClient(client, "state") === "live";
      card.classList.toggle("ended", !isLive);
      card.classList.toggle("focused", run.value("focus") === client);
      const rows = this.rows(client);
      state.replaceChildren(...rows.flatMap(([name, value]) =>
        [made("dt", "", name), made("dd", "", value)]));
    });
  }

  rows(client) {
    const { run } = this;
    const has = (name) => run.ofClient(client, name);
    const own = [has("state")];
    if (run.value("focus") === client) {
      own.push(`has the focus since entry ${run.value("since")[0]}`);
    }
    if (run.value("hover") === client) own.push("is under the pointer");
    const [width, height] = has("buffer");
    const kept = run.clients[client];
    return [
      ["now", own.join(", ")],
      ["buffer", width === 0 ? "none" : `${width} × ${height}`],
      ["views", has("views")],
      ...(has("state") === "live" ? [["units", `${has("units")} of ${has("donation")} left, `
        + `${has("reserve")} in reserve`]] : []),
      ["events", `${has("queued")} queued, ${has("lost")} lost`],
      ["opened with", `${kept.donation} units, layer ${kept.layer}`
        + (kept.focus === "none" ? ", no focus by clicks" : "")],
    ];
  }
}

function eventsOf(client) {
  const list = scrolled(made("pre", "", client.events.join("\n")), `events of ${client.label}`);
  list.setAttribute("role", "group");
  const count = client.events.length - 3;
  return made("details", "", "", [made("summary", "", `its events: ${count} taken`), list]);
}

"use strict";
const data = JSON.parse(document.getElementById("data").textContent);
const total = data.at.length;
const KINDS = ["open", "yield", "end", "value"];
const LANE = 34, TOP = 34;
const GUTTER = Math.min(150, 24 + 7.3 * Math.max(8, ...data.streams.map(name => name.length)));
const at = id => document.getElementById(id);
const view = { from: 0, to: Math.max(data.rounds, 4) };
const isLed = new Uint8Array(total);
if (data.plan) for (const place of data.plan.led) isLed[place] = 1;

/** An element with a class and a text. */
function make(tag, className, text) {
  const made = document.createElement(tag);
  if (className) made.className = className;
  if (text !== undefined) made.textContent = text;
  return made;
}

/** An element of SVG. */
function draw(tag, attributes, text) {
  const made = document.createElementNS("http://www.w3.org/2000/svg", tag);
  for (const [name, value] of Object.entries(attributes)) made.setAttribute(name, value);
  if (text !== undefined) made.textContent = text;
  return made;
}

let lines = null;
/** The two lines of a request: what was asked, and what came. */
function linesOf(place) {
  lines ??= data.lines.split("\n");
  return [lines[2 * place], lines[2 * place + 1]];
}

/** The first request whose round is at or behind this one. */
function firstOf(round) {
  let low = 0, high = total;
  while (low < high) {
    const middle = (low + high) >> 1;
    if (data.at[middle] < round) low = middle + 1; else high = middle;
  }
  return low;
}

/** A number with what it counts. */
const counted = (count, word) => `${count.toLocaleString("en")} ${word}${count === 1 ? "" : "s"}`;

function showHead() {
  at("name").textContent = data.name;
  at("ending").textContent = data.ending;
  at("ending").classList.toggle("fault", /^(fault|cut off)/.test(data.ending));
  const [calls, states, depth] = data.limits;
  const turns = data.turnWords.map((kind, place) => [kind, data.turnCounts[place]]).filter(pair => pair[1]);
  const said = [`${data.mode} mode`, `${counted(total, "request")} in ${counted(data.rounds, "round")}`,
    ...turns.map(([kind, count]) => kind === "none" ? `${count.toLocaleString("en")} none` : counted(count, kind)),
    `limits: ${calls.toLocaleString("en")} calls, ${states.toLocaleString("en")} states, depth ${depth}`];
  at("head").textContent = said.join(" · ");
}

/** A button that shows a request in its lane. */
function originButton(place) {
  const [, number, , ...asked] = linesOf(place)[0].split(" ");
  const made = make("button", "origin mono", `request ${number}: ${asked.join(" ")}`);
  made.type = "button";
  made.onclick = () => showRequest(place);
  return made;
}

function showPlan() {
  if (!data.plan) return;
  at("plan-section").hidden = false;
  const row = at("plan"), fade = () => row.classList.toggle("more", row.scrollLeft + row.clientWidth < row.scrollWidth - 2);
  row.addEventListener("scroll", fade);
  window.addEventListener("resize", fade);
  data.plan.steps.forEach((step, place) => {
    const card = make("li", "step");
    const title = make("b");
    title.append(make("span", "number", place + 1), step.name);
    card.append(title);
    for (const [name, origin] of step.args) {
      card.append(make("span", "object mono", name));
      if (origin >= 0) card.append(originButton(origin));
    }
    at("plan").append(card);
  });
  if (!data.plan.steps.length) at("plan").append(make("li", "", "no step: the goal holds in the initial state"));
  fade();
}

function showCounts() {
  if (!data.counts.length) return;
  at("count-section").hidden = false;
  const row = (cells, tag) => {
    const made = make("tr");
    for (const cell of cells) made.append(make(tag, "", typeof cell === "number" ? cell.toLocaleString("en") : cell));
    at("counts").append(made);
  };
  row(["stream", "asked", "yield", "end", "value", "open"], "th");
  data.counts.forEach(cells => row(cells, "td"));
}

/** One dream: its steps, what it supposes, and what became of that. */
function dreamCard(dream) {
  const card = make("div", dream.won ? "dream won" : "dream");
  card.append(make("b", "", `dream ${dream.n}`), make("p", "", dream.fate));
  const steps = make("ul", "mono"), uses = make("ul", "mono");
  dream.steps.forEach(step => steps.append(make("li", "", step)));
  for (const [text, place] of dream.uses) {
    const came = place < 0 ? "not asked" : `${linesOf(place)[0].split(" ")[1]}: ${linesOf(place)[1]}`;
    uses.append(make("li", place < 0 ? "none" : "", `${text} → ${came}`));
  }
  card.append(make("p", "", "steps"), steps, make("p", "", "supposes"), uses);
  return card;
}

let dreamsShown = 0;
function showDreams(count) {
  if (!data.dreams.length) return;
  at("dream-section").hidden = false;
  for (const end = Math.min(dreamsShown + count, data.dreams.length); dreamsShown < end; dreamsShown++)
    at("dreams").append(dreamCard(data.dreams[dreamsShown]));
  const left = data.dreams.length - dreamsShown, beyond = data.dreamCount - data.dreams.length;
  at("more").hidden = !left;
  at("more").textContent = `${left} more${beyond ? ` (and ${beyond} that the page leaves out)` : ""}`;
  at("more").onclick = () => showDreams(60);
}

function showLegend() {
  for (const [kind, text] of [["yield", "yield"], ["end", "end"], ["value", "value"], ["open", "no answer"], ["led", "gave what the plan has"]]) {
    const made = make("span");
    made.append(make("i", kind), text);
    at("legend").append(made);
  }
}

const width = () => at("lanes").clientWidth || 1000;
const column = () => (width() - GUTTER - 8) / (view.to - view.from);
const across = round => GUTTER + (round - view.from) * column();
const rect = (x, y, w, h) => `M${x.toFixed(1)} ${y.toFixed(1)}h${w.toFixed(1)}v${h.toFixed(1)}h${(-w).toFixed(1)}z`;

/** How many requests of each kind each stream has in each column, and where one led to the plan. */
function columnsOf(size) {
  const count = Math.ceil((view.to - view.from) / size) + 1;
  const found = data.streams.map(() => ({ counts: new Int32Array(4 * count), led: new Uint8Array(count), count }));
  for (let place = firstOf(view.from); place < total && data.at[place] < view.to; place++) {
    const lane = found[data.lanes[place]], key = Math.floor((data.at[place] - view.from) / size);
    lane.counts[4 * key + data.kinds[place]]++;
    lane.led[key] |= isLed[place];
  }
  return found;
}

/** The most requests that one column of a lane has. */
function mostOf(lane) {
  let most = 1;
  for (let key = 0; key < 4 * lane.count; key += 4)
    most = Math.max(most, lane.counts[key] + lane.counts[key + 1] + lane.counts[key + 2] + lane.counts[key + 3]);
  return most;
}

/** The paths of one lane, one for each kind of answer, and the frames of what led to the plan. */
function lanePaths(lane, top, size) {
  const step = column() * size, wide = step > 3 ? Math.min(step - 1, 26) : step, unit = (LANE - 10) / mostOf(lane);
  const paths = ["", "", "", ""], base = top + LANE - 5;
  let frames = "";
  for (let key = 0; key < lane.count; key++) {
    const x = across(view.from + key * size);
    let y = base;
    for (const kind of [1, 3, 2, 0]) {
      const height = lane.counts[4 * key + kind] * unit;
      if (!height) continue;
      paths[kind] += rect(x, y - height, wide, Math.max(height - (unit > 4 ? 1 : 0), .6));
      y -= height;
    }
    if (lane.led[key]) frames += rect(x - 1.5, y - 1.5, Math.max(wide + 3, 5), base - y + 2);
  }
  return [paths, frames];
}

/** The line of each turn's beginning; of those at one place one label, where there is room. */
function drawTurns(svg, bottom) {
  const paths = data.turnWords.map(() => ""), labels = new Map(), drawn = data.turns.filter(([round]) => round >= view.from && round <= view.to);
  const end = drawn.length > width() / 12 ? TOP - 2 : bottom;
  for (const [round, kind, number] of drawn) {
    const x = (across(round) - .5).toFixed(1), label = `${data.turnWords[kind]}${number ? ` ${number}` : ""}`;
    if (!labels.has(x)) paths[kind] += `M${x} ${TOP - 8}V${end}`;
    labels.set(x, labels.has(x) ? `${labels.get(x)}, ${label}` : label);
  }
  const free = [0, 0];
  for (const [x, label] of labels) {
    const row = free.findIndex(end => Number(x) >= end);
    if (row < 0 || Number(x) + 7 * label.length > width()) continue;
    svg.append(draw("text", { x: Number(x) + 2, y: 11 + 12 * row, class: "soft" }, label));
    free[row] = Number(x) + 7 * label.length + 12;
  }
  paths.forEach((path, kind) => path && svg.append(draw("path", { d: path, class: `turn turn-${data.turnWords[kind]}` })));
}

function drawLanes() {
  const svg = at("lanes"), bottom = TOP + data.streams.length * LANE, size = Math.max(1, Math.ceil(2 / column()));
  svg.replaceChildren();
  svg.setAttribute("height", bottom + 22);
  data.streams.forEach((stream, lane) => {
    if (lane % 2 === 0) svg.append(draw("rect", { x: 0, y: TOP + lane * LANE, width: "100%", height: LANE, class: "band" }));
  });
  drawTurns(svg, bottom);
  columnsOf(size).forEach((lane, place) => {
    const [paths, frames] = lanePaths(lane, TOP + place * LANE, size);
    paths.forEach((path, kind) => path && svg.append(draw("path", { d: path, class: KINDS[kind] })));
    if (frames) svg.append(draw("path", { d: frames, class: "led" }));
    const name = data.streams[place], short = name.length > 19 ? `${name.slice(0, 18)}…` : name;
    svg.append(draw("text", { x: 8, y: TOP + place * LANE + LANE / 2 + 4 }, short));
  });
  svg.append(draw("rect", { x: -99, y: TOP, width: 1, height: bottom - TOP, class: "cursor", id: "cursor" }));
  const ofRound = (round) => `round ${round.toLocaleString("en")}`;
  const end = { x: Math.min(width() - 8, across(data.rounds)), y: bottom + 16, class: "soft", "text-anchor": "end" };
  svg.append(draw("text", { x: GUTTER, y: bottom + 16, class: "soft" }, ofRound(Math.floor(view.from) + 1)));
  svg.append(draw("text", end, ofRound(Math.min(Math.ceil(view.to), data.rounds))));
}

/** Zooms so that a round stays where it is. */
function zoom(factor, round) {
  const span = Math.min(Math.max((view.to - view.from) * factor, 4), Math.max(data.rounds, 4));
  const share = (round - view.from) / (view.to - view.from);
  view.from = Math.min(Math.max(round - share * span, 0), Math.max(data.rounds - span, 0));
  view.to = view.from + span;
  drawLanes();
}

const told = place => linesOf(place).join("\n    ");
const roundAt = x => view.from + (x - GUTTER) / column();

/** Says what was asked in a column of a lane. */
function showDetail(x, y) {
  const size = Math.max(1, Math.ceil(2 / column())), key = Math.floor((roundAt(x) - view.from) / size);
  const lane = Math.floor((y - TOP) / LANE), from = view.from + key * size;
  if (x < GUTTER || key < 0 || from >= data.rounds) return;
  at("cursor").setAttribute("x", across(from));
  at("cursor").setAttribute("width", Math.max(column() * size, 1));
  const found = [];
  for (let place = firstOf(from); place < total && data.at[place] < from + size; place++)
    if (data.lanes[place] === lane) found.push(place);
  const more = found.length > 8 ? `\n.. and ${found.length - 8} more: zoom in` : "";
  at("detail").textContent = found.length ? found.slice(0, 8).map(told).join("\n") + more : `round ${Math.floor(from) + 1}`;
}

/** Zooms to a request and says what it was. */
function showRequest(place) {
  const span = Math.min(Math.max(data.rounds, 4), 40), round = data.at[place];
  view.from = Math.min(Math.max(round - span / 2, 0), Math.max(data.rounds - span, 0));
  view.to = view.from + span;
  drawLanes();
  at("cursor").setAttribute("x", across(round));
  at("cursor").setAttribute("width", Math.max(column(), 1));
  at("detail").textContent = told(place);
  at("lanes").scrollIntoView({ block: "nearest" });
}

function listen() {
  const svg = at("lanes"), spot = event => event.clientX - svg.getBoundingClientRect().left;
  let held = null;
  svg.addEventListener("wheel", event => {
    event.preventDefault();
    zoom(event.deltaY > 0 ? 1.25 : .8, roundAt(Math.max(spot(event), GUTTER)));
  }, { passive: false });
  svg.addEventListener("pointerdown", event => { held = roundAt(spot(event)); });
  window.addEventListener("pointerup", () => { held = null; });
  svg.addEventListener("pointermove", event => {
    if (held === null) { showDetail(spot(event), event.clientY - svg.getBoundingClientRect().top); return; }
    const moved = Math.min(Math.max(view.from + held - roundAt(spot(event)), 0), Math.max(data.rounds - (view.to - view.from), 0));
    view.to += moved - view.from;
    view.from = moved;
    drawLanes();
  });
  at("all").onclick = () => { view.from = 0; view.to = Math.max(data.rounds, 4); drawLanes(); };
  at("in").onclick = () => zoom(.5, (view.from + view.to) / 2);
  at("out").onclick = () => zoom(2, (view.from + view.to) / 2);
  window.addEventListener("resize", drawLanes);
}

showHead();
showPlan();
showCounts();
showDreams(30);
if (total) {
  at("lane-section").hidden = false;
  view.to = Math.max(data.rounds, 4);
  showLegend();
  at("detail").textContent = "Point at a request to see it; the wheel zooms, and dragging moves.";
  drawLanes();
  listen();
}
document.documentElement.dataset.milliseconds = Math.round(performance.now());

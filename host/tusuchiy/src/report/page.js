// The report's script: lists, filters and draws what stands in the page. It makes text, never markup, and asks nobody for anything.
"use strict";
(() => {
const PAGE = 50, PRINTED = 300, PICTURES = 20, SLICE = 12, KEPT_BLOCKS = 400;
const byId = (id) => document.getElementById(id);
const read = (id) => JSON.parse(byId(id).textContent);
const grouped = (number) => String(number).replace(/\B(?=(\d{3})+$)/g, ",");
const capital = (word) => word[0].toUpperCase() + word.slice(1);
const kind = (number) => (number < 20 ? "refusal" : "rule");

const data = read("data"), index = read("index");
const meanings = new Map(data.meanings);
const fault = (place) => ({ file: index[4 * place], line: index[4 * place + 1], number: index[4 * place + 2], stop: index[4 * place + 3] });

// once FUNCTION: what it gives, made when it is first asked for.
const once = (make) => { let made; return () => (made === undefined ? (made = make()) : made); };
// The stops by their lines: of very many only those that findings name, and some of the others.
const stops = once(() => new Map(read("stops").map((stop) => [stop[0], stop])));
const trips = once(() => read("trips"));
const stopName = (line) => { const stop = stops().get(line); return stop ? stop[4] || stop[3] : `line ${line} of stops.txt`; };

const blocks = new Map();
// What is said of a finding or a fault: words, lines, trip, column. Blocks are parsed when they are needed.
function row(place) {
  const number = Math.floor(place / data.block);
  if (!blocks.has(number)) {
    if (blocks.size >= KEPT_BLOCKS) blocks.clear();
    blocks.set(number, read("block-" + number));
  }
  const [words, lines, trip, column] = blocks.get(number)[place % data.block];
  return { words, lines, trip, column };
}

// An element: attributes, handlers (functions), and children, which are elements or text.
function fill(element, attributes, children) {
  for (const [name, value] of Object.entries(attributes || {})) {
    if (typeof value === "function") element.addEventListener(name, value);
    else if (value !== false && value !== null) element.setAttribute(name, value === true ? "" : value);
  }
  element.append(...children.filter((child) => child !== null));
  return element;
}
const el = (tag, attributes, ...children) => fill(document.createElement(tag), attributes, children);
const draw = (tag, attributes, ...children) => fill(document.createElementNS("http://www.w3.org/2000/svg", tag), attributes, children);

// The list.

const chosen = { file: 0, number: 0, stop: 0, text: "" };
let found = [], page = 0, search = 0;

const pieceText = (piece) => (typeof piece === "string" ? piece : typeof piece === "number" ? "" : piece[0]);
function haystack(place) {
  const { file, line, number } = fault(place), { words, lines } = row(place);
  const text = lines.map(([, , pieces]) => pieces.map(pieceText).join("")).join("\n");
  return `${data.files[file - 1]}:${line} ${kind(number)} ${number} ${words}\n${text}`.toLowerCase();
}

const quick = (at) => (!chosen.file || at.file === chosen.file) && (!chosen.number || at.number === chosen.number) && (!chosen.stop || at.stop === chosen.stop);

// Goes through all findings in slices of a few milliseconds, so that the page never stands still.
function choose(then) {
  const turn = ++search, text = chosen.text.trim().toLowerCase();
  const next = [];
  let place = 0;
  const slice = () => {
    if (turn !== search) return;
    const until = performance.now() + SLICE;
    for (; place < data.total; place++) {
      if (quick(fault(place)) && (!text || haystack(place).includes(text))) next.push(place);
      if ((place & 63) === 63 && performance.now() > until) { place++; break; }
    }
    if (place < data.total) {
      byId("status").textContent = "Searching …";
      setTimeout(slice, 0);
      return;
    }
    found = next;
    page = 0;
    show();
    if (then) then();
  };
  slice();
}

const pageCount = () => Math.max(1, Math.ceil(found.length / PAGE));

function show(all) {
  const from = all ? 0 : page * PAGE, until = Math.min(found.length, all ? PRINTED : from + PAGE);
  const drawn = new Set(), list = byId("list");
  list.replaceChildren(...found.slice(from, until).map((place) => card(place, drawn)));
  list.start = from + 1;
  list.querySelectorAll("details[data-trip][open]").forEach(drawTrip);
  byId("status").textContent = count(from, until);
  for (const id of ["pages-above", "pages-below"]) showPages(byId(id));
  document.querySelectorAll("#totals tbody tr").forEach((line) => line.classList.toggle("chosen", Number(line.dataset.number) === chosen.number));
  byId("stop-filter").hidden = !chosen.stop;
  byId("stop-filter-name").textContent = chosen.stop ? `Only the stop ${stopName(chosen.stop)}, line ${chosen.stop} of stops.txt.` : "";
  document.documentElement.dataset.ready = String(search);
}

// Which findings are shown, of how many.
function count(from, until) {
  const word = data.word + (found.length === 1 ? "" : "s");
  if (!found.length) return `No ${data.word} fits the filter, of ${grouped(data.all)} in all`;
  const range = found.length > until - from ? `${grouped(from + 1)} to ${grouped(until)} of ` : "";
  const all = found.length < data.all ? `, of ${grouped(data.all)} in all` : "";
  return range + grouped(found.length) + " " + word + all;
}

function turnTo(wanted, focus) {
  page = Math.min(Math.max(0, wanted), pageCount() - 1);
  show();
  byId("findings").scrollIntoView();
  if (focus) byId("findings").focus({ preventScroll: true });
}

function showPages(nav) {
  const last = pageCount() - 1;
  nav.hidden = last === 0;
  const button = (text, to, label, able) => el("button", { type: "button", "aria-label": label, "data-to": to, disabled: !able, click: () => turnTo(to, true) }, text);
  const input = el("input", { type: "number", min: 1, max: last + 1, value: page + 1, "aria-label": "Page", change: (event) => turnTo(Number(event.target.value) - 1, true) });
  nav.replaceChildren(
    button("First", 0, "First page", page > 0), button("Previous", page - 1, "Previous page", page > 0),
    el("span", {}, "Page "), input, el("span", {}, `of ${grouped(last + 1)}`),
    button("Next", page + 1, "Next page", page < last), button("Last", last, "Last page", page < last));
}

function card(place, drawn) {
  const { file, line, number, stop } = fault(place), { words, lines, trip, column } = row(place);
  const where = [data.files[file - 1], line ? `line ${grouped(line)}` : null, column].filter(Boolean).join(", ");
  const rule = `${capital(kind(number))} ${number}: ${meanings.get(number)}`;
  const open = trip >= 0 && !drawn.has(trip) && drawn.size < PICTURES;
  if (open) drawn.add(trip);
  return el("li", { class: `finding ${kind(number)}`, "data-place": place },
    el("h3", {}, el("span", { class: "where" }, where), el("span", { class: "rule" }, rule)),
    words ? el("p", { class: "words" }, words) : null,
    lines.length ? el("div", { class: "lines" }, ...lines.map((shown) => oneLine(shown, file, line))) : null,
    trip >= 0 ? tripDetails(trip, file === 5 ? line : 0, open) : null,
    stop && file === 5 ? el("p", { class: "note" }, "At the stop ", stopButton(stop), ".") : null,
    el("details", {}, el("summary", {}, "What it means and how to mend it"), meaningOf(number)));
}

// The place for a time diagram, which is drawn when it is opened.
const tripDetails = (trip, line, open) =>
  el("details", { class: "diagram", open, "data-trip": trip, "data-line": line, toggle: (event) => drawTrip(event.target) },
    el("summary", {}, "The trip's times as a picture"));

const stopButton = (line) => el("button", { type: "button", class: "link", "data-stop": line, click: () => chooseStop(line) }, stopName(line));

// The rule's section of this page, once more.
function meaningOf(number) {
  const body = document.querySelector(`#rule-${number} .body`);
  return body ? body.cloneNode(true) : el("p", {}, meanings.get(number));
}

function oneLine([file, line, pieces], ownFile, ownLine) {
  const own = file === ownFile && line === ownLine;
  const place = file === ownFile ? `${line}` : `${data.files[file - 1]} ${line}`;
  return el("div", { class: own ? "one-line own-line" : "one-line other" }, el("span", { class: "place" }, place), el("span", { class: "line-text" }, ...lineText(pieces)));
}

// A line's pieces as elements. What lies between commas that stand alone is a field, or a line without letters that go from right to left: its
// direction is its own, so that fields stand in the line's order.
function lineText(pieces) {
  const parts = [el("bdi")];
  for (const piece of pieces) {
    if (piece === ",") parts.push(",", el("bdi"));
    else if (typeof piece === "number") parts.push(el("span", { class: "gap" }, ` … ${grouped(piece)} bytes … `), el("bdi"));
    else parts[parts.length - 1].append(typeof piece === "string" ? piece : el("mark", { class: piece[0] ? false : "empty", title: piece[1] }, piece[0]));
  }
  return parts.filter((part) => part === "," || part.hasChildNodes());
}

// The time diagram of a trip: time goes right, the trip's lines go down in the order of stop_sequence.

const ROWS = 60;
const clock = (seconds, whole) => {
  const two = (number) => String(number).padStart(2, "0");
  return `${two(Math.floor(seconds / 3600))}:${two(Math.floor(seconds / 60) % 60)}${whole || seconds % 60 ? ":" + two(seconds % 60) : ""}`;
};

// Of a long trip the rows around the one that matters.
function rowsAround(lines, line) {
  if (lines.length <= ROWS) return lines;
  const at = Math.max(0, lines.findIndex((one) => one[0] === line));
  const from = Math.min(Math.max(0, at - ROWS / 2), lines.length - ROWS);
  return lines.slice(from, from + ROWS);
}

const timed = (one) => one[2] >= 0 && one[3] >= 0;

// For each line that falls the timed line with a smaller sequence that departs last, if that is after it arrives. The lines are in the order of
// sequence and are walked along once: a trip may have a million.
function fallsOf(lines) {
  const falls = new Map();
  // The one that departs last of all lines so far, and of those with a smaller sequence than the line that is looked at.
  let latest = null, before = null, sequence = null;
  for (const one of lines) {
    if (one[1] !== sequence) { before = latest; sequence = one[1]; }
    if (!timed(one)) continue;
    if (before && before[3] > one[2]) falls.set(one, before);
    if (!latest || one[3] > latest[3]) latest = one;
  }
  return falls;
}

function ticks(from, until, most) {
  const steps = [1, 5, 10, 30, 60, 300, 600, 900, 1800, 3600, 7200, 10800, 21600, 43200, 86400];
  const step = steps.find((seconds) => (until - from) / seconds <= most) || 86400;
  const all = [];
  for (let at = Math.ceil(from / step) * step; at <= until; at += step) all.push(at);
  return all;
}

function drawTrip(details) {
  if (!details.open || details.lastChild.nodeName !== "SUMMARY") return;
  const [id, all] = trips()[Number(details.dataset.trip)];
  const width = Math.max(280, details.clientWidth);
  details.append(diagram(id, all, Number(details.dataset.line), width));
}

function diagram(id, all, line, width) {
  const lines = rowsAround(all, line), falls = fallsOf(all), height = 26, top = 30, bottom = top + lines.length * height;
  const left = Math.min(260, width * .42), right = width - 34;
  const times = lines.flatMap((one) => [one[2], one[3]]).filter((time) => time >= 0);
  const from = Math.min(...times), until = Math.max(...times, from + 1);
  const x = (time) => left + 14 + (time - from) / (until - from) * (right - left - 14);
  const y = (place) => top + place * height + height / 2;
  const at = { x, y, left, width, height, most: Math.floor(left / 7) - 4 };
  const picture = draw("svg", { role: "img", viewBox: `0 0 ${width} ${bottom + 8}`, height: bottom + 8, "aria-label": spoken(id, all, falls, line) });
  for (const time of times.length ? ticks(from, until, Math.max(2, Math.floor((right - left) / 80))) : []) {
    picture.append(draw("path", { class: "grid", d: `M${x(time)} ${top - 6}V${bottom}` }),
      draw("text", { x: x(time), y: top - 12, "text-anchor": "middle" }, clock(time)));
  }
  lines.forEach((one, place) => picture.append(...drawRow(one, place, { ...at, here: one[0] === line })));
  picture.append(...drawRuns(lines, at));
  lines.forEach((one, place) => picture.append(...drawFall(falls.get(one), lines, one, place, at)));
  lines.forEach((one, place) => {
    if (timed(one)) picture.append(draw("path", { class: one[3] < one[2] ? "back" : "wait", d: `M${x(one[2])} ${y(place)}H${x(one[3]) + .01}` }));
  });
  const note = `${lines.length} of the trip's ${grouped(all.length)} lines.`;
  return el("div", { class: "picture" }, picture, lines.length < all.length ? el("p", { class: "note" }, note) : null);
}

// From each timed line to the next, where time goes on.
function drawRuns(lines, { x, y }) {
  const runs = [];
  let last = -1;
  lines.forEach((one, place) => {
    if (!timed(one)) return;
    if (last >= 0 && lines[last][3] <= one[2]) runs.push(draw("path", { class: "run", d: `M${x(lines[last][3])} ${y(last)}L${x(one[2])} ${y(place)}` }));
    last = place;
  });
  return runs;
}

function drawRow(one, place, { x, y, left, width, height, most, here }) {
  const name = `${one[1]}  ${one[4] ? stopName(one[4]) : "no such stop"}`;
  const cut = name.length > most ? name.slice(0, Math.max(1, most - 1)) + "…" : name;
  const parts = [draw("path", { class: "row-line", d: `M0 ${y(place) + height / 2}H${width}` }),
    draw("text", { x: 4, y: y(place) + 4, class: here ? "here" : false }, cut, draw("title", {}, `line ${one[0]}, stop_sequence ${name}`))];
  if (here) parts.unshift(draw("rect", { class: "row-here", x: 0, y: y(place) - height / 2, width, height }));
  const lone = one[2] >= 0 ? one[2] : one[3];
  const words = lone >= 0 ? "one time only" : "no times";
  if (!timed(one)) parts.push(draw("text", { x: lone >= 0 ? x(lone) : left + 14, y: y(place) + 4, class: "bad" }, words));
  return parts;
}

// The step that falls: from a departure to an arrival before it.
function drawFall(before, lines, one, place, { x, y }) {
  if (!before) return [];
  // A row that isn't shown lies above the first one.
  const from = [x(before[3]), y(lines.indexOf(before))], to = [x(one[2]), y(place)];
  const long = Math.hypot(to[0] - from[0], to[1] - from[1]) || 1;
  const [right, down] = [(to[0] - from[0]) / long, (to[1] - from[1]) / long];
  // The head's two hind corners: twelve back, five to either side.
  const corner = (side) => `${to[0] - right * 12 - down * side * 5} ${to[1] - down * 12 + right * side * 5}`;
  return [draw("path", { class: "fall", d: `M${from[0]} ${from[1]}L${to[0]} ${to[1]}` }),
    draw("path", { class: "head", d: `M${to[0]} ${to[1]}L${corner(1)}L${corner(-1)}z` })];
}

function spoken(id, all, falls, line) {
  const first = [...falls].slice(0, 3).map(([one, before]) =>
    `line ${one[0]} arrives at ${clock(one[2], true)}, before line ${before[0]} departs at ${clock(before[3], true)}`);
  return `Time diagram of the trip ${id} with ${all.length} lines${line ? `, line ${line} marked` : ""}${first.length ? ": " + first.join("; ") : ""}`;
}

// The map.

const faulty = new Map();
const view = { scale: 1, x: 0, y: 0 };
let ground = null;

function countFaulty() {
  for (let place = 0; place < data.total; place++) {
    const { file, stop } = fault(place);
    if (!stop) continue;
    const count = faulty.get(stop) || { own: 0, calls: 0 };
    if (file === 1) count.own++; else count.calls++;
    faulty.set(stop, count);
  }
}

// A generic node or a boarding area may have no coordinates: it is on no map.
const hasPlace = ([, lat]) => lat !== null;

// Where each stop that has a place lies in a square of 10,000: degrees, narrowed by the latitude.
function project() {
  const all = [...stops().values()].filter(hasPlace), bounds = [Infinity, -Infinity, Infinity, -Infinity];
  for (const [, lat, lon] of all) {
    bounds[0] = Math.min(bounds[0], lat); bounds[1] = Math.max(bounds[1], lat);
    bounds[2] = Math.min(bounds[2], lon); bounds[3] = Math.max(bounds[3], lon);
  }
  const [south, north, west, east] = bounds.map((number) => number / 1e7);
  const narrow = Math.max(.05, Math.cos((south + north) / 2 * Math.PI / 180));
  const size = Math.max(north - south, (east - west) * narrow, .002) / 10000;
  const place = (lat, lon) => [(lon - (west + east) / 2) * narrow / size, ((south + north) / 2 - lat) / size];
  return { size, narrow, middle: [(south + north) / 2, (west + east) / 2], place,
    wide: (east - west) * narrow / size, high: (north - south) / size,
    points: new Map(all.map(([line, lat, lon]) => [line, place(lat / 1e7, lon / 1e7)])) };
}

const onMap = (lines) => [...lines].filter((line) => ground.points.has(line));
const dots = (lines) => onMap(lines).map((line) => { const [x, y] = ground.points.get(line); return `M${x.toFixed(1)} ${y.toFixed(1)}h.01`; }).join("");

function startMap() {
  if (![...stops().values()].some(hasPlace)) return;
  byId("map-section").hidden = false;
  countFaulty();
  ground = project();
  const own = [...faulty.keys()].filter((line) => faulty.get(line).own), calls = [...faulty.keys()].filter((line) => !faulty.get(line).own);
  const plain = [...ground.points.keys()].filter((line) => !faulty.has(line));
  const layer = (name, lines) => draw("path", { class: name, d: dots(lines) });
  ground.layer = draw("g", { class: faulty.size > 300 ? "dense" : false }, layer("stop", plain), layer("call", calls), layer("call-hole", calls), layer("own", own));
  ground.grid = draw("g", {});
  ground.labels = draw("g", {});
  ground.svg = draw("svg", { role: "img", "aria-label": mapWords(own.length, calls.length) }, ground.grid, ground.layer, ground.labels);
  byId("map").append(ground.svg);
  byId("map-note").textContent = mapWords(own.length, calls.length) + (faulty.size ? " Choose one for its findings." : "");
  showLegend(own.length, calls.length);
  showFaulty(8);
  byId("faulty-heading").hidden = !faulty.size;
  listenToMap();
  fit();
}

function mapWords(own, calls) {
  const placed = ground.points.size, more = stops().size - placed, some = stops().size < data.stops;
  const of = some ? ` of ${grouped(data.stops)}` : "", without = more && !some ? `, ${grouped(more)} more without any` : "";
  const count = `${grouped(placed)}${of} stops by their coordinates${without}`;
  if (!own && !calls) return `${count}, none with a finding.`;
  return `${count}, ${grouped(own + calls)} with findings${data.total < data.all ? " that are listed" : ""}.`;
}

function showLegend(own, calls) {
  const dot = (name) => draw("path", { class: name, d: "M0 0h.01" });
  const sign = (...names) => draw("svg", { width: 18, height: 18, viewBox: "-9 -9 18 18", "aria-hidden": "true" }, ...names.map(dot));
  const items = [
    own ? [sign("own"), "findings on the stop's own line"] : null,
    calls ? [sign("call", "call-hole"), "findings where trips call"] : null,
    [sign("stop"), "other stops"]];
  byId("legend").hidden = !own && !calls;
  byId("legend").replaceChildren(...items.filter(Boolean).map((item) => el("span", {}, ...item)));
}

function showFaulty(most) {
  const total = (line) => faulty.get(line).own + faulty.get(line).calls;
  const all = [...faulty.keys()].sort((one, other) => total(other) - total(one) || one - other);
  const item = (line) => el("li", {}, stopButton(line), ` ${grouped(total(line))}`);
  byId("faulty").replaceChildren(...all.slice(0, most).map(item));
  const more = byId("faulty-more");
  more.hidden = all.length <= most;
  more.onclick = () => showFaulty(most + 50);
}

function chooseStop(line) {
  byId("filter").reset();
  Object.assign(chosen, { file: 0, number: 0, text: "", stop: line });
  choose(() => turnTo(0, true));
  markStop();
}

function fit() {
  const box = byId("map"), width = box.clientWidth;
  ground.width = width;
  ground.height = Math.round(Math.min(460, Math.max(240, width * .6)));
  ground.fitted = Math.min((width - 90) / Math.max(ground.wide, 1), (ground.height - 80) / Math.max(ground.high, 1));
  ground.svg.setAttribute("viewBox", `0 0 ${width} ${ground.height}`);
  Object.assign(view, { scale: 1, x: 0, y: 0 });
  paint();
}

const onScreen = ([x, y]) => [ground.width / 2 + (x + view.x) * ground.fitted * view.scale, ground.height / 2 + (y + view.y) * ground.fitted * view.scale];

function paint() {
  const scale = ground.fitted * view.scale;
  const [x, y] = onScreen([0, 0]);
  ground.layer.setAttribute("transform", `translate(${x} ${y}) scale(${scale})`);
  paintGrid(scale);
  markStop();
}

// Lines of latitude and longitude at round degrees, with their figures.
function paintGrid(scale) {
  const { size, narrow, middle, width, height } = ground, degrees = size / scale;
  const step = [.001, .002, .005, .01, .02, .05, .1, .2, .5, 1, 2, 5, 10, 20, 45].find((one) => one / degrees >= 75) || 90;
  const digits = Math.max(0, Math.ceil(-Math.log10(step)));
  const parts = [];
  const lat = (at) => middle[0] - ((at - height / 2) / scale - view.y) * size, lon = (at) => middle[1] + ((at - width / 2) / scale - view.x) * size / narrow;
  for (let at = Math.ceil(lat(height) / step); at * step <= lat(0); at++) {
    const [, y] = onScreen(ground.place(at * step, middle[1]));
    parts.push(draw("path", { class: "grid", d: `M0 ${y}H${width}` }), y > 18 ? draw("text", { x: 6, y: y - 4 }, (at * step).toFixed(digits) + "°") : "");
  }
  for (let at = Math.ceil(lon(0) / step); at * step <= lon(width); at++) {
    const [x] = onScreen(ground.place(middle[0], at * step));
    parts.push(draw("path", { class: "grid", d: `M${x} 0V${height}` }), draw("text", { x: x + 4, y: height - 6 }, (at * step).toFixed(digits) + "°"));
  }
  ground.grid.replaceChildren(...parts);
}

// Names beside the faulty stops where these are few, and a ring around the one that is chosen.
function markStop() {
  if (!ground) return;
  const named = faulty.size <= 12 ? onMap(faulty.keys()) : [];
  const parts = [], taken = [];
  for (const line of named) {
    const [x, y] = onScreen(ground.points.get(line)), name = stopName(line), end = x + 14 + name.length * 7;
    // A name that would stand on another is left out; the list beside the map has it.
    if (taken.some((other) => Math.abs(other.y - y) < 14 && x < other.end && other.x < end)) continue;
    taken.push({ x, y, end });
    parts.push(draw("text", { class: "label", x: x + 10, y: y + 4 }, name));
  }
  if (chosen.stop && ground.points.get(chosen.stop)) {
    const [x, y] = onScreen(ground.points.get(chosen.stop));
    parts.push(draw("circle", { class: "chosen-stop", cx: x, cy: y, r: 12 }));
  }
  ground.labels.replaceChildren(...parts);
}

function zoom(by) {
  view.scale = Math.min(400, Math.max(1, view.scale * by));
  paint();
}

function move(x, y) {
  view.x += x / (ground.fitted * view.scale);
  view.y += y / (ground.fitted * view.scale);
  paint();
}

// The faulty stop nearest to a point of the picture, if one is near.
function stopAt(x, y) {
  let nearest = 0, least = 16;
  for (const line of onMap(faulty.keys())) {
    const [stopX, stopY] = onScreen(ground.points.get(line)), distance = Math.hypot(stopX - x, stopY - y);
    if (distance < least) { nearest = line; least = distance; }
  }
  return nearest;
}

function listenToMap() {
  const box = byId("map");
  byId("zoom-in").onclick = () => zoom(1.6);
  byId("zoom-out").onclick = () => zoom(1 / 1.6);
  byId("zoom-all").onclick = fit;
  const keys = { ArrowLeft: [60, 0], ArrowRight: [-60, 0], ArrowUp: [0, 60], ArrowDown: [0, -60] };
  box.addEventListener("keydown", (event) => {
    if (keys[event.key]) move(...keys[event.key]);
    else if (event.key === "+" || event.key === "=") zoom(1.6);
    else if (event.key === "-") zoom(1 / 1.6);
    else return;
    event.preventDefault();
  });
  let held = null;
  box.addEventListener("pointerdown", (event) => { held = { x: event.clientX, y: event.clientY, moved: false }; });
  addEventListener("pointermove", (event) => {
    if (!held || event.pointerType === "touch") return;
    const [x, y] = [event.clientX - held.x, event.clientY - held.y];
    if (!held.moved && Math.hypot(x, y) < 4) return;
    move(x, y);
    held = { x: event.clientX, y: event.clientY, moved: true };
  });
  addEventListener("pointerup", () => { setTimeout(() => { held = null; }, 0); });
  box.addEventListener("click", (event) => {
    if (held && held.moved) return;
    const frame = ground.svg.getBoundingClientRect();
    const line = stopAt(event.clientX - frame.left, event.clientY - frame.top);
    if (line) chooseStop(line);
  });
}

// The filters.

function options(select, all, entries) {
  select.replaceChildren(el("option", { value: 0 }, all), ...entries.map(([value, text]) => el("option", { value }, text)));
}

function startFilters() {
  const files = new Map(), numbers = new Map();
  for (let place = 0; place < data.total; place++) {
    const { file, number } = fault(place);
    files.set(file, (files.get(file) || 0) + 1);
    numbers.set(number, (numbers.get(number) || 0) + 1);
  }
  const sorted = (counts) => [...counts].sort(([one], [other]) => one - other);
  options(byId("filter-file"), "All files", sorted(files).map(([file, count]) => [file, `${data.files[file - 1]} (${grouped(count)})`]));
  options(byId("filter-number"), "All rules", sorted(numbers).map(([number, count]) => [number, `${number}: ${meanings.get(number)} (${grouped(count)})`]));
  let waiting = 0;
  const later = () => { clearTimeout(waiting); waiting = setTimeout(() => choose(), 120); };
  byId("filter-file").onchange = (event) => { chosen.file = Number(event.target.value); choose(); };
  byId("filter-number").onchange = (event) => { chosen.number = Number(event.target.value); choose(); };
  byId("filter-text").oninput = (event) => { chosen.text = event.target.value; later(); };
  byId("filter").onsubmit = (event) => { event.preventDefault(); choose(); };
  byId("filter").onreset = () => { Object.assign(chosen, { file: 0, number: 0, stop: 0, text: "" }); choose(); markStop(); };
  byId("stop-filter-clear").onclick = () => { chosen.stop = 0; choose(); markStop(); };
  byId("filter").hidden = data.total < 2;
}

// Each count of the totals leads to its findings.
function startTotals() {
  document.querySelectorAll("#totals tbody tr").forEach((line) => {
    const number = Number(line.dataset.number), cell = line.querySelector(".count");
    const label = `${cell.textContent}, show the ${data.word}s of ${kind(number)} ${number}`;
    cell.replaceChildren(el("button", { type: "button", class: "link", "aria-label": label, click: () => {
      Object.assign(chosen, { file: 0, number, stop: 0, text: "" });
      byId("filter-file").value = "0"; byId("filter-text").value = ""; byId("filter-number").value = String(number);
      choose(() => turnTo(0, true));
    } }, cell.textContent));
  });
}

let resized = 0;
addEventListener("resize", () => {
  clearTimeout(resized);
  resized = setTimeout(() => {
    if (ground && byId("map").clientWidth !== ground.width) fit();
    document.querySelectorAll("details[data-trip]").forEach((details) => { const picture = details.querySelector(".picture"); if (picture) picture.remove(); drawTrip(details); });
  }, 150);
});
addEventListener("beforeprint", () => { if (data.total) show(true); });
addEventListener("afterprint", () => { if (data.total) show(); });

startMap();
if (data.total) {
  startFilters();
  startTotals();
  choose();
} else {
  document.documentElement.dataset.ready = "0";
}
})();

// Charts of aggregates, as SVG: lines, stale ranges, what was dropped, the watermark, and what is pointed at.
import { clock, counted, DAY, h, keyText, MONTHS, numberText, rangeText, s, secondsOf, timeText, unitOf } from "./texts.js";

const STEPS = [1, 2, 5, 10, 15, 30, 60, 120, 300, 600, 900, 1800, 3600, 7200, 10800, 21600, 43200, DAY, 2 * DAY, 7 * DAY,
  14 * DAY, 30 * DAY, 91 * DAY, 182 * DAY, 365 * DAY, 730 * DAY, 1826 * DAY, 3652 * DAY, 18262 * DAY];
const COLORS = 8;
const MOST_IN_TIP = 12;
// So many lines are named at their ends, in a chart that is wide enough.
const MOST_NAMED = 6;
const WIDE = 700;
const LINE_HEIGHT = 13;
const MOST_LETTERS = 24;
const NARROW = 560;

/** The class of a line: eight colors, and dashes after the eighth. */
export const lineClass = (number) => `line s${number % COLORS} d${Math.floor(number / COLORS) % 3}`;

// ---- ranges and ticks

/** The range of the axis of times: that of the points that are shown, and of what is marked. */
function timeRange(card, zoom) {
  const { picture, about } = card;
  if (zoom) return { low: Number(zoom[0]), high: Number(zoom[1]) };
  const times = card.shown().flatMap(([line]) => line.points.flat().map((point) => point[0]));
  let low = times.reduce((a, b) => Math.min(a, b)), high = times.reduce((a, b) => Math.max(a, b)) + about.width;
  const marked = [...picture.stale, ...picture.dropped];
  for (const [start, end] of marked) {
    if (start !== "min") low = Math.min(low, Number(start));
    high = Math.max(high, Number(end));
  }
  if (picture.watermark !== null) high = Math.max(high, Number(picture.watermark));
  if (marked.some(([start, end]) => start === "min" && Number(end) <= low)) low -= Math.max(about.width, (high - low) / 25);
  return { low, high };
}

/** A panel: its column, the lines that have values of it, the range of its axis, and the texts of its ticks. */
function panelOf(card, column) {
  const place = card.picture.columns.indexOf(column);
  const lines = card.shown().map(([line, number]) => ({ line, number, points: line.points[place] }))
    .filter(({ points }) => points.length);
  const values = lines.flatMap(({ points }) => points.map((point) => point[1]));
  const range = !values.length ? valueRange(0, 1)
    : valueRange(values.reduce((a, b) => Math.min(a, b)), values.reduce((a, b) => Math.max(a, b)));
  const isTime = card.about.times.includes(column);
  const text = isTime ? (value) => timeText(Math.round(value), 1) : numberText;
  const labels = range.ticks.map((tick) => (isTime ? text(tick) : tickText(tick, range.digits)));
  return { column, lines, range, labels, text };
}

/** The range of the axis of values, and the ticks on it. It begins with 0 if that isn't far. */
function valueRange(least, greatest) {
  if (least > 0 && least < greatest * 0.4) least = 0;
  if (greatest < 0 && greatest > least * 0.4) greatest = 0;
  if (least === greatest) { const room = Math.abs(least) / 10 || 1; least -= room; greatest += room; }
  const rough = (greatest - least) / 4, power = 10 ** Math.floor(Math.log10(rough));
  const step = [1, 2, 2.5, 5, 10].map((it) => it * power).find((it) => it >= rough * 0.999);
  const from = Math.floor(least / step + 1e-9), to = Math.ceil(greatest / step - 1e-9);
  const ticks = Array.from({ length: to - from + 1 }, (_, place) => (from + place) * step);
  return { least: ticks[0], greatest: ticks[ticks.length - 1], ticks, digits: Math.max(0, 1 - Math.floor(Math.log10(step) + 1e-9)) };
}

/** The text of a tick, with the digits that its step needs. */
function tickText(value, digits) {
  if (Math.abs(value) >= 1e6) return numberText(value);
  return value.toLocaleString("en", { maximumFractionDigits: Math.min(digits, 12) });
}

/** The ticks of the axis of times: where, the text, and the one below it. */
function timeTicks(low, high, most, width) {
  const unit = unitOf();
  if (!unit || Number.isNaN(secondsOf(low)) || Number.isNaN(secondsOf(high))) return numberTicks(low, high, most);
  const span = (high - low) / unit;
  const step = STEPS.find((it) => span / it <= most && it >= Math.min(width / unit, DAY)) || STEPS[STEPS.length - 1];
  const ticks = step >= 30 * DAY ? monthTicks(low / unit, high / unit, Math.max(1, Math.round(step / (30.4 * DAY)))) : [];
  if (!ticks.length) for (let at = Math.ceil(low / unit / step) * step; at <= high / unit; at += step) ticks.push(at);
  let last = "";
  return ticks.map((at) => {
    const date = new Date(at * 1000);
    const day = `${date.getUTCDate()} ${MONTHS[date.getUTCMonth()]}`, year = String(date.getUTCFullYear());
    const [text, below] = step < DAY ? [clock(date), `${day} ${year}`] : step < 30 * DAY ? [day, year] : [MONTHS[date.getUTCMonth()], year];
    const shown = below === last ? "" : below;
    last = below;
    return { at: at * unit, text, below: shown };
  });
}

/** The first seconds of months, every so many of them. */
function monthTicks(low, high, step) {
  const ticks = [];
  const start = new Date(low * 1000);
  for (let month = Math.floor((start.getUTCFullYear() * 12 + start.getUTCMonth()) / step) * step; ; month += step) {
    const at = Date.UTC(Math.floor(month / 12), month % 12, 1) / 1000;
    if (at > high || ticks.length > 60) return ticks;
    if (at >= low) ticks.push(at);
  }
}

function numberTicks(low, high, most) {
  const { ticks } = valueRange(low, high);
  return ticks.filter((at) => at >= low && at <= high).slice(0, most + 2).map((at) => ({ at, text: at.toLocaleString("en"), below: "" }));
}

// ---- the chart

/** The panels of a card, one below the other: one for each column, all over the same range of time. */
export function charts(card, zoom, onChoose) {
  const { about, plot } = card, wide = plot.clientWidth;
  const panels = card.drawn().map((column) => panelOf(card, column));
  const isNamed = about.keys.length > 0 && wide >= WIDE && card.shown().length <= MOST_NAMED;
  const names = isNamed ? card.shown().map(([line]) => keyText(about, line)) : [];
  const sides = {
    ...timeRange(card, zoom), wide, hasNames: names.length > 0,
    left: 14 + 6.6 * Math.max(...panels.flatMap(({ labels }) => labels.map((text) => text.length))),
    right: 14 + (names.length ? 4 : 0) + 7 * Math.max(0, ...names.map((text) => Math.min(text.length, MOST_LETTERS))),
  };
  const pointers = [];
  for (const [place, panel] of panels.entries()) {
    const area = areaOf(sides, panel, { isFirst: !place, isLast: place === panels.length - 1, isAlone: panels.length === 1 });
    pointers.push(new Pointer(card, panel, drawPanel(card, panel, area), area, onChoose, pointers));
  }
  return pointers;
}

/** Where the parts of a panel are. Only the first one names what is marked, and only the last one has the axis of times. */
function areaOf(sides, panel, { isFirst, isLast, isAlone }) {
  const { low, high, left, right, wide } = sides, { least, greatest } = panel.range, isNarrow = wide < NARROW;
  const height = isAlone ? (isNarrow ? 148 : 198) : isNarrow ? 96 : 118;
  const top = isFirst ? 40 : 28, floor = top + height, tall = floor + (isLast ? 42 : 9), end = wide - right;
  const x = (at) => left + ((at - low) / (high - low)) * (end - left);
  const y = (value) => floor - ((value - least) / (greatest - least)) * height;
  return { ...sides, ...panel.range, top, floor, tall, end, height, isFirst, isLast, isAlone, x, y };
}

function drawPanel(card, panel, area) {
  const { picture, about } = card, { wide, tall } = area, id = `${about.name}-${panel.column}`;
  const name = `${about.name}: ${panel.column} over time, ${counted(picture.stale.length, "stale range")}. `
    + "Arrow keys move along it, + and - change the range.";
  const named = area.isFirst ? [nameMarked(area, picture.dropped, "dropped"), nameMarked(area, picture.stale, "stale")] : [];
  const middle = { x: (area.left + area.end) / 2, y: (area.top + area.floor) / 2, "text-anchor": "middle" };
  const nothing = panel.lines.length ? null : s("text", { class: "nothing", ...middle }, "no values in this range of time");
  return s("svg", { viewBox: `0 0 ${wide} ${tall}`, height: tall, role: "img", tabindex: "0", "aria-label": name }, definitions(id, area),
    drawMarked(area, picture, id), drawAxes(area, panel, about), drawLines(panel, picture, area, id), drawWatermark(area, picture),
    named, nameLines(about, panel, area), nothing);
}

/** The hatching of ranges, and the part of the chart that lines stay in. */
function definitions(name, area) {
  const pattern = (kind, angle, width) => s("pattern", { id: `${kind}-${name}`, width, height: width, patternUnits: "userSpaceOnUse", patternTransform: `rotate(${angle})` },
    s("path", { d: `M0 0V${width}`, class: `${kind}-hatch` }));
  const inside = { x: area.left, y: area.top - 4, width: Math.max(0, area.end - area.left), height: area.height + 8 };
  return s("defs", {}, pattern("stale", 45, 7), pattern("dropped", -45, 9), s("clipPath", { id: `inside-${name}` }, s("rect", inside)));
}

function drawAxes(area, panel, about) {
  const parts = area.ticks.map((tick, place) => s("g", {},
    s("path", { d: `M${area.left} ${area.y(tick).toFixed(1)}H${area.end}`, class: place ? "grid" : "axis" }),
    s("text", { x: area.left - 8, y: area.y(tick) + 3.5, "text-anchor": "end" }, panel.labels[place])));
  const axis = unitOf() ? `${about.bucket}, UTC` : about.bucket;
  parts.push(drawTimes(area, about.width, area.end - axis.length * 6 - 12));
  parts.push(s("text", { x: 2, y: 12, class: "name" }, panel.column));
  if (area.isLast) parts.push(s("text", { x: area.end, y: area.floor + 31, "text-anchor": "end" }, axis));
  return s("g", {}, parts);
}

/** The ticks of times, with texts in the last panel. Those of the second row end before the name of the axis. */
function drawTimes(area, width, room) {
  const parts = [], free = { above: -Infinity, below: -Infinity };
  for (const { at, text, below } of timeTicks(area.low, area.high, Math.max(2, Math.floor((area.end - area.left) / 86)), width)) {
    const place = area.x(at), half = text.length * 3, under = below.length * 3.4;
    if (place < area.left - 1 || place > area.end + 1) continue;
    parts.push(s("path", { d: `M${place.toFixed(1)} ${area.floor}v4`, class: "axis" }));
    if (!area.isLast || place + half > area.wide || place - half < free.above) continue;
    parts.push(s("text", { x: place, y: area.floor + 17, "text-anchor": "middle" }, text));
    free.above = place + half + 6;
    const middle = Math.max(place, under);
    if (!below || middle + under > room || middle - under < free.below) continue;
    parts.push(s("text", { x: middle, y: area.floor + 31, "text-anchor": "middle" }, below));
    free.below = middle + under + 8;
  }
  return parts;
}

/** Where ranges lie that are in the picture, from left to right. */
function boxes(area, ranges) {
  return ranges.map((range) => {
    const from = Math.max(area.left, range[0] === "min" ? area.left : area.x(Number(range[0])));
    return { range, from, to: Math.min(area.end, area.x(Number(range[1]))) };
  }).filter(({ from, to }) => to > area.left && from < area.end);
}

/** Stale ranges, and what was dropped on purpose, at least three pixels wide. */
function drawMarked(area, picture, id) {
  const draw = (kind) => ({ range, from, to }) => {
    const width = Math.max(to - from, 3), box = { x: Math.min(from, area.end - width), width, y: area.top, height: area.height };
    return [s("rect", { ...box, class: `${kind}-fill` }), s("rect", { ...box, fill: `url(#${kind}-${id})` }),
      s("rect", { ...box, y: area.top - 4, height: 4, class: `${kind}-bar` }, s("title", {}, `${kind} ${rangeText(range, picture.width)}`))];
  };
  return s("g", {}, boxes(area, picture.dropped).map(draw("dropped")), boxes(area, picture.stale).map(draw("stale")));
}

/** The word above each range that has room for it. */
function nameMarked(area, ranges, word) {
  const parts = [], half = word.length * 3 + 3;
  let free = -Infinity;
  for (const { from, to } of boxes(area, ranges)) {
    const middle = Math.min(Math.max((from + to) / 2, area.left + half), area.end - half);
    if (middle - half - 4 < free) continue;
    parts.push(s("text", { x: middle, y: area.top - 8, class: `${word}-name`, "text-anchor": "middle" }, word));
    free = middle + half;
  }
  return s("g", {}, parts);
}

/** The path of a line. A value holds for its bucket; points that are thinned are joined; gaps stay open. */
function pathOf(points, area, { width, cell }) {
  const isThin = cell > width, parts = [];
  let end = null;
  for (const [at, value] of points) {
    const place = `${area.x(at).toFixed(1)} ${area.y(value).toFixed(1)}`;
    const goesOn = end !== null && (isThin ? at - end <= 2 * cell : at === end);
    parts.push((goesOn ? "L" : "M") + place);
    if (!isThin) parts.push(`H${area.x(at + width).toFixed(1)}`);
    end = isThin ? at : at + width;
  }
  return parts.join("");
}

function drawLines(panel, picture, area, id) {
  return s("g", { "clip-path": `url(#inside-${id})` },
    panel.lines.map(({ points, number }) => s("path", { d: pathOf(points, area, picture), class: lineClass(number) })));
}

/** The names of lines at their ends, one below the other if they would meet. */
function nameLines(about, panel, area) {
  if (!area.hasNames) return s("g", {});
  const places = panel.lines.map(({ line, number, points }) => (
    { number, text: keyText(about, line), y: area.y(points[points.length - 1][1]) }));
  places.sort((a, b) => a.y - b.y);
  let free = area.top - 4;
  for (const place of places) { place.y = Math.max(place.y, free); free = place.y + LINE_HEIGHT; }
  const over = Math.max(0, free - LINE_HEIGHT - area.floor);
  return s("g", {}, places.map(({ number, text, y }) => s("text", { x: area.end + 8, y: y - over + 3.5, class: `end s${number % COLORS}` },
    text.length > MOST_LETTERS ? `${text.slice(0, MOST_LETTERS - 1)}…` : text)));
}

function drawWatermark(area, picture) {
  const place = picture.watermark === null ? NaN : area.x(Number(picture.watermark));
  if (!(place >= area.left && place <= area.end + 1)) return s("g", {});
  const isLeft = place > area.wide / 2, top = area.isFirst ? 18 : area.top - 4;
  const line = s("path", { d: `M${place.toFixed(1)} ${top}V${area.floor}`, class: "watermark" });
  if (!area.isFirst) return line;
  return s("g", {}, line, s("text", { x: place, y: 12, class: "watermark-name", "text-anchor": isLeft ? "end" : "start" },
    isLeft ? "watermark ▾" : "▾ watermark"));
}

// ---- pointing at a chart

/** The last point of a line that begins at or before a time, if it holds there. */
function pointAt(points, at, reach) {
  let low = 0, high = points.length;
  while (low < high) { const middle = (low + high) >> 1; if (points[middle][0] <= at) low = middle + 1; else high = middle; }
  const found = points[low - 1];
  return found && at - found[0] < reach ? found : null;
}

/** Shows what is at the mouse, the finger or the cursor keys of a panel, and lets a range be chosen. */
class Pointer {
  constructor(card, panel, svg, area, onChoose, all) {
    Object.assign(this, { card, panel, svg, area, onChoose, all, from: null, at: null });
    this.cross = s("path", { class: "cross", d: "" });
    this.chosen = s("rect", { class: "chosen", y: area.top, height: area.height, width: 0 });
    this.dots = s("g", {});
    this.tip = h("div", { class: "tip", role: "status", hidden: true });
    this.root = h("div", { class: "panel" }, svg, this.tip);
    svg.append(this.chosen, this.cross, this.dots);
    svg.addEventListener("pointermove", (event) => this.move(event));
    svg.addEventListener("pointerdown", (event) => this.down(event));
    svg.addEventListener("pointerup", (event) => this.up(event));
    svg.addEventListener("pointercancel", () => this.drop());
    svg.addEventListener("pointerleave", () => this.hide());
    svg.addEventListener("dblclick", () => onChoose(null));
    svg.addEventListener("keydown", (event) => this.key(event));
    svg.addEventListener("blur", () => this.hide());
  }

  hide() {
    this.card.pointed = null;
    this.tip.hidden = true;
    for (const pointer of this.all) pointer.mark(null);
  }

  /** Marks a time in this panel, and the values there; none if there is no time. Gives what it has marked. */
  mark(at) {
    const { area, panel } = this, { picture } = this.card, reach = Math.max(picture.cell, picture.width);
    const lines = at === null ? [] : panel.lines;
    const found = lines.map(({ line, number, points }) => ({ line, number, point: pointAt(points, at, reach) }))
      .filter((it) => it.point);
    const place = area.x(at);
    this.cross.setAttribute("d", at === null ? "" : `M${place.toFixed(1)} ${area.top}V${area.floor}`);
    this.dots.replaceChildren(...found.map(({ number, point }) => (
      s("circle", { cx: place, cy: area.y(point[1]), r: 3, class: `dot s${number % COLORS}` }))));
    return found;
  }

  timeAt(event) {
    const { area } = this, place = Math.min(Math.max(event.clientX - this.svg.getBoundingClientRect().left, area.left), area.end);
    return area.low + ((place - area.left) / (area.end - area.left)) * (area.high - area.low);
  }

  move(event) {
    this.show(this.timeAt(event));
    if (this.from === null) return;
    const [low, high] = [this.from, this.at].sort((a, b) => a - b).map(this.area.x);
    this.chosen.setAttribute("x", low);
    this.chosen.setAttribute("width", high - low);
  }

  down(event) {
    if (event.pointerType !== "mouse") return this.show(this.timeAt(event));
    if (event.button !== 0) return undefined;
    this.from = this.timeAt(event);
    this.card.isHeld = true;
    return this.svg.setPointerCapture(event.pointerId);
  }

  up(event) {
    const ends = this.from === null ? null : [this.from, this.timeAt(event)].sort((a, b) => a - b);
    this.drop();
    if (ends && this.area.x(ends[1]) - this.area.x(ends[0]) > 6) this.choose(ends);
  }

  /** Ends the choice of a range. What came meanwhile is drawn now. */
  drop() {
    this.from = null;
    this.chosen.setAttribute("width", 0);
    this.card.release();
  }

  choose([low, high]) { this.onChoose([String(Math.floor(low)), String(Math.ceil(high))]); }

  key(event) {
    const { low, high } = this.area, step = Math.max(this.card.picture.cell, this.card.picture.width);
    const at = this.at ?? (low + high) / 2;
    const moves = { ArrowLeft: at - step, ArrowRight: at + step, Home: low, End: high - step / 2, PageUp: at - (high - low) / 10, PageDown: at + (high - low) / 10 };
    if (event.key in moves) this.show(Math.min(Math.max(moves[event.key], low), high - 1));
    else if (event.key === "+" || event.key === "=") this.choose([at - (high - low) / 4, at + (high - low) / 4]);
    else if (event.key === "-") this.choose([low - (high - low) / 2, high + (high - low) / 2]);
    else if (event.key === "0") this.onChoose(null);
    else if (event.key === "Escape") this.hide();
    else return;
    event.preventDefault();
  }

  /** Shows a time in all panels, and its values beside the place in this one. */
  show(at) {
    const { area, tip, panel } = this, { about } = this.card;
    this.at = at;
    this.card.pointed = { column: panel.column, at };
    for (const pointer of this.all) if (pointer !== this) pointer.mark(at);
    const found = this.mark(at), place = area.x(at);
    const start = found.length ? found[0].point[0] : at;
    const when = found.length ? rangeText([String(start), String(start + about.width)], about.width) : timeText(Math.round(at), about.width);
    const head = h("div", { class: "when" }, area.isAlone ? null : h("b", {}, `${panel.column} `), when);
    tip.replaceChildren(head, this.values(found), this.marks(at));
    tip.hidden = false;
    // The style of an element may be set here, though the page takes no styles within its text.
    tip.style.left = `${place > area.wide / 2 ? Math.max(0, place - tip.offsetWidth - 12) : Math.min(place + 12, area.wide - tip.offsetWidth)}px`;
  }

  /** The values at the pointer, greatest first. */
  values(found) {
    const { about } = this.card, { column, text } = this.panel;
    const rows = [...found].sort((a, b) => b.point[1] - a.point[1]).slice(0, MOST_IN_TIP);
    return h("table", {}, h("tbody", {}, rows.map(({ line, number, point }) => h("tr", {},
      h("td", {}, s("svg", { width: 16, height: 8, "aria-hidden": "true" }, s("path", { d: "M0 4H16", class: lineClass(number) }))),
      h("td", {}, keyText(about, line) || column), h("td", {}, text(point[1]))))),
      found.length > rows.length ? h("caption", {}, `and ${found.length - rows.length} more`) : null);
  }

  /** Whether the place is stale, or was dropped. */
  marks(at) {
    const { picture, about } = this.card;
    const holds = ([low, high]) => (low === "min" || Number(low) <= at) && at < Number(high);
    const stale = picture.stale.find(holds), dropped = picture.dropped.find(holds);
    return [stale && h("div", { class: "stale" }, `▲ stale ${rangeText(stale, about.width)}`),
      dropped && h("div", { class: "dropped" }, `rows dropped ${rangeText(dropped, about.width)}`)].filter(Boolean)[0] || "";
  }
}

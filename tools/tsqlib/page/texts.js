// Elements, and the texts of times, ranges and numbers.

const UNITS = { s: 1, ms: 1e3, us: 1e6 };
const SVG = "http://www.w3.org/2000/svg";
export const DAY = 86400;
export const MONTHS = "Jan Feb Mar Apr May Jun Jul Aug Sep Oct Nov Dec".split(" ");

let unit = null;

/** Takes the unit of times, and null if they are plain numbers. */
export function setUnit(name) { unit = UNITS[name] || null; }
export const unitOf = () => unit;

// ---- elements

/** An element with attributes, listeners (`onclick`) and children; texts are never read as HTML. */
function element(made, attributes, children) {
  for (const [key, value] of Object.entries(attributes || {})) {
    if (key.startsWith("on")) made.addEventListener(key.slice(2), value);
    else if (value !== null && value !== undefined && value !== false) made.setAttribute(key, value === true ? "" : value);
  }
  made.append(...children.flat(Infinity).filter((child) => child !== null && child !== undefined && child !== false));
  return made;
}
export const h = (name, attributes, ...children) => element(document.createElement(name), attributes, children);
export const s = (name, attributes, ...children) => element(document.createElementNS(SVG, name), attributes, children);
export const byId = (id) => document.getElementById(id);

// ---- times

/** Seconds of a time, and NaN if times are plain numbers or lie outside of the calendar of this language. */
export function secondsOf(time) {
  const seconds = unit ? Number(time) / unit : NaN;
  return Math.abs(seconds) < 8.64e12 ? seconds : NaN;
}

export const two = (number) => String(number).padStart(2, "0");
const isoDay = (date) => `${date.getUTCFullYear()}-${two(date.getUTCMonth() + 1)}-${two(date.getUTCDate())}`;
export const clock = (date) => `${two(date.getUTCHours())}:${two(date.getUTCMinutes())}` + (date.getUTCSeconds() ? `:${two(date.getUTCSeconds())}` : "");

/** A time as a date in UTC, without the hour if buckets are whole days. */
export function timeText(time, width) {
  const seconds = secondsOf(time);
  if (Number.isNaN(seconds)) return String(time);
  const date = new Date(seconds * 1000);
  return secondsOf(width) % DAY === 0 && seconds % DAY === 0 ? isoDay(date) : `${isoDay(date)} ${clock(date)}`;
}

/** A range in words; the day is written once if it is one. */
export function rangeText([low, high], width) {
  if (low === "min") return `before ${timeText(high, width)}`;
  const ends = [low, high].map((end) => timeText(end, width));
  const [day, hour] = ends[1].split(" ");
  return hour && ends[0].startsWith(day) ? `${ends[0]} – ${hour}` : `${ends[0]} – ${ends[1]}`;
}

export function widthText(width) {
  const seconds = secondsOf(width);
  if (Number.isNaN(seconds)) return `${width} wide`;
  for (const [size, name] of [[7 * DAY, "week"], [DAY, "day"], [3600, "hour"], [60, "minute"], [1, "second"]]) {
    if (seconds % size === 0) return seconds === size ? `1 ${name}` : `${seconds / size} ${name}s`;
  }
  return `${seconds} seconds`;
}

/** How long ago a moment in seconds since 1970 was. */
export function agoText(moment) {
  const gone = Math.max(0, Math.floor(Date.now() / 1000 - moment));
  for (const [size, name] of [[DAY, "d"], [3600, "h"], [60, "min"]]) if (gone >= size) return `${Math.floor(gone / size)} ${name} ago`;
  return gone < 2 ? "now" : `${gone} s ago`;
}

// ---- numbers and names

export function numberText(value) {
  if (value === null) return "null";
  const size = Math.abs(value);
  if (size >= 1e6) return value.toLocaleString("en", { notation: "compact", maximumFractionDigits: 2 });
  return value.toLocaleString("en", { maximumFractionDigits: size >= 1000 ? 0 : size >= 10 ? 2 : 3 });
}

export const counted = (number, word) => `${number.toLocaleString("en")} ${word}${number === 1 ? "" : "s"}`;

/** The name of a line: its keys, with the columns in front of those that are numbers. */
export function keyText(about, line) {
  return line.names.map((name, place) => (name === line.keys[place] ? `${about.keys[place]} ${name}` : name)).join(", ");
}

// ---- tables

const DATE = /^(\d{4}-\d\d-\d\d)T(\d\d:\d\d)(:[\d.]+)Z$/;

/** How dates of a column are written: without seconds, and without the hour, if all are whole. */
function datesOf(texts) {
  const found = texts.map((text) => DATE.exec(text)).filter(Boolean);
  const hasSeconds = found.some((date) => !/^:0+(\.0+)?$/.test(date[3])), hasHours = hasSeconds || found.some((date) => date[2] !== "00:00");
  return (text) => String(text).replace(DATE, hasSeconds ? "$1 $2$3" : hasHours ? "$1 $2" : "$1");
}

/** A table of texts; a row whose cell under `stale` or `dropped`, the last two, is true is marked. */
export function tableOf(names, rows, texts = []) {
  const last = names.length - 2, hasMark = names[last] === "stale" && names[last + 1] === "dropped";
  const is = (row, place) => hasMark && String(row[place]) === "true";
  const mark = (row) => is(row, last) ? "stale" : is(row, last + 1) ? "dropped" : "";
  const shownNames = hasMark ? names.slice(0, last) : names;
  const dates = names.map((_, place) => datesOf(rows.map((row) => row[place])));
  const cell = (text, place) => {
    const shown = text === null ? "null" : dates[place](text);
    return h("td", { class: shown === "null" ? "null" : texts.includes(names[place]) && "text" }, shown);
  };
  const cells = (row) => [...row.slice(0, shownNames.length).map(cell), hasMark && h("td", { class: "mark" }, mark(row))];
  const head = (name) => h("th", { scope: "col", class: texts.includes(name) && "text" }, name);
  const heads = [...shownNames.map(head), hasMark && h("th", { scope: "col" }, "")];
  return h("table", {}, h("thead", {}, h("tr", {}, heads.filter(Boolean))),
    h("tbody", {}, rows.map((row) => h("tr", { class: mark(row) === "stale" && "stale" }, cells(row).filter(Boolean)))));
}

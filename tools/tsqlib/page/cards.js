// A card for each aggregate: its chart, legend, stale ranges and table.
import { charts, lineClass } from "./chart.js";
import { ask, save } from "./server.js";
import { counted, h, keyText, rangeText, s, tableOf, timeText, unitOf, widthText } from "./texts.js";

const MOST_NAMED = 12;
// So many columns are drawn until others are chosen.
const USUAL_PANELS = 4;
// Milliseconds between two pictures of an aggregate, however fast statements come; and so many times what one took.
const PAUSE = 800;
const SHARE = 4;

/** What all cards show: the range of time, and how the page does. */
export const view = { span: null, zoom: null, isFine: () => false, position: () => -1, choose: () => {}, propose: () => {}, canWrite: () => false };

/** The columns that are drawn until others are chosen: the first ones that are no times. */
function usualColumns({ columns, times }) {
  const values = columns.filter((name) => !times.includes(name));
  return (values.length ? values : columns).slice(0, USUAL_PANELS);
}

/** The columns that the address names, or the usual ones: `?hours=mean,n`. */
function columnsInAddress(about) {
  const named = (new URLSearchParams(location.search).get(about.name) || "").split(",");
  const found = about.columns.filter((name) => named.includes(name));
  return found.length ? found : usualColumns(about);
}

export class Card {
  constructor(about) {
    this.about = about;
    this.columns = columnsInAddress(about);
    this.picture = null;
    // What was wanted as the picture was asked for: see `wish`.
    this.range = null;
    this.isLoading = this.isWanted = this.isHasty = this.isSeen = false;
    this.pause = 0;
    this.position = -1;
    // The column and the time that are pointed at; whether a range is being chosen, and a drawing waits for that.
    this.pointed = null;
    this.isHeld = this.isLate = false;
    // Lines that are hidden, by the texts of their keys, and the lists of keys that are asked for.
    this.hidden = new Set();
    this.keys = null;
    this.build();
    new ResizeObserver(() => this.draw()).observe(this.plot);
    new IntersectionObserver(([entry]) => { this.isSeen = entry.isIntersecting; this.want(); }, { rootMargin: "200px" }).observe(this.root);
  }

  build() {
    const { about } = this;
    const by = about.keys.length ? ` by ${about.keys.join(", ")}` : "";
    const mode = about.real_time ? "rows that aren't refreshed yet included" : "as refreshed";
    this.choice = h("div", { class: "columns", role: "group", "aria-label": `Columns of ${about.name} that are drawn` });
    this.verdict = h("p", { class: "verdict", role: "status" }, "…");
    this.plot = h("div", { class: "plot" });
    this.legend = h("ul", { class: "legend", "aria-label": "Lines" });
    this.ranges = h("ul", { class: "ranges", "aria-label": "Stale ranges" });
    this.note = h("p", { class: "note" });
    this.summary = h("span", {});
    this.scroll = h("div", { class: "scroll", tabindex: "0", role: "region", "aria-label": `Rows of ${about.name}` });
    const csv = h("button", { type: "button", class: "link", onclick: (event) => { event.preventDefault(); this.saveCsv(); } }, "CSV");
    this.rows = h("details", { class: "rows", open: innerWidth > 620 }, h("summary", {}, this.summary, csv), this.scroll);
    this.root = h("article", { class: "card", id: `card-${about.name}` },
      h("div", { class: "head" }, h("h2", {}, about.name),
        h("span", { class: "about" }, `${about.table} in buckets of ${widthText(about.width)}${by}, ${mode}`), this.choice),
      this.verdict, this.plot, this.legend, this.ranges, this.note, this.rows);
    this.showChoice();
  }

  saveCsv() { save(`aggregates/${this.about.name}?format=csv`, `${this.about.name}.csv`).catch((error) => this.fail(error)); }

  showChoice() {
    const { columns } = this.about;
    this.choice.hidden = columns.length < 2;
    this.choice.replaceChildren(...columns.map((name) => h("label", {},
      h("input", {
        type: "checkbox", value: name, checked: this.columns.includes(name),
        onchange: (event) => this.chooseColumn(name, event.target),
      }), name)));
  }

  /** Draws a column, or no longer. One stays. Only a column that isn't here is asked for. */
  chooseColumn(name, box) {
    const chosen = this.about.columns.filter((other) => (other === name ? box.checked : this.columns.includes(other)));
    box.checked = box.checked || !chosen.length;
    this.columns = chosen.length ? chosen : [name];
    this.remember();
    this.draw();
    this.want(true);
  }

  /** Keeps the chosen columns in the address, so that a bookmark has them. */
  remember() {
    const query = new URLSearchParams(location.search), isUsual = this.columns.join() === usualColumns(this.about).join();
    if (isUsual) query.delete(this.about.name); else query.set(this.about.name, this.columns.join());
    const text = query.toString().replaceAll("%2C", ",");
    history.replaceState(null, "", location.pathname + (text && `?${text}`));
  }

  /** The columns that are chosen and here. */
  drawn() { return this.columns.filter((name) => this.picture.columns.includes(name)); }

  /** The chosen columns that aren't here yet. */
  missing() { return this.columns.filter((name) => !this.picture || !this.picture.columns.includes(name)); }

  /** The lines that aren't hidden and have values, with their numbers. */
  shown() {
    const lines = this.picture.lines.map((line, number) => [line, number]);
    return lines.filter(([line]) => !this.hidden.has(line.keys.join()) && line.points.some((points) => points.length));
  }

  // ---- pictures

  /** Whether the picture is that of the present position and range, with all chosen columns. */
  isCurrent() { return this.position >= view.position() && this.range === this.wish() && !this.missing().length; }

  /** Asks for the picture of the present position, unless it is there; and for the last one that is wanted. What was
   * chosen by hand waits for no pause. */
  want(isHasty) {
    if (!view.isFine() || !this.isSeen || this.isCurrent()) return;
    if (this.isLoading || (this.pause && !isHasty)) { this.isWanted = true; this.isHasty ||= Boolean(isHasty); return; }
    clearTimeout(this.pause);
    this.isLoading = true;
    this.isWanted = this.isHasty = false;
    const begun = performance.now();
    this.load().catch((error) => this.fail(error)).finally(() => {
      this.isLoading = false;
      const pause = this.isHasty ? 0 : Math.max(PAUSE, SHARE * (performance.now() - begun));
      this.pause = setTimeout(() => { this.pause = 0; if (this.isWanted) this.want(); }, pause);
    });
  }

  /** Says why there is no new picture, unless the banner says it. */
  fail(error) {
    this.note.textContent = view.isFine() ? error.message : "";
    this.note.hidden = !this.note.textContent;
  }

  /** Says that there is no picture, if tsctl had ended before this page asked for one. */
  showUnread() {
    if (this.picture) return;
    this.verdict.textContent = "Nothing was read of it before tsctl ended.";
    this.rows.hidden = true;
  }

  /** What is wanted beside columns and position: the range of time, the lines and the number of points. */
  wish() { return [view.zoom, view.span, this.keys && this.keys.join(";"), this.cells()].join("|"); }

  /** A cell for each two pixels, in steps, so that pages of nearly one width share a picture. */
  cells() { return Math.max(1, Math.round(this.plot.clientWidth / 200)) * 100; }

  query() {
    // The same picture is enough for all pages that ask within a moment. It says as of which position it is.
    const query = new URLSearchParams({ recent: "1", points: String(this.cells()) });
    if (this.keys) query.set("keys", this.keys.join(";"));
    if (view.zoom) {
      // The bucket that the range begins in is shown too.
      query.set("from", String(BigInt(view.zoom[0]) - BigInt(this.about.width) + 1n));
      query.set("to", view.zoom[1]);
    } else if (view.span && this.end !== undefined) {
      query.set("from", String(Math.floor(this.end - view.span * (unitOf() || 1))));
    }
    return query.toString();
  }

  /** Loads the chosen columns, or only those that are missing beside the others of the same position and range. */
  async load() {
    const wish = this.wish(), isMore = this.picture && this.range === wish && this.position >= view.position();
    const columns = isMore ? this.missing() : this.columns, hasEnd = this.end !== undefined;
    const picture = await ask(`pictures/${this.about.name}?columns=${columns.join()}&${this.query()}`);
    if (wish !== this.wish()) { this.isWanted = this.isHasty = true; return; }
    if (isMore && !canJoin(this.picture, picture)) { this.range = null; this.isWanted = this.isHasty = true; return; }
    this.picture = isMore ? joined(this.picture, picture) : picture;
    this.position = picture.position;
    // The last so many seconds aren't known before the last time is.
    this.range = view.span && !hasEnd ? null : wish;
    const times = picture.lines.flatMap((line) => line.points.flatMap((points) => points.slice(-1).map((point) => point[0])));
    if (!view.zoom && times.length) this.end = Math.max(this.end ?? -Infinity, Math.max(...times) + this.about.width);
    if (!this.isCurrent()) this.isWanted = true;
    this.show();
  }

  // ---- what is shown

  show() {
    this.rows.hidden = false;
    this.showVerdict();
    this.draw();
    this.showLegend();
    this.showRanges();
    this.showNote();
    this.showTable();
    this.root.dataset.position = String(this.picture.position);
  }

  showVerdict() {
    const { stale, dropped, watermark, position, width } = this.picture;
    const parts = [];
    if (stale.length) parts.push(h("b", { class: "stale" }, `▲ ${counted(stale.length, "stale range")}`));
    else if (watermark !== null) parts.push(h("b", { class: "fine" }, "✓ nothing stale"));
    if (dropped.length) parts.push(h("span", { class: "dropped" }, `▨ rows dropped before ${timeText(dropped[dropped.length - 1][1], width)}`));
    parts.push(watermark === null ? "never refreshed" : `watermark ${timeText(watermark, width)}`, `as of @${position.toLocaleString("en")}`);
    this.verdict.replaceChildren(...parts.flatMap((part) => [" · ", part]).slice(1));
  }

  draw() {
    const { picture } = this;
    if (!picture || !this.plot.clientWidth) return;
    if (this.isHeld) { this.isLate = true; return; }
    const focused = [...this.plot.querySelectorAll("svg[tabindex]")].indexOf(document.activeElement);
    if (!this.shown().length || !this.drawn().length) { this.drawNothing(); return; }
    // What was pointed at stays so, whatever the new rows are.
    const { pointed } = this, pointers = charts(this, view.zoom, (ends) => view.choose(null, ends));
    this.plot.replaceChildren(...pointers.map(({ root }) => root));
    if (focused >= 0) pointers[Math.min(focused, pointers.length - 1)].svg.focus({ preventScroll: true });
    const pointer = pointed && pointers.find(({ panel }) => panel.column === pointed.column);
    if (pointer) pointer.show(pointed.at);
  }

  /** A range is no longer being chosen. */
  release() {
    this.isHeld = false;
    if (this.isLate) { this.isLate = false; this.draw(); }
  }

  drawNothing() {
    const call = `CALL refresh_continuous_aggregate('${this.about.name}', NULL, NULL)`;
    const isNew = this.picture.watermark === null && !this.picture.lines.length;
    const words = this.picture.lines.length ? "All lines are hidden." : isNew ? "No refresh has found a row yet, so there is nothing to show." : "There are no rows in this range of time.";
    this.plot.replaceChildren(h("div", { class: "empty" }, h("p", {}, words),
      isNew && view.canWrite() ? h("button", { type: "button", class: "act", onclick: () => view.propose(call) }, "CALL refresh_continuous_aggregate …") : null));
  }

  showLegend() {
    const { lines, others } = this.picture;
    const items = this.about.keys.length ? lines.map((line, number) => this.legendItem(line, number)) : [];
    if (others.length || this.keys) items.push(h("li", {}, h("button", { type: "button", class: "link", "aria-expanded": String(Boolean(this.chooser)), onclick: () => this.toggleChooser() },
      this.keys ? "choose others …" : `${others.length >= 1000 ? "1,000 or more" : others.length} others …`)));
    const focused = [...this.legend.querySelectorAll("button")].indexOf(document.activeElement);
    this.legend.replaceChildren(...items);
    if (this.chooser) this.legend.append(this.chooser);
    if (focused >= 0 && this.legend.querySelectorAll("button")[focused]) this.legend.querySelectorAll("button")[focused].focus();
  }

  /** A line in the legend. A click hides it or shows it again; a double click shows it alone. */
  legendItem(line, number) {
    const name = line.keys.join(), isShown = !this.hidden.has(name);
    const change = () => { if (isShown) this.hidden.add(name); else this.hidden.delete(name); this.draw(); this.showLegend(); };
    const alone = () => { this.hidden = new Set(this.picture.lines.map((other) => other.keys.join()).filter((other) => other !== name)); this.draw(); this.showLegend(); };
    return h("li", {}, h("button", { type: "button", "aria-pressed": String(isShown), title: "Click: hide or show. Double click: this one alone", onclick: change, ondblclick: alone },
      s("svg", { "aria-hidden": "true" }, s("path", { d: "M0 4H20", class: lineClass(number) })), keyText(this.about, line)));
  }

  /** A list of all keys, of which some may be drawn instead of the first ones. */
  toggleChooser() {
    if (this.chooser) { this.chooser = null; this.showLegend(); return; }
    const drawn = new Set(this.picture.lines.map((line) => line.keys.join()));
    const boxes = [...this.picture.lines, ...this.picture.others].map((line) => ({ text: keyText(this.about, line), line }));
    const items = boxes.map(({ text, line }) => h("label", { "data-text": text.toLowerCase() }, h("input", { type: "checkbox", value: line.keys.join(), checked: drawn.has(line.keys.join()) }), text));
    const find = h("input", { type: "search", placeholder: "Find keys", "aria-label": "Find keys", oninput: () => items.forEach((item) => { item.hidden = !item.dataset.text.includes(find.value.toLowerCase()); }) });
    const apply = (keys) => { this.keys = keys && keys.length ? keys : null; this.chooser = null; this.hidden.clear(); this.want(true); };
    const chosen = () => items.map((item) => item.firstChild).filter((box) => box.checked).map((box) => box.value);
    this.chooser = h("li", { class: "chooser" }, find, h("div", { class: "boxes" }, items),
      h("button", { type: "button", class: "act", onclick: () => apply(chosen()) }, "Draw these"),
      h("button", { type: "button", class: "act", onclick: () => apply(null) }, "Back to the first ones"));
    this.showLegend();
    find.focus();
  }

  showRanges() {
    const { stale, dropped, width } = this.picture;
    const title = view.canWrite() ? "Put the refresh of this range into the box below" : "Show this range";
    const items = stale.slice(0, MOST_NAMED).map((range) => h("li", {}, h("button", { type: "button", title, onclick: () => this.pick(range) }, `stale ${rangeText(range, width)}`)));
    if (stale.length > MOST_NAMED) items.push(h("li", {}, `and ${(stale.length - MOST_NAMED).toLocaleString("en")} more`));
    for (const range of dropped.slice(0, 2)) items.push(h("li", { class: "dropped", title: "A refresh there would remove what the aggregate keeps of dropped rows" }, `dropped ${rangeText(range, width)}, kept here`));
    this.ranges.replaceChildren(...items);
  }

  /** Proposes the refresh of a range, or shows it. */
  pick([low, high]) {
    if (view.canWrite()) view.propose(`CALL refresh_continuous_aggregate('${this.about.name}', ${low === "min" ? "NULL" : low}, ${high})`);
    else if (low !== "min") view.choose(null, [String(BigInt(low) - BigInt(this.about.width) * 4n), String(BigInt(high) + BigInt(this.about.width) * 4n)]);
  }

  showNote() {
    const { cell, width, count } = this.picture;
    this.note.textContent = cell > width ? `Drawn thinned: of each ${widthText(cell)} the first, least, greatest and last of ${counted(count, "row")}. Choose a range for more.` : "";
    this.note.hidden = !this.note.textContent;
  }

  showTable() {
    const { names, rows } = this.picture.table;
    this.summary.textContent = rows.length < this.picture.count ? `The last ${rows.length} of ${counted(this.picture.count, "row")}, latest first` : `${counted(rows.length, "row")}, latest first`;
    this.scroll.replaceChildren(tableOf(names, rows.slice().reverse(), this.about.keys));
  }
}

/** Whether two pictures have the same lines at the same position. */
function canJoin(picture, more) {
  const keys = ({ lines }) => lines.map((line) => line.keys.join()).join(";");
  return picture.position === more.position && picture.cell === more.cell && keys(picture) === keys(more);
}

/** A picture with the columns of another one of the same position, range and lines. */
function joined(picture, more) {
  const lines = picture.lines.map((line, number) => ({ ...line, points: [...line.points, ...more.lines[number].points] }));
  return { ...picture, lines, columns: [...picture.columns, ...more.columns] };
}

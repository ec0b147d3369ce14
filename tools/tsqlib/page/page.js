// The page of tsq serve: a card for each aggregate, kept up to date as statements come, policies, and a box for
// statements. It asks the server that it came from, and nothing else.
import { Card, view } from "./cards.js";
import { access, ask, Events, setToken, takeToken } from "./server.js";
import { agoText, byId, counted, DAY, h, setUnit, tableOf, two, unitOf, widthText } from "./texts.js";

const SPANS = [["All", null], ["7 d", 7 * DAY], ["24 h", DAY], ["6 h", 21600], ["1 h", 3600]];
const MOST_REPLIES = 20;
const MOST_REPLY_ROWS = 200;
const MOST_NAMED = 12;
// Milliseconds after which a statement that runs may be stopped.
const SLOW = 1500;

const page = { state: null, cards: new Map(), isOpen: false, known: "", lostAt: null, needsToken: false, history: [], recalled: -1 };

view.isFine = () => page.isOpen && Boolean(page.state) && page.state.running;
view.position = () => (page.state ? page.state.position : -1);
view.canWrite = () => Boolean(page.state) && !page.state.read_only;
view.choose = choose;
view.propose = propose;

/** Takes a new state of the server. */
function take(state) {
  Object.assign(page, { state, isOpen: true, lostAt: null, needsToken: false });
  setUnit(state.unit);
  showState();
  const known = `${state.aggregates} ${state.running} ${state.unit}`;
  if (page.known !== known) { page.known = known; loadCards().catch(() => { page.known = ""; }); }
  for (const card of page.cards.values()) card.want();
  if (!state.running) page.cards.forEach((card) => card.showUnread());
}

/** Takes that there is no connection. */
function lose(error) {
  page.isOpen = false;
  page.needsToken = error.status === 401;
  page.lostAt = page.lostAt || new Date();
  showState();
}

// ---- the head

function showState() {
  const { state } = page, isFine = view.isFine() && !state.trouble;
  byId("light").className = isFine ? "live" : "bad";
  byId("live").textContent = page.needsToken ? "locked" : !page.isOpen ? "disconnected" : state.running ? (state.follows ? "following" : "live") : "ended";
  if (state) showFolder(state);
  document.querySelectorAll("#cards .card").forEach((card) => card.classList.toggle("old", !isFine));
  byId("unlock").hidden = Boolean(access.token) && !page.needsToken || Boolean(state && state.read_only && !state.private);
  byId("ask").hidden = page.needsToken || !state;
  // A link tells no token.
  byId("links").hidden = !state || state.private;
  showBanner();
  showSpans();
  showPolicies();
}

function showFolder(state) {
  byId("position").textContent = `@${state.position.toLocaleString("en")}`;
  byId("position").title = `position: ${counted(state.position, "event")} in the journal`;
  byId("folder").textContent = state.folder.split("/").pop() || state.folder;
  byId("path").textContent = state.folder;
  document.title = `${byId("folder").textContent} – tsctl`;
  byId("hint").textContent = hint(state);
  showAge();
}

/** How old what is shown is, if another process writes. */
function showAge() {
  const { state } = page;
  byId("age").textContent = state && state.written && page.isOpen ? `written ${agoText(state.written)}` : "";
}

function hint(state) {
  if (state.follows) return "Another process writes here: questions are answered from a copy that follows its journal.";
  if (state.read_only) return "Read-only: questions are answered, and nothing can be written here.";
  if (!access.token) return "Questions need no token. To write, open the address that tsq serve has said, or put its token in.";
  return `Session ${access.session}. Enter runs, Shift+Enter begins another statement, ↑ brings back the last one.`;
}

function showBanner() {
  const banner = byId("banner"), { state } = page;
  const parts = page.needsToken ? locked() : !page.isOpen && page.lostAt ? disconnected() : !state ? [] : !state.running ? ended(state) : state.trouble ? troubled(state) : [];
  banner.hidden = !parts.length;
  banner.classList.toggle("calm", !page.isOpen || Boolean(state && state.trouble));
  banner.replaceChildren(...parts);
}

function locked() {
  const words = access.token ? "This isn't the token that tsq serve has said." : "Reading needs the token that tsq serve has said: open its address, or put the token in below.";
  return [h("p", {}, h("b", {}, "Locked. "), words)];
}

function disconnected() {
  const since = `${two(page.lostAt.getHours())}:${two(page.lostAt.getMinutes())}:${two(page.lostAt.getSeconds())}`;
  return [h("p", {}, h("b", {}, `Disconnected since ${since}.`), " Trying again. Each chart says as of which position it is.")];
}

function troubled(state) {
  return [h("p", {}, h("b", {}, "The journal can't be followed: "), `${state.trouble}. Trying again; what is shown is as of @${state.position.toLocaleString("en")}.`)];
}

function ended(state) {
  if (state.status === undefined) return [h("p", {}, "tsctl isn't running.")];
  const words = " What was answered is on the disk; a statement without a reply has perhaps taken effect. Each chart says as of which position it is.";
  const parts = [h("p", {}, h("b", {}, `tsctl has ended: ${state.ending} (status ${state.status}).`), words)];
  if (state.why) parts.push(h("pre", {}, `$ tsctl why\n${state.why}`));
  if (access.token && !state.read_only) parts.push(h("button", { type: "button", class: "act", onclick: startAgain }, "Start it again"));
  return parts;
}

async function startAgain() {
  try {
    take(await ask("start", { method: "POST" }));
  } catch (error) {
    byId("banner").append(h("p", {}, error.message));
  }
}

// ---- the range of time

function showSpans() {
  const spans = unitOf() ? SPANS : SPANS.slice(0, 1);
  const buttons = spans.map(([name, span]) => h("button", {
    type: "button", "aria-pressed": String(!view.zoom && view.span === span), onclick: () => choose(span, null),
  }, name));
  if (view.zoom) buttons.push(h("button", { type: "button", "aria-pressed": "true", title: "Back to all", onclick: () => choose(null, null) }, "Chosen ✕"));
  byId("spans").replaceChildren(...buttons);
  byId("spans").hidden = !page.cards.size;
}

/** Shows another range of time: the last so many seconds, or from one time to another one. */
function choose(span, zoom) {
  Object.assign(view, { span, zoom });
  showSpans();
  for (const card of page.cards.values()) card.want(true);
}

// ---- policies

function showPolicies() {
  const { state } = page, policies = state && state.policies;
  byId("policies").hidden = !policies;
  if (!policies) return;
  byId("tick").textContent = `by wall time, every ${policies.every} s`;
  const rows = policies.list.map((policy) => h("tr", { class: policy.is_refused && "refused" },
    h("td", {}, policyText(policy.statement)),
    h("td", { class: "when", "data-name": "ran" }, policy.ran ? h("time", { datetime: policy.ran, title: policy.ran }, agoText(Date.parse(policy.ran) / 1000)) : "not yet"),
    h("td", {}, policy.did.replace("..", " – "))));
  byId("jobs").replaceChildren(h("thead", {}, h("tr", {}, ["Policy", "Ran", "Did"].map((name) => h("th", { scope: "col" }, name)))), h("tbody", {}, rows));
}

/** A policy in short: what, of which relation, and the numbers. */
function policyText(statement) {
  const found = /^SELECT\s+add_(continuous_aggregate|retention)_policy\s*\(\s*'([^']*)'\s*,?\s*(.*)\)$/i.exec(statement);
  if (!found) return h("code", {}, statement);
  const parts = found[3].split(/\s*,\s*/).map((part) => part.split(/\s*=>\s*/)).map(([name, value]) => `${name.replaceAll("_", " ")} ${/^\d+$/.test(value) ? widthText(value) : String(value).replace(/^INTERVAL\s+'(.*)'$/i, "$1")}`);
  return [h("b", {}, `${found[1].toLowerCase() === "retention" ? "drop chunks of" : "refresh"} ${found[2]} `), h("span", { class: "about" }, parts.join(", "))];
}

// ---- the cards

async function loadCards() {
  const { aggregates } = await ask("aggregates");
  const old = page.cards;
  page.cards = new Map(aggregates.map((about) => [about.name, old.get(about.name) || new Card(about)]));
  const shown = [...page.cards.values()].map((card) => card.root);
  byId("cards").replaceChildren(...(shown.length ? shown : [noAggregate()]));
  showSpans();
  for (const card of page.cards.values()) card.want();
  if (!page.state.running) page.cards.forEach((card) => card.showUnread());
}

function noAggregate() {
  const example = "CREATE MATERIALIZED VIEW hours WITH (timescaledb.continuous) AS SELECT time_bucket(3600, time) AS hour, count(*) AS rows FROM readings GROUP BY hour";
  return h("article", { class: "card" }, h("div", { class: "empty" },
    h("p", {}, "There is no aggregate yet. Each one gets a chart here, once a statement has made it."),
    view.canWrite() ? h("button", { type: "button", class: "act", onclick: () => propose(example) }, "CREATE MATERIALIZED VIEW …") : null));
}

// ---- statements

function propose(text) {
  const box = byId("text");
  box.value = text;
  grow(box);
  box.focus();
  box.scrollIntoView({ block: "center", behavior: "smooth" });
}

function grow(box) { box.rows = Math.min(8, box.value.split("\n").length + Math.floor(box.value.length / 140)); }

async function run(event) {
  if (event) event.preventDefault();
  const box = byId("text"), text = box.value.trim();
  if (!text) return;
  page.history = [text, ...page.history.filter((old) => old !== text)].slice(0, 50);
  page.recalled = -1;
  byId("run").disabled = true;
  const slow = setTimeout(() => { byId("stop").hidden = !access.token; }, SLOW);
  let shown;
  try {
    const replies = await ask(`sql?session=${access.session}`, { method: "POST", headers: { "Content-Type": "text/plain" }, body: text });
    shown = replies.map((reply) => replyOf(reply, text));
    if (!replies.some((reply) => reply.fault)) { box.value = ""; grow(box); }
  } catch (error) {
    shown = [...(error.replies || []).map((reply) => replyOf(reply, text)), h("div", { class: "reply" }, h("div", { class: "said" }, text), h("div", { class: "fault" }, error.message))];
  }
  clearTimeout(slow);
  byId("run").disabled = false;
  byId("stop").hidden = true;
  byId("replies").prepend(...shown);
  while (byId("replies").children.length > MOST_REPLIES) byId("replies").lastChild.remove();
}

async function stop() {
  try {
    await ask("stop", { method: "POST" });
  } catch (error) {
    byId("replies").prepend(h("div", { class: "reply fault" }, error.message));
  }
}

function replyOf(reply, text) {
  const said = text.split("\n")[reply.line - 1] || "";
  const parts = [h("div", { class: "said" }, said.length > 400 ? `${said.slice(0, 400)}…` : said)];
  parts.push(...reply.reply.map((head) => h("div", { class: / FAULT /.test(` ${head}`) && "fault" }, head)));
  if (reply.fault) parts.push(h("pre", {}, reply.fault.shown.join("\n")));
  if (reply.rows && reply.rows.length) {
    const rows = reply.rows.slice(0, MOST_REPLY_ROWS);
    parts.push(h("div", { class: "scroll", tabindex: "0" }, tableOf(Object.keys(rows[0]), rows.map((row) => Object.values(row)))));
    if (rows.length < reply.count) parts.push(h("div", { class: "said" }, `the first ${rows.length} of ${reply.count.toLocaleString("en")} rows`));
  }
  for (const kind of ["dropped", "stale"]) {
    parts.push(...(reply[kind] || []).slice(0, MOST_NAMED).map((range) => h("div", {}, `${kind} ${range.from ?? "min"}..${range.to}`)));
  }
  return h("div", { class: "reply" }, parts);
}

function typed(event) {
  const box = event.target;
  if (event.key === "Enter" && !event.shiftKey) return run(event);
  const step = { ArrowUp: 1, ArrowDown: -1 }[event.key];
  if (!step || !page.history.length || box.value.includes("\n")) return undefined;
  page.recalled = Math.min(Math.max(page.recalled + step, -1), page.history.length - 1);
  box.value = page.history[page.recalled] || "";
  grow(box);
  return event.preventDefault();
}

// ---- the beginning

function chooseTheme() {
  const isDark = matchMedia("(prefers-color-scheme: dark)").matches;
  const now = document.documentElement.dataset.theme || (isDark ? "dark" : "light");
  document.documentElement.dataset.theme = now === "dark" ? "light" : "dark";
  localStorage.setItem("theme", document.documentElement.dataset.theme);
}

function begin() {
  const theme = localStorage.getItem("theme");
  if (theme) document.documentElement.dataset.theme = theme;
  takeToken();
  const events = new Events(take, lose);
  byId("theme").addEventListener("click", chooseTheme);
  byId("form").addEventListener("submit", run);
  byId("stop").addEventListener("click", stop);
  byId("text").addEventListener("keydown", typed);
  byId("text").addEventListener("input", (event) => grow(event.target));
  byId("token").addEventListener("change", (event) => { setToken(event.target.value.trim()); events.begin(); showState(); });
  setInterval(() => { showAge(); showPolicies(); }, 5000);
}

begin();

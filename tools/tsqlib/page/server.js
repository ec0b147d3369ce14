// Requests to the server that the page came from, and to nothing else.

const SILENT = 40000;
const HIDDEN = 5000;
// The server says something each 15 seconds, be it that there is nothing new.
const QUIET = 20000;

export const access = { token: null, session: null };

/** Takes the token out of the address, so that it is in no history, and keeps it for this tab. */
export function takeToken() {
  const found = /^#token=(.+)$/.exec(location.hash);
  if (found) {
    sessionStorage.setItem("token", decodeURIComponent(found[1]));
    history.replaceState(null, "", location.pathname + location.search);
  }
  access.token = sessionStorage.getItem("token");
  access.session = sessionStorage.getItem("session") || `page_${Math.random().toString(36).slice(2, 9)}`;
  sessionStorage.setItem("session", access.session);
}

export function setToken(text) {
  sessionStorage.setItem("token", text);
  access.token = text || null;
}

function request(path, { headers, ...options } = {}) {
  const token = access.token ? { Authorization: `Bearer ${access.token}` } : {};
  return fetch(path, { ...options, headers: { ...headers, ...token } });
}

/** The JSON of an answer. What is refused is thrown, with the replies to the statements before. */
export async function ask(path, options) {
  const response = await request(path, options);
  const body = await response.json();
  if (!response.ok) throw Object.assign(new Error(body.error || response.statusText), { status: response.status, replies: body.replies });
  return body;
}

/** Saves what a path answers as a file. A link couldn't tell the token. */
export async function save(path, name) {
  const response = await request(path);
  if (!response.ok) throw new Error((await response.json()).error);
  const link = document.createElement("a");
  link.href = URL.createObjectURL(await response.blob());
  link.download = name;
  link.click();
  URL.revokeObjectURL(link.href);
}

// ---- events

/** Tells each state of the server, and why there is none. A tab that isn't seen lets its connection go. */
export class Events {
  constructor(onState, onLost) {
    this.onState = onState;
    this.onLost = onLost;
    this.pause = 500;
    document.addEventListener("visibilitychange", () => this.see());
    // A browser that has stopped a page doesn't always give the rest of what it was reading.
    document.addEventListener("resume", () => this.begin());
    this.begin();
  }

  see() {
    clearTimeout(this.leaving);
    if (document.hidden) this.leaving = setTimeout(() => this.leave(), HIDDEN);
    else if (this.isAway || Date.now() - this.heard > QUIET) this.begin();
  }

  leave() {
    this.isAway = true;
    this.control.abort();
  }

  /** Begins at once, whatever is waited for. */
  begin() {
    clearTimeout(this.again);
    this.isAway = false;
    this.heard = Date.now();
    if (this.control) this.control.abort();
    this.control = new AbortController();
    this.read(this.control).catch((error) => this.lost(error));
  }

  lost(error) {
    if (this.isAway || error.isOld) return;
    this.onLost(error);
    this.again = setTimeout(() => this.begin(), this.pause);
    this.pause = Math.min(this.pause * 1.6, 5000);
  }

  async read(control) {
    const fail = (error) => { throw Object.assign(error, { isOld: control !== this.control }); };
    try {
      const response = await request("events", { signal: control.signal });
      if (!response.ok) throw Object.assign(new Error((await response.json()).error), { status: response.status });
      const reader = response.body.pipeThrough(new TextDecoderStream()).getReader();
      let held = "", timer = null;
      for (;;) {
        clearTimeout(timer);
        timer = setTimeout(() => control.abort(), SILENT);
        const { done, value } = await reader.read();
        if (done) throw new Error("the connection has ended");
        this.heard = Date.now();
        const parts = (held + value).split("\n\n");
        held = parts.pop();
        const latest = parts.map((part) => /^data: (.*)$/m.exec(part)).filter(Boolean).pop();
        this.pause = 500;
        if (latest && control === this.control) this.onState(JSON.parse(latest[1]));
      }
    } catch (error) { fail(error); }
  }
}

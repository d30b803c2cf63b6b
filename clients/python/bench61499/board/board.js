"use strict";
// All texts of users are shown through textContent alone; the page's policy forbids every other way.

const $ = (id) => document.getElementById(id);
const SHOWN_CHANGES = 300, NOTES = 4, STEPS = 6, FEW = 40, PLANT_ROWS = 200;
const KINDS = { FUNCTION_BLOCK: "block", ADAPTER: "adapter", SUBAPPLICATION: "subapplication", SYSTEM: "system", TYPE: "structure" };
/** The kinds of units that have a network, and a plan. */
const HAS = { network: ["SUBAPPLICATION", "SYSTEM"], plan: ["SYSTEM"] };
const STATES = { fine: "fine", faulty: "faults", noplan: "no plan", pending: "pending", absent: "not there", unknown: "not known yet" };
/** Whether the workbench is a shared one that lists no units and gives no texts, so that it has to be asked about each. */
const isAsked = () => Boolean(board.about?.shared && !board.about.reads);
/** What is to be mended. */
const isWrong = (unit) => unit.state === "faulty" || unit.state === "noplan";

/** An element with attributes, and with children that are elements or words. */
function make(name, attributes = {}, ...children) {
  const element = document.createElement(name);
  for (const [key, value] of Object.entries(attributes)) {
    if (key === "onclick") element.addEventListener("click", value);
    else if (value !== false && value != null) element.setAttribute(key, value);
  }
  element.append(...children);
  return element;
}
const counted = (number, what) => `${number.toLocaleString("en")} ${what}${number === 1 ? "" : "s"}`;
const inOrder = new Intl.Collator("en", { numeric: true }).compare;
const clock = (seconds) => new Date(seconds * 1000).toLocaleTimeString("en-GB");
const link = (words, act) => make("button", { class: "link", onclick: act }, words);

/** What is kept for the next visit, in the browser where it can be, else until the page is closed. */
const memory = {
  kept: new Map(),
  get(key) {
    try { return JSON.parse(localStorage.getItem(key)) ?? this.kept.get(key); } catch { return this.kept.get(key); }
  },
  set(key, value) {
    this.kept.set(key, value);
    try { localStorage.setItem(key, JSON.stringify(value)); } catch { /* There is no room, or it is forbidden. */ }
  },
};

/** Says what has changed to those who can't see it, gathered for a moment. */
const speaker = {
  words: [],
  say(words) {
    if (!this.words.length) setTimeout(() => { $("said").textContent = this.words.splice(0).slice(-4).join(". "); }, 600);
    this.words.push(words);
  },
};

/** A list of which only the rows that can be seen are in the page. One row is chosen, by the arrow keys or a click. */
class LongList {
  static height = 30;
  constructor(box, fill, choose, empty) {
    Object.assign(this, { box, fill, choose, empty, items: [], at: -1 });
    this.room = make("div", { role: "presentation" });
    box.append(this.room);
    box.addEventListener("scroll", () => this.draw());
    box.addEventListener("keydown", (event) => this.key(event));
    new ResizeObserver(() => this.draw()).observe(box);
  }
  show(items, chosen) {
    this.items = items;
    this.at = items.indexOf(chosen);
    this.room.style.height = `${items.length * LongList.height}px`;
    this.draw();
  }
  draw() {
    const first = Math.max(0, Math.floor(this.box.scrollTop / LongList.height) - 4);
    const last = Math.min(this.items.length, first + Math.ceil(this.box.clientHeight / LongList.height) + 9);
    const rows = [];
    for (let at = first; at < last; at++) rows.push(this.row(at));
    this.room.replaceChildren(...(this.items.length ? rows : [make("p", { class: "empty" }, this.empty())]));
    const active = this.at >= first && this.at < last;
    if (active) this.box.setAttribute("aria-activedescendant", `${this.box.id}-${this.at}`);
    else this.box.removeAttribute("aria-activedescendant");
  }
  row(at) {
    const row = make("div", {
      class: "row", role: "option", id: `${this.box.id}-${at}`, "aria-posinset": at + 1, "aria-setsize": this.items.length,
      "aria-selected": String(at === this.at), onclick: () => this.move(at, true),
    });
    row.style.top = `${at * LongList.height}px`;
    this.fill(row, this.items[at]);
    return row;
  }
  /** Chooses a row: by a click, or on the way over it. */
  move(at, isClick = false) {
    if (!this.items.length) return;
    this.at = Math.max(0, Math.min(this.items.length - 1, at));
    this.reveal();
    this.draw();
    this.choose(this.items[this.at], isClick);
  }
  reveal() {
    const top = this.at * LongList.height, { scrollTop, clientHeight } = this.box;
    if (top < scrollTop) this.box.scrollTop = top;
    else if (top + LongList.height > scrollTop + clientHeight) this.box.scrollTop = top + LongList.height - clientHeight;
  }
  key(event) {
    const page = Math.max(1, Math.floor(this.box.clientHeight / LongList.height) - 1);
    const steps = { ArrowDown: this.at + 1, ArrowUp: this.at - 1, PageDown: this.at + page, PageUp: this.at - page, Home: 0, End: this.items.length - 1 };
    if (event.key in steps && !event.altKey && !event.ctrlKey && !event.metaKey) {
      event.preventDefault();
      this.move(steps[event.key]);
    } else if (event.key === "Enter" && this.at >= 0) {
      event.preventDefault();
      this.choose(this.items[this.at], true);
    }
  }
}

/** What is known of the workbench: told by the server's events. */
const board = {
  units: new Map(), names: [], changes: new Map(), answers: new Map(), about: null, last: 0, problems: [], ended: "", session: 0, connected: false, refusal: "",

  /** Listens for as long as the page is seen. A page that is not seen would cost a shared workbench recorded calls. */
  connect() {
    if (document.hidden || this.events) return;
    this.events = new EventSource(`/events?change=${this.last}`);
    this.events.onmessage = (message) => this.take(JSON.parse(message.data));
    this.events.onerror = async () => {
      const isRefused = this.events?.readyState === EventSource.CLOSED;
      this.leave();
      this.refusal = isRefused ? await refusalOf("/") : "";
      showState();
      setTimeout(() => this.connect(), 1000);
    };
  },
  leave() {
    this.events?.close();
    this.events = null;
    this.connected = false;
  },
  take(news) {
    if (news.about) {
      if (this.about && news.about.run !== this.about.run) return location.reload();
      this.about = news.about;
      this.connected = true;
      this.units.clear();
      this.names = [];
      this.answers.clear();
    }
    const added = news.units.map(([unit]) => unit).filter((unit) => !this.units.has(unit));
    for (const [unit, name, kind, revision, state, faults, file, plan] of news.units) this.units.set(unit, { unit, name, kind, revision, state, faults, file, plan });
    this.addNames(added);
    for (const [kind, unit, serial, current] of news.answers) this.answers.set(`${kind} ${unit}`, { serial, current });
    for (const it of news.changes) this.changes.set(it.serial, it);
    Object.assign(this, { problems: news.problems, ended: news.ended, calls: news.calls, last: news.last, session: news.session });
    showNews(news);
  },
  /** Keeps the names in order. To sort all of a large plant takes long. */
  addNames(added) {
    if (added.length > FEW) this.names = [...this.names, ...added].sort(inOrder);
    else for (const name of added) {
      let low = 0, high = this.names.length;
      while (low < high) {
        const middle = (low + high) >> 1;
        if (inOrder(this.names[middle], name) < 0) low = middle + 1;
        else high = middle;
      }
      this.names.splice(low, 0, name);
    }
  },
};

/** The name of a unit as its text declares it. */
const nameOf = (unit) => board.units.get(unit)?.name ?? unit;

/** What the server says where it does not let this page in. */
async function refusalOf(path) {
  try {
    const reply = await fetch(path);
    return reply.ok ? "" : (await reply.text()).trim();
  } catch { return ""; }
}

async function ask(path, query) {
  const reply = await fetch(`${path}?${new URLSearchParams(query)}`);
  if (!reply.ok) throw new Error((await reply.text()).trim());
  return reply.json();
}

// The bar and the list of units

const filters = {
  all: ["All", (unit) => unit.state !== "absent" || isAsked()],
  faulty: ["Faults", (unit) => unit.state === "faulty"],
  noplan: ["No plan", (unit) => unit.state === "noplan"],
  pending: ["Pending", (unit) => unit.state === "pending"],
  fine: ["Fine", (unit) => unit.state === "fine"],
  absent: ["Not there", (unit) => unit.state === "absent"],
};
let filter = "all";

const unitList = new LongList($("units"), fillUnit, (unit, isClick) => {
  if (unit.group === undefined) go(unit.unit, shown.tab);
  else if (isClick) turn(unit);
}, () =>
  board.units.size ? "No unit is like that." : "No units are known here yet.");

// By what the units are listed, and which groups are closed or open otherwise than they are at first

let by = "name", systems = null, asking = false;
const turned = new Set();
const MANY = 300;

/** Which groups a unit is in. */
const groupsOf = {
  folder: ({ file }) => [file ? file.slice(0, Math.max(0, file.lastIndexOf("/"))).replace(board.about?.title ?? "", "").replace(/^\//, "") || "./" : "no file"],
  system: ({ unit }) => systems?.get(unit) ?? ["in no system"],
};

function fillGroup(row, { group, units, faults, isOpen }) {
  row.classList.add("group");
  row.title = group;
  row.append(make("span", { "aria-hidden": "true" }, isOpen ? "▾" : "▸"), make("span", { class: "name" }, make("bdi", {}, by === "system" ? nameOf(group) : group)),
    make("span", { class: "unseen" }, `, ${isOpen ? "open" : "closed"}, ${faults ? `${counted(faults, "fault")}, ` : ""}`),
    faults ? make("span", { class: "badge number", "aria-hidden": "true" }, faults.toLocaleString("en")) : "",
    make("span", { class: "kind number" }, counted(units.length, "unit")));
}

/** The units below their groups, in order; what is closed has its head alone. */
function inGroups(units, isSearch) {
  const groups = new Map();
  for (const it of units) for (const group of groupsOf[by](it)) {
    if (!groups.has(group)) groups.set(group, []);
    groups.get(group).push(it);
  }
  const isLast = (name) => name === "in no system" || name === "no file";
  const names = [...groups.keys()].sort((one, other) => isLast(one) - isLast(other) || inOrder(one, other));
  return names.flatMap((group) => {
    const its = groups.get(group), isOpen = isSearch || turned.has(`${by} ${group}`) !== (units.length <= MANY);
    return [{ group, units: its, faults: its.reduce((sum, it) => sum + it.faults, 0), isOpen }, ...(isOpen ? its : [])];
  });
}

function turn({ group }) {
  const key = `${by} ${group}`;
  if (!turned.delete(key)) turned.add(key);
  listUnits();
  unitList.at = unitList.items.findIndex((it) => it.group === group);
  unitList.reveal();
  unitList.draw();
}

async function listBy(name) {
  by = name;
  memory.set("list by", name);
  await askSystems();
  listUnits();
}

/** Which systems lead to each unit; asked for again when units have changed. */
async function askSystems() {
  if (by !== "system" || asking) return;
  asking = true;
  try {
    const found = await ask("/systems", {});
    systems = new Map();
    for (const [system, units] of Object.entries(found)) for (const unit of units) systems.set(unit, [...(systems.get(unit) ?? []), system]);
    listUnits();
  } catch { systems = null; }
  asking = false;
}

function fillUnit(row, unit) {
  if (unit.group !== undefined) return fillGroup(row, unit);
  const gone = unit.state === "absent" || unit.state === "unknown";
  row.classList.toggle("gone", unit.state === "absent");
  const words = unit.state === "faulty" ? counted(unit.faults, "fault") : STATES[unit.state];
  row.append(
    make("span", { class: `dot ${unit.state}`, "aria-hidden": "true" }), make("span", { class: "name" }, unit.name),
    make("span", { class: "unseen" }, `, ${words}, `),
    unit.faults ? make("span", { class: "badge number", "aria-hidden": "true" }, unit.faults.toLocaleString("en")) : "",
    make("span", { class: `kind ${unit.state}` }, gone || unit.state === "noplan" ? STATES[unit.state] : KINDS[unit.kind] ?? ""),
  );
}

function listUnits() {
  const wanted = $("search").value.trim().toUpperCase();
  const items = board.names.map((name) => board.units.get(name))
    .filter((it) => it.unit.includes(wanted) && filters[filter][1](it));
  unitList.show(by === "name" ? items : inGroups(items, Boolean(wanted)), board.units.get(shown.unit));
}

function count() {
  const counts = { units: 0, faults: 0, ...Object.fromEntries(Object.keys(filters).map((it) => [it, 0])) };
  for (const it of board.units.values()) {
    for (const [name, [, isMeant]] of Object.entries(filters)) counts[name] += isMeant(it) ? 1 : 0;
    counts.units += it.state === "absent" ? 0 : 1;
    counts.faults += it.faults;
  }
  return counts;
}

function showCounts() {
  const counts = count();
  const part = (kind, number, words) => make("span", { class: number ? kind : "" }, make("b", {}, number.toLocaleString("en")), ` ${words}`);
  $("counts").replaceChildren(
    part("all", counts.units, counts.units === 1 ? "unit" : "units"),
    part("faulty", counts.faults, `${counts.faults === 1 ? "fault" : "faults"}${counts.faults ? ` in ${counted(counts.faulty, "unit")}` : ""}`),
    ...(counts.noplan ? [part("faulty", counts.noplan, `${counts.noplan === 1 ? "system" : "systems"} without a plan`)] : []),
    part("pending", counts.pending, "pending"),
  );
  for (const button of $("filters").children) {
    const name = button.dataset.filter;
    const number = name === "faulty" ? counts.faults : counts[name];
    if (name !== "all") button.lastChild.textContent = ` ${number.toLocaleString("en")}`;
    button.hidden = ["absent", "noplan"].includes(name) && !number && filter !== name;
  }
  document.title = `${counts.faults ? `${counted(counts.faults, "fault")} – ` : ""}${board.about?.title ?? "bench61499"}`;
}

function setFilter(name) {
  filter = name;
  for (const button of $("filters").children) button.setAttribute("aria-pressed", String(button.dataset.filter === name));
  listUnits();
}

function showState() {
  const { connected, ended, about } = board;
  $("live").textContent = !connected ? "not connected" : ended ? (about?.shared ? "waiting" : "ended") : "live";
  $("live").classList.toggle("off", !connected || Boolean(ended));
  $("title").textContent = about?.title ?? "";
  const unanswered = board.refusal ? `The board says: ${board.refusal}.` : "The board does not answer.";
  const words = !connected ? (about || board.refusal ? `${unanswered} This is what it last knew; it is asked again each second.` : "")
    : ended ? `Not checked now: ${ended}. This is what was last known.` : "";
  if ($("ended").textContent !== words) $("ended").textContent = words;
  $("ended").hidden = !words;
  $("problems").textContent = board.problems.slice(0, 3).join(" · ") + (board.problems.length > 3 ? ` · and ${board.problems.length - 3} more` : "");
  $("problems").hidden = !board.problems.length;
  $("look").hidden = !isAsked();
  const who = isAsked() ? `The workbench tells no session who made a commit, only the revisions. This board has made ${counted(board.calls, "recorded call")}.`
    : about?.shared ? `Commits of the workbench, by the numbers of its sessions.${board.session ? ` This board is session ${board.session}, and commits nothing.` : ""}` : "Each is a change of files on disk.";
  $("changes-note").textContent = `Since the board was started. ${who}`;
}

function showNews(news) {
  showState();
  showCounts();
  listUnits();
  if (news.about) unitList.reveal();
  if (news.about || news.changes.length) askSystems();
  if (news.changes.length) showChanges(news.changes, news.about);
  const touched = news.about || !shown.unit || news.units.some(([unit]) => unit === shown.unit) || news.answers.some(([, unit]) => unit === shown.unit);
  if (touched) refresh();
  if (!news.about) tellFaults(news.units);
}

function tellFaults(units) {
  const settled = units.filter(([, , , , state]) => state === "faulty" || state === "noplan" || state === "fine");
  if (settled.length > 3) speaker.say(`${counted(settled.length, "unit")} checked, ${counted(count().faults, "fault")} in all`);
  else for (const [, name, , , state, faults] of settled) speaker.say(`${name}: ${faults ? counted(faults, "fault") : state === "noplan" ? "no plan" : "no faults"}`);
}

// Changes

function showChanges(changes, isFirst) {
  for (const it of [...changes].sort((one, other) => one.time - other.time)) {
    const former = $("changes").querySelector(`li[data-serial="${it.serial}"]`), item = changeItem(it);
    if (former?.dataset.time === String(it.time)) former.replaceWith(item);
    else {
      former?.remove();
      $("changes").prepend(item);
      if (!isFirst) speaker.say(spokenWords(it));
    }
  }
  while ($("changes").children.length > SHOWN_CHANGES) $("changes").lastChild.remove();
  $("changes-title").textContent = `Changes (${board.changes.size.toLocaleString("en")})`;
}

const stepWords = ([, old, now]) => !now ? `removed, was at revision ${old}` : !old ? `new, revision ${now}` : `revision ${old} → ${now}`;
const authorOf = ({ author, commit }) => `${author || "another session"}${commit && board.about?.shared ? `, commit ${commit.toLocaleString("en")}` : ""}`;

const spokenWords = (change) => {
  const { steps } = change, who = authorOf(change);
  return !steps.length ? who : steps.length === 1 ? `${nameOf(steps[0][0])} ${stepWords(steps[0])}, ${who}` : `${counted(steps.length, "unit")} changed, ${who}`;
};

/** A change: its units, when and by whom, and the faults that came and went with it. */
function changeItem(change) {
  const { steps, serial, time, count } = change;
  const units = steps.slice(0, STEPS).map((step) => make("p", { class: "step" }, link(nameOf(step[0]), () => go(step[0], "text")), ` ${stepWords(step)}`));
  if (steps.length > STEPS) units.push(make("p", { class: "step" }, `and ${counted(steps.length - STEPS, "unit")} more`));
  if (count > 1) units.at(-1).append(`, ${count.toLocaleString("en")} changes`);
  return make("li", { "data-serial": serial, "data-time": time }, ...units, make("p", { class: "number" }, `${clock(time)}, ${authorOf(change)}`),
    ...faultLines("came", change.came, change.came_count), ...faultLines("went", change.went, change.went_count));
}

/** The faults that came or went, a line each. */
function faultLines(sort, faults, count) {
  const sign = sort === "came" ? "+" : "−";
  const line = (...words) => make("p", { class: `fault ${sort}` }, make("span", { class: "unseen" }, sort), make("span", { "aria-hidden": "true" }, sign), " ", ...words);
  const lines = faults.slice(0, NOTES).map(([unit, code, words]) =>
    line(link(nameOf(unit), () => go(unit, code === "NO_PLAN" ? "plan" : "text")), " ", code === "NO_PLAN" ? "no plan" : make("span", { class: "mono" }, code), words ? ` ${words}` : ""));
  if (count > lines.length) lines.push(line(`${counted(count - lines.length, "fault")} more`));
  return lines;
}

// What is shown of a unit: its place is in the address, so that the browser's own keys go back and forth

const shown = { unit: "", tab: "text", line: 0, serial: 0, asked: 0 };
const TABS = { text: "Text", network: "Network", plan: "Plan" };

function go(unit, tab = "text", line = 0) {
  const place = `#${encodeURIComponent(unit)}/${tab}${line ? `/${line}` : ""}`;
  if (location.hash === place) refresh();
  else location.hash = place;
}

function decoded(part) {
  try { return decodeURIComponent(part); } catch { return part; }
}

function follow() {
  const [unit = "", tab = "text", line = "0"] = location.hash.slice(1).split("/");
  leavePlan();
  const name = decoded(unit);
  const other = shown.unit !== name || shown.tab !== tab;
  Object.assign(shown, { unit: name, tab: Object.hasOwn(TABS, tab) ? tab : "text", line: Number(line) || 0, serial: 0 });
  if (other) $("panel").replaceChildren();
  listUnits();
  unitList.reveal();
  unitList.draw();
  refresh();
}

function showHead() {
  const row = board.units.get(shown.unit);
  $("unit").textContent = row?.name ?? (shown.unit || "The plant");
  $("facts").textContent = row ? [KINDS[row.kind], row.revision ? `revision ${row.revision}` : "", row.file].filter(Boolean).join(" · ") : "";
  $("unit-state").hidden = !row;
  if (row) {
    $("unit-state").className = `state ${row.state}`;
    $("unit-state").textContent = row.state === "faulty" ? counted(row.faults, "fault") : STATES[row.state];
  }
  const may = { text: true, network: !row?.kind || HAS.network.includes(row.kind), plan: !row?.kind || HAS.plan.includes(row.kind) };
  $("tabs").hidden = !row || !may.network;
  for (const tab of $("tabs").children) {
    tab.hidden = !may[tab.dataset.tab];
    tab.setAttribute("aria-selected", String(tab.dataset.tab === shown.tab));
    tab.tabIndex = tab.dataset.tab === shown.tab ? 0 : -1;
  }
}

async function refresh() {
  showHead();
  const row = board.units.get(shown.unit);
  if (!shown.unit) return showPlant();
  if (!row) return say(`The board has no unit ${shown.unit}.`);
  const asked = ++shown.asked;
  const still = () => asked === shown.asked;
  try {
    if (shown.tab === "text") await refreshText(still);
    else if (shown.tab === "network") await refreshNetwork(still);
    else await refreshPlan(still);
  } catch (error) {
    if (still() && board.connected) say(`It can't be shown: ${error.message}`);
  }
}

/** The systems with their plans, and the units with faults. */
function showPlant() {
  const units = board.names.map((name) => board.units.get(name)).filter((it) => it.revision);
  const systems = units.filter((it) => it.kind === "SYSTEM"), faulty = units.filter((it) => it.state === "faulty");
  const { scrollTop } = $("panel"), focused = [...$("panel").querySelectorAll("button")].indexOf(document.activeElement);
  note("");
  $("panel").className = "panel";
  $("panel").replaceChildren(make("div", { class: "plant" },
    make("h3", {}, "Systems"), systems.length ? systemTable(systems) : make("p", { class: "dim" }, units.length ? "No unit is a system." : "No units are known here yet."),
    make("h3", {}, "Units with faults"), faulty.length ? faultyTable(faulty) : make("p", { class: "dim" }, "None.")));
  $("panel").scrollTop = scrollTop;
  if (focused >= 0) ($("panel").querySelectorAll("button")[focused] ?? $("panel")).focus({ preventScroll: true });
}

const table = (heads, rows) => make("table", {}, make("thead", {}, make("tr", {}, ...heads.map((it) => make("th", { scope: "col" }, it)))),
  make("tbody", {}, ...rows.map((cells) => make("tr", {}, ...cells.map((it) => make("td", {}, it))))));

function systemTable(systems) {
  const plan = (it) => it.plan ? link(it.plan, () => go(it.unit, "plan")) : "pending";
  const faults = (it) => it.state === "pending" ? "pending" : it.faults ? link(counted(it.faults, "fault"), () => go(it.unit, "text")) : "none";
  const rows = systems.slice(0, PLANT_ROWS).map((it) => [link(it.name, () => go(it.unit, "network")), faults(it), plan(it)]);
  return table([`System (${systems.length.toLocaleString("en")})`, "Faults of its text", "Plan"], rows);
}

function faultyTable(faulty) {
  const rows = faulty.slice(0, PLANT_ROWS).map((it) => [link(it.name, () => go(it.unit, "text")), KINDS[it.kind] ?? "", counted(it.faults, "fault")]);
  return table([`Unit (${faulty.length.toLocaleString("en")})`, "Kind", "Faults"], rows);
}

/** Whether there is a newer answer than the one that is shown. */
function isNewer(...kinds) {
  const known = kinds.map((kind) => board.answers.get(`${kind} ${shown.unit}`)).filter(Boolean);
  return !shown.serial || !known.length || known.some((it) => it.serial > shown.serial);
}

function say(...content) {
  note("");
  $("panel").className = "panel";
  $("panel").replaceChildren(make("div", { class: "said" }, ...content));
}

function note(words) {
  $("note").textContent = words;
  $("note").hidden = !words;
}

// The text of a unit

async function refreshText(still) {
  const unit = await ask("/unit", { name: shown.unit });
  if (!still()) return;
  note(unit.note);
  const panel = $("panel"), { scrollTop, scrollLeft } = panel;
  panel.className = "panel";
  const parts = unit.faults.length ? [faultList(unit)] : [];
  if (unit.lines) parts.push(make("div", { class: "text", id: "text" }, ...unit.lines.map((line, at) => textLine(line, at + 1, unit.faults)).flat()));
  else if (!unit.faults.length) parts.push(make("p", { class: "said" }, unit.state === "absent" ? "There is no such unit in the workbench." : "No faults."));
  const focused = [...document.querySelectorAll("button.fault")].indexOf(document.activeElement);
  panel.replaceChildren(...parts);
  if (focused >= 0) (panel.querySelectorAll("button.fault")[focused] ?? panel).focus({ preventScroll: true });
  panel.scrollTo(scrollLeft, scrollTop);
  if (shown.line) showLine(shown.line);
  shown.line = 0;
}

function faultList(unit) {
  const items = unit.faults.map((it) => {
    const place = it.line ? `${it.line}:${it.column}` : `${it.start}–${it.end}`;
    const words = it.explanation ?? "bytes of a text that is not here";
    const parts = [make("span", { class: "dim number" }, place), make("span", { class: "code mono" }, it.code), make("span", {}, words)];
    return make("li", {}, make("button", { class: "link fault", onclick: () => it.line && showLine(it.line) }, ...parts));
  });
  const rest = unit.count - unit.faults.length;
  if (rest) items.push(make("li", { class: "dim" }, `and ${counted(rest, "fault")} more`));
  return make("ol", { class: "faults", "aria-label": "Faults" }, ...items);
}

/** A line, and below it what is wrong there. */
function textLine(pieces, number, faults) {
  const line = make("div", { class: "l", "data-line": number });
  const code = make("code", { class: "mono" });
  const told = new Set();
  for (const it of pieces) code.append(typeof it === "string" ? it : piece(it, faults, told));
  line.append(code);
  const begun = [...told].filter((at) => faults[at].line === number);
  const notes = begun.slice(0, NOTES).map((at) => make("span", { class: "told", role: "note" }, make("b", { class: "mono" }, faults[at].code), ` ${faults[at].explanation}`));
  if (begun.length > NOTES) notes.push(make("span", { class: "told" }, `and ${counted(begun.length - NOTES, "fault")} more in this line`));
  return [line, ...notes];
}

function piece(it, faults, told) {
  if (!it.faults.length) return make("span", { class: it.kind }, it.words);
  it.faults.forEach((at) => told.add(at));
  const title = it.faults.map((at) => `${faults[at].code}: ${faults[at].explanation}`).join("\n");
  return make("mark", { class: it.kind, title }, it.words);
}

function showLine(number) {
  document.querySelector(".l.at")?.classList.remove("at");
  const line = document.querySelector(`.l[data-line="${number}"]`);
  if (!line) return;
  line.classList.add("at");
  line.scrollIntoView({ block: "center" });
}

// Why there is no network or plan

function whyNot(view) {
  const names = (units) => units.flatMap((it, at) => [at ? ", " : "", link(nameOf(it), () => go(it, "text"))]);
  switch (view.state) {
    case "pending": return ["It is being computed…"];
    case "none": return [whyNone()];
    case "refused": return [`The workbench does not answer: ${view.why}.`];
    case "too_large": return [`No ${shown.tab}: it would have more than 4,096 instances.`];
    case "recursive": return [`No ${shown.tab}: these units contain themselves:`, make("p", {}, ...names(view.units))];
    case "blocked": return [
      `No ${shown.tab} yet: units that it depends on are missing or have faults.`,
      ...(view.missing.length ? [make("p", {}, "Missing: ", ...names(view.missing))] : []),
      ...(view.faulty.length ? [make("p", {}, "With faults: ", ...names(view.faulty))] : []),
    ];
  }
  return ["It is not known."];
}

/** Why a unit is none that has a network or a plan. */
function whyNone() {
  const row = board.units.get(shown.unit), what = shown.tab === "plan" ? "plan" : "network";
  if (!row?.revision) return `There is no unit ${shown.unit}.`;
  if (!Object.hasOwn(KINDS, row.kind)) return `The text of ${row.name} is not known, or declares nothing that has a ${what}.`;
  if (!HAS[what].includes(row.kind)) return `${/^[aeiou]/.test(KINDS[row.kind]) ? "An" : "A"} ${KINDS[row.kind]} has no ${what}.`;
  return `The text of ${row.name} has a SYNTAX fault, so it has no ${what}.`;
}

const misplacedWords = ([reason, path]) => reason === "UNMAPPED" ? `no mapping gives ${path} a resource` : `a mapping is of ${path}, which is not there`;
const renewing = () => ["net", "deploy"].some((kind) => board.answers.get(`${kind} ${shown.unit}`)?.current === false);

// The network of a unit

let network = null;

async function refreshNetwork(still) {
  if (!isNewer("net", "deploy")) return note(renewing() ? "A change may reach it; it is being computed again." : network?.note ?? "");
  const { clientWidth, clientHeight } = $("panel");
  const open = network?.unit === shown.unit && network.canvas.isConnected ? network.wanted() : "auto";
  // (in a narrow window the list of blocks is below the picture, which has half of the height)
  const aspect = matchMedia("(max-width: 820px)").matches ? clientWidth / (innerHeight / 2) : Math.max(1, clientWidth - 240) / Math.max(1, clientHeight - 60);
  const view = await ask("/net", { name: shown.unit, aspect: aspect.toFixed(2), open });
  if (!still()) return;
  shown.serial = view.serial;
  if (view.state !== "flat") return say(...whyNot(view));
  if (!network?.canvas.isConnected || network.unit !== view.unit) {
    network = new NetworkView(view.unit);
    $("panel").className = "panel flush";
    $("panel").replaceChildren(...network.parts());
  }
  network.take(view);
  network.note = view.misplaced.length ? `Not deployed: ${view.misplaced.slice(0, 3).map(misplacedWords).join("; ")}${view.misplaced.length > 3 ? " and more" : ""}.` : "";
  note(network.note);
}

const HEAD = 42, ROW = 16, CURVE = 160;

/** A block in the list: the path before its name is cut where there is no room. */
function fillBlock(row, block) {
  const cut = block.path.lastIndexOf(".") + 1;
  row.title = `${block.path} : ${block.type}`;
  row.append(make("span", { class: "before" }, make("bdi", {}, block.path.slice(0, cut))), make("span", { class: "name" }, block.path.slice(cut)));
}

/** Gives each block the last part of its path as its short name, with as many owners before it as tell it from the others. */
function nameShortly(blocks) {
  const parts = new Map(blocks.map((it) => [it, it.path.split(".")]));
  let unnamed = blocks;
  for (let count = 1; unnamed.length; count++) {
    const named = new Map();
    for (const it of unnamed) {
      it.short = parts.get(it).slice(-count).join(".");
      if (!named.has(it.short)) named.set(it.short, []);
      named.get(it.short).push(it);
    }
    unnamed = [...named.values()].filter((its) => its.length > 1).flat().filter((it) => parts.get(it).length > count);
  }
}

/** Where the line between the middles of two frames leaves the first one. */
function edgeOf(one, other) {
  const [x, y] = [one.x + one.w / 2, one.y + one.h / 2], [dx, dy] = [other.x + other.w / 2 - x, other.y + other.h / 2 - y];
  const part = Math.min(dx ? one.w / 2 / Math.abs(dx) : Infinity, dy ? one.h / 2 / Math.abs(dy) : Infinity, 1);
  return [x + dx * part, y + dy * part];
}

/** The picture of a network: it can be moved, zoomed and searched, and a block of it chosen. */
class NetworkView {
  constructor(unit) {
    this.unit = unit;
    this.canvas = make("canvas", { tabindex: 0, role: "application", "aria-label": `Network of ${unit}. Arrow keys choose a block, Enter shows its type.` });
    this.context = this.canvas.getContext("2d");
    this.scale = 0;
    this.chosen = null;
    this.found = new Set();
    this.way = null;
    this.open = null;
    this.awaited = "";
    this.list = new LongList(
      make("div", { class: "list", id: "blocks", role: "listbox", tabindex: 0, "aria-label": "Blocks" }),
      fillBlock, (block) => this.choose(block, true),
      () => "No block is like that.");
    this.about = make("div", { class: "block", hidden: "" });
    this.listen();
  }

  parts() {
    this.field = make("input", { type: "search", id: "block-search", placeholder: "Search blocks", "aria-label": "Search blocks and types", autocomplete: "off", spellcheck: "false" });
    this.field.addEventListener("input", () => this.search());
    this.field.addEventListener("keydown", (event) => { if (event.key === "Enter") this.next(event.shiftKey ? -1 : 1); });
    this.matches = make("span", { class: "dim number", role: "status" });
    this.told = make("p", { class: "way", role: "status", id: "way", hidden: "" });
    const button = (words, label, act) => make("button", { "aria-label": label, title: label, onclick: act }, words);
    this.folding = [button("⊞", "Open all subapplications", () => this.reopen("all")), button("⊟", "Close all subapplications", () => this.reopen("-"))];
    const legend = make("span", { class: "legend", "aria-hidden": "true" }, ...["event", "data", "adapter", "cut"].map((it) => make("span", { class: it }, it)));
    return [
      make("div", { class: "row-tools" }, this.field, this.matches, button("−", "Smaller", () => this.zoom(1 / 1.3)), button("+", "Larger", () => this.zoom(1.3)),
        button("Whole", "The whole network", () => this.fit()), ...this.folding, legend),
      make("div", { class: "network" }, make("div", { class: "picture" }, this.canvas, this.told), make("div", { class: "aside" }, this.list.box, this.about)),
    ];
  }

  take(view) {
    this.view = view;
    this.boxes = view.boxes.map(([path, type, home, tag, x, y, w, h, rows, inner], at) => ({ at, path, type, home, tag, x, y, w, h, rows: view.rows[rows], inner, ends: [] }));
    this.shown = this.boxes.filter((it) => it.tag === null);
    this.blocks = [...this.shown.filter((it) => !it.inner), ...view.hidden.map(([path, type, home, at]) => ({ path, type, home, hidden: this.boxes[at], ends: [] }))];
    nameShortly(this.shown);
    const frames = view.folds.map(([path]) => path).sort((one, other) => other.length - one.length);
    const round = (path) => frames.find((frame) => path.startsWith(`${frame}.`));
    for (const it of this.shown) {
      it.label = round(it.path) ? it.path.slice(round(it.path).length + 1) : it.path;
      it.brief = round(it.path) ? it.label : it.short;
    }
    for (const it of this.folding) it.hidden = !view.levels;
    this.wires = view.wires.map(([sort, a, aLeft, aRow, b, bLeft, bRow, label, cut, way, count]) => {
      const from = this.end(this.boxes[a], aLeft, aRow, sort), to = this.end(this.boxes[b], bLeft, bRow, sort);
      const reach = Math.max(40, Math.min(CURVE, Math.abs(to.x - from.x) / 2));
      const wire = { sort, from, to, label, cut, way, count, reach: [from.x + (aLeft ? -reach : reach), to.x + (bLeft ? -reach : reach)], above: 0 };
      this.boxes[a].ends.push(wire);
      if (a !== b) this.boxes[b].ends.push(wire);
      return wire;
    });
    this.spread();
    this.chosen = this.chosen && [...this.blocks, ...this.shown].find((it) => it.path === this.chosen.path && !it.hidden) || null;
    if (this.awaited) this.arrive();
    if (!this.scale) requestAnimationFrame(() => this.fit());
    this.search();
    this.tell();
    if (this.way) this.trace(this.way.end, this.way.back);
  }

  /** Where a wire ends: at its port, or at the middle of a tag; at a closed subapplication each sort has a place of its own. */
  end(box, left, row, sort) {
    const middle = box.y + box.h / 2 + (box.inner ? { event: -8, data: 0, adapter: 8 }[sort] : 0);
    const y = row < 0 ? middle : box.y + HEAD + ROW * row + ROW / 2;
    return { box, x: left ? box.x : box.x + box.w, y, port: row < 0 ? box.path : box.rows[row][left ? 1 : 2] };
  }

  /** Draws wires between the same two ports, as those of adapters are, beside each other, and their labels one above the other. */
  spread() {
    const between = new Map();
    for (const wire of this.wires.filter((it) => it.label)) {
      const key = [wire.from.box.at, wire.from.port, wire.to.box.at, wire.to.port].join();
      if (!between.has(key)) between.set(key, []);
      between.get(key).push(wire);
    }
    for (const wires of between.values()) wires.forEach((wire, at) => {
      const aside = 5 * (at - (wires.length - 1) / 2);
      wire.from.y += aside;
      wire.to.y += aside;
      wire.above = 11 * (wires.length - 1 - at) + aside;
    });
  }

  // Subapplications that are open or closed

  /** Which are to be open, as the server is asked for them. */
  wanted() {
    const list = this.open === null ? "auto" : typeof this.open === "string" ? this.open : [...this.open].join(",") || "-";
    return list.length > 30_000 ? "all" : list;
  }

  /** Shows the network with these open, and then a block or a frame. */
  reopen(open, awaited = "") {
    this.open = open;
    this.awaited = awaited;
    if (!awaited) this.touched = false;
    shown.serial = 0;
    refresh();
  }

  openOne(path) {
    this.reopen(new Set([...this.view.opened, path]), path);
  }

  closeOne(path) {
    this.reopen(new Set(this.view.opened.filter((it) => it !== path && !it.startsWith(`${path}.`))), path);
  }

  /** Opens all that a block is in, and chooses it. */
  uncover(block) {
    const names = block.path.split("."), fronts = names.map((_, at) => names.slice(0, at).join("."));
    this.reopen(new Set([...this.view.opened, ...fronts.filter((it) => it === block.hidden.path || it.startsWith(`${block.hidden.path}.`))]), block.path);
  }

  /** Chooses what was opened or closed, or brings its frame into view. */
  arrive() {
    const box = this.shown.find((it) => it.path === this.awaited), frame = this.view.folds.find(([path]) => path === this.awaited);
    this.awaited = "";
    this.touched = true;
    if (box) requestAnimationFrame(() => this.choose(box, true));
    else if (frame) requestAnimationFrame(() => this.frame(frame));
  }

  /** Brings a frame into the picture, as large as there is room. */
  frame([, , x, y, w, h]) {
    const { clientWidth: width, clientHeight: height } = this.canvas;
    this.touched = true;
    this.scale = Math.max(this.least, Math.min((width - 40) / w, (height - 40) / h, 1));
    this.x = (width - w * this.scale) / 2 - x * this.scale;
    this.y = (height - h * this.scale) / 2 - y * this.scale;
    this.draw();
  }

  /** The frame whose name is at a place of the canvas. */
  titleAt(x, y) {
    const [left, top] = [(x - this.x) / this.scale, (y - this.y) / this.scale];
    const room = Math.max(40, 26 / this.scale);
    return this.view.folds.findLast(([, , fx, fy, w, h]) => left >= fx && left <= fx + w && top >= fy && top <= fy + Math.min(room, h)) ?? null;
  }

  // Moving

  listen() {
    const { canvas } = this;
    let grip = null;
    canvas.addEventListener("pointerdown", (event) => { canvas.setPointerCapture(event.pointerId); grip = { x: event.offsetX, y: event.offsetY, moved: false }; });
    canvas.addEventListener("pointermove", (event) => {
      if (!grip) return;
      const [dx, dy] = [event.offsetX - grip.x, event.offsetY - grip.y];
      if (!grip.moved && Math.hypot(dx, dy) < 4) return;
      grip = { x: event.offsetX, y: event.offsetY, moved: true };
      this.move(dx, dy);
    });
    canvas.addEventListener("pointerup", (event) => {
      if (grip && !grip.moved) this.click(event.offsetX, event.offsetY);
      grip = null;
    });
    canvas.addEventListener("dblclick", () => this.chosen && !this.chosen.inner && go(this.chosen.type.toUpperCase(), "text"));
    canvas.addEventListener("wheel", (event) => {
      event.preventDefault();
      this.zoom(Math.exp(-event.deltaY / 500), event.offsetX, event.offsetY);
    }, { passive: false });
    canvas.addEventListener("keydown", (event) => this.key(event));
    new ResizeObserver(() => this.touched || !this.scale ? this.draw() : this.fit()).observe(canvas);
    matchMedia("(prefers-color-scheme: dark)").addEventListener("change", () => this.draw());
  }

  /** A click on a closed subapplication opens it, and one on the name of an open one closes it. */
  click(x, y) {
    const box = this.at(x, y), title = box ? null : this.titleAt(x, y);
    if (box?.inner) this.openOne(box.path);
    else if (title) this.closeOne(title[0]);
    else this.choose(box, false);
  }

  move(dx, dy) {
    this.touched = true;
    this.x += dx;
    this.y += dy;
    this.draw();
  }

  zoom(factor, x = this.canvas.clientWidth / 2, y = this.canvas.clientHeight / 2) {
    const scale = Math.max(this.least, Math.min(3, this.scale * factor));
    this.touched = true;
    this.x = x - (x - this.x) * scale / this.scale;
    this.y = y - (y - this.y) * scale / this.scale;
    this.scale = scale;
    this.draw();
  }

  fit() {
    const { clientWidth: width, clientHeight: height } = this.canvas;
    if (!width || !height) return;
    const scale = Math.min((width - 40) / this.view.width, (height - 40) / this.view.height);
    this.touched = false;
    this.least = Math.min(scale, 1) / 2;
    this.scale = Math.min(scale, 1.25);
    this.x = (width - this.view.width * this.scale) / 2;
    this.y = (height - this.view.height * this.scale) / 2;
    this.draw();
  }

  /** Brings a block into the middle, large enough to be read. */
  reveal(block) {
    this.touched = true;
    this.scale = Math.max(this.scale, 0.8);
    this.x = this.canvas.clientWidth / 2 - (block.x + block.w / 2) * this.scale;
    this.y = this.canvas.clientHeight / 2 - (block.y + block.h / 2) * this.scale;
  }

  isSeen(block) {
    const left = block.x * this.scale + this.x, top = block.y * this.scale + this.y;
    return left >= 0 && top >= 0 && left + block.w * this.scale <= this.canvas.clientWidth && top + block.h * this.scale <= this.canvas.clientHeight;
  }

  at(x, y) {
    const [left, top] = [(x - this.x) / this.scale, (y - this.y) / this.scale];
    return this.shown.findLast((it) => left >= it.x && left <= it.x + it.w && top >= it.y && top <= it.y + it.h) ?? null;
  }

  key(event) {
    if (event.altKey || event.ctrlKey || event.metaKey) return;
    const ways = { ArrowRight: [1, 0], ArrowLeft: [-1, 0], ArrowDown: [0, 1], ArrowUp: [0, -1] };
    const way = ways[event.key];
    if (way && event.shiftKey) this.move(-60 * way[0], -60 * way[1]);
    else if (way) this.choose(this.beside(way), true);
    else if (event.key === "+" || event.key === "=") this.zoom(1.3);
    else if (event.key === "-") this.zoom(1 / 1.3);
    else if (event.key === "0") this.fit();
    else if (event.key === "Escape") this.choose(null, false);
    else if ((event.key === "[" || event.key === "]") && this.chosen) this.trace(this.chosen.path, event.key === "[");
    else if (event.key === "Enter" && this.chosen?.inner) this.openOne(this.chosen.path);
    else if (event.key === "Enter" && this.chosen) go(this.chosen.type.toUpperCase(), "text");
    else if (event.key === "Backspace" && this.chosen) this.closeRound(this.chosen);
    else if (event.key === "i" && this.chosen) this.declared();
    else return;
    event.preventDefault();
    event.stopPropagation();
  }

  /** Closes the innermost frame round a block. */
  closeRound(block) {
    const frame = this.view.folds.findLast(([path]) => block.path.startsWith(`${path}.`));
    if (frame) this.closeOne(frame[0]);
  }

  /** The nearest block in a direction; the first one where none is chosen. */
  beside([across, down]) {
    const from = this.chosen;
    if (!from) return this.shown[0] ?? null;
    const middle = (it) => [it.x + it.w / 2, it.y + it.h / 2];
    const [x, y] = middle(from);
    let best = from, least = Infinity;
    for (const it of this.shown) {
      const [dx, dy] = [middle(it)[0] - x, middle(it)[1] - y];
      const ahead = dx * across + dy * down, aside = Math.abs(dx * down) + Math.abs(dy * across);
      if (it !== from && ahead > 1 && ahead + 2 * aside < least) [best, least] = [it, ahead + 2 * aside];
    }
    return best;
  }

  // Searching and choosing

  search() {
    const wanted = this.field.value.trim().toUpperCase();
    const all = this.way ? [...this.way.blocks.keys()] : this.blocks;
    const items = wanted ? all.filter((it) => it.path.toUpperCase().includes(wanted) || it.type.toUpperCase().includes(wanted)) : all;
    this.found = wanted ? new Set(items) : new Set();
    this.list.show(items, this.chosen);
    this.matches.textContent = wanted ? `${items.length.toLocaleString("en")} of ${counted(this.blocks.length, "block")}` : counted(this.blocks.length, "block");
    this.draw();
  }

  next(step) {
    const { items } = this.list;
    if (items.length) this.list.move((items.indexOf(this.chosen) + step + items.length) % items.length);
  }

  choose(block, reveal) {
    if (!block && this.way) return this.untrace();
    if (block?.hidden) return this.uncover(block);
    this.chosen = block;
    if (block && reveal && (!this.isSeen(block) || this.scale < 0.4)) this.reveal(block);
    this.tell();  // It takes room of the list.
    this.list.show(this.list.items, block);
    if (this.list.at >= 0) this.list.reveal();
    this.list.draw();
    this.draw();
    if (block) speaker.say(`${block.path}, ${block.type}${block.home ? `, on ${block.home}` : ""}, ${counted(block.ends.length, "link")}`);
  }

  /** What is to be known of the chosen block. */
  tell() {
    const block = this.chosen;
    this.about.hidden = !block;
    if (!block) return;
    if (block.inner) return this.about.replaceChildren(make("h3", { class: "mono" }, block.path), make("p", {}, block.type),
      ...(block.home ? [make("p", {}, `On ${block.home}`)] : []), make("p", {}, link("Open it", () => this.openOne(block.path)), " · ", link("Where it is declared", () => this.declared())));
    const links = block.ends.slice(0, 60).map((wire) => this.linkItem(block, wire));
    if (block.ends.length > 60) links.push(make("li", { class: "dim" }, `and ${block.ends.length - 60} more`));
    this.about.replaceChildren(
      make("h3", { class: "mono" }, block.path), make("p", {}, "Type ", link(block.type, () => go(block.type.toUpperCase(), "text"))),
      ...(block.home ? [make("p", {}, `On ${block.home}`)] : []), make("p", {}, link("Where it is declared", () => this.declared())),
      make("p", {}, link("What feeds it", () => this.trace(block.path, true)), " · ", link("Where it leads", () => this.trace(block.path, false))),
      make("ul", { "aria-label": "Links" }, ...links));
  }

  // Ways

  /** Shows what feeds an end, step by step, or what it feeds. */
  async trace(end, back) {
    const found = await ask("/trace", { name: this.unit, end, way: back ? "back" : "forth" });
    if (found.why) { this.untrace(); return note(`It can't be shown: ${found.why}.`); }
    const named = [...this.boxes.map((it) => [it.path, it]), ...this.blocks.filter((it) => it.hidden).map((it) => [it.path, it.hidden])];
    const boxes = new Map(named.map(([path, it]) => [path.toUpperCase(), it]));
    const owner = (place) => [1, 2].map((cut) => boxes.get(place.split(".").slice(0, -cut).join("."))).find(Boolean) ?? boxes.get(place);
    const links = new Set(found.links.flatMap(([sort, one, other]) => [`${sort} ${one} ${other}`, `${sort} #${owner(one)?.at} #${owner(other)?.at}`]));
    const blocks = new Map();
    for (const [step, path] of found.blocks) if (boxes.has(path) && !blocks.has(boxes.get(path))) blocks.set(boxes.get(path), step);
    const isOn = (it) => links.has(it.from.box.inner || it.to.box.inner ? `${it.sort} #${it.from.box.at} #${it.to.box.at}` : this.linkOf(it));
    this.way = { end: found.end, back, blocks, start: boxes.get(found.block), wires: new Set(this.wires.filter(isOn)) };
    const parts = [counted(found.blocks.length, "block"), ...(found.resources ? [counted(found.resources, "resource"), counted(found.cuts, "cut link")] : [])];
    const words = `${found.end} ${back ? "is fed by" : "leads to"} ${found.blocks.length || found.links.length ? parts.join(", ") : "nothing"}`;
    this.told.replaceChildren(make("span", {}, words), make("button", { "aria-label": "Show all blocks", title: "Show all blocks", onclick: () => this.untrace() }, "×"));
    this.told.hidden = false;
    this.search();
    speaker.say(words);
  }

  untrace() {
    this.way = null;
    this.told.hidden = true;
    this.search();
  }

  /** The link that a wire is of, in the words of the server, which has names in capitals. */
  linkOf({ sort, from, to, label, way }) {
    const [one, other] = (way === "back" ? [to, from] : [from, to]).map(({ box, port }) => box.tag === null ? `${box.path}.${port}${label ? `.${label}` : ""}` : box.path);
    return `${sort} ${one.toUpperCase()} ${other.toUpperCase()}`;
  }

  linkItem(block, wire) {
    const here = wire.from.box === block ? wire.from : wire.to, there = here === wire.from ? wire.to : wire.from;
    const [source] = wire.way === "back" ? [wire.to] : [wire.from];
    const arrow = wire.way === "none" ? "–" : source === here ? "→" : "←";
    const words = `${there.box.path}${there.box.tag === null ? `.${there.port}` : ""}`;
    const other = there.box.tag === null ? link(words, () => this.choose(there.box, true)) : words;
    const port = `${here.port}${wire.label ? `.${wire.label}` : ""}`, back = arrow === "←";
    if (wire.count > 1 || there.box.inner) return make("li", {}, make("span", { class: `sort ${wire.sort}`, "aria-hidden": "true" }),
      `${here.port} ${arrow} `, link(there.box.path, () => this.choose(there.box, true)), ` (${counted(wire.count, "link")}${wire.cut ? ", cut" : ""})`);
    const traced = make("button", { class: "link", title: back ? "What feeds it" : "Where it leads", onclick: () => this.trace(`${block.path}.${port}`, back) }, port);
    return make("li", {}, make("span", { class: `sort ${wire.sort}`, "aria-hidden": "true" }), make("span", { class: "unseen" }, `${wire.sort} `),
      traced, ` ${arrow} `, other, wire.cut ? " (cut)" : "");
  }

  async declared() {
    const place = await ask("/instance", { name: this.unit, path: this.chosen.path });
    if (place) go(place.unit, "text", place.line);
    else note(`Where ${this.chosen.path} is declared is not known, as a text on the way is not here.`);
  }

  // Drawing

  draw() {
    if (this.planned || !this.scale) return;
    this.planned = true;
    requestAnimationFrame(() => { this.planned = false; this.paint(); });
  }

  paint() {
    const { canvas, context } = this, ratio = devicePixelRatio || 1;
    const [width, height] = [canvas.clientWidth, canvas.clientHeight];
    if (!width || !height) return;
    if (canvas.width !== Math.round(width * ratio) || canvas.height !== Math.round(height * ratio)) [canvas.width, canvas.height] = [Math.round(width * ratio), Math.round(height * ratio)];
    const style = getComputedStyle(document.documentElement);
    this.colour = (name) => style.getPropertyValue(`--${name}`);
    context.setTransform(ratio, 0, 0, ratio, 0, 0);
    context.clearRect(0, 0, width, height);
    context.setTransform(this.scale * ratio, 0, 0, this.scale * ratio, this.x * ratio, this.y * ratio);
    this.window = { left: -this.x / this.scale, top: -this.y / this.scale, right: (width - this.x) / this.scale, bottom: (height - this.y) / this.scale };
    // Where boxes are too small for words, cut links are on top of them, to be seen.
    const small = this.isSmall();
    this.paintFrames();
    this.paintWires((wire) => !small || !wire.cut);
    this.paintBoxes();
    this.paintWires((wire) => small && wire.cut && (!this.isBundled(wire) || this.way?.wires.has(wire)));
    if (small) this.paintBundles();
    this.paintNames();
    for (const [box, step] of this.way?.blocks ?? []) this.paintStep(box, step);
  }

  isOut(left, top, right, bottom) {
    const { window } = this;
    return right < window.left || left > window.right || bottom < window.top || top > window.bottom;
  }

  paintFrames() {
    const { context } = this;
    context.fillStyle = this.colour("raised");
    context.strokeStyle = this.colour("line");
    context.lineWidth = 1 / this.scale;
    for (const [, x, y, w, h] of this.view.frames) {
      context.beginPath();
      context.roundRect(x, y, w, h, 10);
      context.fill();
      context.stroke();
    }
    context.strokeStyle = this.colour("dim");
    for (const [, , x, y, w, h] of this.view.folds) {
      context.globalAlpha = 0.5;
      context.fillStyle = this.colour("ground");
      context.beginPath();
      context.roundRect(x, y, w, h, 8);
      context.fill();
      context.stroke();
    }
    context.globalAlpha = 1;
  }

  /** The names of the frames, on top of all, never smaller than they can be read. */
  paintNames() {
    const { context } = this, size = Math.max(13, 12 / this.scale);
    context.font = `600 ${size}px ${this.colour("sans")}`;
    context.textBaseline = "middle";
    context.textAlign = "left";
    for (const [, name, x, y, w] of this.view.folds) this.paintFoldName(`⊟ ${name}`, x, y, w);
    context.font = `600 ${size}px ${this.colour("sans")}`;
    for (const frame of this.view.frames) {
      const [name, x, y] = frame, width = Math.min(context.measureText(name).width + 12, this.roomOfName(frame)), left = this.nameLeft(x, width);
      context.fillStyle = this.colour("raised");
      context.globalAlpha = 0.85;
      context.fillRect(left, y + 24 - size * 0.8, width, size * 1.6);
      context.globalAlpha = 1;
      context.fillStyle = this.colour("dim");
      context.fillText(name, left + 6, y + 24, width - 12);
    }
  }

  /** How wide the name of a frame may be: up to the next frame beside it. */
  roomOfName([, x, y, , h]) {
    return Math.min(...this.view.frames.filter(([, left, top, , height]) => left > x && top < y + h && y < top + height).map(([, left]) => left - x));
  }

  /** The name of an open subapplication, as large as there is room in its frame. */
  paintFoldName(name, x, y, w) {
    const { context } = this, size = Math.min(Math.max(12, 11 / this.scale), 28);
    if (this.scale < 0.3) return;  // It would be under the name of the resource.
    context.font = `600 ${size}px ${this.colour("sans")}`;
    context.fillStyle = this.colour("accent");
    context.fillText(name, x + 14, y + 24, w - 20);
  }

  /** Where the name of a frame begins: in its corner, or left of it where it would else be cut off at the edge of a picture that is seen whole. */
  nameLeft(x, width) {
    const { left, right } = this.window, begin = x + 18;
    return begin < right && begin + width > right && !this.touched ? Math.max(left, right - width) : begin;
  }

  isSmall() {
    return this.scale * 12 < 4.5;
  }

  /** Whether the names in boxes are too small to be read, but there is room for larger ones. */
  isCramped() {
    return this.scale * 12 < 9 && this.scale * 100 >= 20;
  }

  paintWires(isMeant) {
    const { context } = this, chosen = this.way ? null : this.chosen, on = this.way?.wires;
    const groups = new Map();
    for (const wire of this.wires.filter(isMeant)) {
      const { from, to, reach } = wire;
      if (this.isOut(Math.min(from.x, to.x, ...reach), Math.min(from.y, to.y), Math.max(from.x, to.x, ...reach), Math.max(from.y, to.y))) continue;
      const isBold = on ? on.has(wire) : chosen && (from.box === chosen || to.box === chosen);
      const key = `${wire.sort} ${wire.cut ? "cut" : ""} ${isBold ? "chosen" : ""}`;
      if (!groups.has(key)) groups.set(key, []);
      groups.get(key).push(wire);
    }
    for (const [key, wires] of [...groups].sort(([one], [other]) => one.endsWith("chosen") - other.endsWith("chosen"))) {
      const [sort, cut, bold] = key.split(" ");
      context.globalAlpha = bold ? 1 : on ? 0.12 : chosen ? 0.3 : 1;
      context.strokeStyle = context.fillStyle = this.colour(sort);
      context.lineWidth = Math.max(bold ? 2.2 : 1.3, (bold ? 1.6 : 0.7) / this.scale);
      context.setLineDash(cut ? [7, 5].map((it) => it * Math.max(1, 0.6 / this.scale)) : []);
      this.paintPaths(wires);
      context.setLineDash([]);
      if (this.scale > 0.35) for (const wire of wires) this.paintArrow(wire);
    }
    context.globalAlpha = 1;
  }

  /** Whether a cut link leads between the frames of two resources, so that it is drawn with the others there as one. */
  isBundled({ from, to }) {
    return Boolean(from.box.home && to.box.home && from.box.home !== to.box.home);
  }

  /** The cut links between two resources as one line with their number, where they are too small to be told apart. */
  paintBundles() {
    const { context } = this, frames = new Map(this.view.frames.map(([name, x, y, w, h]) => [name, { x, y, w, h }]));
    const counts = new Map();
    for (const wire of this.wires.filter((it) => it.cut && this.isBundled(it))) {
      const key = `${wire.from.box.home} ${wire.to.box.home}`;
      counts.set(key, (counts.get(key) ?? 0) + wire.count);
    }
    context.globalAlpha = this.way ? 0.3 : 1;
    for (const [key, count] of counts) {
      const [one, other] = key.split(" ").map((name) => frames.get(name));
      if (one && other) this.paintBundle(edgeOf(one, other), edgeOf(other, one), count, counts.has(key.split(" ").reverse().join(" ")));
    }
    context.globalAlpha = 1;
  }

  /** A thick line with an arrow and a number; of two that lead both ways each keeps to its right. */
  paintBundle([x1, y1], [x2, y2], count, isDouble) {
    const { context, scale } = this, long = Math.hypot(x2 - x1, y2 - y1) || 1, size = 12 / scale;
    const [ux, uy] = [(x2 - x1) / long, (y2 - y1) / long], aside = isDouble ? 14 / scale : 0;
    const at = (along) => [x1 + ux * along - uy * aside, y1 + uy * along + ux * aside];
    context.strokeStyle = context.fillStyle = this.colour("dim");
    context.lineWidth = Math.min(8, 2 + Math.log2(count)) / scale;
    context.setLineDash([8 / scale, 5 / scale]);
    context.beginPath();
    context.moveTo(...at(0));
    context.lineTo(...at(long - 10 / scale));
    context.stroke();
    context.setLineDash([]);
    context.beginPath();
    context.moveTo(...at(long));
    const [bx, by] = at(long - 12 / scale);
    context.lineTo(bx - uy * 7 / scale, by + ux * 7 / scale);
    context.lineTo(bx + uy * 7 / scale, by - ux * 7 / scale);
    context.fill();
    context.font = `700 ${size}px ${this.colour("sans")}`;
    const words = count.toLocaleString("en"), width = context.measureText(words).width + size, [mx, my] = at(long / 2);
    context.fillStyle = this.colour("panel");
    context.beginPath();
    context.roundRect(mx - width / 2, my - size * 0.8, width, size * 1.6, size * 0.6);
    context.fill();
    context.fillStyle = this.colour("ink");
    context.textAlign = "center";
    context.textBaseline = "middle";
    context.fillText(words, mx, my);
  }

  paintPaths(wires) {
    const { context } = this, plain = this.scale < 0.12;
    context.beginPath();
    for (const { from, to, reach } of wires) {
      context.moveTo(from.x, from.y);
      if (plain) context.lineTo(to.x, to.y);
      else context.bezierCurveTo(reach[0], from.y, reach[1], to.y, to.x, to.y);
    }
    context.stroke();
  }

  paintArrow({ from, to, reach, label, way, above, count }) {
    const { context } = this;
    if (way !== "none") {
      const end = way === "back" ? from : to, back = way === "back" ? reach[0] : reach[1];
      const side = Math.sign(back - end.x) || 1;
      context.beginPath();
      context.moveTo(end.x, end.y);
      context.lineTo(end.x + 8 * side, end.y - 3.5);
      context.lineTo(end.x + 8 * side, end.y + 3.5);
      context.fill();
    }
    if (count > 1) {
      context.font = `700 ${Math.max(11, 9 / this.scale)}px ${this.colour("sans")}`;
      context.textAlign = "center";
      context.textBaseline = "bottom";
      context.fillText(count.toLocaleString("en"), (from.x + to.x + 3 * (reach[0] + reach[1])) / 8, (from.y + to.y) / 2 - 2);
    }
    if (label && this.scale > 0.6) {
      context.font = `10px ${this.colour("sans")}`;
      context.textAlign = "center";
      context.textBaseline = "bottom";
      context.fillText(label, (from.x + to.x + 3 * (reach[0] + reach[1])) / 8, (from.y + to.y) / 2 - 9 - above);
    }
  }

  paintBoxes() {
    const seen = this.boxes.filter((box) => !this.isOut(box.x - 4, box.y - 4, box.x + box.w + 4, box.y + box.h + 4));
    const isPlain = (box) => this.isSmall() && box !== this.chosen && !this.found.has(box) && !this.isOn(box);
    this.paintPlain(seen.filter(isPlain));
    for (const box of seen) {
      if (box.tag !== null) this.paintTag(box);
      else if (!isPlain(box)) this.paintBlock(box);
    }
  }

  /** Boxes that are too small for words, all at once. */
  paintPlain(boxes) {
    const { context } = this;
    context.globalAlpha = this.way ? 0.3 : this.found.size ? 0.45 : 1;
    context.fillStyle = this.colour("panel");
    context.strokeStyle = this.colour("dim");
    context.lineWidth = Math.max(0.8, 0.5 / this.scale);
    context.beginPath();
    for (const { x, y, w, h } of boxes) context.rect(x, y, w, h);
    context.fill();
    context.stroke();
    if (this.isCramped()) for (const box of boxes) this.paintShortName(box);
    context.globalAlpha = 1;
  }

  /** The short name of a block over its whole box, as large as it can be read and squeezed as far as it has to be. */
  paintShortName(box) {
    const { context } = this, size = Math.min(11 / this.scale, box.h * 0.6);
    context.textAlign = "center";
    context.textBaseline = "middle";
    context.fillStyle = this.colour("ink");
    context.font = `600 ${size}px ${this.colour("sans")}`;
    const name = this.scale > 0.3 ? box.brief : box.short;  // Frames have their names where these can be read.
    context.fillText(box.inner ? `⊞ ${name}` : name, box.x + box.w / 2, box.y + box.h / 2, box.w - 4);
  }

  paintBlock(box) {
    const { context, scale } = this, chosen = box === this.chosen, found = this.found.has(box), on = this.isOn(box);
    context.globalAlpha = this.way && !on && !chosen ? 0.3 : this.found.size && !found && !chosen ? 0.45 : 1;
    context.fillStyle = this.colour(chosen || box === this.way?.start ? "tint" : "panel");
    context.strokeStyle = this.colour(chosen || on ? "accent" : found ? "found" : "dim");
    context.lineWidth = chosen || found || on ? Math.max(2, 2 / scale) : Math.max(0.8, 0.5 / scale);
    context.beginPath();
    context.roundRect(box.x, box.y, box.w, box.h, 5);
    context.fill();
    context.stroke();
    if (this.isCramped() && box !== this.chosen) this.paintShortName(box);
    else if (!this.isSmall()) this.paintWords(box);
    context.globalAlpha = 1;
  }

  /** Whether a block is on the way that is shown. */
  isOn(box) {
    return this.way !== null && (this.way.blocks.has(box) || box === this.way.start);
  }

  /** The number of links between a block and the end whose way is shown, in its corner. */
  paintStep(box, step) {
    const { context } = this, size = Math.max(11, 10 / this.scale);
    context.font = `700 ${size}px ${this.colour("sans")}`;
    const width = context.measureText(step).width + size * 0.8;
    context.fillStyle = this.colour("accent");
    context.beginPath();
    context.roundRect(box.x - size * 0.4, box.y - size * 0.7, width, size * 1.4, size * 0.7);
    context.fill();
    context.fillStyle = this.colour("panel");
    context.textAlign = "center";
    context.textBaseline = "middle";
    context.fillText(step, box.x - size * 0.4 + width / 2, box.y);
  }

  paintWords(box) {
    const { context } = this, middle = box.x + box.w / 2, sans = this.colour("sans");
    context.textAlign = "center";
    context.textBaseline = "middle";
    context.fillStyle = this.colour("ink");
    context.font = `600 12px ${sans}`;
    context.fillText(box.inner ? `⊞ ${box.label}` : box.label, middle, box.y + 13, box.w - 12);
    context.fillStyle = this.colour("dim");
    context.font = `11px ${sans}`;
    context.fillText(box.type, middle, box.y + 28, box.w - 12);
    if (this.scale < 0.45) return;
    box.rows.forEach(([sort, left, right], at) => {
      const y = box.y + HEAD + ROW * at + ROW / 2, room = left && right ? box.w / 2 - 8 : box.w - 12;
      context.fillStyle = this.colour(sort);
      context.textAlign = "left";
      if (left) context.fillText(sort === "adapter" ? `» ${left}` : left, box.x + 7, y, room);
      context.textAlign = "right";
      if (right) context.fillText(sort === "adapter" ? `${right} »` : right, box.x + box.w - 7, y, room);
    });
  }

  paintTag(box) {
    const { context } = this, { x, y, w, h } = box;
    context.fillStyle = this.colour("panel");
    context.strokeStyle = context.shadowColor = this.colour(box.type);
    context.shadowColor = "transparent";
    context.lineWidth = Math.max(1, 0.6 / this.scale);
    context.beginPath();
    context.moveTo(x, y);
    context.lineTo(x + w - 10, y);
    context.lineTo(x + w, y + h / 2);
    context.lineTo(x + w - 10, y + h);
    context.lineTo(x, y + h);
    context.closePath();
    context.fill();
    context.stroke();
    if (this.isSmall()) return;
    context.fillStyle = this.colour(box.type);
    context.font = `600 11px ${this.colour("sans")}`;
    context.textAlign = "center";
    context.textBaseline = "middle";
    context.fillText(box.path, x + w / 2 - 3, y + h / 2, w - 16);
  }
}

// The plan of a system, with what has changed since it was last looked at

let plan = null;

const planKey = (unit) => `plan ${board.about.title} ${unit}`;

/** Remembers the plan that was shown as the one that was last looked at. */
function leavePlan() {
  if (plan) memory.set(planKey(plan.unit), { time: Date.now() / 1000, cuts: plan.cuts, resources: plan.resources });
  plan = null;
}

async function refreshPlan(still) {
  if (!isNewer("deploy")) return note(renewing() ? "A change may reach it; it is being computed again." : "");
  const view = await ask("/plan", { name: shown.unit });
  if (!still()) return;
  shown.serial = view.serial;
  if (view.state === "faulty") return say("No plan:", make("ul", {}, ...view.misplaced.map((it) => make("li", {}, misplacedWords(it)))));
  if (view.state !== "plan") return say(...whyNot(view));
  const { cuts, resources } = view;
  if (plan?.unit !== view.unit) {
    const known = memory.get(planKey(view.unit));
    plan = { unit: view.unit, isFirst: !known, before: known ?? { time: Date.now() / 1000, cuts, resources } };
  }
  Object.assign(plan, { cuts, resources });
  showPlan();
}

function showPlan() {
  const { before, isFirst } = plan;
  const old = new Map(before.resources.map((it) => [it.name, it.commands]));
  const parts = [["Links between resources", compared(before.cuts, plan.cuts)]];
  for (const { name, commands } of plan.resources) {
    parts.push([name, compared(old.get(name) ?? [], commands)]);
    old.delete(name);
  }
  for (const [name, commands] of old) parts.push([`${name}, which is not there any more`, compared(commands, [])]);
  const came = sum(parts, "new"), went = sum(parts, "gone");
  const words = came || went ? `Since it was looked at ${when(before.time)}: ${counted(came, "line")} new, ${went.toLocaleString("en")} gone.`
    : isFirst ? "This plan was not looked at before on this page." : `As it was when it was looked at ${when(before.time)}.`;
  const seen = make("button", { onclick: () => { const { unit } = plan; leavePlan(); plan = null; shown.serial = 0; refresh(); $("panel").focus(); } }, "Mark as seen");
  const tools = make("div", { class: "row-tools" }, make("span", { role: "status", id: "plan-words" }, words), ...(came || went ? [seen] : []));
  note("");
  const { scrollTop } = $("panel");
  $("panel").className = "panel";
  $("panel").replaceChildren(tools, make("div", { class: "plan" }, ...parts.map(([name, lines]) => planPart(name, lines))));
  $("panel").scrollTop = scrollTop;
}

const sum = (parts, sort) => parts.reduce((whole, [, lines]) => whole + lines.filter((it) => it.sort === sort).length, 0);
const when = (time) => new Date(time * 1000).toLocaleString("en-GB", { dateStyle: "medium", timeStyle: "medium" });

/** The new lines in order, each with whether it is new, and those that are gone behind what stood before them. */
function compared(old, now) {
  const present = new Set(now), former = new Set(old);
  const gone = new Map();
  let before = "";
  for (const line of old) {
    if (present.has(line)) before = line;
    else gone.set(before, [...(gone.get(before) ?? []), { sort: "gone", line }]);
  }
  return [...(gone.get("") ?? []), ...now.flatMap((line) => [{ sort: former.has(line) ? "same" : "new", line }, ...(gone.get(line) ?? [])])];
}

function planPart(name, lines) {
  const text = make("pre");
  let run = "";
  for (const { sort, line } of lines) {
    if (sort === "same") { run += `${line}\n`; continue; }
    text.append(run, make(sort === "new" ? "ins" : "del", {}, line), "\n");
    run = "";
  }
  text.append(run);
  const changed = lines.filter((it) => it.sort !== "same").length;
  const title = make("h3", {}, name, make("span", { class: "dim number" }, `  ${counted(lines.length, "line")}${changed ? `, ${changed} changed` : ""}`));
  return make("section", {}, title, lines.length ? text : make("p", { class: "dim" }, "none"));
}

// Keys

const KEYS = {
  "/": ["search units", () => $("search").focus()],
  u: ["to the list of units", () => $("units").focus()],
  t: ["the text of the unit", () => go(shown.unit, "text")],
  n: ["the network of the unit", () => showTab("network")],
  p: ["the plan of the unit", () => showTab("plan")],
  o: ["the plant: its systems, and the units with faults", () => { location.hash = ""; }],
  v: ["to what is shown of the unit", () => (network?.canvas.isConnected ? network.canvas : $("panel")).focus()],
  b: ["search blocks of the network", () => $("block-search")?.focus()],
  f: ["the next unit with faults", () => nextFaulty()],
  e: ["the next fault of the text", () => nextFault()],
  c: ["to the changes", () => $("changes").focus()],
  "?": ["these keys", () => $("help").showModal()],
};
const LIST_KEYS = [["Enter", "in the search of units: the first match"], ["↑ ↓ Page Home End", "move in a list"], ["arrows", "in the picture: the next block that way; with Shift, move the picture"], ["+ − 0", "in the picture: larger, smaller, the whole"],
  ["Enter", "in the picture: the text of the chosen block's type; in its search: the next match"], ["[ ]", "in the picture: what feeds the chosen block, where it leads; Esc ends that"], ["Enter Backspace", "in the picture: open the chosen subapplication, close the one round the chosen block"], ["i", "in the picture: where the chosen block is declared"], ["Esc", "in the picture: choose none; in a search: empty it"]];

function showTab(tab) {
  const button = [...$("tabs").children].find((it) => it.dataset.tab === tab);
  if (shown.unit && !button.hidden) go(shown.unit, tab);
}

function nextFaulty() {
  const faulty = board.names.filter((name) => isWrong(board.units.get(name)));
  const next = faulty.find((name) => inOrder(name, shown.unit) > 0) ?? faulty[0];
  if (next) go(next, board.units.get(next).state === "noplan" ? "plan" : "text");
  else speaker.say("no unit has faults");
}

function nextFault() {
  const buttons = [...document.querySelectorAll("button.fault")];
  if (!buttons.length) return;
  const next = buttons[(buttons.indexOf(document.activeElement) + 1) % buttons.length];
  next.focus();
  next.click();
}

function onKey(event) {
  const inField = event.target.matches("input:not([type=checkbox]), select") || $("help").open;
  if (inField) {
    if (event.key === "ArrowDown" && event.target === $("search")) { event.preventDefault(); $("units").focus(); unitList.move(Math.max(0, unitList.at)); }
    if (event.key === "Enter" && event.target === $("search")) unitList.move(Math.max(0, unitList.items.findIndex((it) => it.group === undefined)));
    return;
  }
  if (!$("single").checked || event.ctrlKey || event.altKey || event.metaKey || !Object.hasOwn(KEYS, event.key)) return;
  event.preventDefault();
  KEYS[event.key][1]();
}

function tabKey(event) {
  const tabs = [...$("tabs").children].filter((it) => !it.hidden);
  const step = { ArrowRight: 1, ArrowLeft: -1 }[event.key];
  if (!step) return;
  const next = tabs[(tabs.findIndex((it) => it.dataset.tab === shown.tab) + step + tabs.length) % tabs.length];
  go(shown.unit, next.dataset.tab);
  next.focus();
}

async function look(event) {
  event.preventDefault();
  const name = $("look-name").value.trim();
  const reply = await fetch("/look", { method: "POST", body: JSON.stringify({ unit: name }) });
  if (!reply.ok) return note((await reply.text()).trim());
  $("look-name").value = "";
  go((await reply.json()).unit, "text");
}

function begin() {
  for (const [name, [words]] of Object.entries(filters))
    $("filters").append(make("button", { "data-filter": name, "aria-pressed": String(name === filter), onclick: () => setFilter(name) }, words, make("span", { class: "number" })));
  for (const [name, words] of Object.entries(TABS))
    $("tabs").append(make("button", { role: "tab", "data-tab": name, "aria-controls": "panel", onclick: () => go(shown.unit, name) }, words));
  const rows = [...Object.entries(KEYS).map(([key, [words]]) => [key, words]), ...LIST_KEYS];
  $("keys").append(...rows.map(([key, words]) => make("tr", {}, make("th", { scope: "row" }, make("kbd", {}, key)), make("td", {}, words))));
  $("single").checked = memory.get("single keys") ?? true;
  $("single").addEventListener("change", () => memory.set("single keys", $("single").checked));
  $("help-button").addEventListener("click", () => $("help").showModal());
  $("search").addEventListener("input", listUnits);
  by = memory.get("list by") ?? "name";
  $("by").value = by;
  $("by").addEventListener("change", () => listBy($("by").value));
  $("tabs").addEventListener("keydown", tabKey);
  $("look").addEventListener("submit", look);
  document.addEventListener("keydown", onKey);
  addEventListener("hashchange", follow);
  addEventListener("pagehide", leavePlan);
  document.addEventListener("visibilitychange", () => document.hidden ? board.leave() : board.connect());
  if (location.search) history.replaceState(null, "", location.pathname + location.hash);  // The token is in a cookie now.
  follow();
  board.connect();
}

begin();

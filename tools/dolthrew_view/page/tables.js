// The junction as tables. Each edit is sent with the text, and the text that comes back is the junction from then on.
import { find, make } from "./elements.js";

const GROUP_COLUMNS = [
  ["name", "name"], ["min_green", "least green, s"], ["amber", "amber, s"], ["red_amber", "red-amber, s"],
  ["start_lost", "start lost, s"], ["end_gain", "end gain, s"], ["max_green", "longest green, s"],
];
const LANE_COLUMNS = [
  ["name", "name"], ["group", "group"], ["arrival", "flow, veh/h"], ["saturation", "saturation flow, veh/h"],
  ["limit", "limit, per mille"],
];
const LINK_COLUMNS = [["leader", "leader"], ["follower", "follower"], ["after", "starts after, s"]];
const TOP_ROWS = [
  ["name", "name"], ["least_cycle", "least cycle, s"], ["greatest_cycle", "greatest cycle, s"],
  ["version", "version of the file"],
];
const NAMING = new Set(["group", "leader", "follower"]);
const DEFAULTS = { max_green: "300", limit: "900" };

export class Tables {
  // `edit` takes the words of an edit.
  constructor(edit) {
    this.edit = edit;
    for (const panel of document.querySelectorAll("[role=tabpanel]")) {
      panel.addEventListener("keydown", (event) => this.step(event));
    }
  }

  show(tables) {
    const focus = this.focus();
    this.isFilling = true;
    this.groups = tables.group.map((group) => group.name);
    this.conflicts = tables.conflict;
    this.fill("group", this.list("Groups", "group", GROUP_COLUMNS, tables.group), this.adder("group", "Add a group"));
    this.fill("lane", this.list("Lanes", "lane", LANE_COLUMNS, tables.lane), this.adder("lane", "Add a lane"));
    this.fill("conflict", this.matrix(tables), make("p", {},
      "Seconds from the end of the row's green to the start of the column's. An empty cell: no conflict."));
    this.fill("link", this.list("Links", "link", LINK_COLUMNS, tables.link), this.adder("link", "Add a link"));
    this.fill("top", this.topTable(tables.top));
    this.isFilling = false;
    this.refocus(focus);
    this.markFault(this.fault);
  }

  // In place of tables, where the text is no TOML.
  hide() {
    for (const part of ["group", "lane", "conflict", "link", "top"]) {
      this.fill(part, make("p", {}, "The text is no TOML at present, so it has no tables: see the fault above."));
    }
  }

  fill(part, ...content) {
    find(`panel-${part}`).replaceChildren(...content);
  }

  focus() {
    const cell = document.activeElement;
    const typed = cell?.dataset?.shown !== undefined && cell.value !== cell.dataset.shown ? cell.value : undefined;
    return { id: cell?.id, typed, start: cell?.selectionStart, end: cell?.selectionEnd };
  }

  // The cell that was in use is in use again, with what was typed in it meanwhile.
  refocus({ id, typed, start, end }) {
    const cell = id && id.startsWith("cell-") && find(id);
    if (!cell) return;
    cell.focus({ preventScroll: true });
    if (cell.tagName !== "INPUT") return;
    if (typed === undefined) cell.select();
    else {
      cell.value = typed;
      cell.setSelectionRange(start, end);
    }
  }

  list(caption, part, columns, rows) {
    const head = [...columns.map(([, words]) => make("th", { scope: "col" }, words)), make("td", {})];
    const body = rows.map((row, number) => make("tr", {},
      ...columns.map(([key], place) => make(place ? "td" : "th", place ? {} : { scope: "row" },
        this.cell(part, number, key, row[key], `${row[columns[0][0]]}: ${columns[place][1]}`))),
      make("td", {}, this.taker(part, number, row))));
    return this.framed(caption, head, body);
  }

  framed(caption, head, body) {
    return make("div", { class: "wide" }, make("table", {}, make("caption", {}, caption),
      make("thead", {}, make("tr", {}, ...head)), make("tbody", {}, ...body)));
  }

  cell(part, number, key, value, label) {
    const id = `cell-${part}-${number}-${key}`;
    const words = (input) => ({ edit: "put", part, number, key, value: input.value });
    if (part !== "group" && NAMING.has(key)) return this.chooser(id, value, label, words);
    return this.input(id, value, label, words, { placeholder: DEFAULTS[key] });
  }

  // What was typed is an edit when the cell is left, or Enter is pressed.
  input(id, value, label, words, more = {}) {
    const commit = ({ target }) => {
      if (this.isFilling || target.value === target.dataset.shown) return;
      target.dataset.shown = target.value;
      this.edit(words(target));
    };
    return make("input", { id, value, "data-shown": value, "aria-label": label, autocomplete: "off",
      spellcheck: "false", inputmode: id.endsWith("name") ? undefined : "numeric", onchange: commit,
      onblur: commit, ...more });
  }

  chooser(id, value, label, words) {
    const names = this.groups.includes(value) ? this.groups : [value, ...this.groups];
    return make("select", { id, "aria-label": label, onchange: (event) => this.edit(words(event.target)) },
      ...names.map((name) => make("option", { selected: name === value }, name)));
  }

  adder(part, words) {
    const adds = () => this.edit({ edit: "add", part });
    return make("button", { type: "button", id: `cell-${part}-add`, onclick: adds }, words);
  }

  taker(part, number, row) {
    const name = part === "link" ? `link from ${row.leader} to ${row.follower}` : row.name;
    const title = part === "group" ? "takes its lanes, conflicts and links away with it" : undefined;
    return make("button", { type: "button", class: "small", id: `cell-${part}-${number}-take`,
      "aria-label": `Take ${name} away`, title,
      onclick: () => this.edit({ edit: "take", part, number }) }, "×");
  }

  matrix(tables) {
    const seconds = new Map();
    for (const conflict of tables.conflict) {
      seconds.set(`${conflict.a} ${conflict.b}`, conflict.a_to_b);
      seconds.set(`${conflict.b} ${conflict.a}`, conflict.b_to_a);
    }
    const names = this.groups;
    const head = ["from \\ to", ...names].map((name) => make("th", { scope: "col" }, name));
    const cell = (row, column) => (row === column ? make("td", { class: "self" })
      : make("td", {}, this.intergreen(row, column, seconds.get(`${names[row]} ${names[column]}`) ?? "")));
    const body = names.map((from, row) => make("tr", {}, make("th", { scope: "row" }, from),
      ...names.map((_, column) => cell(row, column))));
    return this.framed("Intergreens", head, body);
  }

  intergreen(row, column, value) {
    const label = `${this.groups[row]} to ${this.groups[column]}, s`;
    const words = (input) => ({ edit: "intergreen", from: row, to: column, value: input.value });
    return this.input(`cell-conflict-${row}-${column}`, value, label, words, { class: value ? undefined : "empty" });
  }

  topTable(top) {
    const rows = TOP_ROWS.map(([key, words]) => make("tr", {}, make("th", { scope: "row" }, words),
      make("td", {}, this.cell("top", 0, key, top[key], words))));
    return this.framed("The junction as a whole", [], rows);
  }

  // Up and down go to the same cell of the row above or below.
  step(event) {
    const by = { ArrowUp: -1, ArrowDown: 1 }[event.key];
    const row = event.target.closest("tr");
    if (!by || event.target.tagName !== "INPUT" || !row) return;
    const next = row.parentElement.rows[row.rowIndex - row.parentElement.rows[0].rowIndex + by];
    const cell = next?.cells[event.target.closest("td, th").cellIndex]?.querySelector("input");
    if (!cell) return;
    event.preventDefault();
    cell.focus();
    cell.select();
  }

  // The cell of a fault, where the tables have it.
  markFault(fault) {
    this.fault = fault;
    for (const cell of document.querySelectorAll("[id^=cell-][aria-invalid]")) cell.removeAttribute("aria-invalid");
    if (fault?.part) find(this.cellOf(fault))?.setAttribute("aria-invalid", "true");
  }

  // The name of its cell; a conflict's cell stands in the matrix.
  cellOf({ part, number, key }) {
    const conflict = part === "conflict" && this.conflicts?.[number - 1];
    if (!conflict) return `cell-${part}-${Math.max(0, number - 1)}-${key}`;
    const [one, other] = [conflict.a, conflict.b].map((name) => this.groups.indexOf(name));
    return key === "b_to_a" ? `cell-conflict-${other}-${one}` : `cell-conflict-${one}-${other}`;
  }
}

export function tabs() {
  const all = [...document.querySelectorAll("[role=tab]")];
  const choose = (tab) => {
    for (const other of all) {
      const isChosen = other === tab;
      other.setAttribute("aria-selected", isChosen);
      other.tabIndex = isChosen ? 0 : -1;
      find(other.getAttribute("aria-controls")).hidden = !isChosen;
    }
  };
  for (const [place, tab] of all.entries()) {
    tab.addEventListener("click", () => choose(tab));
    tab.addEventListener("keydown", (event) => {
      const by = { ArrowLeft: all.length - 1, ArrowRight: 1 }[event.key];
      const next = { Home: all[0], End: all.at(-1) }[event.key] ?? (by && all[(place + by) % all.length]);
      if (!next) return;
      event.preventDefault();
      choose(next);
      next.focus();
    });
  }
}

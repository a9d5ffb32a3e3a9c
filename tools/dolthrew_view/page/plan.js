// What the program answered: the claim, the plan and why no more is possible.
import { find, make, makeTable } from "./elements.js";
import { save } from "./files.js";
import { Picture, showSheet } from "./pictures.js";
import { Player } from "./player.js";

const TWO_WAYS = "Two ways on: a larger budget, or the groups in the order that the search likes, " +
  "which puts those first that conflict most.";

export class PlanView {
  // `ways` has what to do after a stop: a run with a larger budget, and another order of the groups.
  constructor(ways) {
    this.ways = ways;
  }

  clear() {
    this.player?.pause();
    this.player = undefined;
    find("answer").replaceChildren();
    find("saves").replaceChildren();
    document.body.classList.remove("has-sheet");
    this.isShown = false;
  }

  // The answer of a run; `name` is the name of the file, for those that are saved.
  show(answer, name) {
    this.clear();
    this.isShown = true;
    const tables = answer.cycle ? [this.lanes(answer), this.stages(answer), this.greens(answer)] : [];
    const head = [this.claim(answer), this.figures(answer), this.stopped(answer)];
    const parts = [...head, ...this.pictures(answer), this.reason(answer), ...tables];
    find("answer").append(...parts.filter(Boolean));
    find("saves").append(...this.saves(answer, name.replace(/\.toml$/, "")));
    showSheet(find("sheet"), answer.sheet);
    document.body.classList.add("has-sheet");
  }

  claim({ claim, words, verdict }) {
    return make("p", { class: `claim ${claim}`, id: "claim" }, `${words} Check says: `,
      make("code", { id: "verdict" }, verdict));
  }

  figures(answer) {
    const list = make("dl", { class: "figures" });
    const put = (id, words, figure, exact) => list.append(make("div", {}, make("dt", {}, words),
      make("dd", { id }, figure, exact ? make("small", {}, ` ${exact}`) : "")));
    if (answer.multiplier) {
      const sign = Number(answer.reserve.decimal) > 0 ? "+" : "";
      put("reserve", "Reserve", `${sign}${answer.reserve.decimal} %`);
      put("multiplier", "Multiplier", answer.multiplier.decimal, answer.multiplier.exact);
      put("cycle", "Cycle", `${answer.cycle} s`);
    }
    put("least-asked", "Least asked", answer.least.decimal, answer.least.exact);
    put("nodes", "Nodes of the proof", String(answer.nodes));
    return list;
  }

  stopped({ claim, larger_budget: larger }) {
    if (claim !== "stopped") return undefined;
    return make("div", { class: "note warning", id: "ways" },
      make("p", {}, TWO_WAYS),
      make("div", { class: "bar" },
        make("button", { type: "button", id: "larger", onclick: () => this.ways.larger(larger) },
          `Design with a budget of ${larger}`),
        make("button", { type: "button", id: "order", onclick: () => this.ways.order() },
          "Put the groups in that order")));
  }

  pictures(answer) {
    const picture = new Picture(answer.diagram, answer.cycle);
    picture.frame.id = "diagram";
    const frame = make("div", { class: "wide picture", tabindex: "0", role: "region",
      "aria-label": "Signal timing diagram" }, picture.frame);
    if (!answer.cycle) return [frame];
    this.player = new Player(answer, (second) => picture.moveTo(second));
    return [frame, this.player.element];
  }

  lanes({ lanes: [head, ...rows], holding }) {
    const kind = (name) => ({ class: holding.includes(name) ? "holding" : undefined });
    return makeTable("Lanes", head, rows.map((cells) => ({ cells, attributes: kind(cells[0]) })));
  }

  stages({ stages }) {
    return makeTable("Stages", ["stage", "first second", "seconds", "groups"], stages);
  }

  greens({ groups }) {
    const rows = groups.map(({ name, start, green }) => [name, String(start), String(green)]);
    return makeTable("Greens", ["group", "start, s", "green, s"], rows);
  }

  reason({ reason }) {
    return make("section", { id: "reason", "aria-label": reason.heading }, make("h3", {}, reason.heading),
      make("p", {}, reason.sentence), reason.greens ? make("p", {}, reason.greens) : "");
  }

  saves(answer, name) {
    const saver = (word, ending, type, content) => content && make("button", { type: "button", id: `save-${word}`,
      "aria-label": `Save the ${word}`, onclick: () => save(`${name}.${ending}`, type, content) }, word);
    return [
      make("span", { "aria-hidden": "true" }, "Save:"),
      saver("certificate", "json", "application/json", answer.certificate),
      saver("report", "txt", "text/plain", answer.report),
      saver("diagram", "svg", "image/svg+xml", answer.diagram),
      saver("sheet", "html", "text/html", answer.sheet),
      saver("lanes", "csv", "text/csv", answer.table),
      make("button", { type: "button", id: "print", onclick: () => print() }, "Print the sheet"),
    ].filter(Boolean);
  }
}

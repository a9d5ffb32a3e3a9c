// The player: what each head shows at a second of the cycle, from the rows of `play`.
import { make } from "./elements.js";

const LAMPS = { red: ["red"], red_amber: ["red", "amber"], amber: ["amber"], green: ["green"] };
const WORDS = { red: "red", red_amber: "red-amber", amber: "amber", green: "green" };

// A word for each second of the cycle.
function aspectsOf(runs, cycle) {
  const aspects = new Array(cycle);
  for (const [aspect, first, seconds] of runs) {
    for (let second = first; second < first + seconds; second += 1) aspects[second % cycle] = aspect;
  }
  return aspects;
}

export class Player {
  // `moved` is told each second that is shown.
  constructor({ cycle, groups }, moved) {
    this.cycle = cycle;
    this.moved = moved;
    this.heads = groups.map((group) => this.head(group));
    this.slider = make("input", { type: "range", min: 0, max: cycle - 1, value: 0, step: 1, id: "second",
      "aria-label": "Second of the cycle", oninput: () => this.show(Number(this.slider.value)) });
    this.button = make("button", { type: "button", id: "play", onclick: () => this.toggle() }, "Play");
    this.pace = make("select", { id: "pace", onchange: () => this.restart() },
      ...[1, 4, 16].map((times) => make("option", { value: times, selected: times === 4 }, `${times} times as fast`)));
    this.told = make("output", { id: "second-text", for: "second" });
    this.element = make("section", { class: "player", "aria-label": "Signal heads, second by second" },
      make("h3", {}, "Player"),
      make("div", { class: "bar" }, this.button, this.slider, this.told, make("label", {}, "pace ", this.pace)),
      make("ul", { class: "heads" }, ...this.heads.map((head) => head.element)));
    this.show(0);
  }

  head({ name, runs }) {
    const lamps = ["red", "amber", "green"].map((lamp) => [lamp, make("span", { class: `lamp ${lamp}` })]);
    const word = make("span", { class: "aspect" });
    const element = make("li", { class: "head" }, make("span", { class: "head-name" }, name),
      make("span", { class: "lamps", "aria-hidden": "true" }, ...lamps.map(([, lamp]) => lamp)), word);
    return { name, aspects: aspectsOf(runs, this.cycle), lamps, word, element };
  }

  show(second) {
    this.second = second;
    this.slider.value = second;
    for (const head of this.heads) {
      const aspect = head.aspects[second];
      head.element.dataset.aspect = aspect;
      head.word.textContent = WORDS[aspect];
      for (const [name, lamp] of head.lamps) lamp.classList.toggle("lit", LAMPS[aspect].includes(name));
    }
    const green = this.heads.filter((head) => head.aspects[second] === "green").map((head) => head.name);
    this.told.textContent = `second ${second} of ${this.cycle}`;
    this.slider.setAttribute("aria-valuetext", `second ${second}, green: ${green.join(" ") || "none"}`);
    this.moved(second);
  }

  get isPlaying() {
    return this.timer !== undefined;
  }

  toggle() {
    if (this.isPlaying) this.pause();
    else this.play();
  }

  play() {
    this.timer = setInterval(() => this.show((this.second + 1) % this.cycle), 1000 / Number(this.pace.value));
    this.button.textContent = "Pause";
  }

  pause() {
    clearInterval(this.timer);
    this.timer = undefined;
    this.button.textContent = "Play";
  }

  restart() {
    if (!this.isPlaying) return;
    this.pause();
    this.play();
  }
}

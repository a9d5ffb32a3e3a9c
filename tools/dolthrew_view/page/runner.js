// The one run of this tab: its clock, its limit, and its end.
import { ask, ends } from "./server.js";
import { find } from "./elements.js";

const PAUSE = 200;
// Of another word the server says that it is no time limit.
const IS_LIMIT = /^[0-9]{1,4}$/;
const pause = (milliseconds) => new Promise((resolve) => setTimeout(resolve, milliseconds));

// A later run took the place of this one.
export class Superseded extends Error {}

export class Runner {
  constructor() {
    this.current = undefined;
  }

  get isRunning() {
    return this.current !== undefined;
  }

  // The answer of a run; one that is under way is ended first.
  async run(name, words, body, seconds) {
    this.wanted = Symbol(name);
    const mine = this.wanted;
    await this.end();
    if (this.wanted !== mine) throw new Superseded();
    if (IS_LIMIT.test(seconds)) this.showClock(Number(seconds));
    this.current = ask(name, { ...words, seconds }, body);
    const end = await this.current.then((answer) => ({ answer }), (refusal) => ({ refusal }));
    this.current = undefined;
    this.hideClock();
    if (this.wanted !== mine) throw new Superseded();
    if (end.refusal) throw end.refusal;
    return end.answer;
  }

  // Ends what runs, and waits until it is over; for all who ask at the same time once, so that no late word to end it
  // meets the next run.
  end() {
    this.ending ??= this.endCurrent().finally(() => { this.ending = undefined; });
    return this.ending;
  }

  // The word to end a run may be there before the run is, so it is said again.
  async endCurrent() {
    const current = this.current;
    while (current !== undefined && this.current === current) {
      await ends().catch(() => undefined);
      await Promise.race([current.catch(() => undefined), pause(PAUSE)]);
      await pause(0);
    }
  }

  showClock(seconds) {
    const start = performance.now();
    const tick = () => {
      const passed = Math.min(seconds, Math.floor((performance.now() - start) / 1000));
      find("clock-bar").max = seconds;
      find("clock-bar").value = passed;
      find("clock-text").textContent = `${passed} s of ${seconds} s`;
    };
    tick();
    find("clock").hidden = false;
    find("end").disabled = false;
    this.clock = setInterval(tick, 250);
  }

  hideClock() {
    clearInterval(this.clock);
    find("clock").hidden = true;
    find("end").disabled = true;
  }
}

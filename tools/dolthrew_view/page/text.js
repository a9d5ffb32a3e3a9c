// The junction as text, which is what is true: the numbers of its lines, the mark of a fault, and what it was before.
import { find } from "./elements.js";

const MOST_VERSIONS = 100;

export class TextView {
  constructor(changed) {
    this.area = find("text");
    this.changed = changed;
    this.versions = [""];
    this.at = 0;
    this.area.addEventListener("input", () => this.typed());
    this.area.addEventListener("scroll", () => this.follow());
    addEventListener("keydown", (event) => this.pressed(event));
    find("undo").addEventListener("click", () => this.move(-1));
    find("redo").addEventListener("click", () => this.move(1));
    find("fault-go").addEventListener("click", () => this.goToFault());
  }

  get value() {
    return this.area.value;
  }

  // The text of another file, whose first version it is.
  begin(text) {
    clearTimeout(this.timer);
    this.area.value = text;
    this.versions = [this.value];
    this.at = 0;
    this.show();
    this.changed();
  }

  // A new version of the text that isn't typed: of an edit in a table, or of another order of the groups.
  put(text) {
    this.keep();
    this.area.value = text;
    this.keep();
    this.show();
    this.changed();
  }

  typed() {
    clearTimeout(this.timer);
    this.timer = setTimeout(() => this.keep(), 400);
    this.show();
    this.changed();
  }

  keep() {
    clearTimeout(this.timer);
    if (this.versions[this.at] === this.value) return;
    this.versions = [...this.versions.slice(0, this.at + 1), this.value].slice(-MOST_VERSIONS);
    this.at = this.versions.length - 1;
    this.showSteps();
  }

  move(by) {
    this.keep();
    const text = this.versions[this.at + by];
    if (text === undefined) return;
    this.at += by;
    this.area.value = text;
    this.show();
    this.changed();
  }

  pressed(event) {
    const key = event.key.toLowerCase();
    if (!(event.ctrlKey || event.metaKey) || event.altKey || !["z", "y"].includes(key)) return;
    if (event.target.closest("#design")) return;
    event.preventDefault();
    this.move(key === "y" || event.shiftKey ? 1 : -1);
  }

  showSteps() {
    find("undo").disabled = this.at === 0 && this.value === this.versions[0];
    find("redo").disabled = this.at === this.versions.length - 1;
  }

  show() {
    const count = this.value.split("\n").length;
    if (count !== this.count) {
      this.count = count;
      find("numbers").textContent = Array.from({ length: count }, (_, index) => index + 1).join("\n");
    }
    this.showSteps();
    this.follow();
  }

  follow() {
    find("numbers").scrollTop = this.area.scrollTop;
    if (this.line) {
      const height = parseFloat(getComputedStyle(this.area).lineHeight);
      const padding = parseFloat(getComputedStyle(this.area).paddingTop);
      find("mark").style.top = `${padding + (this.line - 1) * height - this.area.scrollTop}px`;
    }
  }

  // Marks the line of a fault, from 1 on; none where there is no line.
  markLine(line) {
    this.line = line;
    find("mark").hidden = !line;
    find("fault-go").hidden = !line;
    this.area.setAttribute("aria-invalid", line ? "true" : "false");
    this.follow();
  }

  goToFault() {
    const lines = this.value.split("\n");
    const start = lines.slice(0, this.line - 1).reduce((sum, line) => sum + line.length + 1, 0);
    find("tab-text").click();
    this.area.focus();
    this.area.setSelectionRange(start, start + lines[this.line - 1].length);
    const height = parseFloat(getComputedStyle(this.area).lineHeight);
    this.area.scrollTop = Math.max(0, (this.line - 4) * height);
  }
}

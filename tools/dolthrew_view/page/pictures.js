// The program's pictures and sheets, as dolthrew-view draws them. Their styles are taken over by the page's own
// script, since the page lets no style in that stands in a document.

const SVG = "http://www.w3.org/2000/svg";

// The document without its styles, which the root takes over, and some more of the page's own.
function parsed(text, type, root, more) {
  const styles = [];
  const rest = text.replace(/<style>([^<]*)<\/style>/g, (_, style) => {
    styles.push(style);
    return "";
  });
  const sheet = new CSSStyleSheet();
  sheet.replaceSync([...styles, more].join("\n"));
  root.adoptedStyleSheets = [sheet];
  return new DOMParser().parseFromString(rest, type);
}

// The picture in a frame of its own, with a line that can be put at a second.
export class Picture {
  constructor(text, cycle) {
    this.cycle = cycle;
    this.frame = document.createElement("div");
    const root = this.frame.attachShadow({ mode: "open" });
    const style = "svg { display: block; width: 100%; height: auto; }";
    const { documentElement } = parsed(text, "image/svg+xml", root, style);
    this.svg = document.importNode(documentElement, true);
    root.append(this.svg);
    this.line = this.cursor();
  }

  // The seconds are those of the picture's own grid: its first line stands at 0, its last at the cycle.
  cursor() {
    const grid = [...this.svg.querySelectorAll("line.grid")];
    if (!grid.length) return undefined;
    const at = (line, name) => Number(line.getAttribute(name));
    this.left = at(grid[0], "x1");
    this.width = at(grid.at(-1), "x1") - this.left;
    const line = document.createElementNS(SVG, "rect");
    const lines = { y: at(grid[0], "y1"), height: at(grid[0], "y2") - at(grid[0], "y1"), width: this.width / this.cycle,
      fill: "#0b57d0", "fill-opacity": "0.3" };
    for (const [name, value] of Object.entries(lines)) line.setAttribute(name, value);
    this.svg.append(line);
    return line;
  }

  moveTo(second) {
    this.line?.setAttribute("x", this.left + (this.width * second) / this.cycle);
  }
}

// The sheet, which is what is printed of the page.
export function showSheet(place, text) {
  const root = place.shadowRoot ?? place.attachShadow({ mode: "open" });
  root.replaceChildren(document.importNode(parsed(text, "text/html", root, "").body, true));
}

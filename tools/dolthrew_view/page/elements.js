// Elements of the page, built without any text that is read as markup.

export const find = (id) => document.getElementById(id);

export function make(name, attributes = {}, ...children) {
  const element = document.createElement(name);
  for (const [key, value] of Object.entries(attributes)) {
    if (key.startsWith("on")) element.addEventListener(key.slice(2), value);
    else if (value === true) element.setAttribute(key, "");
    else if (value !== false && value !== undefined) element.setAttribute(key, value);
  }
  element.append(...children);
  return element;
}

const NUMBER = /^[-+]?[0-9.]+$/;

// A table with its caption, the words of its head, and rows whose first cell is the head of the row. A column of
// numbers stands at the right.
export function makeTable(caption, head, rows) {
  const cells = rows.map((row) => row.cells ?? row);
  const kind = (place) => (place && cells.every((row) => NUMBER.test(row[place])) ? { class: "number" } : {});
  const kinds = head.map((_, place) => kind(place));
  const title = (word, place) => make("th", { scope: "col", ...kinds[place] }, word);
  const cell = (word, place) => (place ? make("td", kinds[place], word) : make("th", { scope: "row" }, word));
  return make("div", { class: "wide", tabindex: "0", role: "region", "aria-label": caption },
    make("table", {},
      make("caption", {}, caption),
      make("thead", {}, make("tr", {}, ...head.map(title))),
      make("tbody", {}, ...rows.map((row, number) => make("tr", row.attributes ?? {}, ...cells[number].map(cell))))));
}

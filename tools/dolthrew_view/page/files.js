// Files that the user opens, drops and saves. They are read and written by the browser; their names stay in the page.
import { find, make } from "./elements.js";

export const LONGEST_JUNCTION = 1048576;
export const LONGEST_CERTIFICATE = 33554432;

export class BadFile extends Error {}

// The text of a junction file, without the byte order mark that some editors write before it.
export async function textOf(file) {
  if (file.size > LONGEST_JUNCTION) throw new BadFile(`${file.name} is longer than ${LONGEST_JUNCTION} bytes`);
  try {
    return new TextDecoder("utf-8", { fatal: true }).decode(await file.arrayBuffer());
  } catch {
    throw new BadFile(`${file.name} isn't UTF-8`);
  }
}

export async function certificateOf(file) {
  if (file.size > LONGEST_CERTIFICATE) throw new BadFile(`${file.name} is longer than ${LONGEST_CERTIFICATE} bytes`);
  return new Uint8Array(await file.arrayBuffer());
}

export function save(name, type, content) {
  const address = URL.createObjectURL(new Blob([content], { type }));
  const link = make("a", { href: address, download: name });
  document.body.append(link);
  link.click();
  link.remove();
  setTimeout(() => URL.revokeObjectURL(address), 10000);
}

// A button that opens the chooser of a file input; the input forgets the file, so the same one can be opened again.
export function opens(button, input, take) {
  find(button).addEventListener("click", () => find(input).click());
  find(input).addEventListener("change", async () => {
    const [file] = find(input).files;
    if (file) await take(file);
    find(input).value = "";
  });
}

export function drops(take) {
  const hasFiles = (event) => event.dataTransfer.types.includes("Files");
  addEventListener("dragover", (event) => hasFiles(event) && event.preventDefault());
  addEventListener("drop", (event) => {
    if (!hasFiles(event)) return;
    event.preventDefault();
    take(event.dataTransfer.files[0]);
  });
}

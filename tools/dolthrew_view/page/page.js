// The page as a whole: what was changed is read, designed and shown.
import { find, make } from "./elements.js";
import { BadFile, certificateOf, drops, LONGEST_JUNCTION, opens, save, textOf } from "./files.js";
import { PlanView } from "./plan.js";
import { Runner, Superseded } from "./runner.js";
import { ask, get } from "./server.js";
import { Tables, tabs } from "./tables.js";
import { TextView } from "./text.js";

const PAUSE = 500;
const JUDGE_SECONDS = 60;
const FIRST_EXAMPLE = "crossroads.toml";

const text = new TextView(changed);
const tables = new Tables(edit);
const plan = new PlanView({ larger, order });
const runner = new Runner();

let fileName = "junction.toml";
let keptText = "";
let judgedText;
let shownExample = "";
let isBuilt = false;
let pause;
let edits = Promise.resolve();

function tell(words) {
  find("outcome").textContent = words;
}

function showName(name) {
  fileName = name;
  find("file-name").textContent = name;
  document.title = `${name} - Dolthrew`;
}

// What was shown is of another text now; the new one is read after a pause.
function changed() {
  showFormer(plan.isShown);
  clearTimeout(pause);
  pause = setTimeout(refresh, PAUSE);
}

function showFormer(isFormer) {
  find("answer").classList.toggle("former", isFormer);
  find("former").hidden = !isFormer;
}

async function refresh() {
  clearTimeout(pause);
  const body = text.value;
  if (new TextEncoder().encode(body).length > LONGEST_JUNCTION) {
    showFault({ sentence: `the junction is longer than ${LONGEST_JUNCTION} bytes` });
    return;
  }
  await readTables(body);
  if (body !== text.value || !isBuilt) return;
  if (find("auto").checked) await design();
  else if (!runner.isRunning) await judge();
}

async function readTables(body) {
  try {
    const answer = await ask("tables", {}, body);
    if (body !== text.value) return;
    if (answer.unreadable) tables.hide();
    else tables.show(answer);
  } catch (refusal) {
    tell(refusal.message);
  }
}

// The first fault of a text that the program tells, or that there is none.
function showFault(fault, judged = text.value) {
  judgedText = judged;
  const place = fault?.line ? `Line ${fault.line}${fault.column ? `, column ${fault.column}` : ""}: ` : "";
  const quoted = fault?.text ? ` (${fault.text})` : "";
  if (fault) note("note wrong", `${place}${fault.sentence}${quoted}`, fault);
  else note("note right", "The program reads this file: no fault.");
}

// Where a run said nothing of the text as it stands, what was said of another one isn't shown any more.
function forgetFault() {
  if (judgedText !== text.value) note("note", "Of this text no verdict is known.");
}

function note(kind, words, fault) {
  find("fault").className = kind;
  find("fault-text").textContent = words;
  text.markLine(fault?.line);
  tables.markFault(fault);
}

// The text that comes back takes the place of the old one.
async function take(name, words) {
  const { text: content, refusal } = await ask(name, words, text.value);
  if (refusal) throw new Error(refusal);
  text.put(content);
  refresh();
}

function edit(words) {
  edits = edits.then(async () => {
    try {
      find("edit-note").textContent = "";
      await take("edit", words);
    } catch (refusal) {
      find("edit-note").textContent = refusal.message;
      await readTables(text.value);
    }
  });
}

async function judge() {
  await run("judge", {}, text.value, JUDGE_SECONDS, () => undefined);
}

const secondsAsked = () => find("seconds").value.trim();

async function design() {
  const words = { command: new FormData(find("design")).get("command"), least: find("least").value.trim(),
    budget: find("budget").value.trim() };
  tell("Designing");
  await run("design", words, text.value, secondsAsked(), (answer) => {
    showAnswer(answer);
    tell(answer.claim === "stopped" ? "Stopped at the budget." : "Done.");
  });
}

function showAnswer(answer) {
  plan.show(answer, fileName);
  showFormer(false);
}

// One run of the program on the text as it stands; what it refuses is told. Where the text is another one when the
// answer comes, that is read then.
async function run(name, words, body, seconds, shown) {
  const junction = text.value;
  try {
    const answer = await runner.run(name, words, body, seconds);
    const isFormer = junction !== text.value;
    if (!isFormer || !answer.fault) show(answer, shown, junction);
    if (!isFormer) return;
    showFormer(plan.isShown);
    refresh();
  } catch (refusal) {
    if (refusal instanceof Superseded) return;
    tell(`No answer: ${refusal.message}.`);
    forgetFault();
  }
}

function show(answer, shown, junction) {
  if (answer.fault) {
    showFault(answer.fault, junction);
    tell("The junction file has a fault.");
  } else if (answer.ended || answer.refusal) {
    tell(answer.ended ? `Ended: ${answer.ended}.` : `Refused: ${answer.refusal}.`);
    forgetFault();
  } else {
    showFault(undefined, junction);
    shown(answer);
  }
}

async function check(file) {
  try {
    const certificate = await certificateOf(file);
    const bytes = new TextEncoder().encode(text.value);
    const body = new Blob([bytes, certificate]);
    tell("Checking");
    await run("check", { junction: bytes.length }, body, secondsAsked(), (answer) => {
      if (answer.unshown) plan.clear();
      else showAnswer(answer);
      tell(`${file.name}: ${answer.verdict}${answer.unshown ? `. Its plan isn't shown: ${answer.unshown}` : ""}`);
    });
  } catch (bad) {
    tell(bad.message);
  }
}

function larger(budget) {
  find("budget").value = budget;
  design();
}

async function order() {
  try {
    find("edit-note").textContent = "The groups are renumbered in another order; nothing else of the junction changes.";
    await take("order", {});
  } catch (refusal) {
    find("edit-note").textContent = refusal.message;
  }
}

// A text of another file: of an example by its place in the list, or of no place in it.
function open(name, content, place = "") {
  showName(name);
  shownExample = find("example").value = place;
  plan.clear();
  find("edit-note").textContent = "";
  text.begin(content);
  keptText = text.value;
  refresh();
}

// Undo doesn't lead back to a text in whose place another one was opened.
function mayOpen() {
  if (text.value === keptText) return true;
  return confirm(`What was changed in ${fileName} isn't saved. Open another file in its place?`);
}

async function openFile(file) {
  try {
    if (/\.json$/i.test(file.name)) await check(file);
    else {
      const content = await textOf(file);
      if (!mayOpen()) return;
      open(file.name, content);
    }
  } catch (bad) {
    if (!(bad instanceof BadFile)) throw bad;
    find("edit-note").textContent = bad.message;
  }
}

async function fillExamples() {
  const examples = await get("examples");
  find("example").append(...examples.map(({ name }, place) => make("option", { value: place }, name)));
  find("example").addEventListener("change", ({ target }) => {
    const example = examples[target.value];
    if (example && mayOpen()) open(example.name.split("/").at(-1), example.text, target.value);
    else target.value = shownExample;
  });
  const first = examples.findIndex(({ name }) => name === FIRST_EXAMPLE);
  if (first >= 0) open(FIRST_EXAMPLE, examples[first].text, first);
}

// The first build takes up to half an hour; the page says how far it is, and designs as soon as it is done.
async function awaitBuild() {
  const state = await get("state").catch((refusal) => ({ failed: true, line: refusal.message }));
  isBuilt = state.built;
  find("run").disabled = find("check").disabled = !isBuilt;
  const words = state.failed ? "The program can't be built" : "The program is being built";
  find("build").textContent = isBuilt ? "" : `${words}: ${state.line}`;
  if (isBuilt) refresh();
  else if (!state.failed) setTimeout(awaitBuild, 1000);
}

find("design").addEventListener("submit", (event) => {
  event.preventDefault();
  design();
});
find("end").addEventListener("click", () => runner.end());
find("save").addEventListener("click", () => {
  save(fileName, "application/toml", text.value);
  keptText = text.value;
});
// The browser asks before it leaves a text that isn't saved.
addEventListener("beforeunload", (event) => text.value !== keptText && event.preventDefault());
for (const radio of document.querySelectorAll("[name=command]")) {
  radio.addEventListener("change", () => find("auto").checked && design());
}
opens("open", "open-file", openFile);
opens("check", "check-file", check);
drops(openFile);
tabs();
await fillExamples().catch((refusal) => tell(refusal.message));
awaitBuild();

"use strict";
const find = id => document.getElementById(id);
const escaped = text => String(text).replace(/[&<>"]/g, it => ({"&": "&amp;", "<": "&lt;", ">": "&gt;", '"': "&quot;"})[it]);
const HEIGHT = 20, CHUNK = 200, MOST_CHUNKS = 60;
// What there is of the whole script, the lines that have come by their chunks, where one is, and the pictures after that line.
let start, whole = {done: 0, count: 0, isDone: false}, current = 0, view = "picture", shown = null, looks = 0;
const chunks = new Map();

async function post(kind, more = {}) {
  const answer = await fetch("answer", {method: "POST", headers: {"Content-Type": "application/json"}, body: JSON.stringify({kind, ...more})});
  if (!answer.ok) throw new Error(`the server answers ${answer.status}`);
  const told = await answer.json();
  if (told.error && kind !== "more") throw new Error(told.error);
  return told;
}

function fail(error) {
  find("error").textContent = error instanceof TypeError ? "the server has ended; start tools/play again" : error.message;
}

// ---- the lines in view

// Returns the chunk with this number, or null while it is fetched.
function chunk(number) {
  const found = chunks.get(number);
  if (found) return found.lines;
  const first = number * CHUNK + 1, last = Math.min(first + CHUNK - 1, whole.done), mine = {lines: null};
  if (first > last) return null;
  chunks.set(number, mine);
  if (chunks.size > MOST_CHUNKS) chunks.delete(chunks.keys().next().value);
  post("some", {first, last}).then(told => {
    mine.lines = told.lines;
    // One that was fetched while the script was played is not whole.
    if (told.lines.length < CHUNK && first + told.lines.length <= whole.done) chunks.delete(number);
    showLines();
    if (lineAt(current)) showNow();
  }, error => { chunks.delete(number); fail(error); });
  return null;
}

const lineAt = number => number >= 1 && number <= whole.done ? (chunk(Math.floor((number - 1) / CHUNK)) || [])[(number - 1) % CHUNK] : undefined;

function showLines() {
  const box = find("lines"), first = Math.floor(box.scrollTop / HEIGHT) + 1, last = Math.min(whole.done, first + Math.ceil(box.clientHeight / HEIGHT));
  let out = "";
  for (let number = first; number <= last; number++) {
    const line = lineAt(number), kind = !line ? "" : line.refused ? " refused" : line.reply.length ? "" : " note";
    out += `<div class="line${kind}" role="option" id="line-${number}" data-line="${number}" aria-selected="${number === current}"><span class="number">${number}</span>` +
      (line ? `<span class="text">${escaped(line.text)}</span>` + (line.reply.length ? `<span class="reply${line.refused ? " bad" : ""}">${escaped(line.reply[0])}</span>` : "") : "") + "</div>";
  }
  find("rows").style.top = `${(first - 1) * HEIGHT}px`;
  find("rows").innerHTML = out;
}

// ---- the whole script

function showWhole() {
  find("space").style.height = `${whole.done * HEIGHT}px`;
  find("at").max = whole.done;
  const most = Math.max(1, whole.most), width = 1000 / whole.used.length, down = used => (34 - 30 * used / most).toFixed(1);
  const path = whole.used.map((used, at) => `H${(at * width).toFixed(1)}V${down(used)}`).join("");
  find("chart").innerHTML = `<path d="M0 34${path}H1000V34H0Z" fill="var(--area)" stroke="var(--edge)" vector-effect="non-scaling-stroke"/>` +
    whole.marks.map(at => `<rect class="refusal" x="${at * width}" y="35" width="${Math.max(1.5, width)}" height="5" fill="var(--bad)"/>`).join("") +
    '<path id="cursor" stroke="currentColor" stroke-width="2" vector-effect="non-scaling-stroke"/>';
  const some = whole.isDone ? "" : `${whole.done.toLocaleString("en")} of `;
  find("counts").textContent = `${some}${whole.count.toLocaleString("en")} lines; ${whole.most} frame${whole.most === 1 ? "" : "s"} at most, ${whole.faults} fault${whole.faults === 1 ? "" : "s"}, ${whole.refused} refused`;
  find("error").textContent = whole.error;
  showCursor();
}

function showCursor() {
  const mark = find("cursor"), x = whole.count ? (current - 0.5) * 1000 / whole.count : 0;
  if (mark) mark.setAttribute("d", `M${x} 0V40`);
}

// Has the script played to its end, and shows how far it is meanwhile.
async function follow() {
  try {
    while (!whole.isDone) {
      whole = await post("more");
      for (const [number, it] of chunks) if (it.lines && it.lines.length < CHUNK) chunks.delete(number);
      showWhole();
      showLines();
      const wanted = Number(location.hash.slice(1)) || 1;
      if (!current && (whole.done >= wanted || whole.isDone)) go(wanted);
    }
  } catch (error) { fail(error); }
}

// ---- one line

function go(number, isSeen = true) {
  if (!whole.done) return;
  const before = current;
  current = Math.max(1, Math.min(whole.done, Math.round(number) || 1));
  find("at").value = current;
  if (current === before) return;
  history.replaceState(null, "", `#${current}`);
  const box = find("lines"), top = (current - 1) * HEIGHT;
  if (isSeen && (top < box.scrollTop || top + HEIGHT > box.scrollTop + box.clientHeight)) box.scrollTop = top - box.clientHeight / 2;
  box.setAttribute("aria-activedescendant", `line-${current}`);
  showLines();
  showCursor();
  showNow();
  look();
}

function showNow() {
  const line = lineAt(current);
  find("now").innerHTML = line ? `line ${current}: ${escaped(line.text)}` + (line.reply.length ? ` → <b class="${line.refused ? "bad" : ""}">${escaped(line.reply.join("\n"))}</b>` : "") +
    (line.change ? `, ${escaped(line.change)}` : "") + (line.why ? `<br>${escaped(line.why)}` : "") : "";
}

// Asks for the pictures after the line. While an answer is awaited, only the last line that was gone to waits.
let isAsking = false;
async function look() {
  looks++;
  if (isAsking || !current) return;
  isAsking = true;
  try {
    for (let mine = 0; mine !== looks;) {
      mine = looks;
      const told = await post("view", {line: current, width: Math.floor(find("view").clientWidth || 600), tree: view === "tree"});
      if (mine === looks || told.view.line === current) shown = told.view;
      showView();
    }
  } catch (error) { fail(error); }
  isAsking = false;
}

function showView() {
  if (!shown) return;
  find("view").dataset.line = shown.line;
  if (view === "tree" && shown.tree === false) {
    find("view").innerHTML = "<p>The clone tree is being drawn.</p>";
  } else if (view === "tree") {
    find("view").innerHTML = shown.tree === null ? "<p>The clone tree is drawn by the program vmotree, which <code>./vmosim --tree</code> compiles, and for the word run alone.</p>"
      : shown.tree.startsWith("<svg") ? shown.tree : `<pre>${escaped(shown.tree || "no VMO, so no tree")}</pre>`;
  }
  if (view === "tree") return;
  const pays = shown.pays.slice(0, 12).map(([one, count]) => `${escaped(one)} <b>${count}</b>`).join(", ") + (shown.pays.length > 12 ? ", .." : "");
  find("view").innerHTML = `${shown.picture}<p class="pays">${shown.used} frame${shown.used === 1 ? "" : "s"} used${pays ? `; who pays: ${pays}` : ""}</p>`;
}

async function goToRefusal(back) {
  try {
    const told = await post("refusal", {line: current, back});
    if (told.line) go(told.line);
  } catch (error) { fail(error); }
}

function choose(button) {
  view = button.dataset.view;
  for (const it of document.querySelectorAll("[role=tab]")) it.setAttribute("aria-selected", String(it === button));
  showView();
  // A tree that takes long is drawn only now.
  if (view === "tree" && shown && shown.tree === false) look();
}

function wire() {
  find("lines").addEventListener("scroll", showLines);
  find("lines").addEventListener("click", event => {
    const line = event.target.closest("[data-line]");
    if (line) go(Number(line.dataset.line), false);
  });
  find("chart").addEventListener("click", event => {
    const box = find("chart").getBoundingClientRect();
    go(Math.ceil((event.clientX - box.left) / box.width * whole.count));
  });
  find("back").addEventListener("click", () => go(current - 1));
  find("next").addEventListener("click", () => go(current + 1));
  find("before").addEventListener("click", () => goToRefusal(true));
  find("after").addEventListener("click", () => goToRefusal(false));
  find("at").addEventListener("change", event => go(Number(event.target.value)));
  for (const it of document.querySelectorAll("[role=tab]")) it.addEventListener("click", () => choose(it));
  document.addEventListener("keydown", event => {
    if (event.altKey || event.ctrlKey || event.metaKey || event.target === find("at") || event.target.closest("main")) return;
    const page = Math.max(1, Math.floor(find("lines").clientHeight / HEIGHT) - 1);
    const step = {ArrowUp: -1, ArrowDown: 1, ArrowLeft: -1, ArrowRight: 1, PageUp: -page, PageDown: page, Home: -whole.done, End: whole.done};
    if (event.key in step) go(current + step[event.key]);
    else if (event.key === "n" || event.key === "p") goToRefusal(event.key === "p");
    else return;
    event.preventDefault();
  });
  addEventListener("resize", () => { showLines(); look(); });
  addEventListener("hashchange", () => go(Number(location.hash.slice(1))));
}

async function begin() {
  start = await (await fetch("start.json")).json();
  find("name").textContent = start.name;
  document.title = `${start.name}, line by line`;
  find("answerer").textContent = `Answered by ${start.answerer}.`;
  wire();
  follow();
}
begin();

"use strict";
const find = id => document.getElementById(id);
const escaped = text => String(text).replace(/[&<>"]/g, it => ({"&": "&amp;", "<": "&lt;", ">": "&gt;", '"': "&quot;"})[it]);
const tab = Math.random().toString(36).slice(2);
const WORDS = {run: "run", batch: "batch (jobs)", sources: "sources (pages from functions)"};
let start, editor, data = null, view = "pages", asks = 0, looks = 0, timer = 0, marks = [], hereLine = null, name = "script";

// ---- the editor: CodeMirror, or a plain field with the same calls

function plainEditor(field) {
  const listeners = {changes: [], cursorActivity: []};
  const line = () => field.value.slice(0, field.selectionStart).split("\n").length - 1;
  let last = 0;
  field.addEventListener("input", () => { for (const it of [...listeners.changes, ...listeners.cursorActivity]) it(); });
  for (const kind of ["keyup", "click", "focus"]) field.addEventListener(kind, () => {
    if (line() === last) return;
    last = line();
    for (const it of listeners.cursorActivity) it();
  });
  return {
    getValue: () => field.value, setValue: text => { field.value = text; for (const it of listeners.changes) it(); },
    line, goTo(at) {
      const begin = field.value.split("\n").slice(0, at).join("\n").length + (at > 0);
      field.focus();
      field.setSelectionRange(begin, begin);
      for (const it of listeners.cursorActivity) it();
    },
    undo: () => { field.focus(); document.execCommand("undo"); }, redo: () => { field.focus(); document.execCommand("redo"); },
    on: (kind, call) => listeners[kind].push(call), show: () => {},
  };
}

function richEditor(field) {
  CodeMirror.defineMode("vms", () => ({
    startState: () => ({isFirst: true}),
    token(stream, state) {
      if (stream.sol()) state.isFirst = true;
      if (stream.eatSpace()) return null;
      if (state.isFirst && stream.peek() === "#") { stream.skipToEnd(); return "comment"; }
      stream.match(/^\S+/);
      const word = stream.current(), isFirst = state.isFirst;
      state.isFirst = false;
      if (isFirst) return word in start.forms[find("word").value] ? "command" : null;
      return /^[vrpj]\d+$/.test(word) ? "named" : null;
    },
  }));
  const keys = {"Ctrl-Space": complete, Tab: false, "Shift-Tab": false};
  const it = CodeMirror.fromTextArea(field, {lineNumbers: true, mode: "vms", extraKeys: keys, lineWrapping: true, screenReaderLabel: "the script"});
  it.line = () => it.getCursor().line;
  it.goTo = at => { it.setCursor({line: at, ch: 0}); it.focus(); };
  it.show = () => showBeside(it);
  return it;
}

// Completes the word at the cursor: a command, or a flag, a kind or a name that stands in the script.
function complete(it) {
  it.showHint({completeSingle: true, hint() {
    const at = it.getCursor(), text = it.getLine(at.line).slice(0, at.ch), word = /\S*$/.exec(text)[0], before = text.slice(0, text.length - word.length).trim();
    const forms = start.forms[find("word").value], command = before.split(/\s+/)[0];
    const names = [...new Set(it.getValue().match(/\b[vrpj]\d+\b/g) || [])];
    const words = !before ? Object.keys(forms) : [...names, ...((forms[command] || ["", ""])[1].split(" ")), "snapshot", "slice", "reference", "rw", "r"];
    const list = words.filter(one => one && one.startsWith(word)).map(one => one + " ");
    return {list, from: {line: at.line, ch: at.ch - word.length}, to: at};
  }});
}

// Shows each reply behind its line, and below it what else there is and why it was refused.
function showBeside(it) {
  it.operation(() => {
    for (const mark of marks) mark.clear();
    marks = [];
    data.lines.forEach((line, at) => {
      if (!line.reply.length || at >= it.lineCount()) return;
      const reply = document.createElement("span");
      reply.className = line.refused ? "reply bad" : "reply";
      reply.innerHTML = escaped(line.reply[0]) + (line.change ? `<i>${escaped(line.change)}</i>` : "");
      marks.push(it.setBookmark({line: at, ch: it.getLine(at).length}, {widget: reply, insertLeft: true}));
      for (const [kind, text] of [["more", line.reply.slice(1).join("\n")], ["why", line.why]]) {
        if (!text) continue;
        const below = document.createElement("div");
        below.className = kind;
        below.textContent = text;
        marks.push(it.addLineWidget(at, below));
      }
      if (line.column) marks.push(it.markText({line: at, ch: line.column[0]}, {line: at, ch: line.column[0] + line.column[1]}, {className: "wavy"}));
    });
  });
}

// ---- what is asked

async function post(all) {
  const body = JSON.stringify({tab, all, script: editor.getValue(), word: find("word").value, frames: Math.min(65536, Math.max(1, Number(find("frames").value) || 1024)),
    line: editor.line() + 1, width: Math.floor(find("view").clientWidth || 600)});
  const answer = await fetch("answer", {method: "POST", headers: {"Content-Type": "application/json"}, body});
  if (!answer.ok) throw new Error(answer.status === 413 ? "the script is longer than a megabyte" : `the server answers ${answer.status}`);
  return answer.json();
}

async function ask() {
  const mine = ++asks, began = performance.now();
  looks++;
  try {
    const answer = await post(true);
    if (mine !== asks) return;
    data = answer;
    showAll();
    find("times").textContent = `Answered in ${Math.round(performance.now() - began)} ms.`;
  } catch (error) {
    if (mine === asks) find("error").textContent = error instanceof TypeError ? "the server has ended; start tools/play again" : error.message;
  }
}

// Asks for the pictures after the line of the cursor.
async function look() {
  if (!data) return;
  showHere();
  if (view === "cost" || view === "replies" || data.view && data.view.line === lineShown()) return showView();
  const mine = ++looks, script = asks;
  try {
    const answer = await post(false);
    if (mine !== looks || script !== asks) return;
    data.view = answer.view;
    showView();
  } catch (error) {
    if (mine === looks) find("error").textContent = error instanceof TypeError ? "the server has ended; start tools/play again" : error.message;
  }
}

// ---- what is shown

const lineShown = () => Math.min(editor.line() + 1, data.lines.length);

function showAll() {
  find("error").textContent = data.error;
  editor.show();
  const count = data.lines.length || 1, most = Math.max(1, ...data.lines.map(it => it.used));
  let path = "M0 34";
  data.lines.forEach((line, at) => { path += `H${(at * 1000 / count).toFixed(1)}V${(34 - 30 * line.used / most).toFixed(1)}`; });
  find("chart").innerHTML = `<path d="${path}H1000V34H0Z" fill="var(--area)" stroke="var(--edge)" vector-effect="non-scaling-stroke"/>` + data.lines.map((line, at) =>
    line.refused ? `<rect class="refusal" x="${at * 1000 / count}" y="35" width="${Math.max(2, 600 / count)}" height="5" fill="var(--bad)"/>` : "").join("") +
    '<path id="cursor" stroke="currentColor" stroke-width="2" vector-effect="non-scaling-stroke"/>';
  const faults = data.lines.reduce((sum, it) => sum + it.faults, 0), refused = data.lines.filter(it => it.refused).length;
  find("counts").textContent = `${most} frame${most === 1 ? "" : "s"} at most, ${faults} fault${faults === 1 ? "" : "s"}, ${refused} refused`;
  showHere();
  if (data.view && data.view.line !== lineShown()) look(); else showView();
}

function showHere() {
  const at = lineShown() - 1, line = data.lines[at], mark = find("cursor");
  if (mark) mark.setAttribute("d", `M${(at + 0.5) * 1000 / (data.lines.length || 1)} 0V40`);
  if (editor.addLineClass) {
    if (hereLine !== null) editor.removeLineClass(hereLine, "background", "here-line");
    hereLine = editor.addLineClass(editor.line(), "background", "here-line");
  }
  find("now").innerHTML = line ? `line ${at + 1}: ${escaped(line.text)}` + (line.reply.length ? ` → <b class="${line.refused ? "bad" : ""}">${escaped(line.reply[0])}</b>` : "") +
    (line.change ? `, ${escaped(line.change)}` : "") + (line.why ? `<br>${escaped(line.why)}` : "") : "";
}

const row = (cells, kind, more = "") => `<tr${more}>${cells.map(it => `<${kind}>${escaped(it)}</${kind}>`).join("")}</tr>`;

function showView() {
  const shown = find("view"), at = lineShown() - 1, picture = data.view;
  if (view === "cost") {
    shown.innerHTML = `<table>${row(data.columns, "th")}${data.cost.map(it => row(it, "td", ` data-line="${it[0]}"`)).join("")}</table>`;
  } else if (view === "replies") {
    shown.innerHTML = `<table class="replies">${data.lines.map((it, number) => it.reply.length ? row([number + 1, it.text, it.reply.join("\n") + (it.why ? `\n${it.why}` : "")], "td",
      ` data-line="${number + 1}" class="${number === at ? "here" : ""}${it.refused ? " bad" : ""}"`) : "").join("")}</table>`;
  } else if (!picture) {
    shown.innerHTML = data.error ? "" : "<p>The script is empty. Type a command, or choose an example.</p>";
  } else if (view === "tree") {
    shown.innerHTML = picture.tree === null ? "<p>The clone tree is drawn by the program vmotree, which <code>./vmosim --tree</code> compiles, and for the word run alone.</p>"
      : picture.tree.startsWith("<svg") ? picture.tree : `<pre>${escaped(picture.tree || "no VMO, so no tree")}</pre>`;
  } else {
    shown.innerHTML = `${picture.picture}<p class="pays">${picture.used} frame${picture.used === 1 ? "" : "s"} used` +
      (picture.pays.length ? `; who pays: ${picture.pays.map(([one, count]) => `${escaped(one)} <b>${count}</b>`).join(", ")}` : "") + "</p>";
  }
}

// ---- the menu

function setScript(given) {
  find("word").value = given.word;
  find("frames").value = given.frames;
  name = (given.name || "script").replace(/\.vms$/, "");
  editor.setValue(given.script);
}

const encoded = text => btoa(String.fromCharCode(...new TextEncoder().encode(text))).replace(/\+/g, "-").replace(/\//g, "_").replace(/=+$/, "");
const decoded = text => new TextDecoder().decode(Uint8Array.from(atob(text.replace(/-/g, "+").replace(/_/g, "/")), it => it.charCodeAt(0)));

// Returns the script behind the # of the address, or null.
function linked() {
  try {
    const given = JSON.parse(decoded(location.hash.slice(1)));
    const isWhole = typeof given.script === "string" && given.word in WORDS && Number.isInteger(given.frames);
    return isWhole ? {...given, name: "linked"} : null;
  } catch { return null; }
}

function makeLink() {
  const text = encoded(JSON.stringify({script: editor.getValue(), word: find("word").value, frames: Number(find("frames").value)}));
  history.replaceState(null, "", `#${text}`);
  const copied = navigator.clipboard ? navigator.clipboard.writeText(location.href) : Promise.reject();
  copied.then(() => { find("times").textContent = "The address has the script, and is copied."; }, () => { find("times").textContent = "The address has the script."; });
}

function save() {
  const link = document.createElement("a"), address = URL.createObjectURL(new Blob([editor.getValue()], {type: "text/plain"}));
  link.href = address;
  link.download = `${name}.vms`;
  link.click();
  setTimeout(() => URL.revokeObjectURL(address), 1000);
}

function choose(button) {
  view = button.dataset.view;
  for (const it of document.querySelectorAll("[role=tab]")) {
    it.setAttribute("aria-selected", String(it === button));
    it.tabIndex = it === button ? 0 : -1;
  }
  look();
}

function wire() {
  const later = () => { clearTimeout(timer); timer = setTimeout(ask, 60); };
  editor.on("changes", later);
  editor.on("cursorActivity", look);
  find("frames").addEventListener("input", later);
  find("word").addEventListener("change", later);
  find("example").addEventListener("change", event => event.target.value && setScript({...start.examples[event.target.value], name: event.target.value}));
  find("undo").addEventListener("click", () => editor.undo());
  find("redo").addEventListener("click", () => editor.redo());
  find("save").addEventListener("click", save);
  find("link").addEventListener("click", makeLink);
  find("load").addEventListener("click", () => find("file").click());
  find("file").addEventListener("change", async event => {
    const file = event.target.files[0];
    if (file) setScript({script: await file.text(), word: find("word").value, frames: Number(find("frames").value), name: file.name});
    event.target.value = "";
  });
  const tabs = [...document.querySelectorAll("[role=tab]")];
  tabs.forEach((it, at) => {
    it.tabIndex = at ? -1 : 0;
    it.addEventListener("click", () => choose(it));
    it.addEventListener("keydown", event => {
      const step = {ArrowLeft: -1, ArrowRight: 1}[event.key];
      if (!step) return;
      const next = tabs[(at + step + tabs.length) % tabs.length];
      next.focus();
      choose(next);
    });
  });
  find("chart").addEventListener("click", event => {
    const box = find("chart").getBoundingClientRect();
    editor.goTo(Math.floor((event.clientX - box.left) / box.width * data.lines.length));
  });
  find("view").addEventListener("click", event => {
    const line = event.target.closest("[data-line]");
    if (line && line.dataset.line) editor.goTo(Number(line.dataset.line) - 1);
  });
  addEventListener("resize", () => { if (editor.refresh) editor.refresh(); if (data) data.view = null; look(); });
  addEventListener("hashchange", () => { const given = linked(); if (given) setScript(given); });
}

async function begin() {
  start = await (await fetch("start.json")).json();
  for (const [id, words] of [["example", [["", ".."], ...Object.keys(start.examples).map(it => [it, it])]], ["word", Object.entries(WORDS)]]) {
    for (const [value, words_shown] of words) find(id).append(new Option(words_shown, value));
  }
  find("example").value = start.name in start.examples ? start.name : "";
  find("answerer").textContent = `Answered by ${start.answerer}.`;
  const given = linked() || {...start.given, name: start.name};
  find("word").value = given.word;
  editor = window.CodeMirror ? richEditor(find("script")) : plainEditor(find("script"));
  wire();
  setScript(given);
  if (!window.CodeMirror) choose(document.querySelector("[data-view=replies]"));
  editor.goTo(Math.max(0, given.script.trimEnd().split("\n").length - 1));
}
begin();

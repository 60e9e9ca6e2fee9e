"use strict";
const run = JSON.parse(document.getElementById("run").textContent);
const $ = (id) => document.getElementById(id);
const last = Math.max(run.frames.length, run.slip ? run.slip.frames.length : 0) - 1;
let at = 0;

const make = (name, text, className) => {
  const element = document.createElement(name);
  if (text !== undefined) element.textContent = text;
  if (className) element.className = className;
  return element;
};

const table = (caption, rows) => {
  const made = make("table");
  made.append(make("caption", caption));
  const body = make("tbody");
  for (const row of rows) body.append(row);
  made.append(body);
  return made;
};

const registers = (frame) => frame.registers.map(([name, value, changed], i) => {
  const row = make("tr", undefined, (changed ? "new " : "") + (value === null ? "mark" : ""));
  const number = make("th", "r" + (i + 1));
  number.scope = "row";
  row.append(number, make("td", name), make("td", value === null ? "mark" : value, "value"));
  return row;
});

const places = (frame) => frame.places.map(([text, number]) => {
  const row = make("tr");
  row.append(make("td", text), make("td", number, "value"));
  return row;
});

const stacks = (id, frame) => $(id).replaceChildren(table("Registers, from the top", registers(frame)), table("Places, from the top", places(frame)));

const svg = (name, attributes, text) => {
  const element = document.createElementNS("http://www.w3.org/2000/svg", name);
  for (const key in attributes) element.setAttribute(key, attributes[key]);
  if (text !== undefined) element.textContent = text;
  return element;
};

// Where each node of the finished tree stands: leaves side by side, parents over the middle of their children.
const layout = () => {
  const children = run.tree.map(() => []);
  run.tree.forEach((node, i) => { if (node.parent !== null) children[node.parent].push(i); });
  let next = 3;
  const place = (i, depth) => {
    const node = run.tree[i];
    node.width = Math.max(54, 9 * Math.max(node.label.length, node.takes.length * 0.8, node.gives.length * 0.8) + 14);
    node.y = 18 + depth * 62;
    if (children[i].length === 0) {
      node.x = next + node.width / 2;
      next += node.width + 12;
      return;
    }
    const before = next;
    children[i].forEach((child) => place(child, depth + 1));
    const ends = children[i].map((child) => run.tree[child].x);
    node.x = (ends[0] + ends[ends.length - 1]) / 2;
    next = Math.max(next, before + node.width + 12);
  };
  run.tree.forEach((node, i) => { if (node.parent === null) place(i, 0); });
  run.width = Math.max(next, 60);
  run.height = Math.max(60, ...run.tree.map((node) => node.y + 40));
};

const tree = () => {
  const picture = svg("svg", { width: run.width, height: run.height, role: "img" });
  const seen = run.tree.filter((node) => node.born <= at);
  const words = seen.length === 0 ? "no node yet" : seen.map((n) => n.label + (n.done !== null && n.done <= at && n.gives ? " with " + n.gives : "")).join(", ");
  picture.append(svg("title", {}, "The tree so far: " + words));
  for (const node of seen) {
    if (node.parent !== null) {
      const above = run.tree[node.parent];
      picture.append(svg("line", { x1: above.x, y1: above.y + 30, x2: node.x, y2: node.y }));
    }
  }
  for (const node of seen) {
    const done = node.done !== null && node.done <= at;
    const group = svg("g", { class: node.token ? "leaf" : done ? "done" : "open" });
    group.append(svg("rect", { x: node.x - node.width / 2, y: node.y, width: node.width, height: 30, rx: 6 }));
    const below = done ? node.gives : node.takes;
    group.append(svg("text", { x: node.x, y: node.y + (below ? 14 : 20) }, node.label));
    if (below) group.append(svg("text", { x: node.x, y: node.y + 26, class: "small" }, below));
    picture.append(group);
  }
  $("tree").replaceChildren(picture);
};

const tokens = (frame) => {
  $("tokens").replaceChildren(...[...run.tokens, "the end"].map((name, i) => {
    const item = make("li", name, i < frame.read ? "read" : "");
    if (i === frame.token && at > 0) item.setAttribute("aria-current", "step");
    return item;
  }));
};

// What a run ends with is shown from its last move on.
const end = (id, text, frames) => {
  $(id).hidden = at < frames.length - 1;
  $(id).textContent = text;
};

const show = (move) => {
  at = Math.min(Math.max(move, 0), last);
  const frame = run.frames[Math.min(at, run.frames.length - 1)];
  $("kind").textContent = at === 0 ? "Opened" : at < run.frames.length ? "Move " + at + ": " + frame.kind : "The run is over";
  $("words").replaceChildren(...(at < run.frames.length ? frame.words : []).map((words) => make("li", words)));
  stacks("engine", frame);
  tokens(frame);
  tree();
  end("engine-end", run.end, run.frames);
  $("engine-end").classList.toggle("refused", run.refused);
  if (run.slip) {
    const wrong = run.slip.frames[Math.min(at, run.slip.frames.length - 1)];
    stacks("slipped", wrong);
    $("slip-words").textContent = at < run.slip.frames.length ? wrong.words.join("; ") : "The slip's run is over";
    end("slip-end", run.slip.end, run.slip.frames);
  }
  $("slider").value = at;
  const over = at >= run.frames.length ? ", the slip's move " + at : "";
  $("count").textContent = "move " + Math.min(at, run.frames.length - 1) + " of " + (run.frames.length - 1) + over;
  $("back").disabled = $("first").disabled = at === 0;
  $("forward").disabled = $("last").disabled = at === last;
  document.querySelectorAll("#moves li").forEach((item, i) => {
    if (i + 1 === at) item.setAttribute("aria-current", "step"); else item.removeAttribute("aria-current");
  });
};

const keys = { ArrowLeft: () => show(at - 1), ArrowRight: () => show(at + 1), Home: () => show(0), End: () => show(last) };
document.addEventListener("keydown", (event) => {
  // In the tree arrow keys scroll, as everywhere.
  const scrolls = event.target instanceof Element && event.target.closest("#tree");
  if (event.altKey || event.ctrlKey || event.metaKey || scrolls || !(event.key in keys)) return;
  event.preventDefault();
  keys[event.key]();
});
$("first").onclick = () => show(0);
$("back").onclick = () => show(at - 1);
$("forward").onclick = () => show(at + 1);
$("last").onclick = () => show(last);
$("slider").max = last;
$("slider").oninput = () => show(Number($("slider").value));
$("switch").hidden = !run.slip;
$("slip").onchange = () => { $("slip-track").hidden = !$("slip").checked; };
window.addEventListener("hashchange", () => show(Number(location.hash.slice(1).split("-")[0]) || 0));
layout();
if (location.hash.endsWith("-slip")) { $("slip").checked = true; $("slip-track").hidden = false; }
show(Number(location.hash.slice(1).split("-")[0]) || 0);

"use strict";
// The groups are rows in the order of the tree. Each row names the row above it.
const groups = document.getElementById("groups");
const inTree = groups ? [...groups.tBodies[0].rows] : [];
const above = inTree.map(row => "above" in row.dataset ? Number(row.dataset.above) : -1);
const find = document.getElementById("find");
const hurt = document.getElementById("hurt"), idle = document.getElementById("idle");
const isOpen = row => row.querySelector(".fold")?.getAttribute("aria-expanded") !== "false";

// The rows that fit the search, with all above them where the tree is shown.
function fitting(word, isFlat) {
  const found = new Set();
  inTree.forEach((row, place) => {
    if (!row.dataset.path.toLowerCase().includes(word)) return;
    if (hurt.checked && !("hurt" in row.dataset)) return;
    if (!idle.checked && "idle" in row.dataset) return;
    for (let at = place; at >= 0 && !found.has(at); at = isFlat ? -1 : above[at]) found.add(at);
  });
  return found;
}

// Shows the groups that fit the search, or those that no folded group hides.
function show() {
  const word = find.value.toLowerCase(), isFlat = groups.classList.contains("flat");
  groups.classList.toggle("all", idle.checked);
  const isSearch = word !== "" || hurt.checked;
  const found = isSearch ? fitting(word, isFlat) : null;
  let count = 0;
  inTree.forEach((row, place) => {
    const up = inTree[above[place]], isLeft = !idle.checked && "idle" in row.dataset;
    row.hidden = found ? !found.has(place)
      : isLeft || !isFlat && Boolean(up) && (up.hidden || !isOpen(up));
    if (!row.hidden) count++;
  });
  const told = isSearch ? `${count} of ${inTree.length} groups` : "";
  document.getElementById("count").textContent = told;
}

function foldAll(isShut) {
  for (const row of inTree.slice(1))
    row.querySelector(".fold")?.setAttribute("aria-expanded", String(!isShut));
  show();
}

// Sorts a table by a column: numbers by value, others as texts. The third time gives the order of
// the page back.
const orders = new Map([...document.querySelectorAll("table.sortable")]
  .map(table => [table, [...table.tBodies[0].rows]]));
const valueOf = cell => cell.dataset.value ?? cell.textContent;

function sortBy(head) {
  const table = head.closest("table"), at = head.cellIndex;
  const next = { none: "descending", descending: "ascending", ascending: "none" };
  const order = next[head.getAttribute("aria-sort") ?? "none"];
  for (const each of table.tHead.rows[0].cells) each.removeAttribute("aria-sort");
  const rows = [...orders.get(table)];
  if (order !== "none") {
    head.setAttribute("aria-sort", order);
    const sign = order === "ascending" ? 1 : -1;
    rows.sort((one, two) => {
      const a = valueOf(one.cells[at]), b = valueOf(two.cells[at]);
      const difference = parseFloat(a) - parseFloat(b);
      return sign * (isNaN(difference) ? a.localeCompare(b) : difference);
    });
  }
  table.tBodies[0].append(...rows);
  table.classList.toggle("flat", order !== "none" || "flat" in table.dataset);
  if (table === groups) show();
}

// Shows the rows of all tables that contain a word.
function showRows() {
  const word = find.value.toLowerCase();
  for (const row of document.querySelectorAll("table.searched tbody tr"))
    row.hidden = !row.textContent.toLowerCase().includes(word);
}

// Opens or folds a group.
function setFold(row, isOpenNow) {
  row.querySelector(".fold")?.setAttribute("aria-expanded", String(isOpenNow));
  show();
}

// The row that a key leads to. A row alone is reached by Tab, the others by arrows.
function rowOf(key, row) {
  const rows = [...groups.tBodies[0].rows].filter(each => !each.hidden), at = rows.indexOf(row);
  const isFlat = groups.classList.contains("flat"), fold = row.querySelector(".fold");
  const canOpen = fold && !isFlat;
  if (key === "ArrowRight" && canOpen && !isOpen(row)) return setFold(row, true), row;
  if (key === "ArrowLeft" && canOpen && isOpen(row)) return setFold(row, false), row;
  if (key === "ArrowLeft" && !isFlat) return inTree[above[inTree.indexOf(row)]];
  return { ArrowDown: rows[at + 1], ArrowRight: canOpen ? rows[at + 1] : undefined,
           ArrowUp: rows[at - 1], Home: rows[0], End: rows[rows.length - 1] }[key];
}

function goTo(row) {
  for (const each of inTree) each.tabIndex = each === row ? 0 : -1;
  row.focus();
}

for (const button of document.querySelectorAll("thead button"))
  button.addEventListener("click", () => sortBy(button.closest("th")));
find.addEventListener("input", groups ? show : showRows);
if (groups) {
  for (const each of [hurt, idle]) each.addEventListener("change", show);
  document.getElementById("open").addEventListener("click", () => foldAll(false));
  document.getElementById("shut").addEventListener("click", () => foldAll(true));
  groups.addEventListener("click", event => {
    const fold = event.target.closest(".fold");
    if (fold) setFold(fold.closest("tr"), fold.getAttribute("aria-expanded") === "false");
  });
  groups.addEventListener("keydown", event => {
    const row = event.target.closest("tbody tr");
    const next = row && !event.ctrlKey && !event.altKey && rowOf(event.key, row);
    if (!next) return;
    event.preventDefault();
    goTo(next);
  });
  document.addEventListener("keydown", event => {
    if (event.key !== "/" || event.target === find) return;
    event.preventDefault();
    find.focus();
  });
  if (inTree.length) inTree[0].tabIndex = 0;
  show();
}

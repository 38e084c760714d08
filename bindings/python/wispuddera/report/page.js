
"use strict";
// The button of a column sorts the rows: numbers in descending order, text in ascending order. A
// second click reverses the order.
for (const table of document.querySelectorAll("main table")) {
  const heads = [...table.tHead.rows[0].cells];
  heads.forEach((head, column) => {
    const button = document.createElement("button");
    button.type = "button";
    button.append(...head.childNodes);
    head.append(button);
    button.addEventListener("click", () => sort(table, heads, column));
  });
}

function sort(table, heads, column) {
  const head = heads[column];
  const first = head.classList.contains("number") ? "descending" : "ascending";
  const other = first === "ascending" ? "descending" : "ascending";
  const order = head.getAttribute("aria-sort") === first ? other : first;
  for (const one of heads) one.removeAttribute("aria-sort");
  head.setAttribute("aria-sort", order);
  const body = table.tBodies[0];
  const rows = [...body.rows].map((row) => [key(row.cells[column]), row]);
  rows.sort((a, b) => compare(a[0], b[0]) * (order === "ascending" ? 1 : -1));
  body.append(...rows.map((pair) => pair[1]));
}

function key(cell) {
  const place = cell.dataset.place;
  return place === undefined ? cell.textContent : Number(place);
}

function compare(a, b) {
  if (typeof a !== typeof b) return typeof a === "number" ? -1 : 1;
  return a === b ? 0 : a > b ? 1 : -1;
}

// The search box hides rows that lack one of its words, and tables that have no rows left.
const rows = [...document.querySelectorAll("main tbody tr")].map((row) => [row, row.textContent.toLowerCase()]);
const box = document.createElement("input");
box.type = "search";
box.placeholder = "Search all rows: a host, an address, a suite, a uid ..";
box.setAttribute("aria-label", "Search all rows");
const found = document.createElement("output");
const search = document.createElement("div");
search.className = "search";
search.setAttribute("role", "search");
search.append(box, found);
document.querySelector("main").prepend(search);
box.addEventListener("input", () => {
  const words = box.value.toLowerCase().split(/\s+/).filter((word) => word !== "");
  let count = 0;
  for (const [row, text] of rows) {
    row.hidden = !words.every((word) => text.includes(word));
    count += row.hidden ? 0 : 1;
  }
  const is_asked = words.length !== 0;
  for (const foot of document.querySelectorAll("main tfoot")) foot.hidden = is_asked;
  for (const part of document.querySelectorAll("main .block, main section")) {
    part.hidden = is_asked ? part.querySelector("tbody tr:not([hidden])") === null : false;
  }
  found.textContent = is_asked ? `${count} ${count === 1 ? "row" : "rows"}` : "";
});

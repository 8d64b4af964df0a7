// Makes choosers of the boxes. All that is shown stands in the document; this shows and hides parts of it, and copies rows from one box to another.
"use strict";

// Shows the box that a control names among some, and opens it; with no name all of them, closed.
function choose(boxes, name) {
  for (const box of boxes) {
    box.hidden = name !== "" && box.id !== name;
    box.open = box.id === name;
  }
}

// The text of a box's first line.
function summed(box) {
  return box.querySelector("summary").textContent;
}

// Names the rows of a second load that the first one doesn't need: the second one's own, without those that both need.
function showAdded(pair) {
  const adds = pair.querySelector(".adds");
  const second = document.getElementById(pair.dataset.second);
  if (!adds || adds.dataset.named) return;
  adds.dataset.named = "yes";
  adds.replaceChildren();
  const shared = new Set([...pair.querySelectorAll(".shared [data-row]")].map((row) => row.dataset.row));
  for (const table of second.querySelectorAll(".rows")) {
    const rows = [...table.querySelectorAll("tr[data-row]")].filter((row) => !shared.has(row.dataset.row));
    if (rows.length === 0) continue;
    const head = document.createElement("p");
    head.append("It adds of ", table.querySelector("summary bdi").cloneNode(true), ":");
    const list = document.createElement("ul");
    for (const row of rows) {
      const item = document.createElement("li");
      item.dataset.row = row.dataset.row;
      item.append(row.cells[0].firstElementChild.cloneNode(true));
      list.append(item);
    }
    adds.append(head, list);
  }
}

// The chooser of a second load in a box.
function chooseSecond(box, told) {
  const select = box.querySelector("select");
  if (!select) return;
  const pairs = [...box.querySelectorAll(".pair")];
  for (const pair of pairs) pair.addEventListener("toggle", () => pair.open && showAdded(pair));
  const show = () => {
    choose(pairs, select.value);
    pairs.filter((pair) => pair.open).forEach(showAdded);
  };
  select.closest(".chooser").hidden = false;
  select.addEventListener("change", () => {
    show();
    const pair = pairs.find((pair) => pair.open);
    told.textContent = pair ? `Beside it ${summed(pair)}` : "";
  });
  show();
}

// The chooser of a load's values.
function chooseValue(load) {
  const select = load.querySelector("select");
  if (!select) return;
  const told = load.querySelector(".told");
  const boxes = [...load.querySelectorAll(".value")];
  for (const box of boxes) chooseSecond(box, told);
  select.closest(".chooser").hidden = false;
  told.hidden = false;
  const named = boxes.find((box) => `#${box.id}` === location.hash);
  if (named) select.value = named.id;
  choose(boxes, select.value);
  select.addEventListener("change", () => {
    choose(boxes, select.value);
    const box = boxes.find((box) => box.open);
    told.textContent = box ? summed(box) : `${boxes.length} values`;
  });
}

for (const load of document.querySelectorAll(".load")) chooseValue(load);

// On paper everything that isn't hidden stands open.
let opened = [];
addEventListener("beforeprint", () => {
  opened = [...document.querySelectorAll("details:not([open])")].filter((box) => !box.closest("[hidden]"));
  for (const box of opened) box.open = true;
});
addEventListener("afterprint", () => {
  for (const box of opened) box.open = false;
});

// What is checked of every page, in the browser: each function gives a list of faults, which is to be empty.

// One h1, at the head, and no heading more than one step below the one before it.
function headings() {
  const levels = [...document.querySelectorAll("h1, h2, h3, h4, h5, h6")].map((heading) => Number(heading.tagName[1]));
  const faults = levels.filter((level) => level === 1).length === 1 && levels[0] === 1 ? [] : ["not one h1 at the head"];
  levels.forEach((level, index) => {
    if (index > 0 && level > levels[index - 1] + 1) faults.push(`h${level} behind h${levels[index - 1]}`);
  });
  return faults.concat([...document.querySelectorAll("h1, h2, h3, h4")].filter((heading) => !heading.textContent.trim()).map(() => "an empty heading"));
}

// Every control has a label that says something, every picture a text, every part and whatever is reached by Tab a name; no id stands twice, and no link leads nowhere.
function names() {
  const faults = [];
  for (const control of document.querySelectorAll("select, input, button, textarea, meter, progress")) {
    const label = [...(control.labels ?? [])].map((label) => label.textContent).join("") || control.getAttribute("aria-label") || control.textContent;
    if (!label.trim() || (control.tagName === "SELECT" && !(control.labels ?? []).length)) faults.push(`no label: ${control.outerHTML.slice(0, 80)}`);
  }
  for (const picture of document.querySelectorAll("img, svg")) {
    const isNamed = picture.getAttribute("aria-label") || picture.getAttribute("alt") || picture.getAttribute("aria-hidden") === "true";
    if (!isNamed) faults.push(`no text: ${picture.outerHTML.slice(0, 80)}`);
  }
  for (const region of document.querySelectorAll("[tabindex], nav, section")) {
    const named = region.getAttribute("aria-label") ?? document.getElementById(region.getAttribute("aria-labelledby"))?.textContent;
    if (!named?.trim()) faults.push(`no name: ${region.outerHTML.slice(0, 80)}`);
  }
  const ids = [...document.querySelectorAll("[id]")].map((element) => element.id);
  const twice = ids.filter((id, index) => ids.indexOf(id) !== index);
  for (const link of document.querySelectorAll("a[href]")) {
    if (!document.querySelector(link.getAttribute("href"))) faults.push(`a link to nothing: ${link.outerHTML}`);
  }
  return faults.concat(twice.map((id) => `twice: ${id}`));
}

// Every table has a caption, and its heads say of what.
function tables() {
  const faults = [];
  for (const table of document.querySelectorAll("table")) {
    if (!table.caption?.textContent.trim()) faults.push(`no caption: ${table.outerHTML.slice(0, 80)}`);
    for (const head of table.querySelectorAll("th")) {
      if (!head.scope) faults.push(`no scope: ${head.outerHTML}`);
    }
    for (const row of table.tBodies[0].rows) {
      if (row.cells[0].tagName !== "TH") faults.push(`no head: ${row.outerHTML.slice(0, 80)}`);
    }
  }
  return faults;
}

function colour(text) {
  const [red, green, blue, alpha = 1] = text.match(/[\d.]+/g)?.map(Number) ?? [0, 0, 0, 0];
  return { parts: [red, green, blue], alpha };
}

function luminance({ parts }) {
  const [red, green, blue] = parts.map((part) => part / 255).map((part) => (part <= 0.04045 ? part / 12.92 : ((part + 0.055) / 1.055) ** 2.4));
  return 0.2126 * red + 0.7152 * green + 0.0722 * blue;
}

function ratio(one, other) {
  const [low, high] = [luminance(one), luminance(other)].sort((a, b) => a - b);
  return (high + 0.05) / (low + 0.05);
}

// The colour behind an element: of the nearest one around it that has one.
function behind(element) {
  for (let around = element; around; around = around.parentElement) {
    const back = colour(getComputedStyle(around).backgroundColor);
    if (back.alpha === 1) return back;
    if (back.alpha > 0) throw new Error(`a background that is half seen: ${around.outerHTML.slice(0, 80)}`);
  }
  return colour("rgb(255, 255, 255)");
}

// The colour behind a text of a picture: of the last shape before it whose box it stands in.
function behindDrawn(text) {
  const box = text.getBBox();
  const [x, y] = [box.x + box.width / 2, box.y + box.height / 2];
  const shapes = [...text.ownerSVGElement.querySelectorAll("polygon, rect")].filter((shape) => {
    const around = shape.getBBox();
    const isBefore = shape.compareDocumentPosition(text) & Node.DOCUMENT_POSITION_FOLLOWING;
    const fill = colour(getComputedStyle(shape).fill);
    return isBefore && fill.alpha === 1 && getComputedStyle(shape).fill !== "none" && x >= around.x && x <= around.x + around.width && y >= around.y && y <= around.y + around.height;
  });
  return shapes.length ? colour(getComputedStyle(shapes.at(-1)).fill) : behind(text.ownerSVGElement.parentElement);
}

// Every text that can be seen stands out from what is behind it by at least 4.5. Tells how many were looked at, so that none is no success.
function contrast() {
  const faults = [];
  let seen = 0;
  const walker = document.createTreeWalker(document.body, NodeFilter.SHOW_TEXT);
  for (let node = walker.nextNode(); node; node = walker.nextNode()) {
    const element = node.parentElement;
    if (!node.data.trim() || ["SCRIPT", "STYLE"].includes(element.tagName) || !element.checkVisibility()) continue;
    const drawn = element.ownerSVGElement;
    const style = getComputedStyle(element);
    const text = colour(drawn ? style.fill : style.color);
    const back = drawn ? behindDrawn(element) : behind(element);
    seen += 1;
    if (text.alpha < 1 || ratio(text, back) < 4.5) faults.push(`${node.data.trim().slice(0, 40)}: ${text.parts} on ${back.parts}`);
  }
  return { seen, faults };
}

// What stands out to the right of the window, though it doesn't scroll by itself.
function wide() {
  return document.documentElement.scrollWidth > document.documentElement.clientWidth
    ? [`${document.documentElement.scrollWidth} wide`].concat(
        [...document.body.querySelectorAll("*")].filter((element) => !element.closest(".scrolls") && element.getBoundingClientRect().right > innerWidth).map((element) => element.outerHTML.slice(0, 100)),
      )
    : [];
}

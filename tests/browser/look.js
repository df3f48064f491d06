// What is wrong on the page as it is shown: returns {faults: [..], signs: [..]}, each sign a place at which a shade must be seen.
const faults = [], signs = [];
const paper = matchMedia("print").matches;
const wide = document.documentElement.clientWidth;
const name = (e) => {
  const kind = typeof e.className === "string" ? e.className : e.getAttribute("class");
  return `<${e.tagName.toLowerCase()}${kind ? "." + kind : ""}> "${(e.textContent || "").trim().replace(/\s+/g, " ").slice(0, 40)}"`;
};

// Widths.
if (document.documentElement.scrollWidth > wide) faults.push(`the page is ${document.documentElement.scrollWidth} pixels wide in a window of ${wide}`);
for (const e of document.body.querySelectorAll("*")) {
  if (e.closest("svg") && e.tagName !== "svg") continue;
  const box = e.getBoundingClientRect(), scroll = e.closest(".scroll");
  if (box.width === 0) continue;
  if ((!scroll || scroll === e || paper) && (box.right > wide + 1 || box.left < -1)) faults.push(`${name(e)} reaches from ${box.left} to ${box.right} in a window of ${wide}`);
  if (e.scrollWidth > e.clientWidth + 1 && e.clientWidth > 0) {
    const flow = getComputedStyle(e).overflowX;
    if (e.classList.contains("scroll") && flow === "auto" && !paper) {
      if (wide > 600 && e.offsetHeight - e.clientHeight < 6) faults.push(`${name(e)} scrolls, and has no bar that shows it`);
      const row = e.querySelector("tbody tr:not(.summary)"), padding = parseFloat(getComputedStyle(e.querySelector("td")).paddingRight);
      // What is cut within the last column's padding is no text.
      if (row && e.scrollWidth - e.clientWidth > padding + 1) signs.push({x: box.right - 2 + scrollX, y: row.getBoundingClientRect().top + 3 + scrollY, what: name(e)});
    } else if (getComputedStyle(e).display !== "inline") faults.push(`${name(e)} is ${e.scrollWidth} pixels wide in a box of ${e.clientWidth}, without a sign`);
  }
}
for (const text of document.querySelectorAll("svg text")) {
  const box = text.getBoundingClientRect(), drawing = text.ownerSVGElement.getBoundingClientRect();
  if (box.left < drawing.left - 1 || box.right > drawing.right + 1 || box.bottom > drawing.bottom + 1 || box.top < drawing.top - 1) faults.push(`${name(text)} reaches out of its chart`);
}

// Contrast.
const parts = (colour) => {
  const found = colour.match(/[\d.]+/g).map(Number);
  return [found[0], found[1], found[2], found.length > 3 ? found[3] : 1];
};
const over = (top, below) => [0, 1, 2].map((i) => top[i] * top[3] + below[i] * (1 - top[3])).concat(1);
const light = (colour) => {
  const [r, g, b] = colour.slice(0, 3).map((c) => c / 255).map((c) => (c <= 0.04045 ? c / 12.92 : ((c + 0.055) / 1.055) ** 2.4));
  return 0.2126 * r + 0.7152 * g + 0.0722 * b + 0.05;
};
const behind = (e) => {
  const layers = [];
  for (let at = e; at; at = at.parentElement) layers.push(parts(getComputedStyle(at).backgroundColor));
  return layers.reverse().reduce((below, top) => over(top, below), [255, 255, 255, 1]);
};
const filled = (text) => {
  const box = text.getBoundingClientRect(), x = box.left + box.width / 2, y = box.top + box.height / 2;
  let found = behind(text.ownerSVGElement);
  for (const e of text.ownerSVGElement.children) {
    if (e === text) return found;
    const own = e.getBoundingClientRect();
    if (e.tagName === "rect" && own.left <= x && x <= own.right && own.top <= y && y <= own.bottom) found = parts(getComputedStyle(e).fill);
  }
  return found;
};
const contrast = (a, b) => Math.max(light(a), light(b)) / Math.min(light(a), light(b));
const told = new Set();
const walk = document.createTreeWalker(document.body, NodeFilter.SHOW_TEXT);
const texts = [];
for (let node = walk.nextNode(); node; node = walk.nextNode()) {
  const e = node.parentElement;
  if (!node.textContent.trim() || ["TITLE", "title", "desc", "STYLE"].includes(e.tagName)) continue;
  texts.push([node, e]);
  const drawn = e.tagName === "text";
  const found = contrast(drawn ? parts(getComputedStyle(e).fill) : parts(getComputedStyle(e).color), drawn ? filled(e) : behind(e));
  if (found < 4.5 && !told.has(name(e))) {
    told.add(name(e));
    faults.push(`${name(e)} has a contrast of ${found.toFixed(2)}`);
  }
}

// Texts over texts, each cut to the box that scrolls it.
const boxes = [];
for (const [node, e] of texts) {
  const range = document.createRange();
  range.selectNodeContents(node);
  const scroll = e.closest(".scroll"), frame = scroll && !paper ? scroll.getBoundingClientRect() : null;
  for (const r of range.getClientRects()) {
    const left = frame ? Math.max(r.left, frame.left) : r.left, right = frame ? Math.min(r.right, frame.right) : r.right;
    const sticky = getComputedStyle(e).position === "sticky";
    if (right - left > 1) boxes.push({left, right, top: r.top, bottom: r.bottom, e, node, sticky});
  }
}
boxes.sort((a, b) => a.top - b.top);
for (let i = 0; i < boxes.length; i++) {
  for (let j = i + 1; j < boxes.length && boxes[j].top < boxes[i].bottom - 3; j++) {
    const a = boxes[i], b = boxes[j];
    if (a.node === b.node || a.sticky || b.sticky) continue;
    if (Math.min(a.right, b.right) - Math.max(a.left, b.left) > 2) faults.push(`${name(a.e)} and ${name(b.e)} stand over one another`);
  }
}
for (const th of document.querySelectorAll("thead th")) {
  const unit = th.querySelector("span");
  if (unit && parseFloat(getComputedStyle(unit).fontSize) >= parseFloat(getComputedStyle(th).fontSize)) faults.push(`the unit of ${name(th)} is not smaller than its heading`);
}
return {faults: faults.slice(0, 12), signs, texts: texts.length};


// Elements.

function filled(node, attributes, children) {
  for (const [name, value] of Object.entries(attributes)) node.setAttribute(name, value);
  node.append(...children);
  return node;
}

const element = (tag, attributes = {}, ...children) => filled(document.createElement(tag), attributes, children);
const drawn = (tag, attributes = {}, ...children) =>
  filled(document.createElementNS("http://www.w3.org/2000/svg", tag), attributes, children);

function redrawnByWidth(where, draw) {
  let width = 0;
  new ResizeObserver(() => {
    if (where.clientWidth !== width) draw(width = where.clientWidth);
  }).observe(where);
  draw(width = where.clientWidth);
}

// Colours. A verdict has a plain one; the number of a drop has one of its own and a pattern, by its rest by five.

const PATTERNS = ["M-2 2l4 -4M-2 8l10 -10M4 8l4 -4", "M1.5 1.5h.01M4.5 4.5h.01", "M-2 4l4 4M-2 -2l10 10M4 -2l4 4",
  "M0 1.5h6M0 4.5h6", ""];

function definePatterns() {
  const patterns = [];
  for (let number = 1; number <= 25; number++) {
    const path = {d: PATTERNS[number % PATTERNS.length], class: "over"};
    patterns.push(drawn("pattern", {id: `drop-${number}`, width: 6, height: 6, patternUnits: "userSpaceOnUse"},
      drawn("rect", {width: 6, height: 6, style: `fill: var(--drop-${number})`}), drawn("path", path)));
  }
  document.body.append(drawn("svg", {class: "patterns", "aria-hidden": "true"}, drawn("defs", {}, ...patterns)));
}

const numberOf = kind => kind.split(" ")[1];
const dropColour = number => `url(#drop-${number})`;
const filledBox = (attributes, colour) =>
  drawn("svg", attributes, drawn("rect", {width: "100%", height: "100%", style: `fill: ${colour}`}));
const swatch = colour => filledBox({class: "swatch", "aria-hidden": "true"}, colour);


// Axes.

const STEPS = [];
for (let power = 1; power < 1e9; power *= 10) STEPS.push(power, 2 * power, 5 * power);
for (const seconds of [1, 2, 5, 10, 20, 30, 60, 120, 300, 600, 1200, 1800, 3600, 7200, 10800, 21600, 43200])
  STEPS.push(1e9 * seconds);
for (let power = 86400e9; power < 1e20; power *= 10) STEPS.push(power, 2 * power, 5 * power);

const timeStep = (span, most) => STEPS.find(step => span / step <= most) || span;
const AXIS_HEIGHT = 46, LABEL_ROOM = 112, LETTER = 7;

// The least of 1, 2, 5, 10, .. that leaves at most so many steps.
function countStep(top, most) {
  for (let power = 1; ; power *= 10)
    for (const step of [power, 2 * power, 5 * power]) if (top / step <= most) return step;
}

// The time of the report: below its line seconds after the first frame, and below these the time in UTC.
class TimeAxis {
  constructor(width, left, right) {
    this.span = report.parts.width * report.parts.count;
    this.left = left;
    this.room = Math.max(width - left - right, 50);
    this.step = timeStep(this.span, Math.max(2, Math.floor(this.room / LABEL_ROOM)));
    this.first = nanosecondsOf(report.first);
    this.taken = {};
  }

  at(span) {
    return this.left + this.room * span / this.span;
  }

  // Where the bar of a part begins, and how wide it is.
  bar(part) {
    const slot = this.room / report.parts.count, gap = slot >= 4 ? 1 : 0;
    const width = Math.min(slot - gap, 36);
    return [this.left + slot * part + (slot - gap - width) / 2, width];
  }

  // How far behind the first frame the first whole step of UTC is.
  firstWhole() {
    const step = BigInt(Math.round(this.step));
    return Number((step - this.first % step) % step);
  }

  // A text below a place; it is left out where it would touch the one before it in its line.
  label(svg, x, y, text) {
    const width = LETTER * text.length, isLeft = x < this.left + 40, isRight = x > this.left + this.room - 40;
    const from = isLeft ? x : isRight ? x - width : x - width / 2;
    if (from < (this.taken[y] || 0)) return;
    this.taken[y] = from + width + 8;
    const anchor = isLeft ? "start" : isRight ? "end" : "middle";
    svg.append(drawn("text", {x, y, "text-anchor": anchor}, text));
  }

  draw(svg, bottom) {
    const tick = (x, from, to) => svg.append(drawn("line", {class: "grid", x1: x, x2: x, y1: from, y2: to}));
    for (let span = 0; span <= this.span * 1.0001; span += this.step) {
      tick(this.at(span), bottom, bottom + 5);
      this.label(svg, this.at(span), bottom + 18, spanText(span, this.step));
    }
    svg.append(drawn("line", {class: "grid", x1: this.left, x2: this.left + this.room, y1: bottom, y2: bottom}));
    this.drawUtc(svg, bottom, tick);
  }

  drawUtc(svg, bottom, tick) {
    const digits = digitsOf(this.step), day = this.step >= 86400e9;
    let count = 0;
    for (let span = this.firstWhole(); span <= this.span * 1.0001; span += this.step) {
      const parts = utcParts(this.first + BigInt(Math.round(span)), digits);
      if (!parts) return;
      tick(this.at(span), bottom + 22, bottom + 26);
      this.label(svg, this.at(span), bottom + 38, day ? parts[0] : parts[1] + (count++ ? "" : " UTC"));
    }
  }

  // What is told of a part: its time in the unit of the axis, and in UTC.
  timesOf(part) {
    const width = report.parts.width, digits = digitsOf(width);
    const [from, to] = [part * width, (part + 1) * width];
    const utc = span => utcText(this.first + BigInt(Math.round(span)), Math.max(digits, 3));
    return [`${spanText(from, this.step)} to ${spanText(to, this.step)}`, `${utc(from)} to ${utc(to).slice(11)} UTC`];
  }

  // A shade under the pointer, or under the part that keys choose, with a text of that part.
  follow(svg, top, bottom, linesOf) {
    const slot = this.room / report.parts.count, last = report.parts.count - 1;
    const shade = drawn("rect", {class: "under", x: this.left, y: top, width: Math.max(slot, 2), height: bottom - top});
    let chosen = 0;
    const show = (part, x, y) => {
      chosen = Math.min(Math.max(part, 0), last);
      shade.setAttribute("x", this.left + slot * chosen);
      shade.classList.add("here");
      showTip(x, y, this.timesOf(chosen), linesOf(chosen));
    };
    const hide = () => {
      shade.classList.remove("here");
      place("tip").hidden = true;
    };
    svg.append(shade);
    svg.addEventListener("pointermove", event => show(
      Math.floor((event.clientX - svg.getBoundingClientRect().left - this.left) / slot), event.clientX, event.clientY));
    svg.addEventListener("pointerleave", hide);
    svg.addEventListener("blur", hide);
    svg.addEventListener("keydown", event => {
      const parts = {ArrowLeft: chosen - 1, ArrowRight: chosen + 1, Home: 0, End: last};
      if (event.key === "Escape") hide();
      if (!(event.key in parts)) return;
      event.preventDefault();
      const box = svg.getBoundingClientRect(), isFirst = !shade.classList.contains("here");
      const part = isFirst && event.key.startsWith("Arrow") ? chosen : parts[event.key];
      show(part, box.left + this.left + slot * Math.min(Math.max(part, 0), last), box.top + top);
    });
  }
}

function showTip(x, y, times, lines) {
  const tip = place("tip");
  tip.replaceChildren(...times.map(text => element("p", {}, text)), ...lines.map(({name, colour, value}) =>
    element("div", {}, element("span", {}, swatch(colour), name), element("span", {}, counted(value)))));
  if (!lines.length) tip.append(element("div", {}, "nothing"));
  tip.hidden = false;
  tip.style.left = Math.max(Math.min(x + 14, innerWidth - tip.offsetWidth - 8), 8) + "px";
  tip.style.top = Math.max(Math.min(y + 14, innerHeight - tip.offsetHeight - 8), 8) + "px";
}


// Charts. Each has series with a name, a colour and a value for each part of the time.

const zeros = () => new Array(report.parts.count).fill(0);
const seriesOf = name => report.parts.series[name] || zeros();
const both = (these, those) => these.map((value, i) => value + those[i]);
const added = names => names.map(seriesOf).reduce(both, zeros());
const presentAt = (series, part) =>
  series.filter(({values}) => values[part]).map(({name, colour, values}) => ({name, colour, value: values[part]}));
const partText = () => spanText(report.parts.width, report.parts.width);
const KEYS = "; with the keys of arrows one goes through its parts";

function legend(series, valueOf = values => sum(values)) {
  return element("ul", {class: "legend"}, ...series.map(({name, colour, values}) =>
    element("li", {}, swatch(colour), `${name} `, element("b", {}, counted(valueOf(values))))));
}

// Where there is no time to draw along, that is said.
function isOnePart(holder) {
  if (report.parts.count > 1) return false;
  holder.append(element("p", {class: "note"}, "All frames lie within a microsecond: there is no time to draw along."));
  return true;
}

const chartOf = (height, label) =>
  drawn("svg", {height, role: "img", tabindex: 0, "aria-label": label + KEYS});

function stackedChart(where, label, unit, series, linesAt = part => presentAt(series, part).reverse()) {
  const top = 30, bottom = 230, holder = element("div");
  where.append(holder);
  if (isOnePart(holder)) return;
  const tallest = Math.max(...zeros().map((_, part) => sum(series.map(({values}) => values[part]))), 1);
  const step = countStep(tallest, 4), ceiling = step * Math.ceil(tallest / step);
  const y = value => bottom - (bottom - top) * value / ceiling;
  redrawnByWidth(holder, width => {
    const svg = chartOf(bottom + AXIS_HEIGHT, label), axis = new TimeAxis(width, 16 + 8 * counted(ceiling).length, 12);
    svg.append(drawn("text", {class: "unit", x: 0, y: 12}, unit));
    for (let value = 0; value <= ceiling; value += step) {
      svg.append(drawn("line", {class: "grid", x1: axis.left, x2: axis.left + axis.room, y1: y(value), y2: y(value)}));
      svg.append(drawn("text", {x: axis.left - 8, y: y(value) + 4, "text-anchor": "end"}, counted(value)));
    }
    zeros().forEach((_, part) => stack(svg, axis.bar(part), series.map(({values}) => values[part]), series, y));
    axis.draw(svg, bottom);
    axis.follow(svg, top, bottom, linesAt);
    holder.replaceChildren(svg);
  });
}

function stack(svg, [x, width], values, series, y) {
  let below = 0;
  values.forEach((value, i) => {
    if (!value) return;
    const style = `fill: ${series[i].colour}`, upper = y(below + value);
    svg.append(drawn("rect", {class: "bar", x, width, y: upper, height: Math.max(y(below) - upper, 1), style}));
    below += value;
  });
}

// One strip for each series, all by one time and each by a scale of its own.
function stripChart(where, label, series) {
  const high = 46, pitch = 82, bottom = pitch * series.length - 8, holder = element("div");
  where.append(holder);
  if (isOnePart(holder)) return;
  redrawnByWidth(holder, width => {
    const svg = chartOf(bottom + AXIS_HEIGHT, label), axis = new TimeAxis(width, 0, 12);
    series.forEach(({name, colour, values}, i) => {
      const base = pitch * (i + 1) - 8, most = Math.max(...values);
      const title = `${name}: ${counted(sum(values))}`, y = base - high - 8;
      svg.append(drawn("text", {class: "strip-name", x: 0, y}, title));
      const highest = `at most ${counted(most)} in ${partText()}`;
      if (width > 480) svg.append(drawn("text", {x: axis.room, y, "text-anchor": "end"}, highest));
      svg.append(drawn("line", {class: "grid", x1: 0, x2: axis.room, y1: base, y2: base}));
      values.forEach((value, part) => stack(svg, axis.bar(part), [value], [{colour}], v => base - high * v / most));
    });
    axis.draw(svg, bottom);
    axis.follow(svg, 0, bottom, part => presentAt(series, part));
    holder.replaceChildren(svg);
  });
}

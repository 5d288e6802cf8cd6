
// The page's sections.

const isDrop = kind => kind.startsWith("drop ");
const groupOf = kind => kind.split(" ")[0];
const colourOf = kind => isDrop(kind) ? dropColour(numberOf(kind)) : `var(--${groupOf(kind)})`;
const GROUPS = ["encapsulated", "delivered", "native", "control", "local", "own", "drop"];
const drops = report.kinds.filter(({kind}) => isDrop(kind));
const dropped = sum(drops.map(({count}) => count));
const framesUnit = () => `frames in ${partText()}`;

function drawFacts() {
  const fact = (name, ...texts) => place("facts").append(
    element("div", {}, element("dt", {}, name), ...texts.map(text => element("dd", {}, text))));
  place("ending").textContent = report.sentence;
  if (!report.frames) return;
  const span = Number(nanosecondsOf(report.last) - nanosecondsOf(report.first));
  fact("Frames", counted(report.frames));
  fact("Dropped", `${counted(dropped)} (${shareText(dropped / report.frames)})`);
  fact("First frame", `${momentUtc(report.first)} UTC`, `${report.first} s`);
  fact("Last frame", `${momentUtc(report.last)} UTC`, `${report.last} s`);
  fact("Time", spanText(span, span));
}

function drawVerdicts() {
  const series = GROUPS.map(group => ({name: group, colour: `var(--${group})`,
    values: added(report.kinds.map(({kind}) => kind).filter(kind => groupOf(kind) === group))}));
  const present = series.filter(({values}) => sum(values));
  place("verdict-chart").append(legend(present));
  stackedChart(place("verdict-chart"), "Frames over time, by verdict", framesUnit(), present);
  const rows = report.kinds.filter(({kind}) => !isDrop(kind));
  if (drops.length) rows.push({kind: "drop", count: dropped, first: Math.min(...drops.map(({first}) => first)),
    last: Math.max(...drops.map(({last}) => last))});
  new Table(place("verdict-table"), "Frames by verdict", [words("Verdict", row => row.kind),
    number("Frames", row => row.count), ...shares(rows, report.frames, row => row.count,
      row => `var(--${groupOf(row.kind)})`), ...frameNumbers], rows,
    {sorted: 1, falling: true, keyOf: row => row.kind,
      choose: row => chooseKind(row.kind === "drop" ? mostDropped() : row.kind)});
}

const mostDropped = () => [...drops].sort((a, b) => b.count - a.count)[0].kind;

function drawDrops() {
  if (!drops.length) {
    place("drops").replaceChildren(element("h2", {}, "Drops"), element("p", {class: "note"}, "No frame was dropped."));
    return;
  }
  const series = drops.map(({kind}) => ({name: kind.slice(5), colour: colourOf(kind), values: seriesOf(kind)}));
  place("drop-chart").append(legend(series));
  stackedChart(place("drop-chart"), "Drops over time, by reason", framesUnit(), series);
  new Table(place("drop-table"), "Drops by number", [
    {name: "Number", value: row => Number(numberOf(row.kind)), number: true},
    words("Word", row => row.kind.split(" ")[2], (text, row) => [swatch(colourOf(row.kind)), text]),
    number("Frames", row => row.count),
    ...shares(drops, dropped, row => row.count, row => colourOf(row.kind)), ...frameNumbers], drops,
    {sorted: 2, falling: true, keyOf: row => row.kind, choose: row => chooseKind(row.kind)});
}

const countOf = kind => kinds.has(kind) ? kinds.get(kind).count : 0;

function drawCache() {
  const series = [
    {name: "Frames of drops 13 and 15", colour: "var(--drop)",
      values: added(["drop 13 miss", "drop 15 send-request"])},
    {name: "Records learned", colour: "var(--delivered)", values: seriesOf("learned")},
    {name: "Records passed over", colour: "var(--local)", values: seriesOf("passed")},
    {name: "Mappings asked for again", colour: "var(--control)", values: seriesOf("asked")}];
  const present = series.filter(({values}) => sum(values));
  if (present.length) stripChart(place("cache-chart"), "The map-cache over time", present);
  const rows = [
    ["Frames that no mapping covers (drop 13)", countOf("drop 13 miss")],
    ["Frames whose mapping has no locators and says to send a request (drop 15)", countOf("drop 15 send-request")],
    ["Map-Replies that were taken", countOf("control reply")],
    ["Records of these that were learned", report.sums.learned],
    ["Records of these that were passed over", report.sums.passed],
    ["Map-Replies that were dropped (21, 22, 25)",
      countOf("drop 21 unsolicited") + countOf("drop 22 unfit") + countOf("drop 25 unexpected")],
    ["Map-Requests with S that were heard", countOf("control solicit")],
    ["Mappings that these made the router ask for again", report.sums.asked]];
  new Table(place("cache-table"), "Counts of the map-cache",
    [words("What", row => row[0]), number("Count", row => row[1])], rows);
  place("cache-note").textContent = missesText(report.misses);
}

function missesText({asked, silent, untold}) {
  const all = asked + silent + untold;
  if (!all) return "No frame made the router look for a mapping (drops 13 and 15).";
  if (report.behind.greatest)
    return "Some n lies behind, so there were workers, and no line tells which frames of drops 13 and 15 made the " +
      "router ask.";
  return `The next line's n tells of ${counted(asked + silent)} of the ${amount(all, "frame", "frames")} of drops 13 ` +
    `and 15, if there were no workers: ${counted(asked)} made the router send a Map-Request (the journal grew by one ` +
    `entry); ${counted(silent)} didn't (a request was open, too many were, or there is no resolver).`;
}

function drawLocators() {
  if (!report.locators.length) {
    document.querySelector("#locators .note").textContent = "No frame went into a tunnel.";
    return;
  }
  const rows = report.locators.map(([from, to, count, first, last]) =>
    ({from: shortened(from), to: shortened(to), count, first, last}));
  const all = sum(rows.map(row => row.count)) + report.others;
  new Table(place("locator-table"), "Packets to each locator", [addresses("To", row => row.to),
    addresses("From", row => row.from), number("Packets", row => row.count),
    ...shares(rows, all, row => row.count, () => "var(--encapsulated)"), ...frameNumbers], rows,
    {sorted: 2, falling: true, keyOf: row => `${row.from} ${row.to}`,
      choose: row => chooseKind("encapsulated", `${row.from} ${row.to} `)});
  if (report.others) place("locators").append(element("p", {class: "note"},
    `${counted(report.others)} packets went to locators past the first ${counted(report.locators.length)}.`));
}

function drawBehind() {
  const {counts, greatest, frame} = report.behind;
  if (!greatest) {
    place("behind-note").textContent = "No line's n is less than that of a line before it. Without workers that is " +
      "always so; with workers it says that no line shows a packet that was decided by an older journal.";
    return;
  }
  place("behind-note").textContent = "With workers a data packet may be decided by a journal that others have moved " +
    "past. Here the n of each line is held against the greatest one before it: what the journal had come to, as " +
    `far as lines show. It lay behind by ${amount(greatest, "entry", "entries")} at most, first in frame ` +
    `${counted(frame)}.`;
  const rows = counts.map((count, i) => ({least: i ? 2 ** (i - 1) : 0, most: i ? 2 ** i - 1 : 0, count}));
  new Table(place("behind-table"), "How far n lay behind", [
    {name: "Behind by", value: row => row.least,
      text: (_, row) => row.least === row.most ? counted(row.least) : `${counted(row.least)} to ${counted(row.most)}`},
    number("Frames", row => row.count), ...shares(rows, report.frames, row => row.count, () => "var(--mark)")], rows);
}

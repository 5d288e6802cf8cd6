
// What settings and the capture tell: for which EID prefix frames were dropped, and the map-cache over time.

const played = report.played;
const ORIGINS = {site: "of the site", static: "a static mapping", learned: "a learned mapping", none: "the EID itself"};
const prefixText = row => `${row.prefix} of ${row.iid === null ? "no instance" : `instance ${row.iid}`}`;
const eidTexts = played ? played.drops.rows.map(prefixText) : [];
const hasEids = kind => Boolean(played) && isDrop(kind) && played.drops.listed[kind].some(place => place !== null);

function eidOfListed(kind, i) {
  const row = played && isDrop(kind) ? played.drops.listed[kind][i] : null;
  return row === null || row === undefined ? "" : eidTexts[row];
}

// The drops of a row by number, the most frequent first.
const reasonsOf = row => Object.entries(row.drops).sort(([, a], [, b]) => b - a);
const kindOfNumber = number => drops.find(({kind}) => numberOf(kind) === number).kind;
const reasonsText = row => reasonsOf(row).map(([number, count]) => element("span", {class: "reason"},
  swatch(dropColour(number)), `${kindOfNumber(number).slice(5)} ${counted(count)}`));

function drawPrefixes() {
  const {rows, others, without} = played.drops;
  for (const row of rows) row.count = sum(Object.values(row.drops));
  const all = sum(rows.map(row => row.count)) + others;
  place("prefix-note").textContent = `Of ${amount(dropped, "dropped frame", "dropped frames")} ${counted(all)} are data ` +
    "packets with an EID: the destination, of drop 12 the source. Each counts for the longest prefix of the site or of " +
    `a mapping that covers it, or for itself. ${counted(without)} have none: messages, and what is refused before it is read.` +
    (others ? ` ${counted(others)} are for EIDs past the first ${counted(rows.length)}.` : "");
  if (!rows.length) return;
  new Table(place("prefix-table"), "Drops by EID prefix", [addresses("EID prefix", row => row.prefix),
    {name: "Instance", value: row => row.iid === null ? -1 : row.iid, number: true,
      text: value => value < 0 ? "none" : String(value)},
    words("Which is", row => ORIGINS[row.origin]), number("Frames", row => row.count),
    ...shares(rows, dropped, row => row.count, () => "var(--drop)"),
    {name: "Drops", value: row => reasonsOf(row)[0][0], text: (_, row) => reasonsText(row), wraps: true}, ...frameNumbers], rows,
    {sorted: 3, falling: true, keyOf: row => `${prefixText(row)} ${row.origin}`,
      choose: row => chooseKind(kindOfNumber(reasonsOf(row)[0][0]), prefixText(row))});
}

function drawSizes() {
  const {most, ends, instances} = played.cache, fixed = played.cache.static;
  const series = [{name: "static, of the settings", colour: "var(--local)", values: zeros().map(() => fixed)},
    {name: "learned, at most", colour: "var(--delivered)", values: most}];
  const greatest = Math.max(...most, 0);
  place("size-chart").append(legend(series, values => Math.max(...values, 0)));
  stackedChart(place("size-chart"), "Mappings in the map-cache over time", `mappings, the most in ${partText()}`, series,
    part => [...presentAt(series, part).reverse(), {name: "learned, at its end", colour: "var(--delivered)", value: ends[part]}]);
  place("size-note").textContent = `The map-cache had ${amount(fixed + greatest, "mapping", "mappings")} at most, ` +
    `${counted(fixed)} static and ${counted(greatest)} learned; at the end ${counted(ends[ends.length - 1])} of these.`;
  new Table(place("size-table"), "Mappings by instance", [
    {name: "Instance", value: row => row.iid, number: true}, number("Static", row => row.static),
    number("Learned at the end", row => row.learned), number("Learned at most", row => row.most),
    words("First so many, in UTC", row => row.when || "", text => text && momentUtc(text)),
    number("May learn", row => row.limit)], instances, {sorted: 0});
}

function drawPlayed() {
  if (!played) return;
  drawPrefixes();
  drawSizes();
}

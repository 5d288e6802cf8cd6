"use strict";
const report = JSON.parse(document.getElementById("report-data").textContent);
const kinds = new Map(report.kinds.map(kind => [kind.kind, kind]));
const place = id => document.getElementById(id);

// Texts.

const counted = number => number.toLocaleString("en-US");
const amount = (number, one, many) => counted(number) + " " + (number === 1 ? one : many);
const sum = numbers => numbers.reduce((whole, number) => whole + number, 0);
const shareText = share => share > 0 && share < 0.001 ? "< 0.1%" : (100 * share).toFixed(1) + "%";

// Times. A moment is nanoseconds since 1970, a BigInt; a span is nanoseconds, a number.

const UNITS = [[86400e9, "d"], [3600e9, "h"], [60e9, "min"], [1e9, "s"], [1e6, "ms"], [1e3, "µs"], [1, "ns"]];
const unitOf = step => UNITS.find(([size]) => step >= size) || UNITS[UNITS.length - 1];

// So many nanoseconds in the unit of a step; behind minutes, hours and days with what is left of them.
function spanText(span, step) {
  const [size, unit] = unitOf(step);
  if (size <= 1e9) return counted(Number((span / size).toFixed(6))) + " " + unit;
  const whole = Math.floor(span / size), rest = span - whole * size;
  return `${counted(whole)} ${unit}` + (rest ? " " + spanText(rest, rest) : "");
}

function nanosecondsOf(moment) {
  const [seconds, fraction] = moment.split(".");
  return BigInt(seconds) * 1000000000n + BigInt(fraction);
}

// How long after the first frame, in seconds with all digits.
function afterFirst(moment) {
  const span = nanosecondsOf(moment) - nanosecondsOf(report.first);
  return (span / 1000000000n).toLocaleString("en-US") + "." + String(span % 1000000000n).padStart(9, "0");
}

// The date and the time of day in UTC, with so many digits of a second; nothing where no calendar has it.
function utcParts(moment, digits) {
  const date = new Date(Number(moment / 1000000000n) * 1000);
  if (isNaN(date)) return null;
  const fraction = String(moment % 1000000000n).padStart(9, "0").slice(0, digits);
  const text = date.toISOString();
  return [text.slice(0, text.indexOf("T")), text.slice(text.indexOf("T") + 1, -5) + (digits ? "." + fraction : "")];
}

const utcText = (moment, digits = 9) => (utcParts(moment, digits) || ["after the year 275,760"]).join(" ");
const momentUtc = moment => utcText(nanosecondsOf(moment));

// How many digits of a second tell moments apart that are a step from each other.
const digitsOf = step => step >= 1e9 ? 0 : step >= 1e6 ? 3 : step >= 1e3 ? 6 : 9;

// Addresses. A report has each IPv6 address in full; here it stands as RFC 5952 has it.

const FULL = /(?:[0-9a-f]{4}:){7}[0-9a-f]{4}/g;

function groupsText(groups) {
  if (groups.slice(0, 5).every(group => group === 0) && groups[5] === 0xffff)
    return "::ffff:" + [groups[6] >> 8, groups[6] & 255, groups[7] >> 8, groups[7] & 255].join(".");
  let [best, size] = [0, 1];
  for (let from = 0; from < 8; from++) {
    let to = from;
    while (to < 8 && groups[to] === 0) to++;
    if (to - from > size) [best, size] = [from, to - from];
  }
  const text = part => part.map(group => group.toString(16)).join(":");
  return size < 2 ? text(groups) : text(groups.slice(0, best)) + "::" + text(groups.slice(best + size));
}

const shortened = text =>
  text.replace(FULL, address => groupsText(address.split(":").map(group => parseInt(group, 16))));

// The groups of an IPv6 address in any of its forms, or null.
function groupsOf(text) {
  const dotted = text.match(/^(.*:)(\d{1,3})\.(\d{1,3})\.(\d{1,3})\.(\d{1,3})$/);
  if (dotted) {
    const [a, b, c, d] = dotted.slice(2).map(Number);
    if (Math.max(a, b, c, d) > 255) return null;
    text = dotted[1] + (a << 8 | b).toString(16) + ":" + (c << 8 | d).toString(16);
  }
  const sides = text.split("::"), parts = sides.map(side => side ? side.split(":") : []);
  if (sides.length > 2 || parts.flat().some(group => !/^[0-9a-f]{1,4}$/.test(group))) return null;
  const count = parts.flat().length;
  if (sides.length === 1 ? count !== 8 : count > 7) return null;
  const zeros = new Array(8 - count).fill("0");
  return [...parts[0], ...(sides.length > 1 ? zeros : []), ...(parts[1] || [])].map(group => parseInt(group, 16));
}

// Words that are sought, with each whole IPv6 address as it stands here.
const soughtText = words => words.toLowerCase().split(" ").map(word => {
  const [address, ...rest] = word.split("/"), groups = address.includes(":") ? groupsOf(address) : null;
  return [groups ? groupsText(groups) : address, ...rest].join("/");
}).join(" ");

// Whether a text, or the same in full, has words.
const hasWords = (short, full, words) => short.includes(soughtText(words)) || full.includes(words.toLowerCase());

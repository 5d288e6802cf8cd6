
// The list of frames.

let frameTable = null, listedFrames = [];

// A line as FRAME, SECONDS.NANOSECONDS, N and VERDICT, with addresses in short, and what the frame was for.
function partsOfLine(kind, line, i) {
  const [frame, moment, known] = line.split(" ", 3);
  const full = line.slice(frame.length + moment.length + known.length + 3);
  return {frame: Number(frame), moment, known: Number(known.slice(2)), full, verdict: shortened(full),
    behind: kind.behind[i] || 0, eid: eidOfListed(kind.kind, i)};
}

function chooseKind(kind, text = "") {
  place("kind").value = kind;
  place("words").value = text;
  drawFrames();
  place("listed").scrollIntoView();
  place("listed").focus({preventScroll: true});
}

function frameColumns(kind) {
  const columns = [number("Frame", row => row.frame), words("Moment in s", row => row.moment),
    words("UTC", row => row.moment, momentUtc),
    {name: "Seconds after the first", value: row => nanosecondsOf(row.moment), text: (_, row) => afterFirst(row.moment),
      number: true},
    number("n", row => row.known)];
  if (report.behind.greatest) columns.push(number("Behind by", row => row.behind));
  columns.push(addresses("Verdict", row => row.verdict));
  return hasEids(kind) ? [...columns, addresses("For", row => row.eid)] : columns;
}

function drawFrames() {
  const kind = kinds.get(place("kind").value), text = place("words").value;
  const rows = kind.lines.map((line, i) => partsOfLine(kind, line, i))
    .filter(row => hasWords(`${row.verdict} ${row.eid}`, row.full, text));
  const listed = kind.count > kind.lines.length
    ? `Of its ${counted(kind.count)} frames only the first ${counted(kind.lines.length)} are listed.`
    : `All are listed: ${amount(kind.count, "frame", "frames")}.`;
  const having = text ? ` Of those listed, ${counted(rows.length)} have this text.` : "";
  place("listed-note").textContent = listed + having;
  place("copied").textContent = "";
  place("copy").disabled = !rows.length;
  listedFrames = rows.map(row => row.frame);
  frameTable.show(rows, frameColumns(kind.kind));
}

// Frames as a display filter of Wireshark, with `..` for those that follow one another.
function filterText(frames) {
  const runs = [];
  for (const frame of frames) {
    const last = runs[runs.length - 1];
    if (last && last[1] + 1 === frame) last[1] = frame;
    else runs.push([frame, frame]);
  }
  const texts = runs.map(([from, to]) => from === to ? `${from}` : to === from + 1 ? `${from}, ${to}` : `${from}..${to}`);
  return `frame.number in {${texts.join(", ")}}`;
}

// Where no call writes the clipboard, the text is shown, chosen, for the reader to copy.
async function copyFilter() {
  const text = filterText(listedFrames), field = place("filter");
  try {
    await navigator.clipboard.writeText(text);
    field.hidden = true;
    place("copied").textContent = `Copied: ${amount(listedFrames.length, "frame", "frames")}.`;
  } catch {
    field.hidden = false;
    field.value = text;
    field.select();
    place("copied").textContent = "The browser doesn't let a page copy; this is the filter.";
  }
}

function drawList() {
  place("kind").append(...report.kinds.map(({kind, count}) =>
    element("option", {value: kind}, `${kind} (${counted(count)})`)));
  frameTable = new Table(place("frame-table"), "Frames of the kind", [], []);
  place("kind").value = drops.length ? mostDropped() : report.kinds[0].kind;
  place("kind").addEventListener("change", drawFrames);
  place("words").addEventListener("input", drawFrames);
  place("copy").addEventListener("click", copyFilter);
  document.querySelector(".choice").addEventListener("submit", event => event.preventDefault());
  drawFrames();
}

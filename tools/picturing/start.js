
// What a test asks for: the sums of what the charts draw, and what the tables and lists have.
function countsOfPage() {
  const drawnCounts = report.kinds.map(({kind}) => [kind, sum(seriesOf(kind))]);
  const entries = value => Object.fromEntries(report.kinds.map(kind => [kind.kind, value(kind)]));
  return {
    frames: report.frames, kinds: Object.fromEntries(drawnCounts), first: entries(kind => kind.first),
    last: entries(kind => kind.last), listed: entries(kind => kind.lines.length),
    learned: sum(seriesOf("learned")), passed: sum(seriesOf("passed")), asked: sum(seriesOf("asked")),
    answered: sum(seriesOf("answered")), misses: report.misses,
    locators: Object.fromEntries(report.locators.map(([from, to, count]) => [`${from} ${to}`, count])),
    behind: report.behind, lastLine: report.lastLine};
}

definePatterns();
drawFacts();
if (report.frames) {
  drawVerdicts();
  drawDrops();
  drawPlayed();
  drawList();
  drawCache();
  drawLocators();
  drawBehind();
} else {
  document.querySelector("main").replaceChildren(
    element("section", {}, element("p", {class: "note"}, "There is no frame to show.")));
}
window.reportCounts = countsOfPage();
place("report-counts").textContent = JSON.stringify(window.reportCounts);

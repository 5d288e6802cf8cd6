
// Tables. A column has a name and the value of a row; `text` makes the value readable, and `bar` draws it.

const PAGE_ROWS = 25;

class Table {
  constructor(where, label, columns, rows, {sorted = null, falling = false, choose = null, keyOf = null} = {}) {
    Object.assign(this, {where, label, columns, rows, sorted, falling, choose, keyOf, page: 0, chosen: null});
    this.draw();
  }

  show(rows, columns = this.columns) {
    Object.assign(this, {rows, columns, page: 0});
    this.draw();
  }

  sortBy(column) {
    this.falling = this.sorted === column ? !this.falling : Boolean(this.columns[column].number);
    Object.assign(this, {sorted: column, page: 0});
    this.draw();
  }

  ordered() {
    if (this.sorted === null) return this.rows;
    const {value} = this.columns[this.sorted], sign = this.falling ? -1 : 1;
    return [...this.rows].sort((a, b) => value(a) < value(b) ? -sign : value(a) > value(b) ? sign : 0);
  }

  // The button or row that has the focus keeps it.
  draw() {
    const focus = this.where.contains(document.activeElement) ? document.activeElement.dataset.key : undefined;
    const rows = this.ordered(), from = this.page * PAGE_ROWS;
    const body = element("tbody", this.choose ? {class: "choices"} : {},
      ...rows.slice(from, from + PAGE_ROWS).map(row => this.line(row)));
    const head = element("tr", {}, ...this.columns.map(this.head, this));
    const table = element("table", {}, element("thead", {}, head), body);
    const pager = rows.length > PAGE_ROWS ? [this.pager(rows.length, from)] : [];
    const scroll = {class: "scroll", role: "region", "aria-label": this.label, tabindex: 0};
    this.where.replaceChildren(element("div", scroll, table), ...pager);
    const kept = [...this.where.querySelectorAll("[data-key]")].find(({dataset}) => dataset.key === focus);
    if (focus !== undefined && kept) kept.focus({preventScroll: true});
  }

  head(column, i) {
    const attributes = column.number ? {class: "number", scope: "col"} : {scope: "col"};
    if (column.bar) return element("td", {class: "share"});
    const arrow = this.sorted === i ? (this.falling ? " ▼" : " ▲") : "";
    if (arrow) attributes["aria-sort"] = this.falling ? "descending" : "ascending";
    const button = element("button", {type: "button", "data-key": `head ${i}`}, column.name + arrow);
    button.addEventListener("click", () => this.sortBy(i));
    return element("th", attributes, button);
  }

  line(row) {
    const line = element("tr", {}, ...this.columns.map(column => this.cell(column, row)));
    if (!this.choose) return line;
    const chosen = () => {
      this.chosen = this.keyOf(row);
      this.draw();
      this.choose(row);
    };
    line.tabIndex = 0;
    line.dataset.key = this.keyOf(row);
    line.classList.toggle("chosen", this.chosen === this.keyOf(row));
    line.addEventListener("click", chosen);
    line.addEventListener("keydown", event => {
      if (event.key !== "Enter" && event.key !== " ") return;
      event.preventDefault();
      chosen();
    });
    return line;
  }

  cell(column, row) {
    if (column.bar) {
      const width = `width: ${100 * column.value(row)}%; min-width: ${column.value(row) ? 2 : 0}px`;
      return element("td", {class: "share"}, filledBox({class: "bar", style: width, "aria-hidden": "true"}, column.bar(row)));
    }
    const text = (column.text || String)(column.value(row), row);
    const kind = column.number ? {class: "number"} : column.wraps ? {class: "wraps"} : {};
    return element("td", kind, ...(Array.isArray(text) ? text : [text]));
  }

  pager(count, from) {
    const turn = (text, by, isThere) => {
      const button = element("button", {type: "button", "data-key": text}, text);
      button.disabled = !isThere;
      button.addEventListener("click", () => {
        this.page += by;
        this.draw();
      });
      return button;
    };
    const to = Math.min(from + PAGE_ROWS, count);
    return element("div", {class: "pager"}, turn("Before", -1, from > 0), turn("Next", 1, to < count),
      `${counted(from + 1)} to ${counted(to)} of ${counted(count)}`);
  }
}

const number = (name, value, text = counted) => ({name, value, text, number: true});
const words = (name, value, text) => ({name, value, text});
// An address may go on in the next line behind a colon, where there is no room.
const broken = text => text.split(/(?<=:)/).flatMap((part, i) => i ? [element("wbr"), part] : [part]);
const addresses = (name, value) => ({name, value, text: broken, wraps: true});
const frameNumbers = [number("First frame", row => row.first), number("Last frame", row => row.last)];

// The share of the whole, and a bar that is as long as the column where it is the greatest.
function shares(rows, whole, value, colour) {
  const greatest = Math.max(...rows.map(value), 1);
  return [number("Share", row => value(row) / whole, shareText),
    {name: "", value: row => value(row) / greatest, bar: colour}];
}

// What the tests ask a page from inside of it. tests/pages/browser.py hands these functions over with each question.

const all = (selector) => [...document.querySelectorAll(selector)];
const box = (element) => element.getBoundingClientRect();
const name = (element) => `${element.localName} "${element.textContent.trim().slice(0, 40)}"`;

// Places are rounded, so they may be some part of a pixel off.
function verdictIsAbove() {
  return box(document.getElementById("verdict")).bottom < box(document.querySelector("#session, #items, #help")).top + 1;
}

// What is laid in a line has no width of its own, by which it could be too wide.
const isInLine = (part) => getComputedStyle(part).display === "inline";

// A block that is not drawn yet cuts what is too wide, so that the page itself doesn't get wider.
function tooWide() {
  const room = document.documentElement.clientWidth;
  const page = document.documentElement.scrollWidth > room ? [`the page has ${document.documentElement.scrollWidth}`] : [];
  const outside = all("body *:not(svg *)").filter((part) => part.checkVisibility() && box(part).right > room + 1);
  const spilling = all("td, th").filter((cell) => cell.checkVisibility() && !isInLine(cell) && cell.scrollWidth > cell.clientWidth + 1);
  return [...page, ...outside.slice(0, 3).map((part) => `out of ${room}: ${name(part)}`), ...spilling.slice(0, 3).map((cell) => `out of its cell: ${name(cell)}`)];
}

function channels(colour) {
  if (!/^rgba?\([\d., ]+\)$/.test(colour)) throw new Error(`no colour that is understood: ${colour}`);
  const [red, green, blue, opacity = 1] = colour.match(/[\d.]+/g).map(Number);
  return { light: [red, green, blue], opacity };
}

// What is seen behind the text of an element: the grounds of those that it stands in, up to one that lets nothing through.
function ground(element) {
  const layers = [];
  for (let at = element; at; at = at.parentElement) layers.push(channels(getComputedStyle(at).backgroundColor));
  return layers.reverse().reduce((below, layer) => over(layer, below), [255, 255, 255]);
}

function over({ light, opacity }, below) {
  return light.map((value, at) => value * opacity + below[at] * (1 - opacity));
}

// Relative luminance and contrast as WCAG 2 defines them.
function luminance(light) {
  const [red, green, blue] = light.map((value) => (value / 255 <= 0.04045 ? value / 255 / 12.92 : ((value / 255 + 0.055) / 1.055) ** 2.4));
  return 0.2126 * red + 0.7152 * green + 0.0722 * blue;
}

function contrast(element) {
  const behind = ground(element);
  const [low, high] = [luminance(behind), luminance(over(channels(getComputedStyle(element).color), behind))].sort((one, other) => one - other);
  return (high + 0.05) / (low + 0.05);
}

// Each element with text of its own that is shown, once all blocks are open.
function elementsWithText() {
  for (const block of all("details")) block.open = true;
  const hasText = (element) => [...element.childNodes].some((node) => node.nodeType === Node.TEXT_NODE && node.data.trim());
  return all("body *:not(svg *)").filter((element) => hasText(element) && element.checkVisibility());
}

function faint(least) {
  const found = elementsWithText().map((element) => [contrast(element), element]).filter(([value]) => value < least);
  return found.slice(0, 3).map(([value, element]) => `${value.toFixed(2)} of ${name(element)}`);
}

// What a screen reader has to find: the headers of the columns of each table that is shown, those of its rows, what folds,
// and the filter.
function partsShown() {
  const texts = (selector) => all(selector).filter((part) => part.checkVisibility()).map((part) => part.textContent.trim());
  return {
    "table": all("table").filter((table) => table.checkVisibility()).map(() => ""),
    "column header": texts("thead th").map((text) => text.replace(/^TesterUnit$/, "Tester Unit")),
    "row header": texts("tbody th"),
    "fold": texts("summary"),
    "check box": texts("label"),
  };
}

const stops = () => all("a[href], input, summary").filter((stop) => !stop.closest("details:not([open]) > :not(summary)"));

// The names of what the Tab key has to reach, in the order of the page. What it reaches is kept.
function watchStops() {
  window.reached = [];
  addEventListener("focusin", (event) => window.reached.push(name(event.target)));
  return stops().map(name);
}

const isSeen = (part) => part.checkVisibility() && box(part).height > 0;
const exchanges = () => all("#session tbody");

// The text of the first cell of each exchange that is shown, and of each that has a row which needs a look.
const firstCell = (exchange) => exchange.querySelector("th, td").textContent.trim();
const exchangesShown = () => exchanges().filter(isSeen).map(firstCell);
const exchangesToLookAt = () => exchanges().filter((exchange) => exchange.querySelector(".n, .x, .m, .s")).map(firstCell);

// The rows of the items of two logs, each by its numbers in both: those that are shown, those that are not the same, and those that
// stand on paper, where folds of what is the same stay folded.
const rows = () => all("#items .pair tbody tr");
const numbers = (row) => [...row.children].slice(0, 2).map((cell) => cell.textContent.trim());
const rowsShown = () => rows().filter(isSeen).map(numbers);
const rowsThatDiffer = () => rows().filter((row) => row.matches(".d")).map(numbers);
const rowsOnPaper = () => rows().filter((row) => !row.closest("details.same:not([open])")).map(numbers);

// Of each fold of these whether it is open, and whether it stands in one of what is the same in both logs, or is one.
const folds = () => all("#items details.b").map((fold) => ({ isOpen: fold.open, isSame: Boolean(fold.closest("details.same")) }));

const blockAround = (identifier) => document.getElementById(identifier).closest("details.b");

// Whether a row is in sight, and the block around it open.
function isInSight(identifier) {
  const row = document.getElementById(identifier);
  const { top, bottom } = box(row);
  return blockAround(identifier).open && row.checkVisibility() && top >= 0 && bottom <= innerHeight;
}

// How the two sides of each part of a page of two logs stand to each other.
function places() {
  return all(".two").filter(isSeen).map((both) => {
    const [left, right] = [...both.children].map(box);
    if (left.right <= right.left && Math.abs(left.top - right.top) < 1) return "beside";
    return left.bottom <= right.top + 1 && Math.abs(left.left - right.left) < 1 ? "below" : "neither";
  });
}

// Whether the difference is in sight, and so much of it at least as its heading.
function differenceIsInSight() {
  const shown = document.querySelector("#difference h2");
  return isSeen(shown) && box(shown).top >= 0 && box(shown).bottom <= innerHeight;
}

// The texts of the marks in the difference that are seen.
const marks = () => all("#difference mark").filter(isSeen).map((mark) => mark.textContent);

function noticeIsShown() {
  const notice = document.getElementById("cut");
  return isSeen(notice) && box(notice).bottom <= innerHeight;
}

// Whether the link to the verdict says that this is at the end of the page.
const endIsNamed = () => all(".plain").some(isSeen);

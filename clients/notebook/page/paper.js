// What is wider or higher than a page of paper: it is set smaller, and what would be too small to read then says that it is cut, or that its lines are
// broken.

const WIDEST = 640; // pixels of a page of A4 that a line may take
const HIGHEST = 850;
const SMALLEST = 0.5; // of a formula's size
const SMALLEST_TEXT = 0.6;

/** @type {(one: number, other: number) => number} */
const larger = (one, other) => Math.max(one, other);

/**
 * A formula has a line's end between its parts, and in none of them.
 * @param {HTMLElement} place
 */
function fitFormula(place) {
  const parts = [...place.querySelectorAll(".katex-html .base")].map((part) => part.getBoundingClientRect());
  const wide = WIDEST / parts.map(({ width }) => width).reduce(larger, 1), high = HIGHEST / parts.map(({ height }) => height).reduce(larger, 1);
  const part = Math.min(wide, high);
  if (part >= 1) return;
  place.style.fontSize = `${Math.max(SMALLEST, part) * 100}%`;
  place.classList.toggle("is-cut", wide < SMALLEST);
  place.classList.toggle("is-high", wide >= SMALLEST && high < SMALLEST);
}

/**
 * How wide the widest line of the texts of an answer is.
 * @type {(place: HTMLElement) => number}
 */
function widthOf(place) {
  const texts = [...place.childNodes].filter((node) => node instanceof Text || (node instanceof Element && node.matches("code, .error")));
  const range = document.createRange();
  return texts.map((node) => {
    range.selectNodeContents(node);
    return range.getBoundingClientRect().width;
  }).reduce(larger, 1);
}

/**
 * Where the lines of a text are broken, what stands below one another doesn't any more.
 * @param {HTMLElement} place
 */
function fitText(place) {
  const part = WIDEST / widthOf(place);
  if (part >= 1) return;
  if (part >= SMALLEST_TEXT) place.style.fontSize = `calc(${getComputedStyle(place).fontSize} * ${part})`;
  else place.classList.add("is-broken");
}

function fit() {
  for (const place of document.querySelectorAll(".formula.set, .reading .katex-display")) if (place instanceof HTMLElement) fitFormula(place);
  for (const place of document.querySelectorAll("#cells .output > pre, #cells .reading pre")) if (place instanceof HTMLElement) fitText(place);
}

function undo() {
  for (const place of document.querySelectorAll(".formula, .katex-display, .output > pre, .reading pre")) {
    if (!(place instanceof HTMLElement)) continue;
    place.style.fontSize = "";
    place.classList.remove("is-cut", "is-high", "is-broken");
  }
}

export function fitOnPaper() {
  addEventListener("beforeprint", fit);
  addEventListener("afterprint", undo);
}

"use strict";
// Letters of other alphabets of mathematics, as Unicode has them. Browsers draw no `mathvariant` but `normal`.

/** @typedef {{upper: number, lower: number, digit?: number, greek?: number}} Alphabet */

/** @type {Map<string, Alphabet>} */
const ALPHABETS = new Map([
  ["bold", { upper: 0x1d400, lower: 0x1d41a, digit: 0x1d7ce, greek: 0x1d6a8 }],
  ["italic", { upper: 0x1d434, lower: 0x1d44e, greek: 0x1d6e2 }],
  ["bold-italic", { upper: 0x1d468, lower: 0x1d482, greek: 0x1d71c }],
  ["script", { upper: 0x1d49c, lower: 0x1d4b6 }],
  ["fraktur", { upper: 0x1d504, lower: 0x1d51e }],
  ["double-struck", { upper: 0x1d538, lower: 0x1d552, digit: 0x1d7d8 }],
  ["sans-serif", { upper: 0x1d5a0, lower: 0x1d5ba, digit: 0x1d7e2 }],
  ["bold-sans-serif", { upper: 0x1d5d4, lower: 0x1d5ee, digit: 0x1d7ec }],
  ["sans-serif-italic", { upper: 0x1d608, lower: 0x1d622 }],
  ["sans-serif-bold-italic", { upper: 0x1d63c, lower: 0x1d656 }],
  ["monospace", { upper: 0x1d670, lower: 0x1d68a, digit: 0x1d7f6 }],
]);

// Letters that Unicode had before, so that their place in an alphabet is empty.
const ELSEWHERE = new Map([
  [0x1d455, 0x210e], [0x1d49d, 0x212c], [0x1d4a0, 0x2130], [0x1d4a1, 0x2131], [0x1d4a3, 0x210b], [0x1d4a4, 0x2110],
  [0x1d4a7, 0x2112], [0x1d4a8, 0x2133], [0x1d4ad, 0x211b], [0x1d4ba, 0x212f], [0x1d4bc, 0x210a], [0x1d4c4, 0x2134],
  [0x1d506, 0x212d], [0x1d50b, 0x210c], [0x1d50c, 0x2111], [0x1d515, 0x211c], [0x1d51d, 0x2128],
  [0x1d53a, 0x2102], [0x1d53f, 0x210d], [0x1d545, 0x2115], [0x1d547, 0x2119], [0x1d548, 0x211a], [0x1d549, 0x211d],
  [0x1d551, 0x2124],
]);

/** @type {(code: number, alphabet: Alphabet) => number} */
function codeIn(code, { upper, lower, digit, greek }) {
  if (code >= 0x41 && code <= 0x5a) return upper + code - 0x41;
  if (code >= 0x61 && code <= 0x7a) return lower + code - 0x61;
  if (digit !== undefined && code >= 0x30 && code <= 0x39) return digit + code - 0x30;
  if (greek !== undefined && code >= 0x391 && code <= 0x3a9) return greek + code - 0x391;
  if (greek !== undefined && code >= 0x3b1 && code <= 0x3c9) return greek + 26 + code - 0x3b1;
  return code;
}

/** @type {(variant: string) => Alphabet | undefined} */
function alphabetOf(variant) {
  return ALPHABETS.get(variant);
}

/**
 * A text in the letters of an alphabet. What it has no letter for stays.
 * @type {(text: string, alphabet: Alphabet) => string}
 */
function inAlphabet(text, alphabet) {
  const codes = Array.from(text, (character) => codeIn(character.codePointAt(0) ?? 0, alphabet));
  return codes.map((code) => String.fromCodePoint(ELSEWHERE.get(code) ?? code)).join("");
}

module.exports = { alphabetOf, inAlphabet };

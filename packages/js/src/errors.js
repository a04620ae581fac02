/** Why a text is refused, and the errors that say so. */

/** Statuses of the library for C that are looked at by themselves. */
export const BAD_FORMAT = -1;
export const NOT_UTF8 = -3;
export const UNKNOWN_LOCALE = -5;
export const AMBIGUOUS_FORMAT = -19;
export const TEXT_TOO_LONG = -21;
const NOT_A_NUMBER = -4;
const UNEXPECTED = -9;
const NO_DIGIT = -10;
const OTHER_NUMERAL = -23;

/** Those that are at a place in a text, and those that a text without a digit has. */
export const PLACED = new Set([UNEXPECTED, OTHER_NUMERAL]);
export const LACKING = new Set([NO_DIGIT, NOT_A_NUMBER]);

/** The causes, as the other languages name them, by the statuses of the library for C, each with a line of English. */
const CAUSES = new Map([
  [NOT_UTF8, ["NotUtf8", "it has a lone surrogate"]],
  [NOT_A_NUMBER, ["NotANumber", "it has no digit, a numeral other than 0 to 9, or a number out of range"]],
  [UNKNOWN_LOCALE, ["UnknownLocale", "there is no locale for this language tag"]],
  [-6, ["TooLong", "it has more than 8 bytes in UTF-8"]],
  [-7, ["BadGrouping", "there is no such grouping"]],
  [UNEXPECTED, ["Unexpected", "unexpected character"]],
  [NO_DIGIT, ["NoDigit", "it has no digit"]],
  [-11, ["Misspelled", "it is not as its number is printed"]],
  [-12, ["OutOfRange", "the units of the number need more than 128 bits"]],
  [-13, ["ScaleTooLarge", "the scale is no whole number from 0 to 38"]],
  [-14, ["TooManyDecimals", "it has more than 38 decimals"]],
  [-18, ["DigitsLost", "a digit past the scale is not 0"]],
  [AMBIGUOUS_FORMAT, ["AmbiguousFormat", "a text can be misread under the format"]],
  [TEXT_TOO_LONG, ["TextTooLong", "it is longer than any number's text"]],
  [-22, ["UnknownDigits", "there is no digit set of this name"]],
  [OTHER_NUMERAL, ["OtherNumeral", "numeral of another digit set"]],
]);

/** The name of the cause that a status is. */
export function causeOf(status) {
  return CAUSES.get(status)[0];
}

const REASONS = new Map(CAUSES.values());

/** The most characters of a refused text that a message shows. */
const SHOWN = 60;

function shown(text) {
  return JSON.stringify(text.length > SHOWN ? `${text.slice(0, SHOWN)}...` : text);
}

function codePoint(character) {
  return `U+${character.codePointAt(0).toString(16).toUpperCase().padStart(4, "0")}`;
}

/** A text is no number under a format. */
export class ParseError extends SyntaxError {
  constructor(text, kind, { index, expected, row } = {}) {
    const before = row === undefined ? "" : `row ${row}: `;
    const place = index === undefined ? "" : ` at index ${index}`;
    const advice = expected && `, ${codePoint(text.slice(index))} for ${codePoint(expected)}: mode "keyboard" reads it`;
    super(`${before}${shown(text)} is refused: ${REASONS.get(kind)}${place}${advice ?? ""}`);
    Object.assign(this, { kind, text, index, expected, row });
  }
}

/** There is no such format, or nothing is parsed under it. */
export class FormatError extends RangeError {
  constructor(argument, text, kind) {
    super(`${argument} ${shown(String(text))} is refused: ${REASONS.get(kind)}`);
    Object.assign(this, { kind, argument, text: String(text) });
  }
}

/** A number is none that can be printed, or that a calculation can have. */
export class NumberError extends RangeError {
  constructor(kind, message = REASONS.get(kind)) {
    super(message);
    Object.assign(this, { kind });
  }
}

// What a minifier does not change.
for (const [name, { prototype }] of Object.entries({ ParseError, FormatError, NumberError })) {
  Object.defineProperty(prototype, "name", { value: name, configurable: true, writable: true });
}

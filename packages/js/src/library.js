/**
 * The library as a WebAssembly module: how it is started, and how texts and decimals get into its memory and out.
 *
 * The module allocates nothing and keeps no state. Its memory gets one page more, which has the places below. It takes
 * a 64-bit integer, as each address and length is, by its low and its high 32 bits, so no call makes a `BigInt`. Texts
 * are short, so that a loop over their characters is faster than a `TextEncoder`.
 */
import { NOT_UTF8, TEXT_TOO_LONG } from "./errors.js";

/** The version that the module has to have, as `num_format_version` returns it. */
const VERSION = 100;

const PAGE = 0x10000;

/** How many bytes a struct `num_format` has. */
export const FORMAT_SIZE = 32;

/** The most UTF-16 code units of a text that is passed to the module: in UTF-8 three quarters of a page. */
const MOST_UNITS = 16_384;

/** The size of an array that the text of any number, and the name of any locale, fits. */
export const LONGEST = 796;

/** The type of a whole number of 128 bits. */
const I128 = "q".charCodeAt(0);

/** The calls of the module, by their names. */
export let calls;

/** The memory of the module, by bytes, and by integers of 32 and 64 bits. */
export let bytes;
let words;
let longs;

/** The places of two formats, of the halves of a decimal's units and of its scale, of an error's place, and of a text. */
export let FORMAT;
export let OTHER_FORMAT;
export let LOW;
export let HIGH;
export let SCALE;
export let AT;
export let TEXT;

/** Starts a module that is compiled. */
function start(module) {
  const { exports } = new WebAssembly.Instance(module);
  if (exports.num_format_version?.() !== VERSION) {
    throw new Error("num-format: the WebAssembly module is of another version of the package");
  }
  const { memory } = exports;
  FORMAT = memory.grow(1) * PAGE;
  OTHER_FORMAT = FORMAT + FORMAT_SIZE;
  LOW = OTHER_FORMAT + FORMAT_SIZE;
  HIGH = LOW + 8;
  SCALE = HIGH + 8;
  AT = SCALE + 8;
  TEXT = AT + 8;
  bytes = new Uint8Array(memory.buffer);
  words = new Int32Array(memory.buffer);
  longs = new BigInt64Array(memory.buffer);
  calls = exports;
}

function notCompiled(error, what) {
  return new Error(`num-format: ${what} is no WebAssembly module, or a part of one`, { cause: error });
}

/** Starts the module that has these bytes, or that is compiled. */
export function startSync(source, what = "what was passed") {
  if (source instanceof WebAssembly.Module) return start(source);
  let module;
  try {
    module = new WebAssembly.Module(source);
  } catch (error) {
    throw notCompiled(error, what);
  }
  start(module);
}

/** The same while other things run. */
export async function startAsync(source, what = "what was passed") {
  if (source instanceof WebAssembly.Module) return start(source);
  let module;
  try {
    module = await WebAssembly.compile(source);
  } catch (error) {
    throw notCompiled(error, what);
  }
  // Another call may have been faster.
  if (!isStarted()) start(module);
}

/** Whether a module was started. */
export function isStarted() {
  return calls !== undefined;
}

/** Returns the calls of the module, if it was started. */
export function started() {
  if (!isStarted()) throw new Error("num-format: await init() comes before any other call");
  return calls;
}

/** Writes a text at a place, and returns how many bytes it has there, or a status below 0. */
export function writeText(text, place = TEXT) {
  const { length } = text;
  if (length > MOST_UNITS) return TEXT_TOO_LONG;
  for (let index = 0; index < length; index++) {
    const unit = text.charCodeAt(index);
    if (unit > 0x7f) return writeWide(text, index, place);
    bytes[place + index] = unit;
  }
  return length;
}

/** Writes what a text has from an index on, after as many bytes. */
function writeWide(text, start, place) {
  let end = place + start;
  for (let index = start; index < text.length; index++) {
    const point = text.codePointAt(index);
    if (point >= 0xd800 && point <= 0xdfff) return NOT_UTF8;
    const more = widthOf(point) - 1;
    bytes[end++] = FIRST_BYTES[more] | (point >> (6 * more));
    for (let left = more - 1; left >= 0; left--) bytes[end++] = 0x80 | ((point >> (6 * left)) & 0x3f);
    if (point > 0xffff) index++;
  }
  return end - place;
}

/** The first bytes of characters that have so many more, without the bits of the character. */
const FIRST_BYTES = [0, 0xc0, 0xe0, 0xf0];

/** How many bytes a character has in UTF-8. */
function widthOf(point) {
  return point < 0x80 ? 1 : point < 0x800 ? 2 : point < 0x10000 ? 3 : 4;
}

/** Returns the index in a text of the character before which stand so many bytes. */
export function indexOfByte(text, count) {
  let index = 0;
  while (count > 0) {
    const point = text.codePointAt(index);
    count -= widthOf(point);
    index += point > 0xffff ? 2 : 1;
  }
  return index;
}

/** Arrays of each length, for the code units of a text. */
const arrays = [];

/** Returns the text of so many bytes at a place. */
export function readText(length, place = TEXT) {
  const units = (arrays[length] ??= new Array(length).fill(0));
  for (let k = 0; k < length; k++) {
    const byte = bytes[place + k];
    if (byte > 0x7f) return readWide(place, place + length);
    units[k] = byte;
  }
  return String.fromCharCode.apply(null, units);
}

function readWide(place, end) {
  const units = [];
  for (let at = place; at < end; ) {
    const byte = bytes[at++];
    const more = byte < 0x80 ? 0 : byte < 0xe0 ? 1 : byte < 0xf0 ? 2 : 3;
    let point = more === 0 ? byte : byte & (0x3f >> more);
    for (let left = more; left > 0; left--) point = (point << 6) | (bytes[at++] & 0x3f);
    if (point > 0xffff) units.push(0xd7c0 + (point >> 10), 0xdc00 | (point & 0x3ff));
    else units.push(point);
  }
  return String.fromCharCode.apply(null, units);
}

/** The high 32 bits of the 64 of a safe integer. */
function highHalf(number) {
  return Math.floor(number / 2 ** 32) | 0;
}

/** Returns the four parts of 32 bits of units, the lowest first. */
export function partsOf(units) {
  if (typeof units === "number") {
    const high = highHalf(units);
    return [units | 0, high, high >> 31, high >> 31];
  }
  writeDecimal(units, 0);
  return [words[LOW / 4], words[LOW / 4 + 1], words[HIGH / 4], words[HIGH / 4 + 1]];
}

/** Writes a decimal, for a call that changes it. */
export function writeDecimal(units, scale) {
  longs[LOW / 8] = BigInt(units);
  longs[HIGH / 8] = BigInt(units) >> 64n;
  words[SCALE / 4] = scale;
}

/** Returns the units of the decimal that is there: a `number` if it is safe. */
export function readUnits() {
  const high = words[LOW / 4 + 1];
  const sign = high >> 31;
  if (high >= -0x200000 && high < 0x200000 && words[HIGH / 4] === sign && words[HIGH / 4 + 1] === sign) {
    const number = high * 2 ** 32 + (words[LOW / 4] >>> 0);
    if (number > -(2 ** 53)) return number;
  }
  return (longs[HIGH / 8] << 64n) | BigInt.asUintN(64, longs[LOW / 8]);
}

/** Returns the scale of the decimal that is there. */
export function readScale() {
  return words[SCALE / 4];
}

/** Returns what stands at the place of an error: how many bytes of the text stand before it, or an order. */
export function readAt() {
  return words[AT / 4];
}

/**
 * Calls that parse the text that is there, of so many bytes, under the format that is there. They write a decimal and
 * return 0, or return a status below 0.
 */
export const PARSE = {
  __proto__: null,
  strict: (length) =>
    calls.num_format_parse_decimal(FORMAT, 0, TEXT, 0, length, 0, LOW, 0, HIGH, 0, SCALE, 0, AT, 0),
  keyboard: (length) =>
    calls.num_format_parse_typed_decimal(FORMAT, 0, TEXT, 0, length, 0, LOW, 0, HIGH, 0, SCALE, 0, AT, 0),
  lenient: (length) => whole(calls.num_format_parse_i128(FORMAT, 0, TEXT, 0, length, 0, LOW, 0, HIGH, 0)),
};

/** The same for whole numbers. */
export const PARSE_INTEGER = {
  __proto__: null,
  strict: (length) =>
    whole(calls.num_format_parse_strict_i128(FORMAT, 0, TEXT, 0, length, 0, LOW, 0, HIGH, 0, AT, 0)),
  keyboard: (length) =>
    whole(calls.num_format_parse_typed(FORMAT, 0, I128, TEXT, 0, length, 0, LOW, 0, 16, 0, AT, 0)),
  lenient: PARSE.lenient,
};

/** Has the decimal that a call wrote no decimals, and returns its status. */
function whole(status) {
  words[SCALE / 4] = 0;
  return status;
}

/** Prints a safe integer under the format that is there, and returns its text. */
export function printSafe(number) {
  return readText(calls.num_format_print_i64(FORMAT, 0, number | 0, highHalf(number), TEXT, 0, LONGEST, 0));
}

/** Prints a whole number of 64 bits under the format that is there, and returns its text. */
function printLong(number) {
  longs[LOW / 8] = number;
  const [low, high] = [words[LOW / 4], words[LOW / 4 + 1]];
  return readText(calls.num_format_print_i64(FORMAT, 0, low, high, TEXT, 0, LONGEST, 0));
}

/** Prints a decimal under the format that is there, and returns its text. */
export function printUnits(units, scale) {
  if (scale === 0 && typeof units === "number") return printSafe(units);
  if (scale === 0 && BigInt.asIntN(64, units) === units) return printLong(units);
  const [first, second, third, fourth] = partsOf(units);
  const { num_format_print_decimal: print } = calls;
  return readText(print(FORMAT, 0, first, second, third, fourth, scale, TEXT, 0, LONGEST, 0));
}

/** Exact decimals: units divided by 10 to the power of a scale. */
import { NumberError, ParseError, causeOf } from "./errors.js";
import * as library from "./library.js";

/** The numbers that the library for C has for what becomes of digits that a scale has not, by the names of Intl's. */
export const ROUNDINGS = { exact: 0, halfEven: 1, halfExpand: 2, trunc: 3 };

const MOST_DECIMALS = 38;

/** The powers of 10 that floating point has. */
const POWERS = Array.from({ length: 23 }, (_, exponent) => Number(`1e${exponent}`));

/** A decimal as a program writes it. */
const PLAIN = /^(-?)(\d+)(?:\.(\d+))?$/;

/** Returns a scale that a decimal can have. */
export function checkedScale(scale) {
  if (!Number.isInteger(scale) || scale < 0 || scale > MOST_DECIMALS) {
    throw new NumberError("ScaleTooLarge", `the scale must be a whole number from 0 to 38, not ${String(scale)}`);
  }
  return scale;
}

/** Returns the number that a rounding has in the library for C. */
export function checkedRounding(rounding) {
  if (!Object.hasOwn(ROUNDINGS, rounding)) {
    throw new RangeError(`the rounding must be one of ${Object.keys(ROUNDINGS).join(", ")}, not ${String(rounding)}`);
  }
  return ROUNDINGS[rounding];
}

/** Returns units that fit 128 bits, as a `number` if that is safe. */
export function checkedUnits(units) {
  if (Number.isSafeInteger(units)) return units === 0 ? 0 : units;
  if (typeof units !== "bigint") throw new TypeError("units must be a bigint or a safe integer");
  if (units >= Number.MIN_SAFE_INTEGER && units <= Number.MAX_SAFE_INTEGER) return Number(units);
  if (BigInt.asIntN(128, units) !== units) throw new NumberError("OutOfRange");
  return units;
}

/** The units of a decimal: a `number` if that is safe, else a `bigint`. */
export let compactUnits;

/**
 * A decimal, which does not change: its units divided by 10 to the power of its scale. 1234.50 has 123450 units at
 * scale 2.
 */
export class Decimal {
  #units;
  #scale;

  static {
    compactUnits = (decimal) => decimal.#units;
  }

  constructor(units, scale = 0) {
    this.#units = checkedUnits(units);
    this.#scale = scale === 0 ? 0 : checkedScale(scale);
  }

  /** The decimal that a value is: a `bigint`, a safe integer, a text as `"-1234.50"`, or a decimal. */
  static from(value) {
    if (value instanceof Decimal) return value;
    if (typeof value !== "string") return new Decimal(value);
    const [, sign, whole, decimals = ""] = PLAIN.exec(value) ?? [];
    if (whole === undefined) throw new ParseError(value, "Misspelled");
    if (decimals.length > MOST_DECIMALS) throw new ParseError(value, "TooManyDecimals");
    if (whole.length > 2 * MOST_DECIMALS) throw new ParseError(value, "OutOfRange");
    return new Decimal(BigInt(sign + whole + decimals), decimals.length);
  }

  /** -1, 0 or 1 as the first is below, at or above the value of the second. 1.50 and 1.5 are of one value. */
  static compare(first, second) {
    const [one, two] = [Decimal.from(first), Decimal.from(second)];
    const { num_format_decimal_compare: compare } = library.started();
    const { partsOf, AT } = library;
    compare(...partsOf(one.#units), one.#scale, ...partsOf(two.#units), two.#scale, AT, 0);
    return library.readAt();
  }

  get units() {
    return BigInt(this.#units);
  }

  get scale() {
    return this.#scale;
  }

  /** Returns the sum, at the larger of both scales. */
  add(other) {
    return this.#computed(library.started().num_format_decimal_add, Decimal.from(other));
  }

  /** Returns the difference, at the larger of both scales. */
  subtract(other) {
    return this.#computed(library.started().num_format_decimal_subtract, Decimal.from(other));
  }

  #computed(call, other) {
    const parts = library.partsOf(other.#units);
    library.writeDecimal(this.#units, this.#scale);
    return changed(call(...places(), ...parts, other.#scale));
  }

  /** Returns the decimal at a scale. */
  rescale(scale, rounding = "halfExpand") {
    const number = checkedRounding(rounding);
    checkedScale(scale);
    const { num_format_decimal_rescale: rescale } = library.started();
    library.writeDecimal(this.#units, this.#scale);
    return changed(rescale(...places(), scale, number));
  }

  toString() {
    if (this.#scale === 0) return String(this.#units);
    const digits = String(this.#units).replace("-", "").padStart(this.#scale + 1, "0");
    const sign = this.#units < 0 ? "-" : "";
    return `${sign}${digits.slice(0, -this.#scale)}.${digits.slice(-this.#scale)}`;
  }

  /** As texts in JSON, since its numbers are read as floating point. */
  toJSON() {
    return this.toString();
  }

  /** Returns the number in floating point that is nearest. */
  toNumber() {
    const power = POWERS[this.#scale];
    // Both are exact, so that what is nearest to their quotient is nearest to the decimal.
    return typeof this.#units === "number" && power !== undefined ? this.#units / power : Number(this.toString());
  }

  /** Returns the whole number that the decimal is. */
  toBigInt() {
    const power = 10n ** BigInt(this.#scale);
    if (this.units % power !== 0n) throw new NumberError("DigitsLost", `${this} is no whole number`);
    return this.units / power;
  }

  /** Refused, since `<` and `+` would compare and join texts. */
  valueOf() {
    throw new TypeError("a Decimal has no operators: use Decimal.compare, add, subtract or toNumber");
  }
}

/** The places of the decimal that a call changes. */
function places() {
  const { LOW, HIGH, SCALE } = library;
  return [LOW, 0, HIGH, 0, SCALE, 0];
}

/** The decimal that a call has changed. */
function changed(status) {
  if (status < 0) throw new NumberError(causeOf(status));
  return new Decimal(library.readUnits(), library.readScale());
}

/** Returns the units of a number in floating point at a scale, rounded from its exact value. */
export function roundedUnits(number, scale, rounding) {
  let [magnitude, shift] = [Math.abs(number), 0n];
  // Twice the number is exact, and its bits after the binary point get fewer.
  for (; !Number.isInteger(magnitude); shift++) magnitude *= 2;
  const scaled = BigInt(magnitude) * 10n ** BigInt(scale);
  const units = scaled >> shift;
  // Twice what is left of the units, of which `one` is a whole one.
  const rest = (scaled - (units << shift)) * 2n;
  if (rest > 0n && rounding === "exact") {
    throw new NumberError("DigitsLost", `${number} has more than ${scale} decimals`);
  }
  const one = 1n << shift;
  const isHalfUp = rounding === "halfExpand" || (rounding === "halfEven" && units % 2n === 1n);
  const isUp = rounding !== "trunc" && (rest > one || (rest === one && isHalfUp));
  return checkedUnits((isUp ? units + 1n : units) * (number < 0 ? -1n : 1n));
}

/** Formats: numbers are printed under them, and texts parsed. */
import { Decimal, checkedRounding, checkedScale, checkedUnits, compactUnits, roundedUnits } from "./decimal.js";
import * as errors from "./errors.js";
import * as library from "./library.js";

const { FormatError, NumberError, ParseError, causeOf } = errors;

/** The numbers that the library for C has for groupings. */
const GROUPINGS = { __proto__: null, standard: 1, indian: 2, posix: 3, myriad: 4, sparse: 5 };

/** The sets of digits that `-u-nu-native` stands for. */
const NATIVE = ["latn", "arab", "arabext", "beng", "cakm", "deva", "mymr", "tibt"];

/** Where a struct of the library for C has its three texts of 8 bytes, their lengths, and two numbers. */
const TEXT_SIZE = 8;
const TEXT_LENGTHS = 24;
const GROUPING = 27;
const DIGITS = 28;

/** What counts for nothing in a text that a person typed. */
const BLANK = /^[\s\u061c\u200e\u200f]*$/;

const LONE_SURROGATE = /\p{Surrogate}/u;

/** A character of a keyboard that may stand for a symbol of a format. */
const KEYBOARD = /^[\s\p{P}\p{Cf}+\u2212]/u;

/** The format whose struct stands in the memory of the module. */
let current;

/** Writes the struct for a tag, and returns 0, or a status below 0. */
function lookUp(tag) {
  const { num_format_lookup: lookup } = library.started();
  const length = library.writeText(tag);
  current = undefined;
  return length < 0 ? length : lookup(library.FORMAT, 0, library.TEXT, 0, length, 0);
}

function tagsOf(locales) {
  const tags = typeof locales === "string" || locales instanceof Intl.Locale ? [locales] : [...locales];
  return tags.map(String);
}

/** Writes the struct for the first tag for which there is a locale, and returns the tag. */
function chooseLocale(locales) {
  const tags = tagsOf(locales);
  for (const tag of tags) {
    const status = lookUp(tag);
    if (status === 0) return tag;
    if (status !== errors.UNKNOWN_LOCALE) throw new FormatError("locale", tag, causeOf(status));
  }
  throw new FormatError("locale", tags.join(), "UnknownLocale");
}

/** The name of the locale for a tag that has one. */
function nameOf(tag) {
  const { calls, TEXT, LONGEST } = library;
  const length = library.writeText(tag);
  const place = TEXT + length;
  return library.readText(calls.num_format_lookup_name(TEXT, 0, length, 0, place, 0, LONGEST, 0), place);
}

/** The separator, the minus sign and the decimal mark of the struct that is there. */
function readTexts() {
  const { bytes, FORMAT } = library;
  return [0, 1, 2].map((k) => library.readText(bytes[FORMAT + TEXT_LENGTHS + k], FORMAT + TEXT_SIZE * k));
}

/** Gives the struct that is there a grouping and texts of one's own. */
function customize({ separator, minusSign, decimalMark, grouping }) {
  const { bytes, calls, FORMAT, TEXT } = library;
  const number = grouping === undefined ? bytes[FORMAT + GROUPING] : GROUPINGS[grouping];
  if (number === undefined) throw new FormatError("grouping", grouping, "BadGrouping");
  const digits = bytes[FORMAT + DIGITS];
  const texts = readTexts();
  const places = Object.entries({ separator, minusSign, decimalMark }).map(([name, given], k) => {
    const text = String(given ?? texts[k]);
    const place = TEXT + TEXT_SIZE * k;
    const length = library.writeText(text, place);
    if (length === errors.NOT_UTF8) throw new FormatError(name, text, "NotUtf8");
    if (length < 0 || length > TEXT_SIZE) throw new FormatError(name, text, "TooLong");
    return [place, 0, length, 0];
  });
  calls.num_format_custom_decimal(FORMAT, 0, ...places[0], number, ...places[1], ...places[2]);
  bytes[FORMAT + DIGITS] = digits;
}

/** Sets the digits of the struct that is there, and returns 0, or a status below 0. */
function setDigits(name) {
  const { calls, FORMAT, TEXT } = library;
  const length = library.writeText(name);
  return length < 0 ? length : calls.num_format_set_digits(FORMAT, 0, TEXT, 0, length, 0);
}

/** The name of the digits of the struct that is there, which a tag has named. */
function digitsOf(tag) {
  const { bytes, FORMAT } = library;
  const number = bytes[FORMAT + DIGITS];
  const named = /-u-(?:.*-)?nu-([a-z0-9]+)/i.exec(tag.replaceAll("_", "-"))?.[1].toLowerCase();
  return [...NATIVE, named].find((name) => name && setDigits(name) === 0 && bytes[FORMAT + DIGITS] === number);
}

/** How numbers are printed and parsed: the symbols and the grouping of a locale, or others in their place. */
export class NumberFormat {
  #struct;
  #locale;
  #numberingSystem;
  #decimals;
  #rounding;

  constructor(locales, options = {}) {
    const { separator, minusSign, decimalMark, grouping, numberingSystem, decimals, rounding = "halfExpand" } = options;
    checkedRounding(rounding);
    const tag = chooseLocale(locales);
    if ([separator, minusSign, decimalMark, grouping].some((option) => option !== undefined)) customize(options);
    this.#numberingSystem = numberingSystem ?? digitsOf(tag);
    const status = setDigits(String(this.#numberingSystem));
    if (status < 0) throw new FormatError("numberingSystem", numberingSystem, causeOf(status));
    this.#struct = library.bytes.slice(library.FORMAT, library.FORMAT + library.FORMAT_SIZE);
    this.#locale = nameOf(tag);
    this.#decimals = decimals === undefined ? undefined : checkedScale(decimals);
    this.#rounding = rounding;
  }

  /** The tags for which there is a locale. */
  static supportedLocalesOf(locales) {
    return tagsOf(locales).filter((tag) => lookUp(tag) === 0);
  }

  /** Returns the text of a number. It is bound, as Intl's, so that `numbers.map(form.format)` works. */
  format = (number) => {
    this.#use();
    if (this.#decimals === undefined) {
      if (Number.isSafeInteger(number)) return library.printSafe(number);
      if (typeof number === "bigint") return library.printUnits(checkedUnits(number), 0);
    }
    const [units, scale] = this.#partsOf(number);
    return library.printUnits(units, scale);
  };

  /** Returns the texts of numbers, as of an array or a typed array. */
  formatAll(numbers) {
    return Array.from(numbers, this.format);
  }

  /** Returns the decimal that a text is, or throws a `ParseError`. */
  parse(text, options) {
    const status = this.#read(text, options);
    if (status < 0) throw this.#error(text, status, options);
    return readDecimal();
  }

  /** Returns what a text is, and throws nothing for one that is refused. */
  tryParse(text, options) {
    const status = this.#read(text, options);
    if (status === 0) return { state: "number", value: readDecimal() };
    if (errors.LACKING.has(status) && BLANK.test(text)) return { state: "empty" };
    const index = indexOf(text, status);
    return { state: "refused", cause: causeOf(status), index, expected: this.#expected(text, index, options) };
  }

  /** Returns the decimals that texts are, or throws a `ParseError` with the row of the first that is none. */
  parseAll(texts, options) {
    return Array.from(texts, (text, row) => {
      const status = this.#read(text, options);
      if (status < 0) throw this.#error(text, status, options, row);
      return readDecimal();
    });
  }

  /** Returns what each text is. */
  tryParseAll(texts, options) {
    return Array.from(texts, (text) => this.tryParse(text, options));
  }

  /** Whether every whole number that is printed parses as the same number again, as under each locale. */
  readsBack() {
    this.#use();
    return library.calls.num_format_reads_back(library.FORMAT, 0) === 1;
  }

  /** Whether the other format has the same digits, and each number the same text under both. */
  printsAlike(other) {
    this.#use();
    const { bytes, calls, FORMAT, OTHER_FORMAT } = library;
    bytes.set(other.#struct, OTHER_FORMAT);
    return calls.num_format_prints_alike(FORMAT, 0, OTHER_FORMAT, 0) === 1;
  }

  /** Returns what the format has. */
  resolvedOptions() {
    this.#use();
    const [separator, minusSign, decimalMark] = readTexts();
    const grouping = Object.keys(GROUPINGS)[this.#struct[GROUPING] - 1];
    return {
      locale: this.#locale,
      numberingSystem: this.#numberingSystem,
      separator,
      minusSign,
      decimalMark,
      grouping,
      decimals: this.#decimals,
      rounding: this.#rounding,
    };
  }

  /** Has the struct of this format in the memory of the module. */
  #use() {
    if (current === this) return;
    library.bytes.set(this.#struct, library.FORMAT);
    current = this;
  }

  /** The units and the scale by which a number is printed. */
  #partsOf(number) {
    const [decimals, rounding] = [this.#decimals, this.#rounding];
    if (typeof number === "number") {
      if (!Number.isFinite(number)) throw new NumberError("NotFinite", `${number} is not finite`);
      if (decimals !== undefined) return [roundedUnits(number, decimals, rounding), decimals];
      if (Number.isInteger(number)) return [roundedUnits(number, 0, rounding), 0];
      throw new NumberError("DigitsLost", `${number} is not exact: the option \`decimals\` rounds it`);
    }
    const decimal = Decimal.from(number);
    const isPrinted = decimals === undefined || decimals === decimal.scale;
    const printed = isPrinted ? decimal : decimal.rescale(decimals, rounding);
    return [compactUnits(printed), printed.scale];
  }

  /** Parses a text, and returns 0 where the decimal is in the memory of the module, else a status below 0. */
  #read(text, { mode = "strict", integer = false } = {}) {
    if (typeof text !== "string") throw new TypeError(`a text is parsed, and no ${typeof text}`);
    const read = (integer ? library.PARSE_INTEGER : library.PARSE)[mode];
    if (read === undefined) {
      throw new RangeError(`the mode must be one of ${Object.keys(library.PARSE).join(", ")}, not ${String(mode)}`);
    }
    this.#use();
    const length = library.writeText(text);
    const status = length < 0 ? length : read(length);
    if (status === errors.BAD_FORMAT) throw new RangeError("lenient parsing takes the digits 0 to 9 alone");
    return status;
  }

  /** The error of a text that is refused. */
  #error(text, status, options, row) {
    if (status === errors.AMBIGUOUS_FORMAT) {
      return new FormatError("format", JSON.stringify(this.resolvedOptions()), causeOf(status));
    }
    const index = indexOf(text, status);
    return new ParseError(text, causeOf(status), { index, expected: this.#expected(text, index, options), row });
  }

  /** Which symbol of the format a person meant by the character at an index, if the text is a number but for such ones. */
  #expected(text, index, { mode = "strict", integer } = {}) {
    if (mode !== "strict" || index === undefined || !KEYBOARD.test(text[index])) return undefined;
    if (this.#read(text, { mode: "keyboard", integer }) < 0) return undefined;
    const printed = library.printUnits(library.readUnits(), library.readScale());
    if (!printed.startsWith(text.slice(0, index))) return undefined;
    return readTexts().find((symbol) => symbol && printed.startsWith(symbol, index));
  }
}

/** At which code unit a text is refused with a status, if at one. */
function indexOf(text, status) {
  if (errors.PLACED.has(status)) return library.indexOfByte(text, library.readAt());
  return status === errors.NOT_UTF8 ? text.search(LONE_SURROGATE) : undefined;
}

/** The decimal that was parsed. */
function readDecimal() {
  return new Decimal(library.readUnits(), library.readScale());
}

/** The names of all locales. */
export function locales() {
  const { num_format_names: writeName } = library.started();
  const names = [];
  for (;;) {
    const length = writeName(names.length, 0, library.TEXT, 0, library.LONGEST, 0);
    if (length < 0) return names;
    names.push(library.readText(length));
  }
}

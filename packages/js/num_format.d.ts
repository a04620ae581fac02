/** Numbers with the separators, the minus sign and the decimal mark of 542 locales, printed and parsed. */

/** What the library is started by: where the module is, what was fetched, its bytes, or the module compiled. */
export type ModuleSource = string | URL | Response | BufferSource | WebAssembly.Module;

/** Starts the library, which comes before any other call. Without a source, it is the module beside this package. */
export function init(source?: ModuleSource | PromiseLike<ModuleSource>): Promise<void>;

/** The same at once. In Node the source may be left out, or be the URL of a file. */
export function initSync(source?: URL | BufferSource | WebAssembly.Module): void;

/** The names of the 542 locales, in the order of their bytes. */
export function locales(): string[];

/** Where separators are among the digits: 1,000,000; 10,00,000; 1000000; 100,0000; 1000 and 10,000. */
export type Grouping = "standard" | "indian" | "posix" | "myriad" | "sparse";

/**
 * What becomes of digits for which there is no place. `halfExpand`: the nearest number, and of two the one farther from
 * 0, as by `Number.prototype.toFixed`. `halfEven`: of two the even one. `trunc`: the digits that are left. `exact`:
 * such a number is refused. The names are those of `Intl.NumberFormat`, but for `exact`.
 */
export type Rounding = "halfExpand" | "halfEven" | "trunc" | "exact";

export interface NumberFormatOptions {
  /** What is between two groups of digits: at most 8 bytes in UTF-8, as the two below. */
  readonly separator?: string | undefined;
  /** What is before the digits of a number below 0. */
  readonly minusSign?: string | undefined;
  /** What is before the decimals. */
  readonly decimalMark?: string | undefined;
  readonly grouping?: Grouping | undefined;
  /** The ten digits, by the name that the CLDR has for them, as `"arab"`. Without it those of the tag, or 0 to 9. */
  readonly numberingSystem?: string | undefined;
  /** How many decimals each number is printed with, from 0 to 38. Without it those that it has. */
  readonly decimals?: number | undefined;
  /** How a number with more decimals is rounded: without it by `halfExpand`. */
  readonly rounding?: Rounding | undefined;
}

export interface ResolvedNumberFormatOptions {
  /** The name of the locale. */
  readonly locale: string;
  readonly numberingSystem: string;
  readonly separator: string;
  readonly minusSign: string;
  readonly decimalMark: string;
  readonly grouping: Grouping;
  readonly decimals: number | undefined;
  readonly rounding: Rounding;
}

/**
 * How a text is parsed.
 *
 * - `strict`: it is exactly as its number is printed, with all separators or without any. For what programs wrote.
 * - `keyboard`: as a person types it. A space, an apostrophe, a comma or a point stands for the one of its kind that
 *   the format has, a hyphen for its minus sign, and blanks at the ends and a plus sign count for nothing.
 * - `lenient`: the number of the digits 0 to 9 in order, negated if the text begins with the minus sign. **Each
 *   character that is not numeric is ignored**, a decimal mark too: `12.50` is 1250 under `en`.
 */
export type Mode = "strict" | "keyboard" | "lenient";

export interface ParseOptions {
  /** Without it `strict`. */
  readonly mode?: Mode | undefined;
  /** Whether only a whole number is accepted, so that a decimal mark is an unexpected character. */
  readonly integer?: boolean | undefined;
}

/**
 * Why a text is refused.
 *
 * - `NotUtf8`: it has a lone surrogate.
 * - `OtherNumeral`: a numeral is no digit of the format's set, which is not 0 to 9.
 * - `TextTooLong`: it is longer than that of any number, or has more than 16,384 code units.
 * - `Unexpected`: a character is of no minus sign, digit, separator or decimal mark.
 * - `NoDigit`: it has no digit.
 * - `TooManyDecimals`: more than 38 digits follow the decimal mark.
 * - `Misspelled`: it is not as its number is printed: under `en` as `1,23`, `01` and `-0`.
 * - `OutOfRange`: the units of the number are not from -2**127 to 2**127 - 1.
 * - `NotANumber`: of lenient parsing, for one of these causes.
 * - `AmbiguousFormat`: a text can be misread under the format, as without a minus sign. No locale is so.
 */
export type ParseCause =
  | "NotUtf8"
  | "OtherNumeral"
  | "TextTooLong"
  | "Unexpected"
  | "NoDigit"
  | "TooManyDecimals"
  | "Misspelled"
  | "OutOfRange"
  | "NotANumber"
  | "AmbiguousFormat";

/** Why there is no such format, or nothing is parsed under it. */
export type FormatCause =
  | "UnknownLocale"
  | "UnknownDigits"
  | "BadGrouping"
  | "TooLong"
  | "NotUtf8"
  | "TextTooLong"
  | "AmbiguousFormat";

/** What a text is. A page that asks at each key shows `refused` with an `index` at once, and the others on blur. */
export type ParseResult =
  | { readonly state: "number"; readonly value: Decimal }
  /** There is nothing but blanks. */
  | { readonly state: "empty" }
  | {
      readonly state: "refused";
      readonly cause: ParseCause;
      /** At which UTF-16 code unit the character is, with `Unexpected`, `OtherNumeral` and `NotUtf8`. */
      readonly index: number | undefined;
      /** Of strict parsing: the symbol of the format that a person meant there, if `keyboard` reads the text. */
      readonly expected: string | undefined;
    };

/** What is printed: with fractions in floating point the format has to have `decimals`. */
export type Printable = number | bigint | string | Decimal;

/**
 * How numbers are printed and parsed. A format does not change, and owns no memory of the module.
 *
 * `locales` is a language tag, as `"de-CH"` or `"ar-u-nu-arab"`, or an array of them, as `navigator.languages`, of
 * which the first counts for which there is a locale.
 */
export class NumberFormat {
  /** @throws {FormatError} There is no such locale, grouping or digit set, or a text is too long. */
  constructor(locales: string | Intl.Locale | Iterable<string | Intl.Locale>, options?: NumberFormatOptions);

  /** The tags for which there is a locale. */
  static supportedLocalesOf(locales: string | Intl.Locale | Iterable<string | Intl.Locale>): string[];

  /**
   * Returns the text of a number: a `number` or a `bigint`, a `Decimal`, or a text as `"-1234.50"`. It is bound to the
   * format, so that `numbers.map(form.format)` works.
   *
   * @throws {NumberError} The number is not finite, has a fraction without `decimals`, or is out of range.
   * @throws {ParseError} The text is none of a number.
   */
  readonly format: (number: Printable) => string;

  /** Returns the texts of numbers. */
  formatAll(numbers: Iterable<Printable> | ArrayLike<Printable>): string[];

  /**
   * Returns the decimal that a text is, with as many decimals as it has.
   *
   * @throws {ParseError} The text is refused.
   * @throws {FormatError} The format is ambiguous.
   */
  parse(text: string, options?: ParseOptions): Decimal;

  /** Returns what a text is, and throws nothing for one that is refused. */
  tryParse(text: string, options?: ParseOptions): ParseResult;

  /**
   * Returns the decimals that texts are.
   *
   * @throws {ParseError} A text is refused: the error has its row.
   */
  parseAll(texts: Iterable<string> | ArrayLike<string>, options?: ParseOptions): Decimal[];

  /** Returns what each text is. */
  tryParseAll(texts: Iterable<string> | ArrayLike<string>, options?: ParseOptions): ParseResult[];

  /** Returns whether every whole number that is printed parses as the same number again, as under each locale. */
  readsBack(): boolean;

  /** Returns whether the other format has the same digits, and each number the same text under both. */
  printsAlike(other: NumberFormat): boolean;

  /** Returns what the format has. */
  resolvedOptions(): ResolvedNumberFormatOptions;
}

/**
 * An exact decimal, which does not change: its units, from -2**127 to 2**127 - 1, divided by 10 to the power of its
 * scale, from 0 to 38. 1234.50 has 123450 units at scale 2.
 */
export class Decimal {
  /** @throws {NumberError} The units or the scale are out of range. */
  constructor(units: bigint | number, scale?: number);

  /**
   * The decimal that a whole number, or a text as `"-1234.50"`, is.
   *
   * @throws {ParseError} The text is none of a decimal.
   * @throws {NumberError} The number is out of range.
   */
  static from(value: bigint | number | string | Decimal): Decimal;

  /** Returns -1, 0 or 1 as the first is below, at or above the value of the second, for `sort`. */
  static compare(first: bigint | number | string | Decimal, second: bigint | number | string | Decimal): -1 | 0 | 1;

  readonly units: bigint;
  readonly scale: number;

  /** Returns the exact sum, at the larger of both scales. */
  add(other: bigint | number | string | Decimal): Decimal;

  /** Returns the exact difference, at the larger of both scales. */
  subtract(other: bigint | number | string | Decimal): Decimal;

  /** Returns the decimal at a scale, rounded by `halfExpand` unless another rounding is given. */
  rescale(scale: number, rounding?: Rounding): Decimal;

  /** Returns the decimal as programs write it, as `"-1234.50"`, which `BigInt` and `Intl.NumberFormat` take. */
  toString(): string;

  /** Returns that text, so that JSON has it. */
  toJSON(): string;

  /** Returns the nearest number in floating point. */
  toNumber(): number;

  /** @throws {NumberError} The decimal is no whole number. */
  toBigInt(): bigint;

  /** Refused, since operators would compare texts. */
  valueOf(): never;
}

/** A text is no number under a format. */
export class ParseError extends SyntaxError {
  private constructor();
  readonly name: "ParseError";
  readonly kind: ParseCause;
  readonly text: string;
  /** As in a `ParseResult`. */
  readonly index: number | undefined;
  readonly expected: string | undefined;
  /** The row of an array. */
  readonly row: number | undefined;
}

/** There is no such format, or nothing is parsed under it. */
export class FormatError extends RangeError {
  private constructor();
  readonly name: "FormatError";
  readonly kind: FormatCause;
  /** The name of the argument, or `"format"`. */
  readonly argument: string;
  readonly text: string;
}

/** A number cannot be printed, or be the result of a calculation. */
export class NumberError extends RangeError {
  private constructor();
  readonly name: "NumberError";
  readonly kind: "NotFinite" | "OutOfRange" | "ScaleTooLarge" | "DigitsLost";
}

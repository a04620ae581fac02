// What the declarations take, and what they refuse: `tsc` compiles this file, and nothing runs it.
import {
  Decimal,
  FormatError,
  NumberError,
  NumberFormat,
  ParseError,
  init,
  initSync,
  locales,
  type Mode,
  type NumberFormatOptions,
  type ParseCause,
  type ParseResult,
} from "num-format-proved";

await init();
await init("num_format.wasm");
await init(fetch("num_format.wasm"));
await init(new URL("num_format.wasm", import.meta.url));
initSync(new Uint8Array());

const form = new NumberFormat(["de", new Intl.Locale("en")], { decimals: 2, rounding: "halfEven", grouping: "indian" });
const again = new NumberFormat("de", form.resolvedOptions());
const texts: string[] = [1, 2.5].map(form.format);
const all: string[] = form.formatAll(new Float64Array(2)).concat(form.formatAll(new BigInt64Array(2)));
const value: Decimal = form.parse("1", { mode: "keyboard" });
const parts: [bigint, number, string] = [value.units, value.scale, value.toString()];
const numbers: [number, bigint] = [value.toNumber(), value.toBigInt()];
const names: string[] = locales();
const sorted: Decimal[] = [value, Decimal.from("1.5")].sort(Decimal.compare);
const sum: Decimal = value.add(1n).subtract("0.5").rescale(2, "exact");

/** A union that is told apart by its state. */
function told(result: ParseResult): string {
  switch (result.state) {
    case "number":
      return result.value.toString();
    case "empty":
      return "";
    case "refused":
      return result.index === undefined ? messages[result.cause] : `${result.index}`;
  }
}

const messages: Record<ParseCause, string> = {
  NotUtf8: "", OtherNumeral: "", TextTooLong: "", Unexpected: "", NoDigit: "", TooManyDecimals: "", Misspelled: "",
  OutOfRange: "", NotANumber: "", AmbiguousFormat: "",
};

try {
  form.parse("x");
} catch (error) {
  if (error instanceof ParseError) messages[error.kind] = error.text;
  if (error instanceof FormatError) messages.AmbiguousFormat = `${error.argument} ${error.kind}`;
  if (error instanceof NumberError) messages.OutOfRange = error.kind;
}

const options: NumberFormatOptions = { separator: "'", minusSign: "-", decimalMark: ".", numberingSystem: "arab" };
const mode: Mode = "lenient";
export const used = [again, texts, all, parts, numbers, names, sorted, sum, told, options, mode];

// @ts-expect-error There is no such mode.
form.parse("1", { mode: "typed" });
// @ts-expect-error There is no such option.
new NumberFormat("de", { seperator: "," });
// @ts-expect-error There is no such rounding.
new NumberFormat("de", { rounding: "up" });
// @ts-expect-error There is no locale.
new NumberFormat();
// @ts-expect-error A number is not parsed.
form.parse(5);
// @ts-expect-error Nothing is printed of null.
form.format(null);
// @ts-expect-error A result has no value before it is known to be a number.
form.tryParse("1").value;
// @ts-expect-error A decimal has no operators.
value + 1;
// @ts-expect-error A decimal does not change.
value.scale = 2;
// @ts-expect-error Not every cause is one of a text.
export const cause: ParseCause = "UnknownLocale";

// Replays the tables of cases, as the repository's tests/README.md says, by the package's calls.
//
//     node packages/js/tests/replay.mjs PACKAGE < CASES
import { readFileSync } from "node:fs";
import { pathToFileURL } from "node:url";

const entry = process.argv[2] ?? new URL("../src/node.js", import.meta.url).pathname;
const { Decimal, FormatError, NumberError, NumberFormat, ParseError, initSync } = await import(pathToFileURL(entry));

/** Why a case cannot be said in JavaScript. */
class Unsaid extends Error {}

const unsaid = (reason) => () => {
  throw new Unsaid(reason);
};

/** As Python's `quote`, which leaves `/` as it is. */
function quote(text) {
  const left = /[!'()*]/g;
  const encoded = encodeURIComponent(text).replace(left, (each) => `%${each.charCodeAt(0).toString(16).toUpperCase()}`);
  return encoded.replaceAll("%2F", "/");
}

const UTF8 = new TextDecoder("utf-8", { fatal: true, ignoreBOM: true });

/** The text of percent-encoded bytes. */
function unquote(text) {
  const bytes = Buffer.from(text.replace(/%(..)/g, (_, hex) => String.fromCharCode(parseInt(hex, 16))), "latin1");
  try {
    return UTF8.decode(bytes);
  } catch {
    throw new Unsaid("no bytes but UTF-8");
  }
}

const made = new Map();

function formatOf(words) {
  if (!made.has(words)) made.set(words, newFormat(words));
  return made.get(words);
}

function newFormat(words) {
  const [kind, ...parts] = words.split(":");
  if (kind === "locale") return new NumberFormat(unquote(parts[0]));
  const [separator, grouping, minusSign, decimalMark] = parts.map(unquote);
  return new NumberFormat("en", { separator, grouping: grouping.toLowerCase(), minusSign, decimalMark });
}

/** What the calls returned: several are to return the same. */
const same = (...found) => [...new Set(found)].map(quote).join(" or ");

const words = (decimal) => `${decimal.units}/${decimal.scale}`;

/** The words of an error. */
function refused(text, cause, index) {
  if (cause === "NotANumber") return "err ParseNumber?";
  const at = cause === "Unexpected" || cause === "OtherNumeral" ? ` ${Buffer.byteLength(text.slice(0, index))}` : "";
  return `err ${cause.replace("TextTooLong", "TooLong")}${at}`;
}

/** What is parsed, by each call. */
function parsed(form, text, options, ok) {
  const results = [
    () => {
      try {
        return `ok ${ok(form.parse(text, options))}`;
      } catch (error) {
        if (error instanceof ParseError || error instanceof FormatError) return refused(text, error.kind, error.index);
        throw error;
      }
    },
    () => {
      const found = form.tryParse(text, options);
      if (found.state === "empty") return options.mode === "lenient" ? "err ParseNumber?" : "err NoDigit";
      return found.state === "number" ? `ok ${ok(found.value)}` : refused(text, found.cause, found.index);
    },
  ];
  return [...new Set(results.map((call) => call()))].join(" or ");
}

/** The least and the largest number of a type. */
function rangeOf(type) {
  const name = type.replace("NonZero", "").toLowerCase();
  const bits = BigInt(name.slice(1).replace("size", "64"));
  if (name === "u128") throw new Unsaid("no unsigned type of 128 bits");
  const isSigned = name.startsWith("i");
  const least = isSigned ? -(2n ** (bits - 1n)) : type.startsWith("NonZero") ? 1n : 0n;
  return [least, 2n ** (isSigned ? bits - 1n : bits) - 1n];
}

function integer(mode) {
  return (type, form, text) => {
    const [least, largest] = rangeOf(type);
    if (mode === "lenient" && type !== "i128") throw new Unsaid("no lenient parsing but of 128 bits");
    const result = parsed(formatOf(form), unquote(text), { mode, integer: true }, (decimal) => decimal.toBigInt());
    const number = /^ok (-?\d+)$/.exec(result)?.[1];
    return number !== undefined && (BigInt(number) < least || BigInt(number) > largest) ? "err OutOfRange" : result;
  };
}

function decimals(mode) {
  return (form, text) => parsed(formatOf(form), unquote(text), { mode }, words);
}

function printing(type, form, number) {
  const value = BigInt(number);
  if (BigInt.asIntN(128, value) !== value) throw new Unsaid("no unsigned type of 128 bits");
  const format = formatOf(form);
  const safe = Number.isSafeInteger(Number(number)) ? [format.format(Number(number))] : [];
  return same(...[value, number, new Decimal(value)].map(format.format), ...safe, ...format.formatAll([value]));
}

function decimalsPrinted(form, units, scale) {
  const decimal = new Decimal(BigInt(units), Number(scale));
  const sameScale = new NumberFormat("en", { ...formatOf(form).resolvedOptions(), decimals: Number(scale) });
  return same(formatOf(form).format(decimal), formatOf(form).format(decimal.toString()), sameScale.format(decimal));
}

function decimalsAtScale(form, text, scale) {
  try {
    return parsed(formatOf(form), unquote(text), {}, (decimal) => decimal.rescale(Number(scale), "exact").units);
  } catch (error) {
    if (error instanceof NumberError) return `err ${error.kind}`;
    throw error;
  }
}

/** What is computed, or the cause of the error. */
function computed(call, none) {
  try {
    return words(call());
  } catch (error) {
    if (!(error instanceof NumberError)) throw error;
    return none ?? `err ${error.kind}`;
  }
}

function decimalsComputed(first, second, scale) {
  const [one, two] = [first, second].map((text) => {
    const [units, at] = text.split("/");
    return new Decimal(BigInt(units), Number(at));
  });
  const roundings = ["halfEven", "halfExpand", "trunc", "exact"];
  const rescaled = roundings.map((rounding) => computed(() => one.rescale(Number(scale), rounding)));
  const order = Decimal.compare(one, two);
  const sums = [() => one.add(two), () => one.subtract(two), () => new Decimal(0, one.scale).subtract(one)];
  const named = ["less", "equal", "greater"][order + 1];
  return [...rescaled, named, "?", ...sums.map((call) => computed(call, "none"))].join("\t");
}

function tags(tag) {
  const text = unquote(tag);
  try {
    return `ok ${new NumberFormat(text).resolvedOptions().locale}`;
  } catch (error) {
    if (error instanceof FormatError) return "err ParseLocale";
    throw error;
  }
}

function locales(name) {
  const { decimalMark, grouping, minusSign, separator } = new NumberFormat(name).resolvedOptions();
  const title = grouping[0].toUpperCase() + grouping.slice(1);
  return `${title}\t${quote(decimalMark)}\t?\t${quote(minusSign)}\t?\t?\t${quote(separator)}`;
}

const TABLES = {
  alike: (first, second) => String(formatOf(first).printsAlike(formatOf(second))),
  builders: unsaid("no builder"),
  decimals_at_scale: decimalsAtScale,
  decimals_computed: decimalsComputed,
  decimals_parsed: decimals("strict"),
  decimals_printed: decimalsPrinted,
  json: unsaid("no JSON"),
  lenient: integer("lenient"),
  locales,
  names: unsaid("no names but tags"),
  padded: unsaid("no padding"),
  printing,
  reads_back: (form) => String(formatOf(form).readsBack()),
  strict: integer("strict"),
  tags,
  typed: integer("keyboard"),
  typed_decimals: decimals("keyboard"),
};
const PARSED = ["strict", "decimals_parsed", "decimals_at_scale", "typed", "typed_decimals"];
for (const name of ["printing", "decimals_printed", ...PARSED]) TABLES[`${name}_digits`] = TABLES[name];

function answer(line) {
  const [table, ...fields] = line.split("\t");
  try {
    return TABLES[table](...fields);
  } catch (error) {
    if (error instanceof Unsaid) return `! ${error.message}`;
    throw error;
  }
}

initSync();
const lines = readFileSync(0, "latin1").split("\n").slice(0, -1);
process.stdout.write(lines.map((line) => `${answer(line)}\n`).join(""));

// Numbers are printed, under locales and under formats of one's own.
import assert from "node:assert/strict";
import { test } from "node:test";
import { Decimal, FormatError, NumberError, NumberFormat, ParseError, initSync, locales } from "num-format-proved";

initSync();

const de = new NumberFormat("de");

test("whole numbers of each type", () => {
  const texts = [-1234567, -1234567n, "-1234567", new Decimal(-1234567)].map(de.format);
  assert.deepEqual(texts, Array(4).fill("-1.234.567"));
  assert.deepEqual([0, -0, 0n, "0", "-0"].map(de.format), Array(5).fill("0"));
  const limits = [2 ** 53 - 1, -(2 ** 53) + 1, 2 ** 53, -(2 ** 70), 2n ** 127n - 1n, -(2n ** 127n)];
  const plain = new NumberFormat("en-US-POSIX");
  for (const number of limits) assert.equal(plain.format(number), BigInt(number).toString());
});

test("halves of 32 bits are joined", () => {
  const plain = new NumberFormat("en-US-POSIX");
  for (let power = 1; power < 2 ** 53; power *= 2) {
    for (const number of [power - 1, power, power + 1, -power + 1, -power, -power - 1]) {
      if (!Number.isSafeInteger(number)) continue;
      assert.equal(plain.format(number), number.toString());
      assert.equal(plain.parse(number.toString()).toNumber(), number);
      assert.equal(plain.parse(number.toString()).units, BigInt(number));
    }
  }
});

test("decimals keep their own, or have those of the format", () => {
  assert.equal(de.format("1234.50"), "1.234,50");
  assert.equal(de.format(new Decimal(-5n, 2)), "-0,05");
  const cents = new NumberFormat("de", { decimals: 2 });
  const texts = [1234.5, "1234.5", 1234, 1234n, "1234.505", "1234.495", -0.001].map(cents.format);
  assert.deepEqual(texts, ["1.234,50", "1.234,50", "1.234,00", "1.234,00", "1.234,51", "1.234,50", "0,00"]);
});

test("roundings", () => {
  const numbers = ["2.5", "3.5", "-2.5", "2.9", 2.5, -3.5];
  const rounded = (rounding) => numbers.map(new NumberFormat("en", { decimals: 0, rounding }).format);
  assert.deepEqual(rounded(undefined), ["3", "4", "-3", "3", "3", "-4"]);
  assert.deepEqual(rounded("halfExpand"), ["3", "4", "-3", "3", "3", "-4"]);
  assert.deepEqual(rounded("halfEven"), ["2", "4", "-2", "3", "2", "-4"]);
  assert.deepEqual(rounded("trunc"), ["2", "3", "-2", "2", "2", "-3"]);
  const exact = new NumberFormat("en", { decimals: 1, rounding: "exact" });
  assert.equal(exact.format(0.5), "0.5");
  for (const number of [0.1, 0.25, "0.25"]) assert.throws(() => exact.format(number), { kind: "DigitsLost" });
  assert.throws(() => new NumberFormat("en", { rounding: "floor" }), RangeError);
});

test("floating point is rounded as by toFixed", () => {
  const plain = Array.from({ length: 23 }, (_, decimals) => new NumberFormat("en-US-POSIX", { decimals }));
  let seed = 1;
  const next = () => (seed = (seed * 48271) % 0x7fffffff) / 0x7fffffff;
  for (let count = 0; count < 20_000; count++) {
    const number = (next() - 0.5) * 10 ** Math.floor(next() * 30 - 14);
    const decimals = Math.floor(next() * 23);
    if (Math.abs(number) * 10 ** decimals > 1e37) continue;
    const wanted = number.toFixed(decimals).replace(/^-([0.]*)$/, "$1");
    assert.equal(plain[decimals].format(number), wanted, `${number} ${decimals}`);
  }
  for (const number of [1.005, 1.115, 0.125, 2.675, 5e-324, 1e21, 123456789012345680000]) {
    assert.equal(plain[2].format(number), number === 1e21 ? "1000000000000000000000.00" : number.toFixed(2));
  }
});

test("numbers that are refused", () => {
  for (const number of [NaN, Infinity, -Infinity]) assert.throws(() => de.format(number), { kind: "NotFinite" });
  const message = "1234.5 is not exact: the option `decimals` rounds it";
  assert.throws(() => de.format(1234.5), { kind: "DigitsLost", message });
  const large = [2n ** 127n, -(2n ** 127n) - 1n, 2 ** 127, 1e300];
  for (const number of large) assert.throws(() => de.format(number), { name: "NumberError", kind: "OutOfRange" });
  const texts = ["", "1,5", "1.", ".5", "1e3", " 1", "+1", "0x10", "12a"];
  for (const text of texts) assert.throws(() => de.format(text), ParseError);
  for (const value of [null, undefined, true, {}, [], Symbol("s")]) assert.throws(() => de.format(value), TypeError);
  assert.ok(new NumberError("OutOfRange") instanceof RangeError);
});

test("locales", () => {
  const names = locales();
  assert.equal(names.length, 542);
  assert.deepEqual(names, [...names].sort());
  assert.deepEqual(names, NumberFormat.supportedLocalesOf(names));
  for (const name of names) assert.equal(new NumberFormat(name).resolvedOptions().locale, name);
});

test("language tags", () => {
  const name = (tags) => new NumberFormat(tags).resolvedOptions().locale;
  const tags = ["de-DE", "DE", "zh-Hant-TW", "en_US.UTF-8", "de-CH-u-nu-arab"];
  assert.deepEqual(tags.map(name), ["de", "de", "zh-Hant", "en", "de-CH"]);
  assert.equal(name(["xx", "sv-SE", "de"]), "sv");
  assert.equal(name(new Intl.Locale("de-AT", { numberingSystem: "latn" })), "de-AT");
  const supported = NumberFormat.supportedLocalesOf(["xx", "de-DE", "fa-u-nu-arabext"]);
  assert.deepEqual(supported, ["de-DE", "fa-u-nu-arabext"]);
  for (const tags of ["xx", "", [], ["xx", "yy"], "english"]) {
    assert.throws(() => new NumberFormat(tags), { name: "FormatError", kind: "UnknownLocale", argument: "locale" });
  }
  assert.throws(() => new NumberFormat("de-u-nu-finance"), { kind: "UnknownDigits" });
  assert.throws(() => new NumberFormat("\ud800"), { kind: "NotUtf8" });
  assert.throws(() => new NumberFormat(), TypeError);
  assert.throws(() => new NumberFormat("xx"), RangeError);
});

test("digits of other scripts", () => {
  assert.equal(new NumberFormat("ar-EG-u-nu-arab").format(-1234567), "؜-١٬٢٣٤٬٥٦٧");
  assert.equal(new NumberFormat("en", { numberingSystem: "fullwide", decimals: 1 }).format("1234"), "１,２３４.０");
  assert.equal(new NumberFormat("en", { numberingSystem: "adlm" }).format(10), "𞥑𞥐");
  const systems = ["fa-u-nu-arabext", "bn-u-nu-native", "ar-EG-u-nu-native", "de-u-nu-native", "de"].map(
    (tag) => new NumberFormat(tag).resolvedOptions().numberingSystem,
  );
  assert.deepEqual(systems, ["arabext", "beng", "arab", "latn", "latn"]);
  const roman = { numberingSystem: "roman" };
  assert.throws(() => new NumberFormat("en", roman), { kind: "UnknownDigits", argument: "numberingSystem" });
});

test("each locale's native digits have a name", () => {
  for (const name of locales()) {
    assert.ok(new NumberFormat(`${name}-u-nu-native`).resolvedOptions().numberingSystem, name);
  }
});

test("formats of one's own", () => {
  const own = new NumberFormat("en", { separator: "'", grouping: "indian", minusSign: "−", decimalMark: "·" });
  assert.equal(own.format("-1234567.5"), "−12'34'567·5");
  assert.equal(own.parse("−12'34'567·5").toString(), "-1234567.5");
  assert.deepEqual(new NumberFormat("en", own.resolvedOptions()).resolvedOptions(), { ...own.resolvedOptions() });
  const groupings = ["standard", "indian", "posix", "myriad", "sparse"];
  const printed = groupings.map((grouping) => new NumberFormat("en", { grouping }).format(1234567));
  assert.deepEqual(printed, ["1,234,567", "12,34,567", "1234567", "123,4567", "1,234,567"]);
  assert.equal(new NumberFormat("en", { grouping: "sparse" }).format(1234), "1234");
  assert.equal(new NumberFormat("fa-u-nu-arabext", { separator: "" }).format(1234), "۱۲۳۴");
  const refused = (options) => {
    try {
      new NumberFormat("en", options);
    } catch (error) {
      assert.ok(error instanceof FormatError);
      return [error.argument, error.kind];
    }
  };
  assert.deepEqual(refused({ separator: "123456789" }), ["separator", "TooLong"]);
  assert.deepEqual(refused({ minusSign: "€€€" }), ["minusSign", "TooLong"]);
  assert.deepEqual(refused({ decimalMark: "\udc00" }), ["decimalMark", "NotUtf8"]);
  assert.deepEqual(refused({ separator: "x".repeat(1e6) }), ["separator", "TooLong"]);
  assert.deepEqual(refused({ grouping: "Indian" }), ["grouping", "BadGrouping"]);
  assert.deepEqual(refused({ grouping: "toString" }), ["grouping", "BadGrouping"]);
  for (const decimals of [-1, 39, 1.5, NaN, "2"]) {
    assert.throws(() => new NumberFormat("en", { decimals }), NumberError);
  }
});

test("formats do not meddle with one another", () => {
  const formats = ["de", "en", "fr", "hi", "sv"].map((tag) => new NumberFormat(tag));
  const texts = formats.map((form) => form.format(-1234567));
  const wanted = ["-1.234.567", "-1,234,567", "-1\u202f234\u202f567", "-12,34,567", "−1\u00a0234\u00a0567"];
  assert.deepEqual(texts, wanted);
  assert.deepEqual(formats.map((form, k) => form.parse(texts[k]).toNumber()), Array(5).fill(-1234567));
  assert.ok(formats[0].printsAlike(new NumberFormat("id")));
  assert.ok(!formats[0].printsAlike(formats[1]));
  assert.ok(formats[0].readsBack());
  assert.ok(!new NumberFormat("en", { minusSign: "" }).readsBack());
});

test("arrays and typed arrays", () => {
  assert.deepEqual(de.formatAll([1234, 5n, "6.5"]), ["1.234", "5", "6,5"]);
  assert.deepEqual(de.formatAll(new Int32Array([1234, -5])), ["1.234", "-5"]);
  assert.deepEqual(de.formatAll(new BigInt64Array([2n ** 63n - 1n])), ["9.223.372.036.854.775.807"]);
  assert.deepEqual(new NumberFormat("de", { decimals: 1 }).formatAll(new Float64Array([0.5, -2.25])), ["0,5", "-2,3"]);
  assert.deepEqual([1234, 5].map(de.format), ["1.234", "5"]);
});

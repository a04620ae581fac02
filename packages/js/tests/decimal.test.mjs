// Decimals: what they are made of, what they are changed into, and sums.
import assert from "node:assert/strict";
import { test } from "node:test";
import { Decimal, NumberError, ParseError, initSync } from "num-format-proved";

initSync();

test("units and scale", () => {
  const price = new Decimal(123450n, 2);
  assert.deepEqual([price.units, price.scale, String(price), price.toNumber()], [123450n, 2, "1234.50", 1234.5]);
  const decimals = [new Decimal(5), new Decimal(-5, 2), new Decimal(0, 3), new Decimal(-0)];
  assert.deepEqual(decimals.map(String), ["5", "-0.05", "0.000", "0"]);
  assert.equal(new Decimal(-(2n ** 127n), 38).toString(), "-1.70141183460469231731687303715884105728");
  for (const units of [2n ** 127n, -(2n ** 127n) - 1n]) assert.throws(() => new Decimal(units), { kind: "OutOfRange" });
  for (const scale of [-1, 39, 0.5, "2"]) assert.throws(() => new Decimal(1, scale), { kind: "ScaleTooLarge" });
  for (const units of [0.5, 2 ** 53, NaN, "1", null, undefined]) assert.throws(() => new Decimal(units), TypeError);
});

test("texts as programs write them", () => {
  const texts = ["1234.50", "-0.05", "0", "007", "-0"].map((text) => String(Decimal.from(text)));
  assert.deepEqual(texts, ["1234.50", "-0.05", "0", "7", "0"]);
  assert.equal(Decimal.from(5n).units, 5n);
  const price = new Decimal(5);
  assert.equal(Decimal.from(price), price);
  for (const text of ["", "1,5", "5.", "1e3", " 1", `0.${"1".repeat(39)}`, "9".repeat(100)]) {
    assert.throws(() => Decimal.from(text), ParseError);
  }
  assert.throws(() => Decimal.from("9".repeat(40)), NumberError);
});

test("what a decimal is changed into", () => {
  assert.equal(JSON.stringify({ price: new Decimal(123450, 2) }), '{"price":"1234.50"}');
  assert.equal(`${new Decimal(5, 1)}`, "0.5");
  assert.equal(new Decimal(500, 2).toBigInt(), 5n);
  const refused = { name: "NumberError", kind: "DigitsLost", message: "5.01 is no whole number" };
  assert.throws(() => new Decimal(501, 2).toBigInt(), refused);
  assert.equal(new Decimal(2n ** 64n).toBigInt(), 2n ** 64n);
  assert.equal(new Decimal(1, 1).toNumber(), 0.1);
  assert.equal(new Decimal(2n ** 100n, 20).toNumber(), Number(`${2n ** 100n}e-20`));
  assert.equal(new Intl.NumberFormat("de").format(String(new Decimal(12345, 1))), "1.234,5");
  assert.equal(BigInt(String(new Decimal(5))), 5n);
  assert.throws(() => new Decimal(5) < new Decimal(10), TypeError);
  assert.throws(() => new Decimal(5) + 1, TypeError);
});

test("the nearest number in floating point", () => {
  let seed = 7;
  const next = () => (seed = (seed * 48271) % 0x7fffffff) / 0x7fffffff;
  for (let count = 0; count < 20_000; count++) {
    const units = Math.floor((next() - 0.5) * 2 ** Math.floor(next() * 54));
    const decimal = new Decimal(units, Math.floor(next() * 39));
    assert.equal(decimal.toNumber(), Number(String(decimal)), String(decimal));
  }
});

test("sums, differences and order", () => {
  assert.equal(String(Decimal.from("0.1").add("0.2")), "0.3");
  assert.equal(String(Decimal.from("1.50").subtract("0.125")), "1.375");
  assert.equal(String(Decimal.from("1").add(2n ** 64n)), String(2n ** 64n + 1n));
  assert.throws(() => new Decimal(2n ** 127n - 1n).add(1), { kind: "OutOfRange" });
  const sorted = ["10", "9", "-1.5", "9.00"].map(Decimal.from).sort(Decimal.compare);
  assert.deepEqual(sorted.map(String), ["-1.5", "9", "9.00", "10"]);
  assert.equal(Decimal.compare("1.50", "1.5"), 0);
});

test("another scale", () => {
  const half = Decimal.from("2.5");
  const roundings = [undefined, "halfExpand", "halfEven", "trunc"];
  assert.deepEqual(roundings.map((rounding) => String(half.rescale(0, rounding))), ["3", "3", "2", "2"]);
  assert.equal(String(half.rescale(3, "exact")), "2.500");
  assert.throws(() => half.rescale(0, "exact"), { kind: "DigitsLost" });
  assert.throws(() => half.rescale(39), { kind: "ScaleTooLarge" });
  assert.throws(() => half.rescale(0, "up"), RangeError);
});

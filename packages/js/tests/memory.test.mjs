// Memory does not grow, and long texts are refused before they are copied.
import assert from "node:assert/strict";
import { test } from "node:test";
import { NumberFormat, initSync } from "num-format-proved";

const memories = [];
const { Instance } = WebAssembly;
WebAssembly.Instance = class extends Instance {
  constructor(...words) {
    super(...words);
    memories.push(this.exports.memory);
  }
};
initSync();
WebAssembly.Instance = Instance;

const form = new NumberFormat("fr");

test("a million calls", () => {
  const [size] = memories.map((memory) => memory.buffer.byteLength);
  for (let number = 0; number < 500_000; number++) {
    const text = form.format(number * 1001);
    if (number % 1000 === 0) assert.equal(form.parse(text).toNumber(), number * 1001);
    else form.tryParse(number % 3 === 0 ? "1x" : text, { mode: "keyboard" });
  }
  for (let count = 0; count < 1000; count++) new NumberFormat("de", { separator: "'" });
  assert.equal(memories[0].buffer.byteLength, size);
  assert.ok(size < 4 * 2 ** 20);
});

test("long texts", () => {
  const started = performance.now();
  for (const text of ["1".repeat(1e7), " ".repeat(1e7), "\u202f".repeat(1e7), "x".repeat(20_000)]) {
    for (const mode of ["strict", "keyboard", "lenient"]) {
      assert.equal(form.tryParse(text, { mode }).cause, "TextTooLong");
      assert.throws(() => form.parse(text, { mode }), { kind: "TextTooLong" });
    }
  }
  assert.ok(performance.now() - started < 5000);
  assert.equal(form.tryParse("1".repeat(16_384)).cause, "OutOfRange");
  assert.equal(form.tryParse("\u202f".repeat(16_384)).state, "empty");
  assert.equal(form.tryParse(`${"1".repeat(16_383)}x`).index, 16_383);
  assert.equal(form.tryParse(`${" ".repeat(10_000)}5`, { mode: "keyboard" }).value.toNumber(), 5);
});

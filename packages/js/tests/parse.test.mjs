// Texts are parsed, or refused with a cause and a place.
import assert from "node:assert/strict";
import { test } from "node:test";
import { FormatError, NumberFormat, ParseError, initSync, locales } from "num-format-proved";

initSync();

const form = (tag, options) => new NumberFormat(tag, options);
const [en, de, fr, sv] = ["en", "de", "fr", "sv"].map((tag) => form(tag));
const keyboard = { mode: "keyboard" };

/** The state of a text, and what goes with it. */
function told(result) {
  if (result.state === "number") return result.value.toString();
  const { state, cause, index, expected } = result;
  return state === "empty" ? "empty" : [cause, index, expected].filter((part) => part !== undefined);
}

test("strict is the default", () => {
  assert.equal(de.parse("1.234,50").toString(), "1234.50");
  assert.equal(de.parse("-1234").toNumber(), -1234);
  for (const text of ["1.23", "01", " 1", "+1", "-0"]) assert.throws(() => de.parse(text), ParseError);
  assert.throws(() => de.parse("1", { mode: "typed" }), RangeError);
  assert.throws(() => de.parse("1", { mode: "toString" }), RangeError);
});

test("what a keyboard has", () => {
  assert.equal(fr.parse("1 234,50", keyboard).toString(), "1234.50");
  assert.equal(sv.parse("-5", keyboard).toString(), "-5");
  assert.equal(form("de-CH").parse(" 1'234.50 ", keyboard).toString(), "1234.50");
  assert.equal(en.parse("+5", keyboard).toString(), "5");
  assert.equal(form("ja-u-nu-fullwide").parse("１，２３４．５", keyboard).toString(), "1234.5");
});

test("leniently each character that is not numeric is ignored", () => {
  assert.equal(en.parse("12.50", { mode: "lenient" }).toString(), "1250");
  assert.equal(en.parse("(7)", { mode: "lenient" }).toString(), "7");
  assert.deepEqual(told(en.tryParse("x", { mode: "lenient" })), ["NotANumber"]);
  assert.deepEqual(told(en.tryParse("", { mode: "lenient" })), "empty");
  assert.throws(() => form("fa-u-nu-arabext").parse("1", { mode: "lenient" }), RangeError);
});

test("states", () => {
  const states = ["1,234.5", "", " ", "-", "1,2", "1x", "12.50€"].map((text) => told(en.tryParse(text)));
  const at = (index) => ["Unexpected", index];
  assert.deepEqual(states, ["1234.5", "empty", at(0), ["NoDigit"], ["Misspelled"], at(1), at(5)]);
  const typed = ["", " \t\u00a0", "\u200e", "-"].map((text) => told(en.tryParse(text, keyboard)));
  assert.deepEqual(typed, ["empty", "empty", "empty", ["NoDigit"]]);
});

test("which symbol a person meant", () => {
  assert.deepEqual(told(fr.tryParse("1 234")), ["Unexpected", 1, "\u202f"]);
  assert.deepEqual(told(sv.tryParse("-5")), ["Unexpected", 0, "−"]);
  assert.deepEqual(told(fr.tryParse("1 234x")), ["Unexpected", 1]);
  assert.throws(() => fr.parse("1 234"), {
    message: '"1 234" is refused: unexpected character at index 1, U+0020 for U+202F: mode "keyboard" reads it',
  });
});

test("an index counts UTF-16 code units", () => {
  assert.deepEqual(told(en.tryParse("😀1")), ["Unexpected", 0]);
  assert.deepEqual(told(sv.tryParse("−1😀")), ["Unexpected", 2]);
  assert.deepEqual(told(form("en-u-nu-adlm").tryParse("𞥑𞥑x")), ["Unexpected", 4]);
  assert.deepEqual(told(form("en-u-nu-adlm").tryParse("𞥑𞥑1")), ["OtherNumeral", 4]);
  assert.deepEqual(told(fr.tryParse("1\u202f234€", keyboard)), ["Unexpected", 5]);
});

test("lone surrogates", () => {
  for (const text of ["\ud800", "\udc00", "1\ud83d", "😀\ude00", "1\ud800\ud800"]) {
    const result = en.tryParse(text);
    assert.equal(result.cause, "NotUtf8");
    assert.equal(result.index, text.startsWith("1") ? 1 : text.startsWith("😀") ? 2 : 0);
  }
  assert.throws(() => en.parse("\ud800"), { name: "ParseError", kind: "NotUtf8", index: 0 });
});

test("errors", () => {
  const thrown = (call) => {
    try {
      call();
    } catch (error) {
      return error;
    }
  };
  const error = thrown(() => en.parse("12x"));
  assert.ok(error instanceof SyntaxError);
  const { name, kind, text, index, expected, row, message } = error;
  assert.deepEqual([name, kind, text, index], ["ParseError", "Unexpected", "12x", 2]);
  assert.deepEqual([expected, row], [undefined, undefined]);
  assert.equal(message, '"12x" is refused: unexpected character at index 2');
  assert.ok(String(error).startsWith("ParseError: "));
  const ambiguous = form("en", { minusSign: "" });
  assert.ok(thrown(() => ambiguous.parse("5")) instanceof FormatError);
  assert.equal(thrown(() => ambiguous.parse("5")).kind, "AmbiguousFormat");
  assert.deepEqual(told(ambiguous.tryParse("5")), ["AmbiguousFormat"]);
  for (const value of [5, null, undefined, ["5"]]) assert.throws(() => en.parse(value), TypeError);
});

test("whole numbers alone", () => {
  const integer = { integer: true };
  assert.equal(en.parse("1,234", integer).scale, 0);
  assert.deepEqual(told(en.tryParse("12.50", integer)), ["Unexpected", 2]);
  assert.equal(fr.parse("1 234", { integer: true, mode: "keyboard" }).toString(), "1234");
  assert.equal(en.parse((2n ** 127n - 1n).toString(), integer).units, 2n ** 127n - 1n);
  assert.deepEqual(told(en.tryParse((2n ** 127n).toString(), integer)), ["OutOfRange"]);
});

test("arrays", () => {
  assert.deepEqual(en.parseAll(["1,234", "-5.5"]).map(String), ["1234", "-5.5"]);
  assert.throws(() => en.parseAll(["1", "x", "y"]), { row: 1, index: 0, message: /^row 1: "x" is refused/ });
  assert.deepEqual(en.tryParseAll(["1", "x", ""]).map((result) => result.state), ["number", "refused", "empty"]);
});

test("every locale parses what it prints", () => {
  for (const name of locales()) {
    const each = form(`${name}-u-nu-native`);
    for (const text of ["-1234567.05", "0.5", "98765432109876543210"]) {
      assert.equal(each.parse(each.format(text)).toString(), text, name);
      assert.equal(each.parse(each.format(text), keyboard).toString(), text, name);
    }
  }
});

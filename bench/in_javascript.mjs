// Times the package for JavaScript beside what each browser and Node have.
//
//     node in_javascript.mjs ENTRY FOLDER SECONDS
//
// ENTRY is the module of the package, FOLDER what cells.py writes, and SECONDS how long each call is measured in a cell.
// Prints lines of five fields: what is done, the cell, whose call it is, the call, and the nanoseconds that it takes for
// a number by the best turn, or `differs` where a result is not the one expected.
import { readFileSync, readdirSync } from "node:fs";
import { join } from "node:path";
import { pathToFileURL } from "node:url";

const [entry, folder, seconds] = process.argv.slice(2);
const { Decimal, NumberFormat, initSync } = await import(pathToFileURL(entry));
initSync();

// How many numbers of a cell are printed and parsed, and the most digits of those that floating point has.
const FIRST = 1000;
const SAFE_DIGITS = 15;

// The formats that Intl prints alike.
const OF_INTL = ["en", "fr", "hi"];

const LOOP = `const made = new Array(given.length);
  for (let k = 0; k < given.length; k++) made[k] = one(given[k]);
  return made;`;

// A call: what it does, whose it is, and a function with what it is given for each number and is to return.
class Way {
  best = Infinity;

  constructor(line, one, given, expected) {
    Object.assign(this, { line, one, given, expected });
  }

  // The loop is compiled for each call by itself, as in a program that makes one.
  turn() {
    this.run ??= new Function("one", "given", LOOP);
    const start = process.hrtime.bigint();
    const made = this.run(this.one, this.given);
    this.best = Math.min(this.best, Number(process.hrtime.bigint() - start) / this.given.length);
    return made;
  }

  shown() {
    const isRight = this.turn().every((each, k) => String(each) === this.expected[k]);
    return isRight ? this.best.toFixed(1) : "differs";
  }
}

function formOf(name) {
  if (name !== "own") return new NumberFormat(name);
  return new NumberFormat("en", { separator: "\u2019", grouping: "indian", minusSign: "\u2212", decimalMark: "," });
}

// The columns that cells.py writes, and those of numbers that floating point has.
function read(path) {
  const lines = readFileSync(path, "utf8").split("\n").filter(Boolean).slice(0, FIRST).map((line) => line.split("\t"));
  const columns = (rows) => rows[0]?.map((_, k) => rows.map((row) => row[k])) ?? [[], [], [], [], [], [], []];
  return [columns(lines), columns(lines.filter(([number]) => number.replace("-", "").length <= SAFE_DIGITS))];
}

function ways(path, name) {
  const [[all, , allTexts], [numbers, , texts, withLetter, , decimals, decimalTexts]] = read(path);
  const form = formOf(name);
  const refused = withLetter.map(() => "true");
  const given = {
    "print": [numbers.map(Number), texts],
    "print, bigint": [all.map(BigInt), allTexts],
    "parse, strict": [texts, numbers],
    "parse, refused": [withLetter, refused],
    "decimal, print": [decimals.map(Decimal.from), decimalTexts],
    "decimal, parse": [decimalTexts, decimals.map((text) => String(Number(text)))],
  };
  const calls = [
    ["print", "ours", "`form.format(n)`", (n) => form.format(n)],
    ["print, bigint", "ours", "`form.format(n)`", (n) => form.format(n)],
    ["parse, strict", "ours", "`form.parse(text).toNumber()`", (text) => form.parse(text).toNumber()],
    ["parse, refused", "ours", "`form.tryParse(text)`", (text) => form.tryParse(text).state !== "number"],
    ["decimal, print", "ours", "`form.format(d)`", (d) => form.format(d)],
    ["decimal, parse", "ours", "`form.parse(text).toNumber()`", (text) => form.parse(text).toNumber()],
  ];
  calls.push(...calls.map(([does, , call, one]) => [does, "copy", call, (value) => one(value)]));
  if (OF_INTL.includes(name)) {
    const intl = new Intl.NumberFormat(name);
    const cents = new Intl.NumberFormat(name, { minimumFractionDigits: 2, maximumFractionDigits: 2 });
    const { separator, decimalMark } = form.resolvedOptions();
    const whole = (text) => Number(text.replaceAll(separator, ""));
    const plain = (text) => Number(text.replaceAll(separator, "").replace(decimalMark, "."));
    calls.push(
      ["print", "other", "`intl.format(n)`", (n) => intl.format(n)],
      ["print", "other", "`n.toLocaleString()`", (n) => n.toLocaleString(name)],
      ["print, bigint", "other", "`intl.format(n)`", (n) => intl.format(n)],
      ["parse, strict", "other", '`Number(text.replaceAll(",", ""))`', whole],
      ["parse, refused", "other", '`Number(text.replaceAll(",", ""))`', (text) => Number.isNaN(whole(text))],
      ["decimal, print", "other", "`intl.format(String(d))`", (d) => cents.format(String(d))],
      ["decimal, parse", "other", '`Number(text.replaceAll(",", ""))`', plain],
    );
  }
  return calls.map(([does, role, call, one]) => new Way([does, role, call], one, ...given[does]));
}

// Measures the calls of each operation in turn, until each had so many seconds, and prints them.
function measure(cell, all) {
  for (const operation of new Set(all.map((way) => way.line[0]))) {
    const group = all.filter((way) => way.line[0] === operation && way.given.length > 0);
    const end = performance.now() + seconds * 1000 * group.length;
    do for (const way of group) way.turn();
    while (performance.now() < end);
    for (const way of group) {
      const [does, role, call] = way.line;
      console.log([does, cell, role, call, way.shown()].join("\t"));
    }
  }
}

for (const cell of readdirSync(join(folder, "cells")).filter((name) => name.startsWith("i64 ")).sort()) {
  measure(cell, ways(join(folder, "cells", cell), cell.split(" ")[1]));
}

// Writes into docs/DIFFERENCES.md what Intl of this Node prints otherwise, by the package of packages/js/build.
//
//     node tools/beside_intl.mjs            # writes it
//     node tools/beside_intl.mjs --check    # compares it, where this Node has the CLDR that is named there
//
// Under each locale that Intl has, in the digits 0 to 9, are compared the numbers NUMBERS. With --check the exit status is
// 1 where the document has something else.
import { readFileSync, writeFileSync } from "node:fs";
import { NumberFormat, initSync, locales } from "../packages/js/src/node.js";

const DOCUMENT = new URL("../docs/DIFFERENCES.md", import.meta.url);
const MARKS = /(<!-- tools\/beside_intl.mjs writes: intl -->\n\n)(.*?)(\n\n<!-- end -->)/s;
const NUMBERS = [1234, 12345, 123456, 1234567, -5.5];

/** What a locale's numbers have otherwise in Intl. */
const KINDS = {
  "1234 without a separator": ({ ours, intl }) => ours("1234") !== intl("1234") && /^\d+$/.test(intl("1234")),
  "another separator": ({ ours, intl }) => separator(ours("1234567")) !== separator(intl("1234567")),
  "other groups in 1234567": ({ ours, intl }) => groups(ours("1234567")) !== groups(intl("1234567")),
  "another minus sign": ({ ours, intl }) => ours("-5.5").split("5")[0] !== intl("-5.5").split("5")[0],
  "another decimal mark": ({ ours, intl }) => ours("-5.5").split("5")[1] !== intl("-5.5").split("5")[1],
};

const separator = (text) => /^\d+(\D+)/.exec(text)?.[1];
const groups = (text) => text.split(/\D+/).map((group) => group.length).join();

function printers(name) {
  const [form, intl] = [new NumberFormat(name), new Intl.NumberFormat(name, { numberingSystem: "latn" })];
  return { ours: form.format, intl: (number) => intl.format(number) };
}

/** The names of the set: of a language most of whose locales are in it those that are not. */
function shortened(set, compared) {
  const languages = new Set(compared.map((name) => name.split("-")[0]));
  return [...languages].flatMap((language) => {
    const names = compared.filter((name) => name.split("-")[0] === language);
    const [found, others] = [names.filter((name) => set.has(name)), names.filter((name) => !set.has(name))];
    if (found.length <= 1 || found.length <= 2 * others.length) return found.map(quoted);
    return [`all \`${language}\`${others.length ? ` but ${others.map(quoted).join(" and ")}` : ""}`];
  });
}

const quoted = (name) => `\`${name}\``;

/** The words that the document has. */
function written() {
  // Intl has no tag `root`, and other symbols for one that is no locale of its own.
  const names = locales().filter((name) => name !== "root" && name !== "en-US-POSIX");
  const compared = Intl.NumberFormat.supportedLocalesOf(names);
  const differ = compared.filter((name) => {
    const { ours, intl } = printers(name);
    return NUMBERS.map(String).some((number) => ours(number) !== intl(number));
  });
  const rows = Object.entries(KINDS).map(([what, isSo]) => [what, new Set(differ.filter((name) => isSo(printers(name))))]);
  const found = rows.filter(([, set]) => set.size);
  const table = found.map(([what, set]) => `|${what}|${set.size}|${shortened(set, compared).join(", ")}|`);
  const { cldr, icu } = process.versions;
  const head = `Intl of CLDR ${cldr} (ICU ${icu}) prints otherwise under ${differ.length} of ${compared.length} locales:`;
  return [head, "", "|What|Locales|Which|", "|---|---:|---|", ...table].join("\n");
}

initSync();
const text = readFileSync(DOCUMENT, "utf8");
const [, before, found, after] = MARKS.exec(text);
if (process.argv[2] !== "--check") {
  writeFileSync(DOCUMENT, text.replace(MARKS, () => before + written() + after));
} else if (!found.startsWith(`Intl of CLDR ${process.versions.cldr} `)) {
  console.log("skipped docs/DIFFERENCES.md, Intl: this Node has another CLDR");
} else if (found !== written()) {
  console.log("docs/DIFFERENCES.md, Intl: run node tools/beside_intl.mjs");
  process.exitCode = 1;
}

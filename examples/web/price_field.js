// A price field: people type as their keyboard has it, and the form submits `price=1234.50`.
import { Decimal, NumberFormat, init, locales } from "num-format-proved";

const DECIMALS = 2;

// What is said of a text that is refused, by its cause. What stands under Misspelled is said of causes that lack here.
const WORDS = {
  en: {
    Unexpected: "This cannot be in a number:", OtherNumeral: "This is no digit here:", NoDigit: "A number has digits.",
    DigitsLost: "It has more than two decimals.", OutOfRange: "It is too large.", Misspelled: "Write it like",
  },
  de: {
    Unexpected: "Das gehört in keine Zahl:", OtherNumeral: "Das ist hier keine Ziffer:", NoDigit: "Es fehlen Ziffern.",
    DigitsLost: "Mehr als zwei Nachkommastellen.", OutOfRange: "Zu große Zahl.", Misspelled: "Schreiben Sie es wie",
  },
  fr: {
    Unexpected: "Ceci ne va pas dans un nombre :", OtherNumeral: "Ce n’est pas un chiffre ici :",
    NoDigit: "Il manque des chiffres.", DigitsLost: "Il y a plus de deux décimales.",
    OutOfRange: "Le nombre est trop grand.", Misspelled: "Écrivez-le comme",
  },
  ar: {
    Unexpected: "هذا لا يكون في عدد:", OtherNumeral: "هذا ليس رقما هنا:", NoDigit: "العدد له أرقام.",
    DigitsLost: "أكثر من منزلتين عشريتين.", OutOfRange: "العدد كبير جدا.", Misspelled: "اكتبه هكذا:",
  },
};
const RIGHT_TO_LEFT = /^(ar|ckb|fa|he|ks|lrc|mzn|pa-Arab|ps|sd|ug|ur|uz-Arab|yi)\b/;

const form = document.querySelector("form");
const { locale, native, price } = form.elements;
const [hint, error] = form.querySelectorAll("p");
let formats, words, submitted;

/** Takes the locale and the digits that are chosen. */
function choose() {
  const before = formats && read();
  // What is printed comes first: the digits that people type or paste may be others.
  const digits = [native.checked ? "native" : "latn", "latn", "native", "arab", "arabext", "deva", "fullwide"];
  formats = digits.map((name) => new NumberFormat(`${locale.value}-u-nu-${name}`, { decimals: DECIMALS }));
  const language = locale.value.split("-")[0];
  words = WORDS[language] ?? WORDS.en;
  hint.lang = error.lang = WORDS[language] ? language : "en";
  hint.dir = error.dir = words === WORDS.ar ? "rtl" : "ltr";
  form.dir = RIGHT_TO_LEFT.test(locale.value) ? "rtl" : "ltr";
  hint.textContent = `${words.Misspelled} ${formats[0].format("1234.5")}`;
  if (before?.state === "number") price.value = formats[0].format(before.value);
  check(true);
}

/** What the field has, in the digits in which most of it is a number. */
function read() {
  const reach = ({ state, index = Number.MAX_VALUE }) => (state === "number" ? Infinity : index);
  const results = formats.map((format) => format.tryParse(price.value, { mode: "keyboard" }));
  const best = results.reduce((one, other) => (reach(other) > reach(one) ? other : one));
  if (best.state !== "number" || Decimal.compare(best.value, best.value.rescale(DECIMALS, "trunc")) === 0) return best;
  return { state: "refused", cause: "DigitsLost" };
}

/** Has the form submit what the field has, or not at all, and says why: at once only if a character is wrong. */
function check(isDone) {
  const { state, value, cause, index } = read();
  const said = state === "refused" ? words[cause] ?? hint.textContent : "";
  price.setCustomValidity(said === words.Misspelled ? hint.textContent : said);
  submitted = state === "number" ? value.rescale(DECIMALS).toString() : "";
  const isShown = said !== "" && (isDone || index !== undefined);
  price.setAttribute("aria-invalid", isShown);
  error.textContent = isShown ? `${price.validationMessage} ` : "";
  if (isShown && index !== undefined) mark(index);
  return { state, value };
}

/** Marks the character that is wrong in a copy of the text. */
function mark(index) {
  const [wrong, copy] = [document.createElement("mark"), document.createElement("bdi")];
  wrong.textContent = String.fromCodePoint(price.value.codePointAt(index));
  copy.dir = "ltr";
  copy.append(price.value.slice(0, index), wrong, price.value.slice(index + wrong.textContent.length));
  error.append(copy);
}

/** Types a text at the caret, so that it can be undone. */
function type(event, text) {
  event.preventDefault();
  document.execCommand("insertText", false, text);
}

// Nothing happens between the start and the end of a composition.
price.addEventListener("input", (event) => event.isComposing || check(false));
price.addEventListener("compositionend", () => check(false));
price.addEventListener("blur", () => {
  const { state, value } = check(true);
  if (state === "number") price.value = formats[0].format(value);
});
price.addEventListener("invalid", () => check(true));
price.addEventListener("keydown", (event) => {
  // The point of the numeric pad is the decimal mark.
  if (event.code === "NumpadDecimal") type(event, formats[0].resolvedOptions().decimalMark);
});
price.addEventListener("paste", (event) => {
  const text = event.clipboardData.getData("text/plain");
  type(event, text.replace(/^\s*(\p{Sc}|[A-Z]{3}\s)|(\p{Sc}|\s[A-Z]{3})\s*$/gu, "").trim());
});
form.addEventListener("formdata", (event) => event.formData.set(price.name, submitted));
form.addEventListener("submit", (event) => {
  event.preventDefault();
  form.querySelector("output").value = new URLSearchParams(new FormData(form));
});

await init();
locale.append(...locales().map((name) => new Option(name, name)));
const [preferred = "en"] = NumberFormat.supportedLocalesOf(navigator.languages);
locale.value = new NumberFormat(preferred).resolvedOptions().locale;
locale.addEventListener("change", choose);
native.addEventListener("change", choose);
choose();

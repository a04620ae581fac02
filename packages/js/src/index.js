/** The package in browsers, with bundlers and in Deno. */
import { isStarted, startAsync, startSync } from "./library.js";

export { Decimal } from "./decimal.js";
export { FormatError, NumberError, ParseError } from "./errors.js";
export { NumberFormat, locales } from "./number_format.js";

/** Starts the library: by the module beside this package, or by a URL, a response, bytes or a compiled module. */
export async function init(source = new URL("../num_format.wasm", import.meta.url)) {
  if (isStarted()) return;
  const given = await source;
  if (typeof given === "string" || given instanceof URL) {
    await startResponse(await fetched(given));
  } else if (given instanceof Response) {
    await startResponse(given);
  } else {
    await startAsync(given);
  }
}

/** The same at once, by bytes or a compiled module. */
export function initSync(source) {
  if (!isStarted()) startSync(source);
}

async function fetched(url) {
  try {
    return await fetch(url);
  } catch (error) {
    throw new Error(`num-format: ${url} was not fetched`, { cause: error });
  }
}

async function startResponse(response) {
  const what = response.url || "what was fetched";
  if (!response.ok) throw new Error(`num-format: ${what} was not fetched: status ${response.status}`);
  await startAsync(await response.arrayBuffer(), what);
}

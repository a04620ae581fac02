/** The package in Node, which reads the module from its file. */
import { readFileSync } from "node:fs";
import { readFile } from "node:fs/promises";
import * as web from "./index.js";

export { Decimal, FormatError, NumberError, NumberFormat, ParseError, locales } from "./index.js";

const MODULE = new URL("../num_format.wasm", import.meta.url);

/** Starts the library: by the module beside this package, or by a URL, a response, bytes or a compiled module. */
export async function init(source = MODULE) {
  const given = await source;
  await web.init(isFile(given) ? await readFile(given).catch((error) => missing(given, error)) : given);
}

/** The same at once, by the module beside this package, by the URL of a file, bytes or a compiled module. */
export function initSync(source = MODULE) {
  web.initSync(isFile(source) ? readFileNow(source) : source);
}

function isFile(source) {
  return source instanceof URL && source.protocol === "file:";
}

function readFileNow(url) {
  try {
    return readFileSync(url);
  } catch (error) {
    return missing(url, error);
  }
}

function missing(url, error) {
  throw new Error(`num-format: ${url} was not read`, { cause: error });
}

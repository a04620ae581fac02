// How the library is started, and what it says where it cannot be. Each start is in a process of its own.
import assert from "node:assert/strict";
import { execFileSync } from "node:child_process";
import { readFileSync } from "node:fs";
import { test } from "node:test";

const PACKAGE = new URL("../node_modules/num-format-proved/", import.meta.url);
const MODULE = JSON.stringify(new URL("num_format.wasm", PACKAGE));

/** What a program prints that begins with these imports. */
function run(program, entry = "num-format-proved") {
  const head = `
    import { readFileSync } from "node:fs";
    import { init, initSync, NumberFormat, Decimal, locales } from "${entry}";
    const wasm = new URL(${MODULE}), bytes = readFileSync(wasm);
    const print = () => console.log(new NumberFormat("de").format(1234));
    const shown = async (call) => {
      try {
        await call();
        console.log("started");
      } catch (error) {
        console.log(error.message);
      }
    };`;
  const words = ["--input-type=module", "--eval", head + program];
  return execFileSync(process.execPath, words, { encoding: "utf8", cwd: new URL("..", import.meta.url) });
}

test("by the module beside the package", () => {
  assert.equal(run("await init(); print();"), "1.234\n");
  assert.equal(run("initSync(); print();"), "1.234\n");
});

test("by a source", () => {
  for (const source of ["bytes", "new Uint8Array(bytes).buffer", "wasm", "new WebAssembly.Module(bytes)"]) {
    assert.equal(run(`await init(${source}); print();`), "1.234\n", source);
    assert.equal(run(`initSync(${source}); print();`), "1.234\n", source);
  }
  assert.equal(run("await init(Promise.resolve(bytes)); print();"), "1.234\n");
  assert.equal(run("await init(new Response(bytes)); print();"), "1.234\n");
  assert.equal(run("await init('data:application/wasm;base64,' + bytes.toString('base64')); print();"), "1.234\n");
});

test("as browsers have it", () => {
  const web = new URL("src/index.js", PACKAGE).href;
  assert.equal(run("await init(bytes); print();", web), "1.234\n");
  assert.match(run("await shown(() => init());", web), /^num-format: file:.*num_format.wasm was not fetched\n$/);
});

test("twice", () => {
  const twice = "const form = new NumberFormat('de'); await init(); initSync(); console.log(form.format(5));";
  assert.equal(run(`await Promise.all([init(), init()]); ${twice}`), "5\n");
  const gone = new URL("gone.wasm", JSON.parse(MODULE));
  const again = "await shown(() => init(new URL('gone.wasm', wasm))); await init(); print();";
  assert.equal(run(again), `num-format: ${gone} was not read\n1.234\n`);
});

test("before it is started", () => {
  const said = "num-format: await init() comes before any other call\n";
  const sums = ["Decimal.from('1').add(1)", "Decimal.compare(1, 2)", "new Decimal(1).rescale(2)"];
  for (const call of ["new NumberFormat('de')", "locales()", ...sums]) {
    assert.equal(run(`await shown(() => ${call});`), said, call);
  }
  assert.equal(run("console.log(`${Decimal.from('12.50')}`);"), "12.50\n");
});

test("a module that is missing, cut or another one", () => {
  const none = /^num-format: .* is no WebAssembly module, or a part of one\n/;
  const cut = ["bytes.subarray(0, 1000)", "bytes.subarray(0, bytes.length - 1)", "new Uint8Array()"];
  for (const source of [...cut, "new Response('<!doctype html>')"]) {
    assert.match(run(`await shown(() => init(${source}));`), none, source);
  }
  assert.match(run("await shown(() => initSync(bytes.subarray(0, 100)));"), none);
  assert.match(run("await shown(() => initSync(new URL('gone.wasm', wasm)));"), /gone.wasm was not read\n$/);
  const missing = run("await shown(() => init(new Response('', { status: 404 })));");
  assert.equal(missing, "num-format: what was fetched was not fetched: status 404\n");
  const empty = "new Uint8Array([0, 97, 115, 109, 1, 0, 0, 0])";
  const other = run(`await shown(() => init(${empty}));`);
  assert.equal(other, "num-format: the WebAssembly module is of another version of the package\n");
});

test("the package names what it is made of", () => {
  const said = JSON.parse(readFileSync(new URL("package.json", PACKAGE), "utf8"));
  assert.equal(said.dependencies, undefined);
  assert.equal(said.type, "module");
});

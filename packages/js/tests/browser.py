#!/usr/bin/env python3
"""Drives the page of examples/web in Chromium, and replays a sample of the tables of cases there.

    python3 packages/js/tests/browser.py [SCREENSHOTS]

It needs num_format.wasm beside the package, Debian's chromium and chromium-driver, and Selenium. A server in this
process serves the repository's files, and no network is used. Into a folder SCREENSHOTS it writes what the page looks
like. It prints a line for each check. The exit status is 1 where one failed.
"""
import functools
import http.server
import re
import sys
import threading
from pathlib import Path
from urllib.parse import unquote

from selenium import webdriver
from selenium.webdriver.chrome.service import Service
from selenium.webdriver.common.by import By
from selenium.webdriver.common.keys import Keys
from selenium.webdriver.support.ui import Select

ROOT = Path(__file__).resolve().parents[3]
sys.dont_write_bytecode = True
sys.path.append(str(ROOT / "tests"))

from tally import Tally

PAGE = "/examples/web/index.html"
CASES = ROOT / "tests" / "cases"

# The page that the README shows.
README = (ROOT / "packages" / "js" / "README.md").read_text(encoding="utf-8")
README_PAGE = re.search(r"^```html\n(.*?)^```$", README, re.M | re.S)[1]

# The tables of which a sample is replayed, with the mode of their texts, and of how many cases one is.
MODES = {"decimals_parsed": "strict", "typed_decimals": "keyboard", "typed_decimals_digits": "keyboard"}
EVERY = 23

# In the page, what each case of a table of decimals gives: `ok UNITS/SCALE`, or a cause with its place in bytes.
REPLAY = """
const [cases, done] = [arguments[0], arguments[1]];
import("/packages/js/src/index.js").then(async ({ NumberFormat, init }) => {
  await init();
  const bytes = (text) => new TextEncoder().encode(text).length;
  done(cases.map(([tag, text, mode]) => {
    const found = new NumberFormat(tag).tryParse(text, { mode });
    if (found.state === "number") return `ok ${found.value.units}/${found.value.scale}`;
    if (found.state === "empty") return "err NoDigit";
    const place = found.index === undefined ? "" : ` ${bytes(text.slice(0, found.index))}`;
    return `err ${found.cause.replace("TextTooLong", "TooLong")}${place}`;
  }));
}).catch((error) => done(String(error)));
"""

# What the page shows of the field.
STATE = """
const price = document.getElementById("price");
return {
  value: price.value, red: price.getAttribute("aria-invalid") === "true", valid: price.validity.valid,
  message: price.validationMessage, error: document.getElementById("error").textContent,
  mark: document.querySelector("mark")?.textContent ?? null, hint: document.getElementById("hint").textContent,
  sent: new FormData(document.querySelector("form")).get("price"), direction: document.querySelector("form").dir,
};
"""

PASTE = """
const data = new DataTransfer();
data.setData("text/plain", arguments[0]);
const pasted = new ClipboardEvent("paste", { clipboardData: data, bubbles: true, cancelable: true });
document.getElementById("price").dispatchEvent(pasted);
"""

COMPOSE = """
const price = document.getElementById("price");
const events = [];
const sent = () => new FormData(document.querySelector("form")).get("price");
price.dispatchEvent(new CompositionEvent("compositionstart", { bubbles: true }));
price.value = arguments[0];
price.dispatchEvent(new InputEvent("input", { bubbles: true, isComposing: true }));
events.push(price.getAttribute("aria-invalid"), sent());
price.dispatchEvent(new CompositionEvent("compositionend", { bubbles: true }));
events.push(price.getAttribute("aria-invalid"), sent());
return events;
"""


# 1234.5 in Arabic digits.
ARABIC = "\u0661\u066c\u0662\u0663\u0664\u066b\u0665"


class Quiet(http.server.SimpleHTTPRequestHandler):
    """Serves files and the page of the README, and says nothing."""

    extensions_map = {**http.server.SimpleHTTPRequestHandler.extensions_map, ".js": "text/javascript"}

    def do_GET(self):
        if self.path != "/readme.html":
            return super().do_GET()
        self.send_response(200)
        self.send_header("Content-Type", "text/html")
        self.end_headers()
        self.wfile.write(README_PAGE.replace("./num-format-proved/", "/packages/js/").encode())

    def log_message(self, *_):
        pass


class Page:
    """The page in a browser."""

    def __init__(self, browser, address, tally):
        self.browser, self.address, self.tally = browser, address, tally

    def open(self, locale, has_native=False):
        """Opens the page anew, and chooses a locale."""
        self.browser.get(self.address + PAGE)
        self.browser.execute_async_script("""const done = arguments[0];
            const look = () => document.getElementById("hint").textContent ? done() : setTimeout(look, 20); look();""")
        Select(self.find("locale")).select_by_value(locale)
        if has_native:
            self.find("native").click()

    def find(self, name):
        return self.browser.find_element(By.ID, name)

    def state(self):
        return self.browser.execute_script(STATE)

    def type(self, text):
        self.find("price").send_keys(text)
        return self.state()

    def paste(self, text):
        self.browser.execute_script("document.getElementById('price').focus()")
        self.browser.execute_script(PASTE, text)
        return self.state()

    def blur(self):
        self.browser.execute_script("document.activeElement.blur()")
        return self.state()

    def clear(self):
        self.find("price").send_keys(Keys.CONTROL, "a", Keys.NULL, Keys.DELETE)

    def send(self):
        """Sends the form, and returns what is submitted."""
        self.browser.find_element(By.TAG_NAME, "button").click()
        return self.browser.find_element(By.TAG_NAME, "output").text

    def compare(self, name, found, **wanted):
        self.tally.compare(name, {key: found[key] for key in wanted}, wanted)


def check_locales(page):
    """What is typed under each locale is regrouped on blur and submitted as programs have it."""
    rows = [
        # The locale, whether with its digits, what is typed, what blur makes of it, what is submitted.
        ("de", False, "1.234,5", "1.234,50", "1234.50"),
        ("de", False, " 1234,50", "1.234,50", "1234.50"),
        ("fr", False, "1 234,5", "1\u202f234,50", "1234.50"),
        ("sv", False, "-5", "\u22125,00", "-5.00"),
        ("hi", False, "12,34,567.5", "12,34,567.50", "1234567.50"),
        ("ar-EG", True, ARABIC.replace("\u066c", ""), f"{ARABIC}\u0660", "1234.50"),
        ("ja", False, "\uff11\uff12\uff13\uff14\uff0e\uff15", "1,234.50", "1234.50"),
        ("he", False, "-1,234.5", "\u200e-1,234.50", "-1234.50"),
    ]
    for locale, has_native, typed, shown, submitted in rows:
        page.open(locale, has_native)
        page.compare(f"{locale}: typed", page.type(typed), value=typed, red=False, valid=True, error="", sent=submitted)
        page.compare(f"{locale}: blur", page.blur(), value=shown, red=False, valid=True, sent=submitted)
        page.tally.compare(f"{locale}: submitted", page.send(), f"price={submitted}")
        page.compare(f"{locale}: direction", page.state(), direction="rtl" if locale[:2] in ("ar", "he") else "ltr")


def check_typing(page):
    """The field is red while a character is wrong, never while a number may follow, and says why on blur."""
    page.open("de")
    for key, sent in ("1", "1.00"), (".", ""), ("2", ""), ("3", ""), ("4", "1234.00"), (",", ""), ("5", "1234.50"):
        page.compare(f"de: {key}", page.type(key), red=False, error="", sent=sent)
    page.compare("de: a letter", page.type("x"), red=True, valid=False, mark="x", sent="", value="1.234,5x")
    page.compare("de: a letter less", page.type(Keys.BACKSPACE), red=False, valid=True, error="", sent="1234.50")
    page.clear()
    page.compare("de: misspelled, typed", page.type("1.23"), red=False, valid=False, sent="", error="")
    wanted = {"red": True, "valid": False, "value": "1.23", "message": "Schreiben Sie es wie 1.234,50", "mark": None}
    page.compare("de: misspelled, left", page.blur(), **wanted)
    page.tally.compare("de: not sent", page.send(), "")
    page.clear()
    page.compare("de: empty", page.blur(), red=False, valid=False, error="")
    wanted = {"red": False, "valid": False, "message": "Mehr als zwei Nachkommastellen."}
    page.compare("de: three decimals", page.type("1,234"), **wanted)
    page.clear()
    page.compare("de: more zeros", page.type("1,500"), valid=True, sent="1.50")
    page.find("price").send_keys(Keys.ENTER)
    page.tally.compare("de: Enter", page.browser.find_element(By.TAG_NAME, "output").text, "price=1.50")


def check_keys(page):
    """The numeric pad's point is the mark, and what is typed can be undone."""
    page.open("de")
    page.type("12")
    for kind in "rawKeyDown", "keyUp":
        key = {"type": kind, "code": "NumpadDecimal", "key": ".", "windowsVirtualKeyCode": 110, "location": 3}
        page.browser.execute_cdp_cmd("Input.dispatchKeyEvent", key)
    page.compare("the numeric pad", page.type("5"), value="12,5", sent="12.50")
    page.type(Keys.CONTROL + "z" + Keys.NULL)
    page.tally.compare("undone", page.state()["value"] in ("12,", "12", ""), True)


def check_paste(page):
    """Currencies at the ends are left out of what is pasted."""
    for locale, text, value, sent in [
        ("de", "1.234,50 \u20ac", "1.234,50", "1234.50"),
        ("de", "EUR 1.234,50", "1.234,50", "1234.50"),
        ("de", "\u20ac\u00a012,50\n", "12,50", "12.50"),
        ("en", "$1,234.50", "1,234.50", "1234.50"),
        ("ja", "\uffe5\uff11\uff0c\uff12\uff13\uff14", "\uff11\uff0c\uff12\uff13\uff14", "1234.00"),
        ("ar-EG", "\u0661\u0662\u066b\u0665\u0660", "\u0661\u0662\u066b\u0665\u0660", "12.50"),
    ]:
        page.open(locale)
        page.compare(f"{locale}: pasted {text!r}", page.paste(text), value=value, red=False, valid=True, sent=sent)
    page.open("de")
    page.type("5")
    page.compare("de: pasted after 5", page.paste("6,5 \u20ac"), value="56,5", sent="56.50")


def check_composition(page):
    """Nothing is said between the start and the end of a composition."""
    page.open("ja")
    for text, is_red, sent in ("\uff11\uff12x", "true", ""), ("\uff11\uff12", "false", "12.00"):
        page.open("ja")
        page.tally.compare("composition", page.browser.execute_script(COMPOSE, text), ["false", "", is_red, sent])


def check_words(page):
    """The cause is told in the language of the locale, at the character."""
    for locale, said in [
        ("en", "This cannot be in a number: 12\U0001f6003"),
        ("de", "Das geh\u00f6rt in keine Zahl: 12\U0001f6003"),
        ("fr", "Ceci ne va pas dans un nombre : 12\U0001f6003"),
        ("ar-EG", "هذا لا يكون في عدد: 12\U0001f6003"),
        ("hi", "This cannot be in a number: 12\U0001f6003"),
    ]:
        page.open(locale)
        wanted = {"error": said, "mark": "\U0001f600", "red": True, "valid": False}
        page.compare(f"{locale}: words", page.paste("12\U0001f6003"), **wanted)
    page.open("de")
    page.paste("5,5")
    Select(page.find("locale")).select_by_value("en")
    page.compare("another locale", page.state(), value="5.50", sent="5.50", hint="Write it like 1,234.50")
    described = page.find("price").get_attribute("aria-describedby").split()
    page.tally.compare("aria-describedby", [bool(page.find(name)) for name in described], [True, True])
    page.tally.compare("inputmode", page.find("price").get_attribute("inputmode"), "decimal")


def check_readme(page):
    """The page of the README, in the language of the browser."""
    page.browser.get(f"{page.address}/readme.html")
    page.browser.execute_async_script("""const done = arguments[0];
        const look = () => document.forms[0].price.onblur ? done() : setTimeout(look, 20); look();""")
    field = page.browser.find_element(By.NAME, "price")
    script = """const { price } = document.forms[0];
        return [price.value, price.validationMessage, new FormData(price.form).get("price")];"""
    field.send_keys("1234,5x")
    page.tally.compare("README: refused", page.browser.execute_script(script), ["1234,5x", "Write it like 1.234,50", ""])
    field.send_keys(Keys.BACKSPACE, Keys.TAB)
    page.tally.compare("README: left", page.browser.execute_script(script), ["1.234,50", "", "1234.50"])


def check_widths(page, folder):
    """Nothing is wider than the window. Screenshots are written."""
    for width, height in (360, 640), (1280, 800):
        page.browser.set_window_size(width, height)
        for locale in "de", "ar-EG":
            page.open(locale)
            page.paste("1x")
            script = "const { scrollWidth, clientWidth } = document.documentElement; return scrollWidth - clientWidth;"
            page.tally.compare(f"{locale}: {width} pixels", page.browser.execute_script(script), 0)
            if folder:
                page.browser.save_screenshot(str(folder / f"{locale}-{width}.png"))


def check_all_locales(page):
    """Each locale can be chosen."""
    page.open("en")
    names = [option.get_attribute("value") for option in Select(page.find("locale")).options]
    script = "import('/packages/js/src/index.js').then(({ locales }) => arguments[0](locales()));"
    page.tally.compare("locales", names, page.browser.execute_async_script(script))
    script = """return Array.from(document.getElementById("locale").options, ({ value }) => {
        document.getElementById("locale").value = value;
        document.getElementById("locale").dispatchEvent(new Event("change"));
        return document.getElementById("hint").textContent;
    }).filter((hint) => !hint).length"""
    page.tally.compare("a hint in each locale", page.browser.execute_script(script), 0)


def check_cases(page):
    """A sample of the tables of decimals, as in Node."""
    cases, wanted = [], []
    for table, mode in MODES.items():
        lines = (CASES / f"{table}.tsv").read_text(encoding="ascii").splitlines()
        for form, text, result in [line.split("\t") for line in lines if line[0] != "#"][::EVERY]:
            if form.startswith("locale:") and "NotUtf8" not in result:
                cases.append([unquote(form.partition(":")[2]), unquote(text), mode])
                wanted.append(result)
    found = page.browser.execute_async_script(REPLAY, cases)
    differ = [row for row in zip(cases, found, wanted) if row[1] != row[2]] if isinstance(found, list) else found
    page.tally.compare(f"{len(cases)} cases", differ, [])


def check_start(page):
    """A module that is missing or cut has a clear error, and a later one starts."""
    page.browser.get(f"{page.address}/packages/js/README.md")
    for source, wanted in [
        ("'/gone.wasm'", "num-format: http://[..]/gone.wasm was not fetched: status 404"),
        ("'/README.md'", "num-format: http://[..]/README.md is no WebAssembly module, or a part of one"),
        ("undefined", "started"),
    ]:
        script = f"""import("/packages/js/src/index.js").then(({{ init }}) => init({source}))
            .then(() => arguments[0]("started"), (error) => arguments[0](error.message));"""
        said = page.browser.execute_async_script(script)
        page.tally.compare(f"init({source})", re.sub(r"127[\d.:]+", "[..]", said), wanted)


CHECKS = [check_start, check_locales, check_typing, check_keys, check_paste, check_composition, check_words]
CHECKS += [check_all_locales, check_cases, check_readme]


def main():
    folder = Path(sys.argv[1]) if len(sys.argv) > 1 else None
    serve = functools.partial(Quiet, directory=str(ROOT))
    server = http.server.ThreadingHTTPServer(("127.0.0.1", 0), serve)
    threading.Thread(target=server.serve_forever, daemon=True).start()
    options = webdriver.ChromeOptions()
    options.binary_location = "/usr/bin/chromium"
    for word in "--headless=new", "--no-sandbox", "--disable-gpu", "--disable-dev-shm-usage":
        options.add_argument(word)
    options.add_experimental_option("prefs", {"intl.accept_languages": "xx,de-DE,en"})
    # Without a network, but for this server.
    options.add_argument("--host-resolver-rules=MAP * ~NOTFOUND, EXCLUDE 127.0.0.1")
    options.set_capability("goog:loggingPrefs", {"browser": "ALL"})
    browser = webdriver.Chrome(service=Service("/usr/bin/chromedriver"), options=options)
    browser.set_script_timeout(120)
    tally = Tally()
    page = Page(browser, f"http://127.0.0.1:{server.server_address[1]}", tally)
    try:
        print(browser.capabilities["browserName"], browser.capabilities["browserVersion"], flush=True)
        for check in CHECKS:
            check(page)
        check_widths(page, folder)
        logged = [entry["message"] for entry in browser.get_log("browser") if entry["level"] == "SEVERE"]
        errors = [message for message in logged if not re.search("gone.wasm|favicon", message)]
        tally.compare("no errors in the console", errors, [])
    finally:
        browser.quit()
        server.shutdown()
    tally.end()


if __name__ == "__main__":
    main()

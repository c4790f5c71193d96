"""The page of a message in a real browser: chromium without a window, driven by python3-selenium.

  browser.py PACKAGE [FOLDER]    PACKAGE is the folder that has the package mabristu. In FOLDER a picture of each state is left

Run by a Python that has selenium; where that, chromium or chromium-driver is missing it says so, and passes.
"""
import base64
import os
import subprocess
import sys
import tempfile
import time

EXAMPLES = os.path.join(os.path.dirname(os.path.realpath(__file__)), "../../../examples")
# A package and a message with names that would be markup.
HOSTILE = 'syntax = "proto3"; package x; message T { string a = 1; repeated string more = 2; T inner = 3; map<int32, T> by = 4; }'


def browser():
    """A browser, or why there is none."""
    try:
        from selenium import webdriver
        from selenium.webdriver.chrome.service import Service
    except ImportError:
        return None, "python3-selenium"
    if not os.access("/usr/bin/chromedriver", os.X_OK):
        return None, "chromium-driver"
    options = webdriver.ChromeOptions()
    for word in ("--headless=new", "--no-sandbox", "--disable-gpu", "--disable-dev-shm-usage", "--window-size=1200,900"):
        options.add_argument(word)
    options.set_capability("goog:loggingPrefs", {"browser": "ALL"})
    return webdriver.Chrome(service=Service("/usr/bin/chromedriver"), options=options), ""


class Checks:
    def __init__(self, driver, package, pictures):
        self.driver, self.package, self.pictures, self.wrong = driver, package, pictures, []

    def serve(self, *words):
        environment = {**os.environ, "PYTHONPATH": self.package}
        return subprocess.Popen([sys.executable, "-m", "mabristu.inspect", *words], cwd=EXAMPLES, env=environment, stdout=subprocess.PIPE, text=True)

    def run(self, script, *words):
        return self.driver.execute_script(script, *words)

    def by(self, element):
        return self.driver.find_element("css selector", element)

    # What the page holds is read by one script: the page may replace an element between two commands of the driver.
    def text(self, element):
        return self.run("const it = document.querySelector(arguments[0]); return it === null ? '' : it.textContent", element)

    def texts(self, elements):
        return self.run("return Array.from(document.querySelectorAll(arguments[0]), it => it.textContent.trim())", elements)

    def rows(self):
        return self.texts("#tree .row")

    def wait(self, what, is_so):
        end = time.time() + 20
        while time.time() < end:
            if is_so():
                return
            time.sleep(0.05)
        self.wrong.append(what)

    def check(self, what, is_so):
        if not is_so:
            self.wrong.append(what)

    def picture(self, name):
        if self.pictures:
            self.driver.save_screenshot(f"{self.pictures}/{name}.png")

    def open(self, url):
        self.driver.get(url)
        self.wait(f"{url[:4]}: the verdict", lambda: self.text("#verdict") != "")


def keys(checks, element, *pressed):
    for key in pressed:
        checks.by(element).send_keys(key)


def a_message(checks):
    from selenium.webdriver.common.action_chains import ActionChains
    from selenium.webdriver.common.keys import Keys
    with checks.serve("--set", "shop.set", "--type", "shop.Order", "shop_order.bin") as server:
        try:
            checks.open(server.stdout.readline().strip())
            checks.check("the verdict of a message", checks.text("#verdict").startswith("A message of shop.Order, 118 bytes."))
            rows = checks.rows()
            checks.check("the fields with names, types and values", "number uint64 4711" in rows and 'article string "bolt M8"' in rows[3] and "state enum SENT (1)" in rows)
            keys(checks, "#tree", Keys.HOME, Keys.ARROW_DOWN, Keys.ARROW_DOWN, Keys.ARROW_DOWN)
            checks.check("the keyboard chooses", checks.text("#detail").startswith("article"))
            marked = checks.texts("#bytes .byte.tag, #bytes .byte.length, #bytes .byte.payload")
            checks.check("the bytes of the chosen field are marked", " ".join(marked) == "0a 07 62 6f 6c 74 20 4d 38")
            chosen = checks.run("return document.getElementById(document.querySelector('#tree').getAttribute('aria-activedescendant')).outerHTML")
            checks.check("the chosen row is named", 'aria-selected="true"' in chosen and 'aria-level="2"' in chosen)
            ActionChains(checks.driver).move_to_element(checks.by('#bytes [data-at="50"]')).perform()
            checks.wait("pointing at a byte chooses its field", lambda: checks.text("#detail").startswith("article") and "torque wrench" in checks.text("#detail"))
            keys(checks, "#tree", Keys.HOME)
            checks.by("#new-value").send_keys("12")
            checks.by("#change button").click()
            checks.wait("a value is changed", lambda: "number uint64 12" in checks.rows())
            checks.check("the bytes change with it", checks.text("#bytes").startswith("00000000  080c12"))
            checks.run("document.querySelector('details').open = true")
            checks.by("#pasted").send_keys("08 d2 09")
            checks.by("#compare").click()
            checks.wait("messages are compared", lambda: "differences" in checks.text("#differences h2") and "1234" in checks.text("#rows"))
            checks.by("#look").click()
            checks.wait("pasted bytes are shown", lambda: checks.rows() == ["number uint64 1234"])
            checks.run("document.getElementById('pasted').value = 'CNIJ/w=='")
            checks.by("#look").click()
            checks.wait("a fault has its byte", lambda: checks.text("#verdict").startswith("Refused at byte"))
            checks.check("the fault is marked", len(checks.driver.find_elements("css selector", "#bytes .fault")) == 1)
            checks.check("the fields before it are shown", checks.rows() == ["number uint64 1234"])
            checks.picture("fault")
            checks.driver.set_window_size(390, 844)
            wide = checks.run("return document.documentElement.scrollWidth <= document.documentElement.clientWidth")
            checks.check("a phone's width is enough", wide)
            checks.picture("phone")
            checks.driver.set_window_size(1200, 900)
        finally:
            server.kill()


def a_stream(checks, folder):
    from selenium.webdriver.common.keys import Keys
    with open(f"{EXAMPLES}/shop_order.bin", "rb") as it:
        whole = it.read()
    with open(f"{folder}/stream", "wb") as it:
        it.write((bytes([len(whole)]) + whole + b"\x02\xff\xff") * 600)
    with checks.serve("--set", "shop.set", "--type", "shop.Order", "--frames", f"{folder}/stream") as server:
        try:
            checks.open(server.stdout.readline().strip())
            frames = lambda: checks.run("return Array.from(document.querySelectorAll('#frame-list [role=option]'), it => it.className)")
            checks.check("frames are listed, the bad ones marked", len(frames()) == 500 and frames()[1] == "bad")
            checks.by("#more-frames").click()
            checks.wait("more frames come", lambda: len(frames()) == 1000)
            keys(checks, "#frame-list", Keys.ARROW_DOWN)
            checks.wait("a bad frame is opened", lambda: checks.text("#verdict").startswith("Refused at byte"))
            checks.picture("frames")
        finally:
            server.kill()


def one_file(checks, folder):
    with open(f"{folder}/x.proto", "w", encoding="utf-8") as it:
        it.write(HOSTILE)
    text = "<script>document.title='run'</script><img src=x onerror=\"document.title='run'\">\u202e\0"
    data = b"\x0a" + bytes([len(text.encode())]) + text.encode()
    with open(f"{folder}/<b>hostile", "wb") as it:
        it.write(data)
    environment = {**os.environ, "PYTHONPATH": checks.package}
    words = [sys.executable, "-m", "mabristu.inspect", "--proto", folder, "--type", "x.T", f"{folder}/<b>hostile", "--out", f"{folder}/page.html"]
    subprocess.run(words, env=environment, check=True)
    checks.open(f"file://{folder}/page.html")
    checks.check("a string with markup is text", "<script>" in checks.rows()[0] and checks.driver.title != "run" and not checks.driver.find_elements("css selector", "#tree img"))
    checks.check("a name with markup is text", "<b>hostile" in checks.text("#name"))
    checks.check("without a server nothing is changed", not checks.by("#change").is_displayed())


def a_large_message(checks, folder):
    with open(f"{folder}/large", "wb") as it:
        it.write(b"\x12\x0aabcdefghij" * (1_000_000 // 12))
    environment = {**os.environ, "PYTHONPATH": checks.package}
    words = [sys.executable, "-m", "mabristu.inspect", "--set", f"{EXAMPLES}/shop.set", "--type", "shop.Order", f"{folder}/large", "--out", f"{folder}/large.html"]
    subprocess.run(words, env=environment, check=True)
    checks.driver.get(f"file://{folder}/large.html")
    checks.wait("a megabyte is shown", lambda: checks.text("#verdict") != "")
    took = checks.run("const began = performance.now(); show(bytes, said); return performance.now() - began")
    checks.check("only the rows in sight are made", len(checks.driver.find_elements("css selector", ".row")) < 300)
    return took


def main(words):
    package, pictures = words[0], words[1] if len(words) > 1 else None
    driver, missing = browser()
    if driver is None:
        print(f"page: not looked at in a browser, as {missing} is not here")
        return 0
    checks = Checks(driver, package, pictures)
    try:
        with tempfile.TemporaryDirectory() as folder:
            a_message(checks)
            a_stream(checks, folder)
            one_file(checks, folder)
            took = a_large_message(checks, folder)
        said = [it["message"] for it in driver.get_log("browser") if it["level"] == "SEVERE" and "favicon" not in it["message"]]
        checks.check(f"the browser complains: {said[:3]}", not said)
    finally:
        driver.quit()
    for it in checks.wrong:
        print(f"page: WRONG: {it}")
    print(f"page: {'wrong in a browser' if checks.wrong else f'right in a browser; a megabyte is shown in {took:.0f} ms'}")
    return 1 if checks.wrong else 0


if __name__ == "__main__":
    sys.exit(main(sys.argv[1:]))

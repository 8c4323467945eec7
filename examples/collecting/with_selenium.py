"""Collects a page by Selenium: /usr/bin/python3 examples/collecting/with_selenium.py ADDRESS [ADDRESS-TO-WRITE] > page.json

Run it at the top of the repository.
"""
import pathlib
import sys

from selenium import webdriver
from selenium.common.exceptions import JavascriptException
from selenium.webdriver.chrome.service import Service

source = pathlib.Path("silvervole/collect/snapshot.js").read_text(encoding="utf-8")

options = webdriver.ChromeOptions()
options.binary_location = "/usr/bin/chromium"
options.add_argument("--headless=new")
options.add_argument("--no-sandbox")  # only where it runs as root
options.add_argument("--disable-dev-shm-usage")
options.add_argument("--window-size=1280,900")

browser = webdriver.Chrome(service=Service("/usr/bin/chromedriver"), options=options)
try:
    # Takes note of what components say by ElementInternals, which can't be asked for later.
    internals = pathlib.Path("silvervole/collect/internals.js").read_text(encoding="utf-8")
    browser.execute_cdp_cmd("Page.addScriptToEvaluateOnNewDocument", {"source": internals})
    browser.get(sys.argv[1])
    # Sign in, open a menu, wait for a list: what the page needs stands here.
    address = sys.argv[2] if len(sys.argv) > 2 else None
    text = browser.execute_script("return (" + source + ")(arguments[0], { shadow: true })", address)
except JavascriptException as error:
    sys.exit(error.msg.splitlines()[0])
finally:
    browser.quit()
sys.stdout.buffer.write(text.encode("utf-8"))

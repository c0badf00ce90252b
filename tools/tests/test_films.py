"""The film of a command, its cost, and the words of editors, over the examples.

It needs pytest, and the programs, built by tools/build or by `rt ci`; the page is driven if chromium, its driver and selenium are there
(Debian: chromium, chromium-driver, python3-selenium).
"""

import base64
import hashlib
import json
import os
import pathlib
import re
import shutil
import subprocess
import sys

import pytest
from card import program_path

TOP = pathlib.Path(__file__).resolve().parent.parent.parent
TOOLS = TOP / "tools" / "mel"
PURSE = TOP / "examples" / "purse.draft"
DEBIT = 23


def tool(name, *words):
    """What a tool does."""
    return subprocess.run([sys.executable, str(TOOLS / name), *map(str, words)], stdout=subprocess.PIPE, stderr=subprocess.PIPE, text=True, check=False)


def dumped(*further, until=DEBIT):
    """The static bytes of the purse after the front of its deck and some lines."""
    deck = subprocess.run([program_path("meldesk"), "deck"], stdin=open(PURSE, "rb"), stdout=subprocess.PIPE, text=True, check=True).stdout
    lines = [*deck.splitlines()[:until], *further, "dump A000000002"]
    played = subprocess.run([program_path("melcard"), "play"], input="".join(f"{it}\n" for it in lines), stdout=subprocess.PIPE, text=True, check=True)
    return played.stdout.split()[-1]


@pytest.fixture(name="page", scope="module")
def _page():
    made = tool("film.py", PURSE, DEBIT)
    assert (made.returncode, made.stderr) == (0, "")
    return made.stdout


def data(page):
    """What a page was made of."""
    return json.loads(re.search(r'<script id="film" type="application/json">(.*?)</script>', page).group(1))


def statics(film, at):
    """The static bytes at a moment of a film, by its rows."""
    values = {}
    for turn in film["turns"][:at + 1]:
        values.update(turn["set"])
    rows = next(it for it in film["panels"][0]["groups"] if it["name"] == "Static")["rows"]
    return "".join(values[str(it["cell"])].split()[0] for it in rows)


def test_a_film_agrees_with_dumps(page):
    film = data(page)
    assert statics(film, 0) == dumped(until=DEBIT - 1) != dumped()
    assert statics(film, len(film["turns"]) - 1) == dumped()
    assert film["result"] == "000300029000"


def test_each_write_of_a_film_is_the_card_after_its_cut(page):
    film, apdu = data(page), "apdu 8001000004"
    assert len(film["cuts"]) == 6
    for write, outcome in enumerate(film["cuts"], 1):
        card = dumped(f"cut {write} {'00' * 8}", apdu, "power", until=DEBIT - 1)
        assert film["outcomes"][outcome]["word"] == {dumped(until=DEBIT - 1): "before", dumped(): "after"}[card]
        assert [row[4] for row in film["outcomes"][outcome]["rows"]] == [card[:4], card[4:]]


def test_a_film_stands_alone(page):
    assert not re.search(r"https?://|src=|@import|url\(", page) and page.count("</script>") == 2


def test_a_film_lets_a_browser_run_its_own_script_alone(page):
    policy = re.search(r'<meta http-equiv="Content-Security-Policy" content="([^"]*)">', page)
    assert policy and policy.start() < page.index("<style>")
    rules = dict(it.split(" ", 1) for it in policy.group(1).split("; "))
    assert (rules["default-src"], rules["base-uri"], rules["form-action"]) == ("'none'",) * 3
    for tag in ("script", "style"):
        content = re.search(f"<{tag}>(.*?)</{tag}>", page, re.DOTALL).group(1)
        assert rules[f"{tag}-src"] == f"'sha256-{base64.b64encode(hashlib.sha256(content.encode()).digest()).decode()}'"
    assert not re.search(r"<[^>]* (style|on\w+)=", page)


def test_a_film_has_the_same_bytes_in_each_locale(page, tmp_path):
    draft = tmp_path / "purse.draft"
    draft.write_bytes(PURSE.read_bytes() + "# é – ü\n".encode())
    locales = [{}, {"LC_ALL": "C", "PYTHONUTF8": "0", "PYTHONCOERCECLOCALE": "0"}, {"PYTHONIOENCODING": "latin-1"}]
    made = [subprocess.run([sys.executable, str(TOOLS / "film.py"), str(draft), str(DEBIT)], stdout=subprocess.PIPE, stderr=subprocess.PIPE,
                           env={**os.environ, **it}, check=False) for it in locales]
    assert [(it.returncode, it.stderr) for it in made] == [(0, b"")] * 3
    assert made[0].stdout == made[1].stdout == made[2].stdout and "▶".encode() in made[0].stdout


def test_a_film_of_a_line_that_runs_nothing_is_refused():
    made = tool("film.py", PURSE, 17)
    assert (made.returncode, "runs no application" in made.stderr) == (1, True)
    assert tool("film.py", TOP / "examples/no.draft", 1).returncode == 2


def test_costs_are_those_of_the_play():
    made = tool("cost.py", PURSE)
    rows = [line.split() for line in made.stdout.splitlines()]
    assert [row[:3] for row in rows[1:]] == [["21", "7", "6"], ["23", "7", "6"], ["26", "3", "0"], ["17", "12", "3"]]
    swept = subprocess.run([program_path("mellab"), "sweep"], input=subprocess.run(
        [program_path("meldesk"), "deck"], stdin=open(PURSE, "rb"), stdout=subprocess.PIPE, check=True).stdout, stdout=subprocess.PIPE, check=True)
    assert "line 23 writes 6:" in swept.stdout.decode()


def test_the_words_of_editors_are_the_assemblers():
    done = subprocess.run([sys.executable, str(TOP / "tools" / "dev" / "make"), "--check", "words"], check=False)
    assert done.returncode == 0


def test_the_grammar_and_the_extension_are_whole():
    folder = TOP / "tools" / "editors" / "vscode"
    package = json.loads((folder / "package.json").read_text(encoding="utf-8"))["contributes"]
    for path in [it["path"] for it in package["grammars"]] + [it["configuration"] for it in package["languages"]] + [package["debuggers"][0]["program"]]:
        assert (folder / path).is_file()
    grammar = json.loads((folder / package["grammars"][0]["path"]).read_text(encoding="utf-8"))
    found = [next(it["name"] for it in grammar["patterns"] if re.search(it["match"], text)) for text in
             ("#> 9000", "# text", "load purse", "add: NOP", " INCN", " EXIT", "STATIC", " 0x10")]
    assert [it.split(".")[0] for it in found] == ["string", "comment", "keyword", "entity", "keyword", "keyword", "storage", "constant"]


def test_warnings_are_warnings_in_vs_code():
    matcher = json.loads((TOP / "tools" / "editors" / "vscode" / "package.json").read_text(encoding="utf-8"))["contributes"]["problemMatchers"][0]
    draft = b"format\npower\napp a A000000001\nCONST unused 5\n EXIT\nend\nnonsense\n"
    written = subprocess.run([program_path("meldesk"), "explain", "a.draft"], input=draft, stdout=subprocess.PIPE, check=False).stdout.decode()
    pattern, found = matcher["pattern"], []
    for line in written.splitlines():
        parts = re.match(pattern["regexp"], line)
        # A word that is no severity is the matcher's own.
        said = parts.group(pattern["severity"])
        found.append((said if said in ("error", "warning", "info") else matcher["severity"], parts.group(pattern["code"])))
    assert ("warning", "warning") in found and ("error", "BadLine") in found


def test_the_page_promises_no_button_that_vs_code_does_not_have():
    package = json.loads((TOP / "tools" / "editors" / "vscode" / "package.json").read_text(encoding="utf-8"))
    section = (TOP / "docs" / "DEBUGGING.md").read_text(encoding="utf-8").partition("VS Code: ")[2].partition("Neovim")[0]
    assert "launch.json" in section and ("main" in package or "button" not in section)


# ---- the page in a browser


@pytest.fixture(name="browser", scope="module")
def _browser():
    webdriver = pytest.importorskip("selenium.webdriver")
    service = pytest.importorskip("selenium.webdriver.chrome.service")
    driver = shutil.which("chromedriver")
    if driver is None or shutil.which("chromium") is None:
        pytest.skip("there is no chromium with its driver")
    options = webdriver.ChromeOptions()
    for word in ("--headless=new", "--no-sandbox", "--disable-gpu"):
        options.add_argument(word)
    browser = webdriver.Chrome(service=service.Service(driver), options=options)
    yield browser
    browser.quit()


@pytest.mark.parametrize("width, height", [(1280, 800), (420, 860)])
def test_a_film_goes_forward_and_back_by_its_keys(browser, page, tmp_path, width, height):
    from selenium.webdriver.common.keys import Keys
    path = tmp_path / "film.html"
    path.write_text(page, encoding="utf-8")
    browser.set_window_size(width, height)
    browser.get(path.as_uri())
    body = browser.find_element("tag name", "body")

    def shown():
        rows = browser.execute_script("return [...document.querySelectorAll('tr[data-name]')].filter(it => !it.hidden && "
                                      "['payer', 'payee'].includes(it.dataset.name)).map(it => it.dataset.value.split(' ')[0])")
        return browser.execute_script("return document.body.dataset.at"), "".join(rows)

    assert shown() == ("0", "00040001")
    body.send_keys(Keys.ARROW_RIGHT, Keys.ARROW_RIGHT)
    assert shown() == ("2", "00030001")
    assert browser.execute_script("return [...document.querySelectorAll('tr.changed')].some(it => it.dataset.name === 'payer')")
    assert browser.find_element("css selector", "#source .now span").text == "11"
    body.send_keys(Keys.ARROW_LEFT)
    assert shown() == ("1", "00040001")
    body.send_keys(Keys.END)
    assert shown() == ("7", dumped())
    body.send_keys("W")
    assert browser.execute_script("return document.querySelectorAll('#writes .done').length") == 6
    body.send_keys(Keys.HOME, "p")
    assert "device write 1" in browser.find_element("id", "off").text and "0004" in browser.find_element("id", "off").text
    browser.find_element("css selector", "#writes button:last-of-type").click()
    assert "After" in browser.find_element("id", "off").text
    assert browser.execute_script("return document.documentElement.scrollWidth <= window.innerWidth")
    assert browser.get_log("browser") == []


@pytest.mark.parametrize("width", [390, 320])
def test_no_button_of_a_film_breaks_in_a_narrow_window(browser, page, tmp_path, width):
    path = tmp_path / "film.html"
    path.write_text(page, encoding="utf-8")
    browser.get("about:blank")
    browser.execute_cdp_cmd("Emulation.setDeviceMetricsOverride", {"width": width, "height": 844, "deviceScaleFactor": 1, "mobile": True})
    try:
        browser.get(path.as_uri())
        assert browser.execute_script("return window.innerWidth") == width
        heights = browser.execute_script("return [...document.querySelectorAll('#controls button')].map(it => it.getClientRects()[0].height)")
        assert len(heights) == 5 and max(heights) < 1.2 * min(heights) and max(heights) < 32
        assert browser.execute_script("return [...document.querySelectorAll('button')].every(it => it.scrollWidth <= it.offsetWidth)")
        assert browser.execute_script("return document.documentElement.scrollWidth") <= width
        assert browser.execute_script("return document.getElementById('slider').offsetWidth") > 150
        assert browser.get_log("browser") == []
    finally:
        browser.execute_cdp_cmd("Emulation.clearDeviceMetricsOverride", {})


def test_a_page_that_was_changed_runs_nothing(browser, page, tmp_path):
    path = tmp_path / "film.html"
    path.write_text(page.replace("<body>", "<body><img src=x onerror=\"document.title='in'\"><script>document.title='in'</script>"), encoding="utf-8")
    browser.get(path.as_uri())
    assert browser.execute_script("return document.title") == "purse.draft, line 23"
    assert any("Content Security Policy" in it["message"] for it in browser.get_log("browser"))

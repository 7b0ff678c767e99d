"""The page of `show --html`: what stands in it, and what a browser makes of it.

The browser is headless Chromium: the environment variable ETGLAVINO_CHROMIUM
names it, or it is found as `chromium`. Where there is none its tests are
skipped, and say so."""

import base64
import hashlib
import html
import html.parser
import os
import re
import shutil
import subprocess
import unittest

from tool import LIST, SYNTAX, Case

CHROMIUM = os.environ.get("ETGLAVINO_CHROMIUM") or shutil.which("chromium")
HOSTILE = b"""(a "<script>document.title='owned'</script>" "<img src=x onerror=alert(1)>" "&lt;" #00ff#)"""

POINTS = """{
const at = (selector) => document.querySelector(selector);
const marked = () => [...document.querySelectorAll(".marked")].map((part) => part.closest("section").id);
const point = (selector) => at(selector).dispatchEvent(new MouseEvent("mouseover", { bubbles: true }));
const said = [];
point("#octets [data-node='2']");
said.push(marked().join(), at("#place").textContent);
point("#tree [data-node='1']");
said.push(marked().join(), at("#octets .marked").textContent);
document.title = said.join("; ");
}"""


SEEN = """window.addEventListener("load", () => requestAnimationFrame(() => {
const wrong = document.getElementById("wrong"), box = wrong.getBoundingClientRect();
const sight = document.getElementById("octets").getBoundingClientRect();
document.title = [wrong.textContent, document.activeElement === wrong ? "focus" : "elsewhere",
  box.top >= sight.top && box.bottom <= sight.bottom ? "in sight" : "out of sight"].join(", ");
}));"""


class Reader(html.parser.HTMLParser):
    """The nodes of each section in order, the text of what is preformatted, what is
    marked of it, and every tag."""

    def __init__(self) -> None:
        super().__init__()
        self.section, self.nodes, self.text, self.marked, self.tags = "", {}, "", "", []
        self.inside: list[str] = []

    def handle_starttag(self, tag, attributes) -> None:
        given = dict(attributes)
        self.tags.append(tag)
        if tag != "meta":
            self.inside.append(tag)
        if tag == "section":
            self.section = given["id"]
        if "data-node" in given:
            self.nodes.setdefault(self.section, []).append(int(given["data-node"]))

    def handle_endtag(self, tag) -> None:
        assert self.inside.pop() == tag, tag

    def handle_data(self, data) -> None:
        if "pre" in self.inside:
            self.text += data
        if "mark" in self.inside:
            self.marked += data


class Page(Case):
    def page(self, source: bytes) -> str:
        status, out, said = self.run_tool("show", "--html", source=source)
        self.assertEqual((status, said), (0, b""))
        return out.decode()

    def test_nodes_and_octets(self) -> None:
        reader = Reader()
        reader.feed(self.page(LIST))
        self.assertEqual(reader.nodes, {"tree": [0, 1, 2], "octets": [0, 1, 2]})
        self.assertEqual(reader.text, LIST.decode())
        self.assertEqual(reader.inside, [])

    def test_data_stay_text(self) -> None:
        page = self.page(HOSTILE)
        reader = Reader()
        reader.feed(page)
        self.assertEqual(reader.tags.count("script"), 1)
        self.assertNotIn("img", reader.tags)
        self.assertIn("39:<script>document.title='owned'</script>", reader.text)
        self.assertIn(r"4:&lt;2:\x00\xff)", reader.text)

    def test_a_name_stays_text(self) -> None:
        name = "<b>&\"'.sexp"
        self.file(name, LIST)
        _, out, _ = self.run_tool("show", "--html", name)
        self.assertNotIn(b"<b>&\"", out)
        self.assertIn(b"<title>&lt;b&gt;&amp;&quot;&#39;.sexp</title>", out)

    def test_the_policy_knows_the_script(self) -> None:
        page = self.page(LIST)
        (script,) = re.findall(r"<script>(.*?)</script>", page, re.S)
        digest = base64.b64encode(hashlib.sha256(script.encode()).digest()).decode()
        self.assertIn(f"script-src 'sha256-{digest}'", page)
        self.assertIn("default-src 'none'", page)

    def refused(self, source: bytes, *more: str) -> str:
        """The page of a refused text, which goes to a file and not to standard output."""
        page = self.file("refused.html", b"an old page")
        self.fails(1, b"refused ", "show", "--html", "--output", "refused.html", *more, source=source)
        self.assertEqual(self.names(), ["refused.html"])
        return page.read_text()

    def test_a_refused_text_is_never_on_standard_output(self) -> None:
        self.fails(1, SYNTAX, "show", "--html", source=b"(")
        self.fails(1, SYNTAX, "show", "--html", "--output", "-", source=b"(")
        # What is no page is left as it is everywhere: the old file stays.
        self.file("lines", b"old")
        self.fails(1, SYNTAX, "show", "--output", "lines", source=b"(")
        self.assertEqual((self.folder / "lines").read_bytes(), b"old")

    def test_the_page_of_a_refused_text(self) -> None:
        for form, source, words, before, mark, after in (
            ("advanced", b"(shift\n <b>ann)", "from octet 8 on", "(shift\\x0a\n ", "<", "b>ann)"),
            ("terminal", b"(a {KCk} {KCkp})", "from octet 13 on", "(a {KCk} {KCk", "p", "})"),
            ("canonical", b"3:abcX", "from octet 5 on", "3:abc", "X", ""),
            ("canonical", b"(4:a\nb\n\xff\x00)", "from octet 7 on", "(4:a\\x0a\nb\\x0a\n", r"\xff", r"\x00)"),
            ("canonical", b"1:a\n\n", "from octet 3 on", "1:a", r"\x0a", "\n\\x0a\n"),
            ("canonical", b"(3:ab", "cut short after 5 octets", "(3:ab", "", ""),
            ("canonical", b"", "cut short after 0 octets", "", "", ""),
        ):
            page = self.refused(source, "--from", form)
            reader = Reader()
            reader.feed(page)
            self.assertEqual(reader.inside, [])
            self.assertIn(f"refused 3: the source is not in the form&#39;s language, <a href=\"#wrong\">{words}</a>.", page)
            self.assertIn(f"{len(source)} octets, read as {form} text.", page)
            self.assertTrue(reader.text.endswith(before + mark + after), reader.text)
            self.assertEqual(reader.marked, mark)
            (behind,) = re.findall(r"<mark.*?</mark>(.*?)</pre>", page, re.S)
            self.assertEqual(html.unescape(re.sub("<.*?>", "", behind)), after)

    def test_a_refused_text_stays_text(self) -> None:
        reader = Reader()
        page = self.refused(b"(1:a" + HOSTILE, "--from", "canonical")
        reader.feed(page)
        for tag in ("script", "img"):
            self.assertNotIn(tag, reader.tags)
        self.assertIn("<script>document.title='owned'</script>", reader.text)
        self.assertIn("&amp;lt;", page)
        self.assertIn("default-src 'none'", page)

    def test_refusals_without_a_place(self) -> None:
        for number, source in ((2, b"a".ljust(40_000)), (4, b"(" * 200 + b")" * 200), (6, b"a" * 16_379)):
            page = self.refused(source)
            self.assertIn(f"refused {number}: ", page)
            self.assertNotIn("<mark", page)
            self.assertIn(source[:32_768].decode(), page)

    def test_a_page_that_cannot_be_written(self) -> None:
        answer = self.run_tool("show", "--html", "--output", "folder/page", "--from=canonical", source=b"03:")
        self.assertEqual(answer[:2], (2, b""))
        said = answer[2].splitlines()
        self.assertEqual((len(said), said[1:3]), (4, [b"  03:", b"   ^"]))
        self.assertTrue(said[3].startswith(b"etglavino: folder/page: No such file"), said)

    @unittest.skipUnless(CHROMIUM, "there is no Chromium")
    def test_in_a_browser(self) -> None:
        page = self.page(b'(abc [x]"")')
        # Pointing is done by a script beside the page's own, which its policy would stop.
        policy = re.compile(r"<meta http-equiv=[^>]*>")
        pointing = policy.sub("", page).replace("</body>", f"<script>{POINTS}</script></body>")
        self.assertNotEqual(pointing, page)
        dom = self.dom(pointing)
        said = "tree,octets; node 2, at 0/1, octets 6 to 13; tree,octets; 3:abc"
        self.assertIn(f"<title>{said}</title>", dom)
        # A node is marked by the address too.
        self.assertEqual(self.dom(page, "#2").count('class="marked"'), 2)
        self.assertEqual(self.dom(page).count('class="marked"'), 0)

    @unittest.skipUnless(CHROMIUM, "there is no Chromium")
    def test_data_stay_text_in_a_browser(self) -> None:
        dom = self.dom(self.page(HOSTILE))
        self.assertIn("<title>standard input</title>", dom)
        self.assertIn("&lt;script&gt;", dom)
        self.assertNotIn("<img", dom)
        # And the policy stops what would get through.
        through = self.page(LIST).replace("<main>", "<main><script>document.title='owned'</script>")
        self.assertIn("<title>standard input</title>", self.dom(through))

    @unittest.skipUnless(CHROMIUM, "there is no Chromium")
    def test_a_refused_text_in_a_browser(self) -> None:
        page = self.refused(b"(1:a" + HOSTILE, "--from", "canonical")
        long = self.refused(b"(20000:" + b"a\n" * 10_000 + b"X" + b"()" * 3000, "--from", "canonical")
        dom = self.dom(page)
        self.assertIn("<title>standard input</title>", dom)
        self.assertRegex(dom, "<pre>\\(1:a\\(<mark [^>]*>a</mark> \"&lt;script&gt;")
        self.assertNotIn("<script", dom)
        self.assertNotIn("<img", dom)
        # The place has the focus, and is in sight however long the text is.
        policy = re.compile(r"<meta http-equiv=[^>]*>")
        dom = self.dom(policy.sub("", long).replace("</body>", f"<script>{SEEN}</script></body>"))
        self.assertIn("<title>X, focus, in sight</title>", dom)

    def dom(self, page: str, where: str = "") -> str:
        path = self.file("page.html", page.encode())
        done = subprocess.run(
            [CHROMIUM, "--headless", "--no-sandbox", "--disable-gpu", "--dump-dom", f"file://{path}{where}"],
            capture_output=True,
            text=True,
            env=os.environ | {"HOME": str(self.folder)},
            timeout=60,
            check=True,
        )
        return done.stdout


if __name__ == "__main__":
    unittest.main()

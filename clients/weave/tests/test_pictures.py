"""Pictures of answers are files beside the text, which are there before it names them."""
import hashlib
import os
from typing import List

from .support import Case, fences

SVG = '<svg xmlns="http://www.w3.org/2000/svg" width="{0}" height="9"><rect width="{0}" height="9"/></svg>'
PNG = "iVBORw0KGgoAAAANSUhEUgAAAAEAAAABCAYAAAAfFcSJAAAADUlEQVR42mNkYPhfDwAChwGA60e6kgAAAABJRU5ErkJggg=="


def name_of(data: str) -> str:
    return hashlib.sha256(data.encode()).hexdigest()[:20] + ".svg"


class Pictures(Case):
    def files(self) -> List[str]:
        folder = self.place("text.pictures")
        return sorted(os.listdir(folder)) if os.path.isdir(folder) else []

    def document(self, *lines: str) -> str:
        return self.front("a") + fences([("a", "\n".join(lines))])

    def test_files(self) -> None:
        woven = self.weave(self.document("picture so|image/svg+xml|" + SVG.format(9), "picture |image/png;base64|" + PNG))
        svg, png = name_of(SVG.format(9)), next(name for name in self.files() if name.endswith(".png"))
        self.assertEqual(self.files(), sorted([svg, png]))
        self.assertIn(f"```tmhost-answer\nso\n```\n\n<!-- tmhost-answer -->\n\n![](text.pictures/{svg})\n\n<!-- /tmhost-answer -->\n", woven)
        self.assertIn(f"![](text.pictures/{png})", woven)
        self.assertEqual(self.read(self.place(f"text.pictures/{svg}")), SVG.format(9))
        self.assertEqual(self.weave(woven), woven)
        self.assertEqual(self.run_weave("--check", self.text).status, 0)

    def test_one_that_is_gone_is_written_again(self) -> None:
        woven = self.weave(self.document("picture |image/svg+xml|" + SVG.format(9)))
        os.unlink(self.place("text.pictures/" + name_of(SVG.format(9))))
        checked = self.run_weave("--check", self.text)
        self.assertEqual((checked.status, checked.output), (1, f"{self.text}: the picture {name_of(SVG.format(9))} isn't there\n"))
        self.assertEqual(self.weave(woven), woven)
        self.assertEqual(self.files(), [name_of(SVG.format(9))])

    def test_others_go(self) -> None:
        woven = self.weave(self.document("picture |image/svg+xml|" + SVG.format(9)))
        self.write("mine", self.place("text.pictures/mine.svg"))
        again = self.weave(woven.replace(f"|{SVG.format(9)}", f"|{SVG.format(8)}"))
        self.assertIn(name_of(SVG.format(8)), again)
        self.assertEqual(self.files(), sorted([name_of(SVG.format(8)), "mine.svg"]))
        os.unlink(self.place("text.pictures/mine.svg"))
        self.weave(self.document("say no"))
        self.assertFalse(os.path.exists(self.place("text.pictures")))

    def test_what_is_no_harmless_picture_stays_text(self) -> None:
        scripted = SVG.format(9).replace("<rect", "<script>1</script><rect")
        woven = self.weave(self.document("picture |image/svg+xml|" + scripted, "picture |image/png;base64|QUJD"))
        self.assertIn(f"```tmhost-answer\n{{image/svg+xml: {len(scripted)} bytes}}\n```", woven)
        self.assertIn("```tmhost-answer\n{image/png;base64: 4 bytes}\n```", woven)
        self.assertEqual(self.files(), [])

    def test_in_a_list(self) -> None:
        woven = self.weave(self.front("a") + "- item\n- ```a\n  picture so|image/svg+xml|" + SVG.format(9) + "\n  ```\n")
        self.assertIn(f"  so{{image/svg+xml: {len(SVG.format(9))} bytes}}\n", woven)
        self.assertEqual(self.files(), [])

    def test_elsewhere(self) -> None:
        """The pictures are beside the text that shows them, and none is written by a check."""
        self.write(self.document("picture |image/svg+xml|" + SVG.format(9)))
        os.mkdir(self.place("out"))
        out = self.place("out/a b(1).md")
        self.assertEqual(self.run_weave("--output", out, self.text).status, 0)
        self.assertEqual(os.listdir(self.place("out/a b(1).pictures")), [name_of(SVG.format(9))])
        self.assertIn(f"![](a%20b%281%29.pictures/{name_of(SVG.format(9))})", self.read(out))
        self.assertEqual(self.files(), [])
        self.assertEqual(self.run_weave("--output", out, "--check", self.text).status, 0)

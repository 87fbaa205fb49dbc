"""What tmhost-prose --png makes of the SVG in a notebook."""
import base64
import json
import shutil
import struct
import subprocess
import unittest

from tmhost_import.png import LEFT_OUT, png_of, with_png

from .support import COMMAND, Case, code

PROSE = COMMAND.replace("tmhost-import", "tmhost-prose")
SVG = '<svg xmlns="http://www.w3.org/2000/svg" xmlns:xlink="http://www.w3.org/1999/xlink" width="30" height="20">%s</svg>'
RECT = '<rect width="30" height="20" fill="#ff0000"/>'
SCRIPT = '<script>alert(1)</script><g onload="alert(1)"/><image xlink:href="file:///etc/hostname" width="9" height="9"/>'
ENTITIES = '<!DOCTYPE svg [<!ENTITY a "aaaaaaaaaa">' + "".join(f'<!ENTITY {"abcdefghij"[n]} "{("&" + "abcdefghij"[n - 1] + ";") * 10}">' for n in range(1, 10)) + "]>"
# What isn't drawn.
NOT_DRAWN = ["<svg", SVG % "<g", "<script>alert(1)</script>", SVG.replace('"30"', '"2000000000"') % RECT, ENTITIES + SVG % "<text>&j;</text>", "\x00", ""]


def shown(svg: str) -> dict[str, object]:
    return {"data": {"image/svg+xml": svg, "text/plain": "A picture (SVG)"}, "metadata": {}, "output_type": "display_data"}


def exported(*outputs: object) -> bytes:
    """A notebook as tmhost export writes it."""
    shows: dict[str, object] = {**code("x", "py", id="field-1")}
    shows["outputs"] = outputs
    cells = [shows, code("# Head", "prose", id="field-2")]
    return json.dumps({"cells": cells, "metadata": {}, "nbformat": 4, "nbformat_minor": 5}, ensure_ascii=False, separators=(",", ":"), sort_keys=True).encode()


@unittest.skipUnless(shutil.which("rsvg-convert"), "there is no rsvg-convert (Debian's package librsvg2-bin)")
class Pictures(Case):
    def test_drawn(self) -> None:
        """A picture has twice the dots, its own size, and the same bytes each time; a script in it is gone."""
        for inner in (RECT, RECT + SCRIPT, "<text>\u03c0 &amp; \"x\" \\</text>"):
            with self.subTest(inner):
                drawn = with_png(exported(shown(SVG % inner)))
                self.assertEqual((drawn.count, drawn.failed), (1, 0))
                output = json.loads(drawn.data)["cells"][0]["outputs"][0]
                self.assertEqual((output["output_type"], output["metadata"]), ("display_data", {"image/png": {"height": 20, "width": 30}}))
                self.assertEqual(sorted(output["data"]), ["image/png", "text/plain"])
                png = base64.b64decode(output["data"]["image/png"])
                self.assertEqual(struct.unpack(">II", png[16:24]), (60, 40))
                self.assertEqual(png_of((SVG % inner).encode()), png)

    def test_not_drawn(self) -> None:
        for svg in NOT_DRAWN:
            with self.subTest(svg[:50]):
                drawn = with_png(exported(shown(svg)))
                self.assertEqual((drawn.count, drawn.failed), (0, 1))
                self.assertEqual(json.loads(drawn.data)["cells"][0]["outputs"], [json.loads(LEFT_OUT)])

    def test_all_else(self) -> None:
        """What only looks like such an output is text, and stays."""
        text = json.dumps(shown(SVG % RECT), separators=(",", ":"), sort_keys=True)
        png = {"data": {"image/png": "iVBO", "text/plain": "A picture (PNG)"}, "metadata": {}, "output_type": "display_data"}
        for output in ({"name": "stdout", "output_type": "stream", "text": text}, png):
            data = exported(output)
            self.assertEqual(with_png(data).data, data)

    def test_command(self) -> None:
        given = exported(shown(SVG % RECT), shown("<svg"))
        done = subprocess.run([PROSE, "--png"], input=given, capture_output=True)
        self.assertEqual((done.returncode, done.stderr.decode()), (0, "tmhost-prose: pictures that rsvg-convert didn't draw, and that are left out: 1\n"))
        cells = json.loads(done.stdout)["cells"]
        self.assertEqual([cell["cell_type"] for cell in cells], ["code", "markdown"])
        self.assertEqual(list(cells[0]["outputs"][0]["data"]), ["image/png", "text/plain"])
        refused = subprocess.run([PROSE, "--png"], input=b"```sh\nx\n```\n\n*no answer*\n", capture_output=True)
        self.assertEqual((refused.returncode, refused.stdout, refused.stderr), (1, b"", b"tmhost-prose: --png is for a notebook\n"))


if __name__ == "__main__":
    unittest.main()

"""Which bytes are pictures, and as what they stand in an answer."""
import base64
import unittest

import pictures
from blocks import Part

BODY = b'<svg xmlns="http://www.w3.org/2000/svg"><g/></svg>\n'
# What programs write before it.
FRONTS = [
    b"", b"\n", b"\xef\xbb\xbf", b'<?xml version="1.0"?>', b'<?xml version="1.0" encoding="UTF-8" standalone="no"?>\n', b"<!-- a plot -->\n<!-- of x > y -->",
    b"<?xml version='1.0' encoding='utf-8'?>\n<!DOCTYPE svg PUBLIC \"-//W3C//DTD SVG 1.1//EN\"\n \"http://www.w3.org/Graphics/SVG/1.1/DTD/svg11.dtd\">\n<!-- a plot -->\n",
]
OTHERS = [b"", b"GIF89a", b"<svgs/>", b"<html><svg/></html>", b"text <svg/>", b'<!DOCTYPE svg [<!ENTITY a "b">]><svg/>']


class Pictures(unittest.TestCase):
    def test_svg(self) -> None:
        """Nothing stands before it, so that any reader of a notebook takes it."""
        for front in FRONTS:
            with self.subTest(front):
                self.assertEqual(pictures.picture(front + BODY), Part(BODY, b"image/svg+xml"))

    def test_size(self) -> None:
        """One without a size, as those of Octave, has that of what it shows."""
        for root, wanted in (
            (b'<svg \n viewBox="0 0 418 314" id="a">', b'<svg width="418" height="314" \n viewBox="0 0 418 314" id="a">'), (b"<svg viewBox='-1,-2.5,3 4.5'/>", b"<svg width=\"3\" height=\"4.5\" viewBox='-1,-2.5,3 4.5'/>"),
            (b'<svg viewBox="0 0 4 3" width="9">', b'<svg viewBox="0 0 4 3" width="9">'), (b'<svg viewBox="0 0 4 -3">', b'<svg viewBox="0 0 4 -3">'), (b"<svg>", b"<svg>"),
            (b'<svg><g viewBox="0 0 4 3"/>', b'<svg><g viewBox="0 0 4 3"/>'),
        ):
            with self.subTest(root):
                self.assertEqual(pictures.picture(root + BODY), Part(wanted + BODY, b"image/svg+xml"))

    def test_another_encoding(self) -> None:
        """It stays with its declaration, without which it would be another one."""
        latin = '<?xml version="1.0" encoding="iso-8859-1"?><svg>\xe4</svg>'.encode("latin-1")
        self.assertEqual(pictures.picture(latin), Part(latin, b"image/svg+xml"))

    def test_others(self) -> None:
        for data in OTHERS:
            with self.subTest(data):
                self.assertIsNone(pictures.picture(data))
        for data, format in ((b"\x89PNG\r\n\x1a\nx", b"image/png;base64"), (b"\xff\xd8\xffx", b"image/jpeg;base64")):
            self.assertEqual(pictures.picture(data), Part(base64.b64encode(data), format))


if __name__ == "__main__":
    unittest.main()

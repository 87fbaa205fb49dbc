"""How tmhost-weave and tmhost-import read a CommonMark text: its front matter, its fences, and the fields that these are."""

"""One interpreter is stuck, and another answers beside it: `PYTHONPATH=clients/python TMHOST=./tmhost python3 examples/client.py PATH`."""
import sys

from tmhost import Worksheet

with Worksheet(sys.argv[1], create=True) as sheet:
    sheet.ensure_session("py", ["tmhost-python"])
    sheet.ensure_session("sh", ["sh", "examples/echo.sh"])
    cell, quick = sheet.new("py", "n = 6"), sheet.new("sh", "hello")
    cell.evaluate(timeout=60)
    cell.set("while True: pass")
    waiting = cell.eval()
    print(quick.evaluate(timeout=60).text)
    sheet.interrupt("py")
    print(waiting.result(timeout=60).text)
    cell.set("n * 7")
    print(cell.evaluate(timeout=60).text)

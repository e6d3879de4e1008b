"""Whether standard input is a picture, by a parser of XML; and, where rsvg-convert is installed, whether it can be painted."""
import shutil
import subprocess
import sys
import xml.dom.minidom

picture = sys.stdin.buffer.read()
xml.dom.minidom.parseString(picture)
if shutil.which("rsvg-convert"):
    subprocess.run(["rsvg-convert"], input=picture, stdout=subprocess.DEVNULL, check=True)

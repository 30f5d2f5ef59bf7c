"""One HTML file out of the page's parts and what is to be shown."""
import base64
import hashlib
import json
from pathlib import Path

HERE = Path(__file__).resolve().parent
SCRIPTS = ("data.js", "picture.js", "lanes.js", "panel.js", "lists.js", "main.js")


def as_json(value):
    """The value as JSON in which no byte can end or open an element."""
    text = json.dumps(value, separators=(",", ":"), ensure_ascii=True)
    return text.replace("<", "\\u003c").replace(">", "\\u003e").replace("&", "\\u0026")


def digest(text):
    """What the page's policy names a part by."""
    return "sha256-" + base64.b64encode(hashlib.sha256(text.encode()).digest()).decode()


def page_of(runs):
    """The page. Its policy lets nothing run or load but its own parts."""
    style = (HERE / "page.css").read_text("utf-8")
    parts = [(HERE / name).read_text("utf-8") for name in SCRIPTS]
    script = '"use strict";\n(() => {\n' + "\n".join(parts) + "})();\n"
    policy = (f"default-src 'none'; img-src data:; style-src '{digest(style)}'; "
              f"script-src '{digest(script)}'; base-uri 'none'; form-action 'none'")
    filled = (HERE / "page.html").read_text("utf-8")
    values = {"POLICY": policy, "STYLE": style, "SCRIPT": script,
              "DATA": as_json({"runs": [run.data() for run in runs]})}
    before, *behind = filled.split("{{")
    for part in behind:
        name, rest = part.split("}}", 1)
        before += values[name] + rest
    return before

"""What the trials share."""

import os
import subprocess
import sys

TOOLS = os.path.dirname(os.path.dirname(os.path.abspath(__file__)))
TOP = os.path.dirname(TOOLS)


def write(path, text):
    os.makedirs(os.path.dirname(path), exist_ok=True)
    with open(path, "w", encoding="utf-8") as file:
        file.write(text)


def read(path):
    with open(path, encoding="utf-8") as file:
        return file.read()


def tool(name, *words):
    return subprocess.run([sys.executable, os.path.join(TOOLS, name), *words], env={"PATH": "/nowhere"}, capture_output=True, text=True)

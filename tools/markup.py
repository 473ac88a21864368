"""Texts as XML takes them, for the tools that write pictures and pages."""

import re
from html import escape

# What XML 1.0 has no place for, and the control characters that it asks to avoid.
UNFIT = re.compile("[^\\t\\n -~\u00a0-\ud7ff\ue000-\ufffd\U00010000-\U0010ffff]|[\U0001fffe\U0001ffff]")


def plain(text: str) -> str:
    """A text with `?` for each character that a viewer may refuse, and marks as entities."""
    return escape(UNFIT.sub("?", text))

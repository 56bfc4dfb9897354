"""What a page draws: one that `python3 -m vicinity page` or `collection --page` writes, or that a
browser saves."""
import html
import json
import re


def drawn_in(page):
    """The object that a page draws, and the text for whom no script draws it."""
    (said,) = re.findall(
        r'(?s)<script type="application/json" id="object">(.*?)</script>', page)
    (plain,) = re.findall('(?s)<pre id="old">(.*?)</pre>', page)
    return json.loads(said), html.unescape(plain)

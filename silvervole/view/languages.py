"""The language in which a part of a page is written, so that the view can say it of what it quotes."""
from __future__ import annotations

import re

# The languages with a tag of two letters. What isn't one of them is left out: a tag that means
# nothing would be read out no better, and is among the defects that the view may be about.
KNOWN = frozenset("""
aa ab ae af ak am an ar as av ay az ba be bg bh bi bm bn bo br bs ca ce ch co cr cs cu cv cy da de dv dz ee el en eo es
et eu fa ff fi fj fo fr fy ga gd gl gn gu gv ha he hi ho hr ht hu hy hz ia id ie ig ii ik in io is it iu iw ja ji jv jw
ka kg ki kj kk kl km kn ko kr ks ku kv kw ky la lb lg li ln lo lt lu lv mg mh mi mk ml mn mo mr ms mt my na nb nd ne ng
nl nn no nr nv ny oc oj om or os pa pi pl ps pt qu rm rn ro ru rw sa sc sd se sg sh si sk sl sm sn so sq sr ss st su sv
sw ta te tg th ti tk tl tn to tr ts tt tw ty ug uk ur uz ve vi vo wa wo xh yi yo za zh zu
""".split())


def known_language(tag: str) -> str:
    """The tag where it begins with a known language; else the empty text."""
    found = re.fullmatch(r"([A-Za-z]{2})(-[A-Za-z0-9]{1,8})*", tag)
    return tag if found and found.group(1).lower() in KNOWN else ""

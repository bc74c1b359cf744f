"""The page of the board in its parts: as it is sent, and as a file that has the texts of a finished run inside."""
import base64
import hashlib
import json
import pathlib
import re

PAGE = pathlib.Path(__file__).with_name("page.html")
POLICY_MARK, TEXTS_MARK = "<!-- policy -->", "<!-- texts -->"


def digest(page, tag):
    """The sum of the page's own style or script, by which the browser knows it."""
    (text,) = re.findall(f"<{tag}>(.*?)</{tag}>", page, re.DOTALL)
    return "'sha256-" + base64.b64encode(hashlib.sha256(text.encode()).digest()).decode() + "'"


def policy_of(page):
    """What the page may do: its own style and script, its icon, requests to where it came from; and no text becomes markup."""
    return (
        f"default-src 'none'; style-src {digest(page, 'style')}; script-src {digest(page, 'script')}; img-src data:; "
        "connect-src 'self'; base-uri 'none'; form-action 'none'; require-trusted-types-for 'script'; trusted-types 'none'"
    )


def parts():
    """The policy of the header, and the page before and behind the place of a finished run's texts."""
    page = PAGE.read_text()
    for mark in (POLICY_MARK, TEXTS_MARK):
        if page.count(mark) != 1:
            raise SystemExit(f"board: {PAGE.name} has {mark} {page.count(mark)} times")
    policy = policy_of(page)
    page = page.replace(POLICY_MARK, f'<meta http-equiv="Content-Security-Policy" content="{policy}">')
    head, tail = page.split(TEXTS_MARK)
    # A page in a frame of another could be clicked on unseen. This can be said by a header alone.
    return policy + "; frame-ancestors 'none'", head, tail


def element(name, value, railway=None):
    """A line inside the page, which no browser runs and no `<` can end."""
    owner = f' data-railway="{railway}"' if railway else ""
    text = compact(value).replace("<", "\\u003c")
    return f'<script type="application/json" id="{name}"{owner}>{text}\n</script>\n'


def file_of(legs, records, railway=None):
    """The page of a finished run."""
    _, head, tail = parts()
    texts = {"legs": legs, "records": records}
    return head + "".join(element(name, value, railway) for name, value in texts.items()) + tail


def compact(value):
    """A text as the hub writes it: without blanks, the keys in byte order."""
    return json.dumps(value, separators=(",", ":"), sort_keys=True)

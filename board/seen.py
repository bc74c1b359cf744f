"""What is seen on the page of the board, read out of the browser, and what a dispatcher does there."""
import json

COPIED = """(() => {
    const rows = [...document.querySelectorAll('main tbody tr')].slice(0, 2);
    const range = document.createRange(), data = new DataTransfer();
    range.setStart(rows[0].cells[0], 0);
    range.setEnd(rows[1].cells[1], 1);
    getSelection().removeAllRanges();
    getSelection().addRange(range);
    document.dispatchEvent(new ClipboardEvent('copy', { clipboardData: data, cancelable: true }));
    getSelection().removeAllRanges();
    return data.getData('text/plain').trim().split('\\n').map((line) => line.split('\\t').slice(0, 2));
})()"""
OVERLAPS = """(() => {
    const svg = document.querySelector('main svg'), whole = svg.getBoundingClientRect();
    const boxes = [...svg.querySelectorAll('text')].map((it) => [it.textContent, it.getBoundingClientRect()]);
    const isCut = (box) => box.left < whole.left - 1 || box.right > whole.right + 1;
    const meet = (a, b) => a.left < b.right && b.left < a.right && a.top + 3 < b.bottom && b.top + 3 < a.bottom;
    const cut = boxes.filter(([, box]) => isCut(box)).map(([text]) => text + ' is cut off');
    const over = ([text, box], i) => boxes.slice(i + 1).filter((it) => meet(box, it[1])).map((it) => text + ' over ' + it[0]);
    return [...cut, ...boxes.flatMap(over)];
})()"""
FAINT = """(() => {
    const paint = document.createElement('canvas').getContext('2d', { willReadFrequently: true });
    const rgb = (color, under) => {
        for (const style of [`rgb(${under})`, color]) {
            paint.fillStyle = style;
            paint.fillRect(0, 0, 1, 1);
        }
        return [...paint.getImageData(0, 0, 1, 1).data].slice(0, 3);
    };
    const linear = (it) => it <= .04045 ? it / 12.92 : ((it + .055) / 1.055) ** 2.4;
    const light = (color) => [.2126, .7152, .0722].reduce((sum, part, i) => sum + part * linear(color[i] / 255), 0);
    const ground = (it) => it ? rgb(getComputedStyle(it).backgroundColor, ground(it.parentElement)) : [255, 255, 255];
    const hasText = (it) => [...it.childNodes].some((one) => one.nodeType === 3 && one.data.trim());
    const isSeen = (it) => it.checkVisibility() && !it.closest('.unseen, script, style, title, desc');
    return [...document.querySelectorAll('body *')].filter((it) => hasText(it) && isSeen(it)).flatMap((it) => {
        const style = getComputedStyle(it), inPicture = it instanceof SVGElement;
        const under = inPicture && style.paintOrder.startsWith('stroke') ? rgb(style.stroke, [255, 255, 255]) : ground(it);
        const lights = [rgb(inPicture ? style.fill : style.color, under), under].map(light).sort((a, b) => b - a);
        const ratio = (lights[0] + .05) / (lights[1] + .05);
        const least = parseFloat(style.fontSize) >= 18.66 && style.fontWeight >= 700 ? 3 : 4.5;
        return ratio < least ? [`${it.textContent.trim().slice(0, 30)} ${ratio.toFixed(2)}`] : [];
    });
})()"""
MAIN_ROWS = "[...document.querySelectorAll('main tbody tr:not(.group)')]"
EVENTS = "[...document.querySelectorAll('table')].at(-1)"
PICTURE = "document.querySelector('main svg')"
# The offers of the rows that are shown were read.
OFFERS = "document.querySelector('main tbody tr') && ![...document.querySelectorAll('main td')].some((it) => it.innerText === '…')"


def texts(browser, selector):
    return browser.value(f"[...document.querySelectorAll({json.dumps(selector)})].map((it) => it.textContent)")


def text(browser, selector):
    """As it is seen: without what is hidden."""
    return browser.value(f"document.querySelector({json.dumps(selector)}).innerText.trim()")


def rows(browser, cells=(0, 1, 4)):
    """Some cells of each row that is shown."""
    wanted = ",".join(f"row.cells[{it}].innerText" for it in cells)
    return [tuple(it) for it in browser.value(f"{MAIN_ROWS}.map((row) => [{wanted}])")]


def shown(browser):
    """Which rows are shown, in the page's words."""
    return browser.value("document.querySelector('.pager .rows').textContent")


def row_with(words):
    """The expression of the row that has these words."""
    return f"{MAIN_ROWS}.find((row) => row.innerText.includes({json.dumps(words)}))"


def press(browser, words):
    """Presses the button that begins with these words."""
    buttons = "[...document.querySelectorAll('main button')].filter((it) => it.checkVisibility())"
    browser.value(f"{buttons}.find((it) => it.innerText.startsWith({json.dumps(words)})).click()")


def press_title(browser, title):
    browser.value(f"document.querySelector({json.dumps(f'[title={json.dumps(title)}]')}).click()")


def press_head(browser, number=0):
    """Orders by a column. Gives the order that its head has then."""
    head = f"document.querySelectorAll('thead th')[{number}]"
    browser.value(f"{head}.querySelector('button').click()")
    return browser.value(f"{head}.getAttribute('aria-sort')")


def search(browser, words):
    browser.value("document.getElementById('search').select()")
    if words:
        browser.write(words)
    else:
        browser.press("Delete", 46)


def turn(browser, view, until="document.querySelector('main tbody tr')"):
    """Goes to a view by its address."""
    browser.value(f"location.hash = {json.dumps(view)}")
    browser.wait(until)


def open_wagon(browser, wagon, marked):
    browser.value(f"location.hash = 'wagon/{wagon}'")
    browser.wait(f"{PICTURE}?.querySelector('title').textContent.includes({json.dumps(marked)})")


def moments(browser):
    """What the picture says in its own letters, over its lanes."""
    words = ("promised ", "expected ", "arrived ", "delivered ")
    return [it for it in texts(browser, "main svg text") if it.startswith(words)]


def copied(browser):
    """The first two cells of two rows, as they are copied."""
    return browser.value(COPIED)


def select_row(browser, number=0):
    """Selects what a row has, as a dispatcher does who copies it; none where there is no number."""
    browser.value("getSelection().removeAllRanges()")
    if number is not None:
        browser.value(f"getSelection().selectAllChildren({MAIN_ROWS}[{number}])")


def overlaps(browser):
    """Texts of the picture that lie over each other, or are cut off."""
    return browser.value(OVERLAPS)


def faint(browser):
    """Texts that are not told from their ground: less than 4.5 to 1, or 3 to 1 where they are large."""
    return browser.value(FAINT)


def without_scope(browser):
    """Heads without a scope, tables without a caption, and rows of data that no key reaches."""
    heads = browser.value("[...document.querySelectorAll('th')].filter((it) => !it.scope).length")
    captions = browser.value("[...document.querySelectorAll('table')].filter((it) => !it.caption?.textContent).length")
    unreached = browser.value("[...document.querySelectorAll('.rows tbody tr:not(.group)')].filter((it) => !it.querySelector('a')).length")
    return heads, captions, unreached


def without_name(browser):
    """Controls, pictures and tables that a screen reader has no name for."""
    roles = ("button", "link", "searchbox", "textbox", "img", "image", "table")
    nodes = browser.do("Accessibility.getFullAXTree")["nodes"]
    found = [it for it in nodes if it.get("role", {}).get("value") in roles and not it.get("ignored")]
    return [it["role"]["value"] for it in found if not it.get("name", {}).get("value")]


def width(browser):
    return browser.value("document.documentElement.scrollWidth")

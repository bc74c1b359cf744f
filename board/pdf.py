"""The texts of the sheets of a PDF that Chromium printed: enough of the format to read what a sheet says."""
import re
import zlib


def objects_of(pdf):
    return {int(number): text for number, text in re.findall(rb"^(\d+) 0 obj\n?(.*?)\nendobj", pdf, re.MULTILINE | re.DOTALL)}


def stream_of(text):
    begin = text.index(b"stream\n") + len(b"stream\n")
    data = text[begin : text.rindex(b"endstream")]
    return (zlib.decompress(data) if b"/FlateDecode" in text[:begin] else data).decode("latin-1")


def letters_of(objects, font):
    """The letter of each glyph of a font, by its map."""
    found = re.search(rb"/ToUnicode (\d+) 0 R", objects[font])
    text, letters = stream_of(objects[int(found[1])]) if found else "", {}
    for block in re.findall(r"beginbfchar\n(.*?)endbfchar", text, re.DOTALL):
        for glyph, letter in re.findall(r"<(\w+)> <(\w+)>", block):
            letters[int(glyph, 16)] = bytes.fromhex(letter).decode("utf-16-be")
    for block in re.findall(r"beginbfrange\n(.*?)endbfrange", text, re.DOTALL):
        for first, last, letter in re.findall(r"<(\w+)> <(\w+)> <(\w+)>", block):
            for i in range(int(last, 16) - int(first, 16) + 1):
                letters[int(first, 16) + i] = chr(int(letter, 16) + i)
    return letters


def sheets(pdf):
    """The text of each sheet, a line for each piece that was placed by itself."""
    objects = objects_of(pdf)
    pages = [it for _, it in sorted(objects.items()) if re.search(rb"/Type\s*/Page\b", it)]
    return [sheet(objects, page) for page in pages]


def sheet(objects, page):
    fonts = {name: letters_of(objects, int(number)) for name, number in re.findall(rb"/(F\d+) (\d+) 0 R", page)}
    letters, text = {}, []
    for line in stream_of(objects[int(re.search(rb"/Contents (\d+) 0 R", page)[1])]).splitlines():
        font = re.match(r"/(F\d+) [\d.]+ Tf", line)
        if font:
            letters = fonts[font[1].encode()]
        if line.endswith(" Tm"):
            text.append("\n")
        for glyphs in re.findall(r"<(\w+)> Tj", line):
            text += [letters.get(int(glyphs[i : i + 4], 16), "?") for i in range(0, len(glyphs), 4)]
    return "".join(text)

"""Maps in a browser: what they look like, which title is at a place, and which texts meet. A module of tests/pictures,
not a script."""
import json
import os
import re
import shutil
import subprocess
import urllib.parse

from pictures_model import blocks_in, free_in, groups_of
from set_model import WIDTH, address_text, joined

BROWSERS = ("chromium", "chromium-browser", "google-chrome")
WINDOW = (1200, 1400)
DARK = "--blink-settings=preferredColorScheme=0"
# how far boxes of texts may reach into each other, in pixels: less than the room around their letters
ROOM = 0.5
# the widest character of a monospaced font, in its size
WIDE = 0.62

PAGE = """<!doctype html><meta charset="utf-8"><style>body{margin:0}</style>%s<output></output><script>
const title = ([x, y]) => {
  const found = document.elementFromPoint(x, y)
  const one = found && found.closest('svg *') && found.querySelector(':scope > title')
  return one ? one.textContent : null
}
const box = (text) => {
  const at = text.getBoundingClientRect()
  return [text.textContent, at.left, at.top, at.right, at.bottom, parseFloat(getComputedStyle(text).fontSize)]
}
const texts = [...document.querySelectorAll('svg text')].filter(text => text.textContent.trim())
document.querySelector('output').textContent =
  encodeURIComponent(JSON.stringify({titles: %s.map(title), texts: texts.map(box)}))
</script>"""


def browser():
    """The path of the browser, or None."""
    return next(filter(None, map(shutil.which, BROWSERS)), None)


def run(room, words):
    """What the browser prints."""
    ran = subprocess.run([browser(), "--headless", "--no-sandbox", "--disable-gpu", "--hide-scrollbars",
                          "--force-color-profile=srgb", "--force-device-scale-factor=1",
                          "--window-size=%d,%d" % WINDOW, "--user-data-dir=" + os.path.join(room, "profile")] + words,
                         stdout=subprocess.PIPE, stderr=subprocess.DEVNULL, timeout=120, check=False)
    return ran.stdout.decode()


def written(room, name, text):
    path = os.path.join(room, name)
    with open(path, "wb") as file:
        file.write(text)
    return path


def screenshot(room, svg, is_dark):
    """The PNG of the SVG in the browser."""
    path = os.path.join(room, "shown.png")
    shown = written(room, "shown.svg", svg)
    run(room, (["--screenshot=" + path] + [DARK] * is_dark) + ["file://" + shown])
    with open(path, "rb") as file:
        return file.read()


def looked_at(room, svg, points):
    """In a page that contains the SVG, the title at each of these points, and the texts: the text of each, its left,
    top, right and bottom, and the size of its font."""
    page = PAGE % (svg.decode(), json.dumps(points))
    shown = run(room, ["--dump-dom", "file://" + written(room, "shown.html", page.encode())])
    found = re.search(r"<output>([^<]*)</output>", shown)
    seen = json.loads(urllib.parse.unquote(found.group(1)))
    return seen["titles"], seen["texts"]


def meeting(texts):
    """A line for each two texts whose boxes meet."""
    texts = sorted(texts, key=lambda text: text[1])
    for place, (one, _, top, right, bottom, _) in enumerate(texts):
        for other, left, other_top, _, other_bottom, _ in texts[place + 1:]:
            if left > right - ROOM:
                break
            if top < other_bottom - ROOM and other_top < bottom - ROOM:
                yield "%s meets %s" % (one, other)


def too_wide(texts):
    """A line for each text that is wider than its characters may be."""
    for text, left, _, right, _, size in texts:
        if right - left > len(text) * WIDE * size + ROOM:
            yield "%s is %.1f pixels wide" % (text, right - left)


def leaving(texts, size):
    """A line for each text that is not wholly in a page of this width and height."""
    for text, left, top, right, bottom, _ in texts:
        if min(left, top) < 0 or right > size[0] or bottom > size[1]:
            yield "%s is from %.1f %.1f to %.1f %.1f" % (text, left, top, right, bottom)


def short_of(frame, first, length):
    """The label of a square: its octets or groups that the frame does not fix."""
    if frame.family == 4:
        parts, sign, bits = address_text(4, first).split("."), ".", 8
    else:
        parts, sign, bits = ["%x" % (first >> shift & 0xffff) for shift in range(112, -1, -16)], ":", 16
    own = parts[frame.length // bits:max(1, (length + bits - 1) // bits)]
    return (sign if frame.length >= bits else "") + sign.join(own or ["0"])


def is_line_of(text, name, frame):
    """Whether the text is the name of a network, or its address or its length only, with or without the octets or
    groups of the frame."""
    address, _, length = name.partition("/")
    if text in (name, address, "/" + length):
        return True
    bits, sign = (8, ".") if frame.family == 4 else (16, ":")
    left_out = frame.length // bits
    parts = address.split(sign)
    short = sign + sign.join(parts[left_out:])
    return 0 < left_out < len(parts) and text in (short, short + "/" + length)


def is_front_of(text, comment):
    """Whether the text is the front of a comment that is cut."""
    return text.endswith("..") and len(text) >= 12 and comment.startswith(text[:-2])


class Labels:
    """The labels of a map that has these entries, `(text, comment, range)`, and these names, `(network, name)`."""

    def __init__(self, a_map, origin, entries, names=(), shows_free=False):
        self.map, self.origin = a_map, origin
        frame = a_map.frame
        self.named = []
        for text, comment, a_range in entries:
            for first, length in blocks_in([a_range], frame):
                network = "{}/{}".format(address_text(frame.family, first), length)
                self.add(first, length, [network] + [text] * (network != text) + [comment] * (comment != ""))
        for network, name in names:
            self.named.append((a_map.box(network.first, network.length), [name]))
        if shows_free:
            for first, length in free_in(joined(a_range for ranges in a_map.sets for a_range in ranges), frame):
                network = "{}/{}".format(address_text(frame.family, first), length)
                self.add(first, length, ["/%d" % length, network, "largest free block"])

    def add(self, first, length, texts):
        if length <= self.map.frame.length + self.map.depth:
            self.named.append((self.map.box(first, length), texts))

    def squares_at(self, first):
        """The boxes and the labels of the squares, and of their rows, that have this address."""
        frame, groups = self.map.frame, groups_of(self.map.frame.length, self.map.depth)
        for length in {frame.length + sum(groups[:place]) + part for place, bits in enumerate(groups)
                       for part in (bits // 2, bits)}:
            bits = WIDTH[frame.family] - length
            start = first >> bits << bits
            yield self.map.box(start, length), short_of(frame, start, length)

    def faults(self, texts):
        """A line for each text in the map that is outside the rectangle that it names; '' for each inside."""
        left, top, width, height = self.origin
        for text, *sides, _ in texts:
            box = sides[0] - left, sides[1] - top, sides[2] - left, sides[3] - top
            x, y = (box[0] + box[2]) / 2, (box[1] + box[3]) / 2
            if not (0 <= x < width and 0 <= y < height):
                continue
            found = [one for one, names in self.named if contains(one, x, y) and any(
                name == text or is_front_of(text, name) or is_line_of(text, name, self.map.frame) for name in names)]
            found += [one for one, name in self.squares_at(self.map.cell_at(x, y)) if name == text]
            if not found:
                yield "%s at %d %d names nothing there" % (text, x, y)
            else:
                yield "" if any(is_inside(box, one) for one in found) else "%s leaves %s" % (text, found[0])


def contains(box, x, y):
    return box[0] <= x < box[2] and box[1] <= y < box[3]


def is_inside(box, other):
    starts = all(box[side] >= other[side] - ROOM for side in (0, 1))
    return starts and all(box[side] <= other[side] + ROOM for side in (2, 3))

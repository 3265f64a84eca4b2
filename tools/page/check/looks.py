"""How pages look: widths, colours, names for a screen reader, paper."""
import itertools

WIDTHS = ((360, 780), (1920, 1080))
# The least contrast of the words that are seen, and of any colour of words on any ground; and of the things in a picture.
CONTRAST = """(() => {
  const numbers = (colour) => colour.match(/[\\d.]+/g).map(Number);
  const part = (value) => (value <= .04045 ? value / 12.92 : ((value + .055) / 1.055) ** 2.4);
  const light = (colour) => numbers(colour).slice(0, 3).reduce((sum, it, at) => sum + part(it / 255) * [.2126, .7152, .0722][at], .05);
  const ratio = (...pair) => ((lights) => Math.max(...lights) / Math.min(...lights))(pair.map(light));
  const behind = (it) => {
    const found = getComputedStyle(it).backgroundColor;
    return it === document.documentElement || numbers(found)[3] !== 0 ? found : behind(it.parentElement);
  };
  const texts = document.createTreeWalker(document.body, NodeFilter.SHOW_TEXT);
  const ratios = [];
  while (texts.nextNode()) {
    const it = texts.currentNode.parentElement;
    if (texts.currentNode.data.trim() && it.checkVisibility()) ratios.push(ratio(getComputedStyle(it).color, behind(it)));
  }
  const colour = (name) => {
    const it = document.body.appendChild(document.createElement('p'));
    it.style.color = `var(--${name})`;
    const found = getComputedStyle(it).color;
    it.remove();
    return found;
  };
  const named = (pairs) => pairs.map((pair) => ratio(...pair.split(' on ').map(colour)));
  for (const name of ['ink', 'soft', 'accent', 'warning']) ratios.push(...named([`${name} on paper`, `${name} on card`]));
  const things = named(['wall on floor', 'goal on floor', 'accent on floor', 'box-line on floor', 'box-line on box', 'stored-line on stored']);
  return [Math.min(...ratios), Math.min(...things)];
})()"""
NAMED = ("button", "link", "textbox", "searchbox", "combobox", "slider", "spinbutton", "checkbox", "image", "region")
CONTROLS = "button, input, select, nav"


def check(that, chromium, room, folder, names):
    for name in names:
        for (width, height), dark in itertools.product(WIDTHS, (False, True)):
            chromium.look(width, height, dark)
            chromium.open((folder / name).as_uri())
            what = f"{folder.name}-{name.removesuffix('.html')}-{width}-{'dark' if dark else 'light'}"
            that(f"{what}: no wider than the window", chromium.run("document.documentElement.scrollWidth") <= width)
            words, things = chromium.run(CONTRAST)
            that(f"{what}: contrast of words, {words:.2f}", words >= 4.5)
            that(f"{what}: contrast of things, {things:.2f}", things >= 3)
            that(f"{what}: a screenshot", len(chromium.photograph(room / f"{what}.png")) > 5000)
        named(that, chromium, name)
        printed(that, chromium, room, folder, name)
    chromium.look(1280)


def named(that, chromium, name):
    """Each control has a name, as a screen reader reads it."""
    tree = chromium.call("Accessibility.getFullAXTree")["nodes"]
    controls = [node for node in tree if node.get("role", {}).get("value") in NAMED and not node.get("ignored")]
    that(f"{name}: each control has a name", [it["role"] for it in controls if not it.get("name", {}).get("value", "").strip()], [])
    that(f"{name}: there are controls", len(controls) > 5)


def printed(that, chromium, room, folder, name):
    """On paper there are pictures, all of them, and no controls."""
    chromium.look(794, 1123, media="print")
    chromium.open((folder / name).as_uri())
    that(f"{name} on paper: no control", chromium.visible(CONTROLS), 0)
    seen = chromium.each("#picture, #levels svg", "it.checkVisibility({contentVisibilityAuto: true})")
    that(f"{name} on paper: each picture", (len(seen) > 0, all(seen)), (True, True))
    chromium.photograph(room / f"{folder.name}-{name.removesuffix('.html')}-print.png")

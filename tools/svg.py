"""Parts of SVG pictures. Used by waves.py and schedule_picture.py."""
import html

FONT = "font-family='sans-serif'"


class Drawing:
    """Shapes in a picture, whose size grows with them."""

    def __init__(self):
        self.parts, self.width, self.height = [], 0, 0

    def grow(self, x, y):
        self.width, self.height = max(self.width, x), max(self.height, y)

    def text(self, x, y, words, more="", size=12):
        self.parts.append(f"<text x='{x:g}' y='{y:g}' {FONT} font-size='{size}' {more}>{html.escape(str(words))}</text>")
        self.grow(x + (7 * len(str(words)) if "middle" not in more and "end" not in more else 0), y + 4)

    def line(self, x1, y1, x2, y2, more="stroke='#333'"):
        self.parts.append(f"<line x1='{x1:g}' y1='{y1:g}' x2='{x2:g}' y2='{y2:g}' {more}/>")
        self.grow(max(x1, x2), max(y1, y2))

    def path(self, points, more="fill='none' stroke='#333'"):
        steps = " ".join(f"{'L' if k else 'M'}{x:g},{y:g}" for k, (x, y) in enumerate(points))
        self.parts.append(f"<path d='{steps}' {more}/>")
        for x, y in points:
            self.grow(x, y)

    def box(self, x, y, width, height, fill, title="", more="stroke='#555'"):
        inner = f"<title>{html.escape(title)}</title>" if title else ""
        self.parts.append(f"<rect x='{x:g}' y='{y:g}' width='{width:g}' height='{height:g}' fill='{fill}' {more}>{inner}</rect>")
        self.grow(x + width, y + height)

    def written(self):
        tip = "<defs><marker id='tip' markerWidth='6' markerHeight='6' refX='5' refY='3' orient='auto'><path d='M0,0 L6,3 L0,6 z' fill='#c00'/></marker></defs>"
        head = f"<svg xmlns='http://www.w3.org/2000/svg' width='{self.width + 20:.0f}' height='{self.height + 16:.0f}'>"
        return "\n".join([head, tip, "<rect width='100%' height='100%' fill='white'/>", *self.parts, "</svg>"]) + "\n"

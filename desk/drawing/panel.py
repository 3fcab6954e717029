"""The right part of a picture: every driver with its load and its margin, the fullest first."""
from .stages import fullest_first
from .svg import FAINT, INK, OVER, PALE, counted, element, signed, text, width
from .tree import TOP

FEWEST, MOST = 40, 100    # drivers listed: as many as are as high as the tree, within these bounds
LINE = 16
BAR = 130
SIZE = 10


class Panel:
    def __init__(self, net, stages, drivers, tree):
        self.net, self.stages, self.drivers = net, stages, fullest_first(drivers)
        self.x, self.y = tree.right + 44, TOP + 8
        listed = max(FEWEST, min(MOST, int((tree.bottom - self.y) / LINE)))
        self.listed, self.left = self.drivers[:listed], self.drivers[listed:]
        self.set_columns()
        self.bottom = self.y + LINE * (len(self.listed) + bool(self.left))

    def set_columns(self):
        """Where each column begins, or where it ends if its numbers end there."""
        def widest(words):
            return max(width(word, SIZE) for word in words)
        self.where = self.x + max(14, widest(self.mark(driver) for driver in self.listed)) + 8
        self.bar = self.where + widest(self.place(driver) for driver in self.listed) * 0.9 + 12
        self.drives = self.bar + BAR + 12 + widest(["drives"] + [f"{driver.load:,}" for driver in self.listed])
        self.right = self.drives + 14 + widest(["margin"] + [signed(driver.margin) for driver in self.listed])

    def mark(self, driver):
        return str(driver.number) if driver.wire else "S"

    def place(self, driver):
        return f"wire {driver.wire} offset {driver.offset:,}" if driver.wire else "source"

    def svg(self):
        rows = [self.row(driver, self.y + LINE * index) for index, driver in enumerate(self.listed)]
        return element("g", self.heading(), *rows, self.rest(), class_="drivers", fill=INK)

    def heading(self):
        y, over = self.y - 20, sum(driver.margin < 0 for driver in self.drivers)
        title = f"{counted(len(self.drivers), 'driver')}, the fullest first"
        red = element("tspan", f"{over:,} overloaded", dx=8, fill=OVER) if over else ""
        return (element("text", title, red, x=float(self.x), y=y - 14.0, font_size=12, font_weight="bold")
                + text(self.bar, y, f"load of C_U {self.net.limit:,}", 9, fill=PALE)
                + text(self.drives, y, "drives", 9, fill=PALE, text_anchor="end")
                + text(self.right, y, "margin", 9, fill=PALE, text_anchor="end"))

    def row(self, driver, y):
        colour, base, over = self.stages.paint(driver), y + 3.5, driver.margin < 0
        full = BAR * min(1.0, driver.load / self.net.limit)
        return element("g",
                       text(self.where - 8, base, self.mark(driver), SIZE, text_anchor="end", font_weight="bold", fill=colour),
                       text(self.where, base, self.place(driver), SIZE),
                       element("rect", x=self.bar, y=y - 4.0, width=BAR, height=8, rx=2, fill=FAINT),
                       element("rect", x=self.bar, y=y - 4.0, width=full, height=8, rx=2, fill=colour),
                       text(self.drives, base, f"{driver.load:,}", SIZE, text_anchor="end", class_="load"),
                       text(self.right, base, signed(driver.margin), SIZE, text_anchor="end", class_="margin", font_weight="bold"),
                       class_="driver overloaded" if over else "driver", fill=OVER if over else None)

    def rest(self):
        """How many drivers are not listed, and what can be said of all of them."""
        if not self.left:
            return ""
        over = sum(driver.margin < 0 for driver in self.left)
        words = f"and {counted(len(self.left), 'more driver')}, "
        words += f"{over:,} of them overloaded" if over else f"with a margin of {self.left[0].margin:,} or more"
        return text(self.where, self.bottom - 2, words, SIZE, class_="rest", fill=OVER if over else PALE)

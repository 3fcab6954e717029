"""The parts of desk/picture: where all stands (layout), stages and colours (stages), the tree, the list of drivers (panel), SVG (svg)."""

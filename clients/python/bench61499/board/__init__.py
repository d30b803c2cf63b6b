"""The board: a page in a browser that shows a plant live."""

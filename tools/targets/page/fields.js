"use strict";

// A box with a border about it, which nothing enters, as ../../user/fields.py has it.

const CLOSED = 255;

/** A box and its border, cell by cell: that saves asking where the box ends. `costs` is what light loses on entering each
 * cell (Minecraft Wiki, "Light"): one, or the opacity where that is more. */
class Field {
  constructor(box, rows) {
    const [wide, , deep] = box.size;
    this.box = box;
    this.row = wide + 2;
    this.layer = (wide + 2) * (deep + 2);
    this.steps = [-1, 1, -this.row, this.row, -this.layer, this.layer];
    this.classes = box.palette.map((state) => rowOf(rows, state));
    this.costs = this.told((row) => Math.max(1, row.opacity), CLOSED);
  }

  /** A number for each cell: what is told of its row; the other where it has none, and in the border. */
  told(value, other) {
    const { box, classes } = this, found = new Uint8Array(this.layer * (box.size[1] + 2)).fill(other);
    const values = classes.map((row) => (row === null ? other : value(row)));
    box.cells.forEach((state, cell) => {
      if (state !== NO_ENTRY) found[this.place(cell)] = values[state];
    });
    return found;
  }

  /** Where a cell of the box stands in the field. */
  place(number) {
    const [x, y, z] = this.box.position(number);
    return this.layer * (y + 1) + this.row * (z + 1) + x + 1;
  }
}

"""The planner's refusals in words: what each number says, and what to do."""

MEANING = {
    1: "the sheet is too long: more than 4,096 bytes",
    2: "a line of the sheet is misspelt, missing or one too many",
    3: "a number of the sheet is out of its range",
    4: "a start has no reading, and no passage is planned from a missing reading",
    5: "the buffer for the rows is too short",
    6: "before the step, a quantity with its radius has gone beyond 32 wholes",
    7: "the step is too long for how fast the quantities may change",
    8: "after the step, a radius would pass the tolerance",
}
ADVICE = {
    1: "See whether it is the right file.",
    2: "Compare the sheet with docs/SHEET.md from the top; see that n and terms agree with the lines that follow.",
    3: "Compare the numbers with their ranges in docs/SHEET.md from the top; choose a larger or a smaller unit if it is the "
    "quantity itself.",
    4: "Take a reading, and write it with how good it is.",
    5: "Lend more places: 7,920 suffice for every sheet.",
    6: "Write the quantity in a larger unit, in a description by a larger 'whole', or take fewer steps. If it is the radius that "
    "has grown, see what helps against 8.",
    7: "Take shorter steps, and more of them for the same time. It can help to write the quantities in units, in a description by "
    "wholes, in which they are of like size.",
    8: "Allow a larger tolerance only if the ship can bear it. Else a smaller tail, a start known better, fewer steps, or other "
    "quantities for the same water: sheets/README.md, 'Writing a sheet whose radii stay small'.",
}


def kept(rows):
    """What is left of a refused passage."""
    if rows == 0:
        return "There are no rows."
    return "The row before it holds." if rows == 1 else f"The {rows} rows before it hold."

"""The board as it will be made: what unplated holes and the board's edge take away from its copper, what that parts,
and necks."""

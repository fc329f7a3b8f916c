"""Which turns the rules of the player have, and where they are put in."""

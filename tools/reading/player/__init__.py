"""A reading of the rules of the player, made from docs/SCRIPTS.md and docs/PLAYER.md alone."""

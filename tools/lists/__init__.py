"""What the tests go by: rows, pairs, texts, scripts and stored answers, and how these are read."""

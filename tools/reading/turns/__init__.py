"""How the rules of tools/reading can be misread: which turns each row has (station, links, near, queues), what the words of a turn make of a row
(grammar), and what each module of the reading is where its rules are turned (the files `.turns`, which weaving puts in)."""

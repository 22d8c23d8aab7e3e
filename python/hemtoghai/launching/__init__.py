"""What ./show does beside the program: which program runs, its words and help, records, versions."""

/*
 * The lines of scripts: the word a line begins with, the function that plays what follows it, and whether the line concerns the
 * memory, of which a sum is printed at the end then.
 */
LINE("B", give, 1)
LINE("K", give_block, 1)
LINE("T", tick, 1)
LINE("P", poke, 1)
LINE("M", show, 1)
LINE("C", collect, 1)
LINE("Y", report, 1)
LINE("G", register, 1)
LINE("F", prepare, 1)
LINE("S", start, 1)
LINE("U", give_frame, 1)
LINE("W", write_command, 0)
LINE("V", write_answer, 0)
LINE("E", begin, 0)
LINE("R", read, 0)

#undef LINE

"""A reference of the program p9, written in another language, from the manual and from a description of what p9 reads
and prints, by somebody who had not read the code of p9.

`program.run` gives the output, the errors and the status that the program must have for a command and an
input. `bundles.bundle` makes random inputs. scripts/compare plays them to both.
"""

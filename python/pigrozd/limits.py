"""The limits that document 01 sets, and requests U7 and U9."""

MOST_TABLES = 16
MOST_ATTRIBUTES = 8  # of one table
ATTRIBUTE_NUMBERS = 32  # attributes are numbered from 0 to 31
MOST_ROWS = 4096  # of one table
MOST_COPIES = 65535  # of one row; it has at least 1
MOST_PLAN_BYTES = 255
MOST_OUTPUT = 1048576  # words of output that the library uses at most
MOST_CHOICES = 1048576  # choices of a row of each table and a copy of it that the slow engine goes through at most
HIGHEST_COUNT = 18446744073709551615  # results are counted up to this number, which stands for that many or more
VALUE_BYTES = 4  # of one value
ROW_WORDS = 10  # words of scratch that each row needs
PROGRAM_BYTES = 65536  # the longest file that the program target/bin/pigrozd takes
PROGRAM_WORDS = 16384  # what that program lends, of scratch and of output

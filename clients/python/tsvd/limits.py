"""The limits of lines, values and instants."""

LONGEST_LINE = 8192
LONGEST_TEXT = 1000
LONGEST_KEY_TEXT = 200
MOST_WRITTEN = 1000
MOST_SESSIONS = 64
LEAST_INTEGER = -(2 ** 63)
GREATEST_INTEGER = 2 ** 63 - 1
GREATEST_INSTANT = 999_999_999_999_999_999

# Instants before this one, in 1973, are shown as numbers: the instant 1 of a load, for example.
LEAST_DATE = 10 ** 14

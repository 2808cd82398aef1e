# Makes JSON of lines that `vtools varnishncsa -F "$(cat examples/json.format)"` prints, or that another format does whose
# keys end in a small letter, and whose texts stand in quotes.
#
# In a text vtools escapes a byte that isn't printable as \x and two digits. JSON has no such escape, but \u00 and two
# digits: so bytes above 127 become the characters of Latin-1, also those of UTF-8. A value that is missing is `-`, and
# becomes null.

# pairs of backslashes are put away, so that a backslash that is left begins an escape
s/\\\\/\n/g
s/\\x/\\u00/g
s/\([a-z]\)":-\([,}]\)/\1":null\2/g
s/\([a-z]\)":"-"\([,}]\)/\1":null\2/g
s/\n/\\\\/g

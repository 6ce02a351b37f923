# Makes of a list as people keep it one network a line, as `ipnet` reads it: sed -f examples/one-a-line.sed list.txt
# a byte order mark, carriage returns, comments, blanks around
1s/^\xEF\xBB\xBF//
s/\r$//
s/#.*//
s/^[[:blank:]]*//
s/[[:blank:]]*$//
# what is empty, or has a prefix length, stays; an address is the network of its full length
/^$/b
/\//b
/:/!s/$/\/32/
/:/s/$/\/128/

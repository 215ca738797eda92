# Nothing but blanks between two commas, for more bytes than a piece has.
printf '|v: vec[i64]| len(v)\n%%%%\n%%value\n'
awk 'BEGIN { printf "[1,2,3,%300000s,4,5]\n", "" }'

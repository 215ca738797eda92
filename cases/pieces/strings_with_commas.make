# 40,000 strings, many of them with what looks like the end of a string or of a list and a comma behind it, and some lists.
printf '|w: vec[vec[i8]]| w\n%%%%\n%%value\n'
awk 'BEGIN {
  for (i = 0; i < 40000; i++) {
    printf "%s", i == 0 ? "[" : ","
    if (i % 11 == 3) printf "[97,98,%d]", 48 + i % 10
    else if (i % 3 == 0) printf "\"a\\\",b],c%d\"", i
    else printf "\"word%d\"", i
  }
  print "]"
}'

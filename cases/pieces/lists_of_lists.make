# 60,000 lists of 0 to 6 numbers with blanks before some commas, read in pieces behind brackets.
printf '|m: vec[vec[i64]]| m\n%%%%\n%%value\n'
awk 'BEGIN {
  for (i = 0; i < 60000; i++) {
    printf "%s[", i == 0 ? "[" : (i % 9 == 4 ? " ," : ",")
    for (j = 0; j < i % 7; j++) printf "%s%d", j == 0 ? "" : ",", i * 37 - j
    printf "]"
  }
  print "]"
}'

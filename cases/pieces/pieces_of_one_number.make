# Nine numbers with 40,000 blanks before and behind each, so that a piece has one or none of its own.
printf '|v: vec[i16]| v\n%%%%\n%%value\n'
awk 'BEGIN { for (i = 1; i <= 9; i++) printf "%s%40000s%d%40000s", i == 1 ? "[" : ",", "", i * i * i - 365, ""; print "]" }'

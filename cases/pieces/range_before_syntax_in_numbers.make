# A number out of range stands at the front, and what is no number at the end: the form of the whole is told first.
printf '|v: vec[u16]| len(v)\n%%%%\n%%value\n'
awk 'BEGIN { for (i = 0; i < 60000; i++) printf "%s%s", i == 0 ? "[" : ",", i == 1 ? "65536" : i == 59999 ? "1x" : i; print "]" }'

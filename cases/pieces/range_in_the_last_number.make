printf '|v: vec[u16]| len(v)\n%%%%\n%%value\n'
awk 'BEGIN { for (i = 0; i < 60000; i++) printf "%s%s", i == 0 ? "[" : ",", i == 59999 ? "65536" : i; print "]" }'

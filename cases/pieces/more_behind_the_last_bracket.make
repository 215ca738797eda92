printf '|m: vec[vec[i64]]| len(m)\n%%%%\n%%value\n'
awk 'BEGIN { for (i = 0; i < 60000; i++) printf "%s[1,%d]", i == 0 ? "[" : ",", i; print ",[2] ] 5" }'

printf '|m: vec[vec[u8]]| len(m)\n%%%%\n%%value\n'
awk 'BEGIN { for (i = 0; i < 60000; i++) printf "%s[1,%s]", i == 0 ? "[" : ",", i == 10 ? "300" : (i == 50000 ? "x" : i % 256); print "]" }'

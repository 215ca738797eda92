printf '|v: vec[i64]| len(v)\n%%%%\n%%value\n'
awk 'BEGIN { for (i = 0; i < 60000; i++) printf "%s%d", i == 0 ? "[" : ",", i; print ", ]" }'

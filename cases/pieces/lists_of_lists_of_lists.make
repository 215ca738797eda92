# A list of deeper lists, in which a comma behind a bracket stands within a value: one reader takes it.
printf '|m: vec[vec[vec[i64]]]| result(for(m, merger[i64,+], |b,i,x| merge(b, len(x))))\n%%%%\n%%value\n'
awk 'BEGIN { for (i = 0; i < 40000; i++) printf "%s[[%d],[],[%d,2]]", i == 0 ? "[" : ",", i, i; print "]" }'

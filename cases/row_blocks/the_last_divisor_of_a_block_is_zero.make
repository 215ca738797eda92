# 1,100 divisors, of which the 1,024th, in the last row of the first block, is 0.
divisors=$({ seq 1023; echo 0; seq 76; } | paste -sd ,)
printf '|v: vec[i64]| result(for(v, merger[i64,+], |b,i,x| merge(b, 1000L %% x)))\n%%%%\n%%value\n[%s]\n' "$divisors"

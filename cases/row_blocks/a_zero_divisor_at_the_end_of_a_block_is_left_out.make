# 1,100 divisors, of which the 1,024th, in the last row of the first block, is 0 and left out.
divisors=$({ seq 1023; echo 0; seq 76; } | paste -sd ,)
printf '|v: vec[i64]| result(for(v, merger[i64,+], |b,i,x| if(x != 0L, merge(b, 1000L / x + 1000L %% x), b)))\n%%%%\n%%value\n[%s]\n' "$divisors"

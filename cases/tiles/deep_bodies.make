# A body of 1,000 lets, one in another, and one of 90 ifs, on several threads.
printf '|v: vec[i64]| {result(for(v, merger[i64,+], |b,i,x| '
for n in $(seq 1000); do printf 'let y%d = %s + 1L; ' "$n" "$([ "$n" = 1 ] && echo x || echo "y$((n - 1))")"; done
printf 'merge(b, y1000))), result(for(v, merger[i64,+], |b,i,x| '
for n in $(seq 90); do printf 'if(x < %dL, merge(b, %dL), ' "$n" "$n"; done
printf 'b'
for n in $(seq 90); do printf ')'; done
printf '))}\n%%%%\n%%value\n[5,3,8,1,9,2,7,4,6,0,12,11,10]\n'

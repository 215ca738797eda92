printf '|v: vec[i64]| result(for(v, merger[i64,+], |b0,i,x|'
for n in {1..400}; do printf ' let b%d = merge(b%d, x + %dL);' "$n" "$((n - 1))" "$n"; done
printf ' b400))\n%%%%\n%%value\n[1,2,3]\n'

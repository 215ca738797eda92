printf '|v: vec[i64]|'
for n in {1..300}; do printf ' let s%d = result(for(v, merger[i64,+], |b,i,x| merge(b, x + %dL)));' "$n" "$n"; done
printf ' s1 + s300\n%%%%\n%%value\n[1,2,3]\n'

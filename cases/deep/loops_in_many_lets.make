printf '|v0: vec[i64]|'
for n in {1..300}; do printf ' let v%d = result(for(v%d, vecbuilder[i64], |b,i,x| merge(b, x + 1L)));' "$n" "$((n - 1))"; done
printf ' v300\n%%%%\n%%value\n[1,2,3]\n'

printf '|v: vec[i64]| result(for(v, vecbuilder[i64], |b,i,x| let a0 = x;'
for n in {1..1000}; do printf ' let a%d = a%d + x;' "$n" "$((n - 1))"; done
printf ' merge(b, a1000)))\n%%%%\n%%value\n[1,2,3]\n'

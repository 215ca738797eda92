printf '|v: vec[i64]| result(for(v, vecbuilder[i64], |b,i,x| merge(b, iterate({x, 0L}, |s|'
for n in {1..60}; do
  printf ' let a%d = if(' "$n"
  for k in {1..15}; do printf 's.$1 < %dL && ' "$((100 + k))"; done
  printf 's.$0 != %dL, s.$0, s.$1);' "$n"
done
printf ' {{s.$0 + 1L, s.$1 + '
for n in {1..60}; do printf 'a%d * 0L + ' "$n"; done
printf '1L}, s.$1 < 40L}).$0)))\n%%%%\n%%value\n[1,2,3]\n'

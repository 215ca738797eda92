printf '|v: vec[i64]| result(for(v, vecbuilder[i64], |b,i,x| merge(b, iterate({x, 0L}, |s| {{(s.$0'
for n in {1..80}; do printf ' + s.$0'; done
printf ') %% 1009L, s.$1 + 1L}, s.$1 < 40L}).$0)))\n%%%%\n%%value\n[1,2,3]\n'

# A struct of long lists of each kind, of a short one and of a string, made from 70,000 numbers.
cat << 'W'
|v: vec[i64]| {result(for(v, vecbuilder[i64], |b,i,x| merge(b, x * x * x - 5L))),
  result(for(v, vecbuilder[i32], |b,i,x| merge(b, i32(35000L - x)))),
  result(for(v, vecbuilder[u8], |b,i,x| merge(b, u8(x)))),
  result(for(v, vecbuilder[bool], |b,i,x| merge(b, x % 3L == 0L))),
  result(for(v, vecbuilder[i64], |b,i,x| if(x < 4L, merge(b, x), b))),
  result(for(v, vecbuilder[i8], |b,i,x| merge(b, i8(x % 26L + 97L)))), len(v)}
%%
%value
W
awk 'BEGIN { for (i = 0; i < 70000; i++) printf "%s%d", i == 0 ? "[" : ",", i; print "]" }'
